"""What `.help` of lore-talk says: each statement with its form and an example, and each command."""
from lore_lib.refusals import BY_NAME, BY_NUMBER

STATEMENTS = {
    "load": ("load NAME := LITERAL", "makes objects and binds a name to the first",
             'load Guide := { restaurant { name "Saigon", price 9 } };'),
    "select": ("select ITEM, .. from RANGE, .. where CONDITION", "finds objects",
               'select R.name, R.price from Guide.restaurant R where R.price < 10;'),
    "guide": ("guide", "each set of objects that label paths lead to: the least of these paths, and how many objects there are",
              "guide;"),
    "browse": ("browse PATH", "the labels behind a label path", "browse Guide.restaurant;"),
    "sample": ("sample PATH NUMBER", "the first objects behind a label path", "sample Guide.restaurant.name 5;"),
    "set": ("set nodes NUMBER, set plan auto|top|bottom|guide", "limits the guide, or says how rows are found",
            "set plan auto;"),
    "name": ("name NAME := PATH", "binds a name to the one object that the path reaches", "name Best := Guide.best;"),
    "unname": ("unname NAME", "takes a name away; what no name leads to any more vanishes", "unname Best;"),
    "update": ("update PATH := VALUE, update PATH.LABEL += LITERAL or PATH, update PATH.LABEL -= PATH, with from and where",
               "gives values, adds members, takes edges away",
               'update R.price := 8 from Guide.restaurant R where R.name = "Saigon";'),
    "explain": ("explain select ..", "how the rows of a select are found", "explain select Guide.restaurant;"),
    "dump": ("dump", "the whole database as text", "dump;"),
    "restore": ("restore DUMPTEXT", "makes the database of a dump, in a new one alone",
                "restore oem 2 next 1 nodes 4096 plan auto end;"),
    "generate": ("generate SEED PERSONS", "makes a large database to try things on", "generate 7 1000;"),
    "history": ("history on, history off", "keeps the database as it was after each change, from moment 0 on, or forgets it",
                "history on;"),
    "at": ("at NUMBER select ..", "a select over the database as it was at a moment", "at 0 select Guide.restaurant.name;"),
    "blocks": ("blocks, blocks select ..", "objects that no path tells apart, or a select by these", "blocks;"),
    "changes": ("changes NUMBER NUMBER", "what differs between two moments", "changes 0 1;"),
    "watch": ("watch VIEW := select ..", "keeps a select with its rows", "watch Names := select Guide.restaurant.name;"),
    "unwatch": ("unwatch VIEW", "forgets a kept select", "unwatch Names;"),
    "show": ("show VIEW", "what a kept select answers now", "show Names;"),
}
COMMANDS = {
    ".help": (".help [STATEMENT|.COMMAND|NUMBER]", "this, a statement, a command, or a refusal by its number"),
    ".open": (".open FILE", "opens a database that was saved; `.open!` also where changes weren't saved, which are lost then"),
    ".save": (".save [FILE]", "saves the database, to the file that was opened or saved last where none is named; a file that "
              "another session changed stays as it is, save with `.save!`"),
    ".read": (".read FILE", "does the statements and commands of a script"),
    ".json": (".json FILE NAME [OPTION ..]", "loads a file of JSON under a name; options are those of bin/json-lore"),
    ".csv": (".csv FILE NAME [OPTION ..]", "loads a table under a name; options are those of bin/csv-lore"),
    ".show": (".show PATH", "the objects that a path reaches, whole, as literals; `from` and `where` may follow"),
    ".values": (".values PATH", "each value that a path reaches, with the number of objects that have it"),
    ".at": (".at MOMENT PATH", "what a path reached at a moment of the history; `from` and `where` may follow"),
    ".changes": (".changes [MOMENT]", "what differs between a moment and the present; where none is named, what the last change changed"),
    ".mode": (".mode lines|table|json|csv", "how rows are printed"),
    ".timer": (".timer on|off", "tells of each statement how long it took"),
    ".stop": (".stop on|off", "ends a script at the first refusal or fault"),
    ".quit": (".quit", "ends; `.quit!` also where changes weren't saved"),
}


def overview():
    """All statements and commands."""
    lines = ["Statements end with `;` and may go over several lines; `--` begins a comment.", ""]
    lines += [f"  {name:10}{text[1]}" for name, text in STATEMENTS.items()]
    lines += ["", "Commands stand on a line of their own, without `;`.", ""]
    lines += [f"  {text[0]}\n      {text[1]}" for text in COMMANDS.values()]
    return lines


def help_on(word):
    """The lines on a statement, a command or a refusal, None where there is none such."""
    if not word:
        return overview()
    if word in STATEMENTS:
        form, text, example = STATEMENTS[word]
        return [f"{form};", f"    {text}", f"    {example}"]
    command = COMMANDS.get(word) or COMMANDS.get("." + word.lstrip("."))
    if command:
        return [command[0], "    " + command[1]]
    refusal = BY_NUMBER.get(int(word)) if word.isdecimal() and len(word) < 4 else BY_NAME.get(word.lower())
    if refusal:
        return [f"refused {refusal.number} {refusal.name}: {refusal.when}", f"    mostly because: {refusal.because}"]
    return None
