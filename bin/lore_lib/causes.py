"""What is mostly behind a fault of a statement's text: by the sign or word at fault and by what could stand there.

Where no token starts, `of_character` tells; where a token can't stand, the first row of RULES that holds, and where the
statement ends too early, the first of ENDS. A row is a condition and a cause, which is a text or what makes one. Rows stand in
groups, and in each the special ones stand first. Where none holds nothing is known, and nothing is told.
"""
import difflib
import re
import unicodedata

from lore_lib.earley import END
from lore_lib.grammar import KINDS, NAME
from lore_lib.lexer import Token
from lore_lib.limits import RESERVED
from lore_lib.places import hidden

ESCAPES = {'"': r'\" \\ \n \r \t', "'": r"\' \\ \n \r \t"}
SIGNS = {
    "[": "there are no arrays: each element stands under its label, `{ tag \"a\", tag \"b\" }`, "
         "and no places: `X.item` is all of them",
    "]": "there are no arrays: each element stands under its label, `{ tag \"a\", tag \"b\" }`",
    "/": "a comment begins with `--`, and there is no division",
    "->": "labels are parted by points, `G.p.name`",
    "\\": "a command such as `.help` begins with a point, in lore-talk, and an escape stands within quotes alone",
    "!": "`not` says that a condition doesn't hold, `!=` that two values differ",
    "&": "conditions are joined by `and`; `&` and digits, as `&7`, are a local",
    "`": "a text stands in double quotes, a label in single ones",
    "$": "a path begins with a name, `Guide.restaurant`; a label with other signs stands in single quotes",
    "~": "a comparison of texts by a pattern is `like`, with `%` and `_`",
    "-": "a label with other signs than letters, digits and _ stands in single quotes, `'first-name'`; there is no arithmetic",
    "'": "a quoted label has one character at least",
    ";": "a statement ends with `;`",
}
LOOKS_LIKE = {
    "\u201c\u201d\u201e\u201f\u00ab\u00bb\u2033\uff02":
        "a text stands between straight quotes, \"..\"; this one is from a word processor",
    "\u2018\u2019\u201a\u201b\u2032\uff07\u00b4":
        "a label stands between straight quotes, '..'; this one is from a word processor",
    "\uff1b\u037e": "a statement ends with the plain `;`",
    "\u2013\u2014\u2212\u2010\u2011": "the minus and the two signs of a comment are the plain `-`",
    "\uff0c\u3001": "members are parted by the plain `,`",
    "\u2264": "less or equal is `<=`",
    "\u2265": "greater or equal is `>=`",
    "\u2260": "unequal is `!=`",
    "\ufeff": "a mark that editors write at the head of a file: save it as UTF-8 without it",
}
UPDATES = "`update PATH := VALUE`, `update PATH.LABEL += ..` or `update PATH.LABEL -= PATH`"
NO_TOKEN = Token("none", b"", -1, -1)
# Words of other languages, where a statement or a part of one may begin.
OTHERS = {
    "insert": "`load` makes what is new, and `update PATH.LABEL += ..` adds to what is there",
    "create": "there are no tables: `load NAME := {}` is an empty object",
    "delete": "`update PATH.LABEL -= PATH` takes edges away, and what no name leads to any more vanishes",
    "drop": "`unname NAME` takes a name away, and what no name leads to any more vanishes",
    "remove": "`update PATH.LABEL -= PATH` takes edges away",
    "show": "`guide` tells what is there, and `.show PATH` of lore-talk prints records",
    "rename": "the recipe `Rename a label` of docs/LANGUAGE.md has it: `update A.new += X from A.old X` and "
              "`update A.old -= X from A.old X`",
    "oem": "a dump is opened by `.open FILE` of lore-talk, or taken in by `restore .. ;` around it",
    "describe": "`guide` or `browse PATH` tells what is there",
    "help": "`.help` is a command of lore-talk",
    "quit": "`.quit` is a command of lore-talk; a script ends with its last line",
    "exit": "`.quit` is a command of lore-talk; a script ends with its last line",
    "begin": "each statement is done as a whole or not at all; there are no transactions of several",
    "commit": "each statement is done as a whole or not at all; `.save FILE` of lore-talk keeps what is there",
    "order": "rows come in the order of their cells; there is no other one",
    "group": "there are no groups: `.values PATH` of lore-talk counts each value",
    "limit": "there is no limit of rows: `sample PATH N` prints the first objects of a label path",
    "count": "there is no count: the last line, `rows N`, has the number",
    "distinct": "each row is printed once already",
    "as": "columns have no names; a variable stands in `from`, behind its path",
    "join": "two ranges in `from` and a condition that ties them are a join",
    "is": "`exists X in PATH : X == X` holds where something is there, `not exists ..` where nothing is",
    "null": "there are no nulls: leave the member out; `not exists X in PATH : X == X` asks for what lacks it",
    "between": "`X.price >= 1 and X.price <= 2` says between",
    "in": "one of several values is `X.a = 1 or X.a = 2`",
}
FIRST = {
    b"#": "a comment begins with `--`",
    b"?": "`.help` is a command of lore-talk",
    b"{": "`load NAME := { .. };` makes objects; bin/json-lore makes one of JSON",
    b"(": "a statement begins with a word",
}


def called(character):
    """A character as it is called, with its number in Unicode."""
    number = f"U+{ord(character):04X}"
    controls = {"\0": "NUL", "\f": "FORM FEED", "\v": "LINE TABULATION", "\x1b": "ESCAPE"}
    name = unicodedata.name(character, controls.get(character, ""))
    return f"{number} {name}".strip() if hidden(character) else f"{character} ({number})"


def of_character(data, start):
    """What is mostly behind a character where no token starts."""
    rest, before = data[start:].decode("utf-8"), data[:start].decode("utf-8")
    character = rest[0]
    for characters, cause in LOOKS_LIKE.items():
        if character in characters:
            return cause
    if hidden(character):
        return "a character that can't be seen, from an editor or another page: a plain space stands for it"
    if character.isalpha():
        return ("letters of names and bare labels are A to Z and a to z; a label with others stands in single quotes, "
                "a text in double ones")
    if rest.startswith("->") or re.fullmatch(r"/\w", rest[:2]) and re.search(r"\w\Z", before):
        return SIGNS["->"]
    if re.match(r"-[ \t]+[0-9]", rest):
        return "no blank stands between a minus and its digits; there is no arithmetic"
    return SIGNS.get(character, "a sign that the language lacks; a text stands in double quotes, a label with other signs in "
                     "single ones")


def word_of(token):
    """A token's identifier, an empty text where it is none."""
    return token.text.decode() if token.kind == "identifier" else ""


class Place:
    """Where a statement can't go on: the token there, those around it, and what could stand there. `first` is the word that
    the statement begins with, where the place isn't that."""

    def __init__(self, tokens, index, could):
        self.tokens, self.index, self.could = tokens, index, could
        self.token, self.next = self.at(0), self.at(1)
        self.last, self.before, self.third = self.at(-1), self.at(-2), self.at(-3)
        self.first = tokens[0].text if index else b""
        self.word, self.last_word = word_of(self.token), word_of(self.last)

    def at(self, distance):
        """The token that stands so far behind this one."""
        index = self.index + distance
        return self.tokens[index] if 0 <= index < len(self.tokens) else NO_TOKEN

    def due(self, *words):
        """Whether all these words or kinds could stand here."""
        return all((word if word in KINDS else f'"{word}"') in self.could for word in words)

    def run(self):
        """The number before this place with all that stands right behind it, as a date or a time."""
        first = end = self.index
        while first and self.joined(first) and (self.tokens[first - 1].kind == "number" or self.tokens[first - 1].text == b":"):
            first -= 1
        while end + 1 < len(self.tokens) and self.joined(end + 1) and (
                self.tokens[end + 1].kind in ("number", "identifier", "pattern") or self.tokens[end + 1].text in (b":", b".")):
            end += 1
        return b"".join(token.text for token in self.tokens[first:end + 1]).decode()

    def joined(self, index):
        """Whether a token stands right behind the one before it."""
        return self.tokens[index - 1].end == self.tokens[index].start

    def between(self, kind):
        """Whether the token stands between two of this kind, without blanks."""
        return self.last.kind == self.next.kind == kind and self.joined(self.index) and self.joined(self.index + 1)


def spelling(at):
    """Where a word of the language is meant that is spelled otherwise."""
    spelled = [name[1:-1] for name in at.could if name.startswith('"') and name[1:-1].isalpha()]
    if at.word.lower() in spelled:
        return f"words are written in small letters: `{at.word.lower()}`"
    near = difflib.get_close_matches(at.word.lower(), spelled, 1, 0.75)
    return f"`{near[0]}` is spelled so" if near else None


def as_text(at):
    """A word that is meant as a text."""
    return f'a text stands in double quotes: "{at.token.text.decode()}"'


def spaced(at):
    """A label with a blank in it."""
    return f"a label with a blank stands in single quotes, `'{at.last_word} {at.word}'`"


def no_number(at):
    """A date, a time, or something else that begins as a number does."""
    return f'a number has digits alone; as a text, "{at.run()}", it can be kept'


def separated(at):
    """A number in groups of digits."""
    if at.token.text == b",":
        return at.between("number")
    return (at.last.text == b"," and at.before.kind == at.token.kind == "number" and at.joined(at.index)
            and at.joined(at.index - 1))


STATEMENTS = ("load", "select", "update", "unname", "explain", "guide", "dump", "browse", "sample", "restore", "generate", "set",
              "name", "history", "at", "changes", "blocks", "watch", "unwatch", "show")
SIGN = (b"=", b"!=", b"<", b"<=", b">", b">=", b"like")
REPEATING = (b"?", b"*", b"+")
VALUED = ("text", "number")

BEGINNING = (
    (lambda at: at.index == 0 and at.word.lower() in OTHERS, lambda at: OTHERS[at.word.lower()]),
    (lambda at: at.index == 0 and at.word and at.next.text in (b":=", b"="),
     "`load NAME := LITERAL` makes objects and binds a name, `name NAME := PATH` binds one to what is there"),
    (lambda at: at.index == 0 and at.token.text == b".",
     "commands with a point are those of lore-talk, and stand on a line of their own"),
    (lambda at: at.index == 0 and at.token.text in FIRST, lambda at: FIRST[at.token.text]),
)
NUMBERS = (
    (separated, "a number has no separators: its digits stand alone"),
    (lambda at: at.last.kind == "number" and at.joined(at.index)
     and (at.token.kind in ("identifier", "pattern") or at.token.text[:1] == b"-"), no_number),
    (lambda at: at.token.text == b":" and at.between("number"), no_number),
    (lambda at: at.token.text in (b"+", b"*") and at.last.kind == "number", "there is no arithmetic"),
    (lambda at: at.token.text == b"." and at.due("text"), "a number begins with a digit, and there are whole numbers only"),
)
COMMAS = (
    (lambda at: at.last.text == b"," and at.word in ("from", "where"), lambda at: f"no comma stands before `{at.word}`"),
    (lambda at: at.token.text == b"," and word_of(at.next) in ("from", "where"),
     lambda at: f"no comma stands before `{word_of(at.next)}`"),
    (lambda at: at.token.text == b"}" and at.last.text == b",", "behind the last member stands no comma"),
    (lambda at: at.token.text == b"," and at.first == b"update" and at.due("from", "where"),
     "an update has one target: each other one is given its value by an update of its own"),
)
COMPARISONS = (
    (lambda at: at.token.kind == "pattern" and at.last.text in SIGN, as_text),
    (lambda at: at.last.text == b"==" and at.token.kind in VALUED,
     "`==` asks whether two paths lead to one object; values are compared by `=`"),
    (lambda at: at.last.text == b"<" and at.token.text == b">", "unequal is `!=`"),
    (lambda at: at.last.text in (b">", b"<") and at.token.text == b"=", "`<=` and `>=` have no blank in them"),
    (lambda at: at.token.text == b"==", "`==` stands between two paths alone; values are compared by `=`"),
    (lambda at: at.token.text == b"|", "conditions are joined by `or`"),
    (lambda at: at.word == "all" and at.due("for"), "it is `for all X in PATH : CONDITION`"),
)
UPDATING = (
    (lambda at: at.first == b"update" and at.token.text in (b"+=", b"-="),
     lambda at: f"`update PATH.LABEL {at.token.text.decode()} ..`: the last part before it is a plain label"),
    (lambda at: at.first == b"update" and at.last.text == b":=" and at.token.kind == "quoted label",
     "a text stands in double quotes; single quotes are for labels"),
    (lambda at: at.first == b"update" and at.last.text == b":=",
     "the value is a constant, a number, a text, a flag or {}: nothing is computed or copied; an edge to an object that is "
     "there is made by `+=`"),
    (lambda at: at.first == b"update" and at.last.text == b"{" and at.before.text == b":=",
     "`:=` gives {} alone; members go in by `+=`, each under its label: `update PATH.LABEL += ..`"),
    (lambda at: at.first == b"update" and at.last.text == b"-=", "what is taken away is told by a path"),
    (lambda at: at.first == b"update" and at.due(":=") and at.token.text not in (b"=", b":"), UPDATES),
    (lambda at: at.first == b"name" and at.last.text == b":=",
     "`name` binds to an object that is there, by a path; `load` makes one"),
    (lambda at: at.first == b"unname", "names alone are taken away so; `update PATH.LABEL -= PATH` takes edges"),
)
ORDER = (
    (lambda at: at.last_word.lower() in RESERVED and at.last_word != at.last_word.lower(),
     lambda at: f"words are written in small letters: `{at.last_word}` before it is read as a name"),
    (lambda at: at.index and at.word in STATEMENTS and END in at.could and (at.word != "name" or at.at(2).text == b":="),
     "the `;` of the statement before is missing"),
    (lambda at: at.token.text in (b"=", b":") and at.due(":="), "a name is bound, and a value given, by `:=`"),
    (lambda at: at.word and at.last_word == "for" and at.due("all"), "`for all X in PATH : CONDITION`"),
    (lambda at: at.first in (b"browse", b"sample") and at.word in ("from", "where"),
     lambda at: f"`{at.first.decode()}` takes a label path alone, and has no `{at.word}`: `select` has"),
    (lambda at: at.word.lower() in OTHERS and (NAME not in at.could or at.word.lower() in ("distinct", "count")),
     lambda at: OTHERS[at.word.lower()]),
    (lambda at: at.last_word.lower() == "as" and at.word, "a variable stands behind its path without `as`"),
    (lambda at: at.last_word.lower() == "distinct", OTHERS["distinct"]),
    (lambda at: at.last.text == b"(" and at.due(".") and at.before.kind == "identifier" and at.third.text != b"."
     and at.next.text != b"|",
     lambda at: OTHERS["count"] if word_of(at.before).lower() == "count" else "there are no functions but path-of"),
    (lambda at: at.token.text in SIGN and at.due("where"), "a comparison stands behind `where`"),
    (lambda at: NAME in at.could and (at.token.kind in ("number", "pattern") or at.token.text == b"path-of"),
     "a name begins with a letter or _, and has letters, digits and _ alone"),
    (lambda at: at.word == "from" and at.last_word == "select",
     "what is selected stands before `from`: `select X.name from ..`"),
    (lambda at: at.word in RESERVED and NAME in at.could,
     lambda at: f"`{at.word}` is a reserved word, and no name or variable is called so"),
    (lambda at: at.last.text == b"," and at.token.kind == "symbol" and not at.due("local"), "nothing follows the comma"),
)
LITERALS = (
    (lambda at: at.token.kind == "text" and at.due("quoted label"),
     "a label stands bare, or in single quotes where it has other signs: `{ name \"Kim\" }`"),
    (lambda at: at.token.text == b":" and at.due("text"),
     "no colon stands between a label and its value: `{ name \"Kim\" }`"),
    (lambda at: at.token.text in (b"=", b":=") and at.due("text"),
     "nothing stands between a label and its value: `{ name \"Kim\" }`"),
    (lambda at: at.token.text in (b",", b"}") and at.due("text", "local") and at.last.kind in ("identifier", "quoted label"),
     "a member is a label and its value: `{ name \"Kim\" }`"),
    (lambda at: at.word and at.due("text", "local") and at.last_word and (at.next.kind in VALUED or at.next.text == b"{"),
     spaced),
    (lambda at: at.word and at.due("text", "local"), lambda at: OTHERS.get(at.word.lower()) or as_text(at)),
    (lambda at: at.due(",", "}") and at.token.kind in ("identifier", "quoted label"), "members are parted by commas"),
    (lambda at: at.token.text == b"(" and at.due("local"), "members stand in braces: `{ name \"Kim\" }`"),
)
QUOTES = (
    (lambda at: at.token.kind == "quoted label" and at.due("text"),
     "a text stands in double quotes; single quotes are for labels"),
    (lambda at: at.token.kind == "text" and (NAME in at.could or at.due(".")),
     "a text stands where a path or a sign is due; names have no quotes"),
    (lambda at: at.token.kind == "quoted label" and NAME in at.could, "names and variables have no quotes"),
)
PATHS = (
    (lambda at: at.last.text == b"." and at.token.text == b"(",
     "a group stands behind a path without a point, and has points in it: `G.p(.name|.age)`"),
    (lambda at: at.last.text in (b"(", b"|") and at.due(".") and at.token.kind in ("identifier", "quoted label", "pattern"),
     "within a group each label stands behind a point: `(.name|.age)`"),
    (lambda at: at.last.text == at.token.text == b".", "`.#.` is any way between; two points are none"),
    (lambda at: at.last.text == b"." and at.token.text in REPEATING,
     "`.%` is each label and `.#` any way; `*`, `+` and `?` stand behind a label"),
    (lambda at: at.token.text == b"*" and NAME in at.could, "a path begins with a name: `select Guide.%` is all members"),
    (lambda at: at.token.text == b"." and at.index == 1 and NAME in at.could, "a path begins with a name, `Guide.restaurant`"),
    (lambda at: at.first in (b"browse", b"sample") and (at.token.kind == "pattern" or at.token.text in (b"#", b"(", *REPEATING)),
     "a label path is a name and plain labels alone; patterns and groups are for `select`"),
    (lambda at: at.first == b"load" and at.index == 2 and at.token.text == b".",
     "a load binds a name alone: `update PATH.LABEL += ..` adds to what is there"),
    (lambda at: at.token.text == b"(" and (at.due(":=") or at.last.text == b"load"), "a name stands alone before `:=`"),
    (lambda at: at.word and at.last_word and at.before.text == b"." and at.due(".", "where"),
     lambda at: spaced(at) + "; else a point or a comma is missing"),
)
CONDITIONS = (
    (lambda at: at.due("in") or at.due("all"), "`exists X in PATH : CONDITION` and `for all X in PATH : CONDITION`"),
    (lambda at: at.due(":"), "behind the path of a quantifier stand `:` and a condition"),
    (lambda at: at.token.text == b"from" and (at.due("and") or at.due("=")), "`from` stands before `where`"),
    (lambda at: at.token.text == b"where" and at.due("and"), "there is one `where`; conditions are joined by `and` or `or`"),
    (lambda at: at.token.kind in VALUED and at.last.text in (b"+", b"*"), "there is no arithmetic"),
    (lambda at: at.token.text in (b"<", b">") and at.last.text == b"=", lambda at: f"it is written `{at.token.text.decode()}=`"),
    (lambda at: at.due("="), "a comparison is due here, as `X.price < 10`"),
    (lambda at: at.due("and") and not at.due(")") and at.token.text not in (b")", b"}"),
     "conditions are joined by `and` or `or`"),
)
REST = (
    (lambda at: at.last.text == b"(" and at.before.text == b"path-of",
     "`path-of(P)` is of a path variable, ranged as `PATH@P X`"),
    (lambda at: at.token.text in (b")", b"}", b"]"), "it closes what wasn't opened, or is empty"),
    (lambda at: at.first == b"sample" and at.due("number"), "how many objects are to be printed is a number: `sample PATH 5`"),
    (lambda at: at.due("bottom"), "the modes are `auto`, `top`, `bottom` and `guide`"),
    (lambda at: at.token.kind == "number" and at.due("quoted label") or at.last.text == b"." and at.token.kind in VALUED,
     "a label that begins with a digit, or has other signs, stands in single quotes"),
    (lambda at: at.token.kind in ("identifier", "quoted label", "pattern") and at.due(".") and NAME not in at.could,
     "each label of a path stands behind a point"),
    (lambda at: at.last.text in REPEATING and at.token.text in REPEATING, "a part has one of `?`, `*` and `+`"),
    (lambda at: at.could == [END], "the statement is whole before it"),
    (lambda at: at.due("from", "where"), "a path, its variable and `where` are parted by nothing else"),
)
SPELLING = ((lambda at: bool(at.word), spelling),)
RULES = (*BEGINNING, *SPELLING, *NUMBERS, *COMMAS, *COMPARISONS, *UPDATING, *ORDER, *LITERALS, *QUOTES, *PATHS, *CONDITIONS,
         *REST)
ENDS = (
    (lambda at: not at.tokens, "an empty statement, as in `;;`: each `;` ends one"),
    (lambda at: at.due(")"), "a round bracket isn't closed"),
    (lambda at: at.due("}"), "a brace isn't closed"),
    (lambda at: at.last.text == b",", "nothing follows the comma"),
    (lambda at: at.last.text == b".", "behind the point a label is missing"),
    (lambda at: at.first == b"sample", "how many objects are to be printed isn't told: `sample PATH 5`"),
    (lambda at: at.last.text in (b"where", b"and", b"or", b"not"), "the condition isn't finished"),
    (lambda at: at.due("end"), "a dump ends with `end`"),
    (lambda at: at.due("local", "text"), "a number, a text, or members in braces are due"),
    (lambda at: at.first == b"update" and at.due(":="), UPDATES),
    (lambda at: at.index == 1, lambda at: f"there is nothing behind `{at.last_word}`"),
    *CONDITIONS,
)


def of_syntax(tokens, index, could):
    """What is mostly behind the token with which no statement can go on, None where nothing is known."""
    at = Place(tokens, index, could)
    for holds, cause in ENDS if index == len(tokens) else RULES:
        if holds(at):
            told = cause if isinstance(cause, str) else cause(at)
            if told:
                return told
    return None
