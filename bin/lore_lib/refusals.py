"""The refusals as data: to each number its name, when it is the answer with the limit that counts, what is mostly behind it."""
from dataclasses import dataclass

from lore_lib import limits

BAD_TOKEN, REAL_REFUSED, NUMBER_RANGE, TEXT_TOO_LONG, SYNTAX, UNFINISHED = range(1, 7)
UNKNOWN_NAME, UNKNOWN_VARIABLE, DUPLICATE_VARIABLE, TOO_MANY_RANGES, DUPLICATE_LOCAL, UNDEFINED_LOCAL = range(7, 13)
TOO_MANY_ROWS, NOT_ONE, ATOMIC_PARENT, HAS_CHILDREN, OIDS_SPENT, TOO_MANY_LABELS, TOO_MANY_NAMES = range(13, 20)
TOO_MANY_OBJECTS, TOO_MANY_EDGES, GUIDE_NODES, LIMIT_RANGE, NOT_FRESH, BAD_RESTORE, GUIDE_CELLS = range(20, 27)
HISTORY_FULL, NO_HISTORY, MOMENT_RANGE, TOO_MANY_VIEWS, UNKNOWN_VIEW = range(27, 32)


@dataclass(frozen=True)
class Refusal:
    """One refusal: `when` is said of the statement, `because` what is mostly behind it."""
    number: int
    name: str
    when: str
    because: str


def counted(number):
    """A number as it is read: in groups of three digits."""
    return f"{number:,}"


ALL = [Refusal(*row) for row in (
    (BAD_TOKEN, "BadToken", "no token of the language starts here",
     "a sign that the language lacks, as `&&`, `/*` or a curly quote; a `-` in a label without quotes; a character "
     "that can't be seen; a file in another encoding"),
    (REAL_REFUSED, "RealRefused", "a number goes on with a point: there are whole numbers only",
     "a price or measure, as `4.50`: as a text, `\"4.50\"`, it can be kept"),
    (NUMBER_RANGE, "NumberRange", "a number lies outside 64 bits with a sign, or that of a local outside 32 bits",
     "a long key or code: as a text it can be kept"),
    (TEXT_TOO_LONG, "TextTooLong",
     f"a text has more than {counted(limits.TEXT_BYTES)} bytes, or a label more than {limits.LABEL_BYTES}",
     "a long note, or a quote that is closed far behind the place where it was meant to be"),
    (SYNTAX, "Syntax", "these words are no statement",
     "a colon behind a label; a comma behind the last member; a text in single quotes; `null` as a value; "
     "capitals, as in `SELECT`; a word that is no statement, as `delete`; a comment that begins with `#`; a `;` that "
     "is missing or stands twice"),
    (UNFINISHED, "Unfinished", "the script ends inside a statement",
     "the last `;` is missing, or a quote isn't closed"),
    (UNKNOWN_NAME, "UnknownName", "a path starts at what is neither a name nor a variable",
     "a text without its double quotes, as in `X.town = Leiden`; a load that was refused before; a slip in the name"),
    (UNKNOWN_VARIABLE, "UnknownVariable", "a variable is used where it isn't in scope, or path-of is of no path variable",
     "a range that stands before the one that it begins at; a variable of an `exists` outside it; `path-of(X)` where "
     "X stands for an object"),
    (DUPLICATE_VARIABLE, "DuplicateVariable", "a variable is ranged twice in one statement",
     "one variable for two things, as in `from` and in an `exists`"),
    (TOO_MANY_RANGES, "TooManyRanges",
     f"more than {limits.ITEMS} items, {limits.LEAVES} labels in paths, or {limits.RANGES} ranges that are left",
     "many paths that begin differently"),
    (DUPLICATE_LOCAL, "DuplicateLocal", "a local marks two objects of one literal",
     "a part that was copied with its mark"),
    (UNDEFINED_LOCAL, "UndefinedLocal", "a local is used and marks no object of its literal",
     "an object's number from a reply, or a mark of another literal: locals hold within one literal"),
    (TOO_MANY_ROWS, "TooManyRows", f"the answer has more than {counted(limits.ROWS)} rows, or its words more than "
     f"{counted(limits.WORD_LABELS)} labels", "two ranges that nothing ties together, so that all pairs are rows"),
    (NOT_ONE, "NotOne", "the path of a name has to reach one object, and reaches none or several",
     "a label that stands several times, or is spelled otherwise"),
    (ATOMIC_PARENT, "AtomicParent", "an edge would leave an object that is a number, a text or a flag",
     "one label too many before `+=`: the last one is that of the new edge"),
    (HAS_CHILDREN, "HasChildren", "a number, text or flag would be given to an object that has members",
     "one label too few before `:=`: the path reaches the record and not its part"),
    (OIDS_SPENT, "OidsSpent", f"the number of a new object would pass {counted(limits.OIDS)}",
     "a very old database, or one that was restored with a very large next number"),
    (TOO_MANY_LABELS, "TooManyLabels", f"there would be more than {counted(limits.LABELS)} different labels",
     "keys that are data, such as dates or codes, as labels"),
    (TOO_MANY_NAMES, "TooManyNames", f"there would be more than {counted(limits.NAMES)} names",
     "a name for each record, where one name could lead to all of them"),
    (TOO_MANY_OBJECTS, "TooManyObjects",
     f"there would be more than {counted(limits.OBJECTS)} objects; each number, text and flag is one",
     "a large file: each value is an object, so a row of 7 columns is 8 of them"),
    (TOO_MANY_EDGES, "TooManyEdges", f"there would be more than {counted(limits.EDGES)} edges",
     "all pairs of two ranges linked"),
    (GUIDE_NODES, "GuideNodes",
     f"label paths would reach more sets of objects than `set nodes` allows, at most {counted(limits.NODES)}",
     "keys that are data as labels, or shared parts that are reached in many combinations"),
    (LIMIT_RANGE, "LimitRange", "a number is outside what the statement takes",
     "0 where 1 is the least, or a limit below the nodes that there are"),
    (NOT_FRESH, "NotFresh", "restore takes only a new database without a history, and something was loaded, named, set or kept before",
     "a statement before `restore` in the same run"),
    (BAD_RESTORE, "BadRestore", "the text is the dump of no database",
     "a line of the dump that was changed, lost or doubled by hand"),
    (GUIDE_CELLS, "GuideCells",
     f"the sets of objects that label paths reach would have more than {counted(limits.CELLS)} members together",
     "many shared parts, or long chains, of which each step is a set of all that lies behind it"),
    (HISTORY_FULL, "HistoryFull", f"the history would have a moment above {counted(limits.MOMENTS)}, or weigh too much",
     "very many changes; large texts that change often"),
    (NO_HISTORY, "NoHistory", "no history is kept that could be asked", "`history on` is missing, or was refused"),
    (MOMENT_RANGE, "MomentRange", "there is no moment of the number, or the first number is above the second",
     "a change that was refused added no moment"),
    (TOO_MANY_VIEWS, "TooManyViews", f"more than {limits.VIEWS} views would be kept", "views that nobody shows any more"),
    (UNKNOWN_VIEW, "UnknownView", "no view has the name", "the name is mistyped, or its `watch` was refused"),
)]
BY_NUMBER = {refusal.number: refusal for refusal in ALL}
BY_NAME = {refusal.name.lower(): refusal for refusal in ALL}
