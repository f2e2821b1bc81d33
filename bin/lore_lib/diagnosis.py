"""Tells of a refused statement where and what its fault is, and what is mostly behind it.

For refusals 1 to 6 the text alone tells; for those behind them the program's number says which it is, and `probe`, which
asks the program a statement that changes nothing, tells the rest.
"""
import difflib
import re
import sys
from dataclasses import dataclass, field

from lore_lib import causes, limits, refusals
from lore_lib.dump import Reader
from lore_lib.earley import END, Recogniser
from lore_lib.grammar import KINDS, NAME
from lore_lib.lexer import LABEL, TEXT, tokens
from lore_lib.places import visible, words
from lore_lib.roles import marks, roles_of
from lore_lib.texts import IDENTIFIER, label_of, label_text
from lore_lib.tool import Fault

RECOGNISER = Recogniser()
UNLIMITED = Recogniser(levels=sys.maxsize)
CALLED = {NAME: "a name", "quoted label": "a label in quotes", "identifier": "a label", "pattern": "a pattern",
          "number": "a number", "local": "a local, as &1", "text": "a text", END: "`;`"}
SHOWN = 24
FEW = 3
WITH_VARIABLES = (b"select", b"explain", b"update", b"at", b"blocks", b"watch")


@dataclass
class Diagnosis:
    """A fault: the bytes of the chunk that it is about, its matter in words, what could stand there, what is mostly behind it."""
    number: int
    start: int
    end: int
    matter: str
    could: list = field(default_factory=list)
    cause: str = ""


def excerpt(spelling):
    """A token in a message."""
    text = spelling.decode("utf-8", "replace")
    text = text if len(text) <= SHOWN else text[:SHOWN] + ".."
    return "`" + visible(text) + "`"


def verdict(chunk):
    """The refusal of a chunk by its text alone, None where it is a statement; and its tokens, where they were read."""
    if not chunk.closed:
        return unfinished(chunk), []
    found, fault = tokens(chunk.data)
    if fault:
        diagnosis = lexical(chunk.data, fault)
        diagnosis.cause = swallowed(chunk, found) or diagnosis.cause
        return diagnosis, found
    wrong = RECOGNISER.verdict(found)
    return (syntax(chunk, found, *wrong) if wrong else None), found


def lexical(data, fault):
    """One of the first four."""
    spelling = data[fault.start:fault.end]
    if fault.number == refusals.BAD_TOKEN:
        return bad_token(data, fault)
    if fault.number == refusals.REAL_REFUSED:
        end = re.compile(rb"-?[0-9]+\.[0-9]+(?:[eE][+-]?[0-9]+)?").match(data, fault.start).end()
        whole = excerpt(data[fault.start:end])
        return Diagnosis(fault.number, fault.start, end, f"{whole} is no whole number", [],
                         f'there are whole numbers only; as a text, "{whole[1:-1]}", it can be kept')
    if fault.number == refusals.NUMBER_RANGE:
        matter = f"{excerpt(spelling)} is outside what a number may be, {limits.WHOLE_LEAST} to {limits.WHOLE_MOST}"
        if spelling[:1] == b"&":
            matter = f"{excerpt(spelling)} is outside what a local may be, up to &{limits.LOCALS}"
        return Diagnosis(fault.number, fault.start, fault.end, matter, [], refusals.BY_NUMBER[fault.number].because)
    if spelling[:1] == b'"':
        size, what, most = len(spelling) - 2 - len(re.findall(rb"\\.", spelling)), "text", limits.TEXT_BYTES
    else:
        quotes = 2 if spelling[:1] == b"'" else 0
        size, what, most = len(spelling) - quotes - len(re.findall(rb"\\.", spelling)), "label or name", limits.LABEL_BYTES
    return Diagnosis(fault.number, fault.start, fault.end, f"a {what} of {size:,} bytes; there may be {most:,}",
                     [], refusals.BY_NUMBER[fault.number].because)


def bad_token(data, fault):
    """No token starts here."""
    number, start = fault.number, fault.start
    try:
        data.decode("utf-8")
    except UnicodeDecodeError as error:
        cause = "the script is in another encoding: save it as UTF-8"
        if data[:2] in (b"\xff\xfe", b"\xfe\xff"):
            cause = "the script is in UTF-16: save it as UTF-8"
        return Diagnosis(number, start, start + 1, f"the byte 0x{data[error.start]:02X} is no UTF-8", [], cause)
    rest = data[start:].decode("utf-8")
    if rest[0] in "\"'" and not rest.startswith("''"):
        return bad_escape(data, start, rest)
    if rest.startswith("''"):
        return Diagnosis(number, start, start + 2, "a label in quotes without a character", [], causes.SIGNS["'"])
    word = re.match(r"\w+", rest) if rest[0].isalpha() else None
    end = start + len((word.group() if word else rest[0]).encode())
    cause = causes.of_character(data, start)
    if rest[0] == "\0" or b"\0" in data[start:start + 4]:
        cause = "the script is in UTF-16 or no text at all: save it as UTF-8"
    shown = excerpt(word.group().encode()) if word else causes.called(rest[0])
    return Diagnosis(number, start, end, f"no token starts with {shown}", [], cause)


def bad_escape(data, start, rest):
    """A text or label with a backslash before what it may not stand before. The place is that of its opening quote."""
    quote = rest[0]
    whole = re.match(rf"{quote}(?:[^{quote}\\]|\\.)*{quote}", rest, re.S)
    end = start + len(whole.group().encode()) if whole else len(data)
    wrong = next(it for it in re.finditer(r"\\(.)", rest, re.S) if it.group(1) not in quote + "\\nrt")
    what = "text" if quote == '"' else "label"
    cause = "a backslash that is meant as itself is written `\\\\`"
    if wrong.group(1) in "ux0":
        cause = "a character is written as itself; there are no numbers of characters"
    elif wrong.group(1) in "\"'":
        cause = f"within these quotes `{wrong.group(1)}` is written as itself"
    shown = wrong.group() if not causes.hidden(wrong.group(1)) else "a backslash at the end of a line"
    return Diagnosis(refusals.BAD_TOKEN, start, end,
                     f"`{shown}` in this {what} is no escape; there are {causes.ESCAPES[quote]}", [], cause)


def syntax(chunk, found, index, could):
    """The first token with which no statement can go on, or the end where more is due."""
    data = chunk.data
    start, end = (found[index].start, found[index].end) if index < len(found) else (len(data), len(data) + 1)
    matter = f"no statement {'goes on' if index else 'begins'} with {excerpt(data[start:end])}"
    if index == len(found):
        matter = "the statement ends too early" if found else "there is no statement before this `;`"
    cause = causes.of_syntax(found, index, could)
    if index < len(found) and too_deep(found, index):
        matter = f"more than {limits.LEVELS} levels are nested here"
        cause = f"braces, groups, parentheses, `not` and quantifiers nest at most {limits.LEVELS} levels"
    cause = swallowed(chunk, found[:index + 1]) or cause
    if not cause and len(could) <= FEW:
        cause = f"{could_words(could, ' or ')} is due here"
    return Diagnosis(refusals.SYNTAX, start, end, matter, could, cause or "")


def too_deep(found, index):
    """Whether a token can't stand there for its nesting alone."""
    if found[index].text not in (b"{", b"(", b"not", b"exists", b"for"):
        return False
    wrong = UNLIMITED.verdict(found[:index + 1])
    return wrong is None or wrong[0] > index


def swallowed(chunk, found):
    """What is behind a fault where a quote was forgotten before it: then a text or label has line ends and a `;` in it."""
    for token in found:
        if token.kind in ("text", "quoted label") and b";" in token.text and b"\n" in token.text:
            what = "text" if token.kind == "text" else "label"
            return f"the {what} from {words(chunk, token.start)} on goes over line ends and a `;`: its quote may be missing"
    return None


def unfinished(chunk):
    """What is open at the end of the script."""
    number = refusals.UNFINISHED
    if chunk.state in (TEXT, LABEL):
        quote, what = ('"', "text") if chunk.state == TEXT else ("'", "label")
        cause = f"its closing {quote} is missing"
        if chunk.state == LABEL and re.search(rb"[A-Za-z]'[a-z]", chunk.data[max(0, chunk.open_at - 1):chunk.open_at + 2]):
            cause = "an apostrophe opens a label in quotes; a text with one stands in double quotes"
        cause = swallowed(chunk, tokens(chunk.data[:chunk.open_at])[0]) or cause
        return Diagnosis(number, chunk.open_at, chunk.open_at + 1, f"the {what} that begins here isn't closed", [], cause)
    found, fault = tokens(chunk.data)
    last = len(chunk.data.rstrip()) if fault or not found else found[-1].end
    comment = re.compile(rb"--[^\n]*;[^\n]*").search(chunk.data, last)
    if comment:
        return Diagnosis(number, comment.start(), comment.end(), "a `;` stands in this comment, and none before it", [],
                         "a comment goes to the end of its line")
    return besides(chunk, found, fault) or Diagnosis(number, last, last + 1, "the `;` of the last statement is missing here", [],
                                                     refusals.BY_NUMBER[number].because)


def besides(chunk, found, fault):
    """Where a `;` at the end would not help, since what stands there is no statement anyway: its first fault."""
    wrong = RECOGNISER.verdict(found)
    if wrong and wrong[0] < len(found):
        first = syntax(chunk, found, *wrong)
    elif fault:
        first = lexical(chunk.data, fault)
    else:
        return None
    first.number = refusals.UNFINISHED
    first.matter += ", and no `;` stands at its end"
    return first


def could_words(could, between=", "):
    """What could stand at a place, in words."""
    named = [CALLED.get(word, word.strip('"')) if word in KINDS or word == END else f"`{word[1:-1]}`" for word in could]
    if "`from`" not in named and "a label" in named and "a label in quotes" in named:
        named.remove("a label in quotes")
    return between.join(named)


def binds(chunk):
    """The name that a statement was to bind, as far as it can be read."""
    found, _ = tokens(chunk.data)
    return [found[1].text] if len(found) > 1 and found[0].text in (b"load", b"name") else []


def diagnose(chunk, number, probe=None, lost=None):
    """The diagnosis of a chunk that the program refused with this number. `probe` asks the program; `lost` has the names of
    which a load was refused before, with the numbers of these statements."""
    found, there = verdict(chunk)
    if found and found.number == number:
        return found
    start = there[0].start if there else chunk.begin()
    end = there[0].end if there else start + 1
    refusal = refusals.BY_NUMBER.get(number)
    if not refusal:
        return Diagnosis(number, start, end, "a refusal that this tool doesn't know")
    plain = Diagnosis(number, start, end, refusal.when, [], refusal.because)
    if found or not there or number <= refusals.UNFINISHED:
        return plain
    if number == refusals.UNKNOWN_NAME:
        return unknown_name(there, plain, probe, lost or {}) or plain
    special = SPECIAL.get(number)
    return special(there, plain, probe) or plain if special else plain


def at(token, plain, matter, cause=None):
    """A diagnosis at a token."""
    return Diagnosis(plain.number, token.start, token.end, matter, [], cause or plain.cause)


def is_unbound(token, probe, moment=None):
    """Whether the program says that this is no name that is bound: at present, or at a moment."""
    asking = b"browse " if moment is None else b"at " + moment + b" select "
    return probe(asking + token.text).startswith(b"refused 7")


def unbound(starts, found, probe):
    """Those of the starts of paths that are no names which are bound, as far as it can be told."""
    moment = found[1].text if found[0].text == b"at" else None
    return [token for token in starts if is_unbound(token, probe, moment)] if probe else starts


def unknown_name(found, plain, probe, lost):
    roles = roles_of(found)
    ranged = {token.text for token in roles.ranged}
    starts = unbound([token for token, in_scope in roles.starts if not in_scope and token.text not in ranged], found, probe)
    if not starts:
        return None
    token, name = starts[0], starts[0].text.decode()
    matter = f"`{name}` is no name that is bound" + ("" if found[0].text == b"unname" else ", and no variable")
    if found[0].text == b"at" and probe and not is_unbound(token, probe):
        return at(token, plain, matter, f"it is bound now, and wasn't at moment {found[1].text.decode()}")
    if token.text in lost:
        return at(token, plain, matter, f"statement {lost[token.text]}, which was to bind it, was refused")
    cause = near_name(name, probe) or bare_text(found, token, name)
    variables = ", ".join(f"`{token.text.decode()}`" for token in roles.ranged if token.text not in roles.paths)
    if not cause and variables:
        cause = f"the variables of this statement are {variables}"
    ranged = ", a variable that `from` doesn't give" if found[0].text in WITH_VARIABLES else ""
    return at(token, plain, matter, cause or f"a slip in the name{ranged}, or a load that was refused before")


def near_name(name, probe):
    """A bound name that is spelled alike, or a path that ends so."""
    lines = probe(b"guide").decode("utf-8", "replace").split("\n")[:-2] if probe else []
    names = [match.group(1) for match in (re.fullmatch(r"(\w+) [0-9]+", line) for line in lines) if match]
    if not names:
        return "nothing is bound: no load before was accepted" if probe else None
    alike = [other for other in names if other.lower() == name.lower()] or difflib.get_close_matches(name, names, 1, 0.7)
    if alike:
        return f"`{alike[0]}` is bound"
    path = next((line.rpartition(" ")[0] for line in lines if line.rpartition(" ")[0].endswith("." + name)), None)
    return f"a path begins with a name: `{path}`" if path else None


def bare_text(found, token, name):
    """Where a word stands behind a sign of comparison."""
    before = found[found.index(token) - 1].text
    if before in (b"=", b"!=", b"<", b"<=", b">", b">=", b"like"):
        return f'a text stands in double quotes: "{name}"'
    return None


def unknown_variable(found, plain, probe):
    roles = roles_of(found)
    ranged = {token.text for token in roles.ranged}
    starts = unbound([token for token, in_scope in roles.starts if not in_scope and token.text in ranged], found, probe)
    words = [token for token in roles.words if token.text not in roles.paths]
    if not starts + words:
        return None
    token = min(starts + words, key=lambda it: it.start)
    name = token.text.decode()
    if token in words:
        return at(token, plain, f"`{name}` is no path variable of `from`", f"a range gives one: `from PATH@{name} X`")
    if token.text in roles.paths:
        return at(token, plain, f"`{name}` stands for a word and no object", "the variable behind it stands for the object")
    return at(token, plain, f"`{name}` isn't in scope here",
              "a variable is there behind its own range, and that of a quantifier in its condition alone")


def duplicate_variable(found, plain, probe):
    seen = set()
    for token in roles_of(found).ranged:
        if token.text in seen:
            return at(token, plain, f"`{token.text.decode()}` is ranged for the second time")
        seen.add(token.text)
    return None


def too_many_ranges(found, plain, probe):
    roles = roles_of(found)
    if len(roles.items) > limits.ITEMS:
        return at(roles.items[limits.ITEMS], plain,
                  f"this is item {limits.ITEMS + 1} of {len(roles.items)}; there may be {limits.ITEMS}",
                  "several selects, each of some of the items")
    if len(roles.leaves) > limits.LEAVES:
        return at(roles.leaves[limits.LEAVES], plain,
                  f"this is label {limits.LEAVES + 1} of {len(roles.leaves)} in paths; there may be {limits.LEAVES}",
                  "what paths share can be ranged once, with a variable")
    plain.matter = f"more than {limits.RANGES} ranges are left when those that only lead on are joined"
    return plain


def duplicate_local(found, plain, probe):
    seen = set()
    for token in marks(roles_of(found).literal)[0]:
        if int(token.text[1:]) in seen:
            return at(token, plain, f"`{token.text.decode()}` marks a second object")
        seen.add(int(token.text[1:]))
    return None


def undefined_local(found, plain, probe):
    made, used = marks(roles_of(found).literal)
    marked = {int(token.text[1:]) for token in made}
    for token in used:
        if int(token.text[1:]) not in marked:
            return at(token, plain, f"`{token.text.decode()}` marks no object of this literal")
    return None


def not_one(found, plain, probe):
    plain.start, plain.end = found[3].start, found[-1].end
    reply = probe(b"select " + b" ".join(token.text for token in found[3:])) if probe else b""
    rows = re.search(rb"(?:^|\n)rows ([0-9]+)\n$", reply)
    if rows:
        plain.matter = f"the path reaches {int(rows.group(1)):,} objects, and a name is bound to one"
    return plain


def target(found, plain, probe):
    """Refusals that are about what an update's target reaches."""
    tokens_there = roles_of(found).target
    plain.start, plain.end = tokens_there[0].start, tokens_there[-1].end
    return plain


def bound_name(found, plain, probe):
    return at(found[1], plain, plain.matter)


def limit_range(found, plain, probe):
    """Which number of a statement is out of range."""
    numbers = [token for token in found if token.kind == "number"]
    if found[0].text == b"sample":
        return at(numbers[0], plain, f"the number of `sample` is from 1 to {limits.SAMPLE:,}")
    if found[0].text == b"set":
        return at(numbers[0], plain,
                  f"the number of `set nodes` is from 1 to {limits.NODES:,}, and not below that of the guide's nodes",
                  "`guide` tells in its last line how many nodes there are")
    if not 0 <= int(numbers[0].text) <= limits.SEEDS:
        return at(numbers[0], plain, f"the seed is from 0 to {limits.SEEDS:,}")
    return at(numbers[1], plain, f"the number of persons is from {limits.PERSONS_LEAST} to {limits.PERSONS_MOST:,}")


def moment_range(found, plain, probe):
    """The numbers of moments of which there is one that isn't there."""
    numbers = [token for token in found[1:3] if token.kind == "number"]
    plain.start, plain.end = numbers[0].start, numbers[-1].end
    return plain


def unknown_view(found, plain, probe):
    """The name that no view has."""
    return at(found[1], plain, f"no view has the name {excerpt(found[1].text)}")


def dump_lines(found):
    """The tokens of a dump text as the lines that a dump has, with the first token of each."""
    sizes = {"oem": 2, "next": 2, "nodes": 2, "plan": 2, "label": 2, "name": 3, "edge": 4, "end": 1}
    place = 0
    while place < len(found):
        word = found[place].text.decode()
        size = sizes.get(word) or (4 if found[place + 2].text == b"{" else 3)
        yield found[place:place + size], " ".join(dump_word(token) for token in found[place:place + size]).replace("{ }", "{}")
        place += size


def dump_word(token):
    """A token as a dump has it."""
    text = token.text.decode()
    if token.kind == "quoted label":
        return label_text(label_of(text)) if IDENTIFIER.fullmatch(label_of(text)) else text
    if token.kind in ("number", "local"):
        mark = "&" if token.kind == "local" else ""
        return mark + str(int(text.lstrip("&")))
    return text.replace("\n", "\\n").replace("\r", "\\r").replace("\t", "\\t")


def bad_restore(found, plain, probe):
    """The line of a dump text that is none, found by reading it as a dump is read."""
    lines = list(dump_lines(found[1:]))
    try:
        Reader([text for _, text in lines], 1).dump()
    except Fault as fault:
        told = re.match(r"line ([0-9]+): (.*)", str(fault), re.S)
        here = lines[min(int(told.group(1)), len(lines)) - 1][0]
        return Diagnosis(plain.number, here[0].start, here[-1].end, told.group(2), [], plain.cause)
    return None


SPECIAL = {
    refusals.UNKNOWN_VARIABLE: unknown_variable,
    refusals.DUPLICATE_VARIABLE: duplicate_variable,
    refusals.TOO_MANY_RANGES: too_many_ranges,
    refusals.DUPLICATE_LOCAL: duplicate_local,
    refusals.UNDEFINED_LOCAL: undefined_local,
    refusals.NOT_ONE: not_one,
    refusals.ATOMIC_PARENT: target,
    refusals.HAS_CHILDREN: target,
    refusals.TOO_MANY_NAMES: bound_name,
    refusals.LIMIT_RANGE: limit_range,
    refusals.BAD_RESTORE: bad_restore,
    refusals.MOMENT_RANGE: moment_range,
    refusals.UNKNOWN_VIEW: unknown_view,
}
