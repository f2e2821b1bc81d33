"""What the cases of `large.py` are made of: the limits of the language, each named once, statements that are large, and replies.

All of it is worked out from what docs/LANGUAGE.md says, and nothing is taken from the program.
"""
from dataclasses import dataclass
from math import isqrt
from typing import Iterable

OBJECTS = 262_144
EDGES = 1_048_576
LABELS = 4_096
NAMES = 1_024
START_NODES = 4_096  # the limit on the guide's nodes in a new database
NODES = 16_384  # the greatest that it may be
CELLS = 16_777_216  # members of all sets of the guide
ROWS = 100_000
WORD_LABELS = 16_777_216  # labels in the words of an answer
SAMPLES = 100_000
TEXT_BYTES = 4_096
LABEL_BYTES = 255
LAST_NUMBER = 4_294_967_295
LAST_SEED = 2_147_483_647
PERSONS = 10_000
ITEMS = 8
LEAVES = 64
LEVELS = 64
LAST_MOMENT = 65_536
VIEWS = 64
HISTORY_WEIGHT = 1_073_741_824  # of a history: FACT_WEIGHT for each run of a fact, and the bytes of a text
FACT_WEIGHT = 64
STATEMENT_BYTES = 67_108_864
SCRIPT_BYTES = 1_073_741_824
SECONDS = 60  # of a processor that a case may take

MEMBERS = OBJECTS - 1  # of one object, where it and they are all that there is
MANY = min(MEMBERS, ROWS)  # of these as many as an answer or an update has rows

REFUSALS = """BadToken RealRefused NumberRange TextTooLong Syntax Unfinished UnknownName UnknownVariable DuplicateVariable
TooManyRanges DuplicateLocal UndefinedLocal TooManyRows NotOne AtomicParent HasChildren OidsSpent TooManyLabels TooManyNames
TooManyObjects TooManyEdges GuideNodes LimitRange NotFresh BadRestore GuideCells HistoryFull NoHistory MomentRange
TooManyViews UnknownView""".split()


@dataclass
class Case:
    """A script in pieces, what it has to end with and to write, and how long it may take."""

    name: str
    script: Iterable
    status: int
    replies: str
    seconds: int = SECONDS


def ok(objects, edges, nodes):
    return f"ok objects {objects} edges {edges} nodes {nodes}\n"


def refused(name):
    return f"refused {REFUSALS.index(name) + 1} {name}\n"


def rows(lines):
    lines = list(lines)
    return "".join([*(f"{line}\n" for line in lines), f"rows {len(lines)}\n"])


def sampled(lines):
    """The reply to a sample of these lines, and of as many as may be."""
    lines = list(lines)
    shown = lines[:SAMPLES]
    return "".join([*(f"{line}\n" for line in shown), f"sample {len(shown)} of {len(lines)}\n"])


def braces(name, members):
    return f"load {name} := {{ {', '.join(members)} }};"


def numbered(count):
    """A load of so many members, each of which is its place. The root is &1, and the member i is &(i + 2)."""
    return braces("A", (f"a {i}" for i in range(count)))


def labelled(name, count):
    """A load of one object with so many labels, each of which leads to one and the same object."""
    return braces(name, ["l0 &1 0", *(f"l{i} &1" for i in range(1, count))])


def in_turn(count):
    """A load of a chain of objects, all of them members too. The sets are the root, and for each object all from it on."""
    return braces("C", (f"m &{i} {{ n &{i + 1} }}" if i < count else f"m &{i} 0" for i in range(1, count + 1)))


def doubling(count):
    """A load of a graph with two to the power of the count target sets, for a count of at least 2, and more."""
    body = (f"x &{i} {{ a &{i + 1}, b &{i + 1} }}" if i < count else f"x &{i} 0" for i in range(2, count + 1))
    return f"load Q := &0 {{ a &0, b &0, a &1, x &1 {{ a &2, b &2 }}, {', '.join(body)} }};"


def doubled(count):
    """A load of a graph with exactly two to the power of the count target sets, for a count from 2 to the levels of braces: the
    first object is in each, and of the others some or none."""
    inner = f"&{count + 1} 0"
    for i in range(count, 1, -1):
        inner = f"&{i} {{ a {inner}, b &{i + 1} }}"
    return braces("Q", ["a &1", "b &1", f"a {inner}"]).replace(":= {", ":= &1 {")


def around(count, at):
    """A load of a ring of objects, all of them members too. From the one at a place `s` leads to a last one."""
    members = (f"m &{i} {{ n &{i % count + 1}{', s &0' if i == at else ''} }}" for i in range(1, count + 1))
    return braces("C", [*members, "first &1", "last &0 {}"])


def longest_chain():
    """Of how many objects the longest chain in turn is whose sets have no more members than there may be; the root is one."""
    return (isqrt(8 * (CELLS - 1) + 1) - 1) // 2


def passing_set(count):
    """Which set of a chain in turn, one after another from the root on, is the first at which there are too many members."""
    members, at = 1, 1
    while members <= CELLS:
        members, at = members + count + 1 - at, at + 1
    return at


def escaped(text):
    """A text or a label with its escapes, without the quotes."""
    for raw, shown in [("\\", "\\\\"), ('"', '\\"'), ("\n", "\\n"), ("\r", "\\r"), ("\t", "\\t")]:
        text = text.replace(raw, shown)
    return text


def quoted_label(label):
    """A label that is no identifier, as it is written and printed: a `'` has its escape in place of a `\"`."""
    return "'" + escaped(label).replace('\\"', '"').replace("'", "\\'") + "'"


def head(following):
    return f"oem 2\nnext {following}\nnodes {START_NODES}\nplan auto\n"


def dump_text(labels, names, children, paths):
    """The dump of a database of these numbers of labels and names, so many children of one object, and so many edges to all of
    them, each with a label of its own; as many more labels lead back to the object."""
    yield head(children + 2)
    yield "".join(f"label l{i}\n" for i in range(labels))
    yield "".join(f"name n{i:04} &1\n" for i in range(names))
    yield ("object &1 {}\n" + "".join(f"object &{i} {i}\n" for i in range(2, children + 2)))
    for label in range(paths):
        yield "".join(f"edge &1 l{label} &{i}\n" for i in range(2, children + 2))
    yield "".join(f"edge &1 l{paths + i} &1\n" for i in range(paths))
    yield "end\n"


def long_texts(names, each):
    """Loads of so many names (at most ten) with so many long texts each, and the dump of them."""
    text = "street " * 500
    roots = [(each + 1) * i + 1 for i in range(names)]
    loads = [braces(f"T{i}", (f't "{text}{j}"' for j in range(each))) for i in range(names)]
    lines = [f"{head((each + 1) * names + 1)}label t\n"]
    lines += [f"name T{i} &{root}\n" for i, root in enumerate(roots)]
    for root in roots:
        lines += [f"object &{root} {{}}\n", *(f'object &{root + 1 + j} "{text}{j}"\n' for j in range(each))]
    lines += [f"edge &{root} t &{root + 1 + j}\n" for root in roots for j in range(each)]
    return loads, "".join([*lines, "end\n"])


def people(persons):
    """How many objects, edges and nodes what is generated has: the sets are those of the root, clubs, links, and persons."""
    sets, leaders = {tuple(range(1, persons + 1))}, range(10, 20)
    for first in [range(1, persons + 1), leaders]:
        while first:
            sets.add(tuple(first))
            first = sorted({i // 2 for i in first if i > 1})
    return 4 * persons + 111, 6 * persons + 120, 1 + 1 + 100 + 4 * len(sets)


def repeated(letter, count):
    """So many equal letters, in pieces."""
    block = letter * 1_048_576
    for _ in range(count // len(block)):
        yield block
    yield letter * (count % len(block))


def long_script(count):
    """A script of so many bytes: chunks of 64,000,000 bytes with their `;`, and blanks behind them. And its replies."""
    size = 64_000_000
    chunks = (count - 1) // size

    def pieces():
        for _ in range(chunks):
            yield from repeated(" ", size - 1)
            yield ";"
        yield from repeated(" ", count - chunks * size)

    return pieces(), refused("Syntax") * chunks
