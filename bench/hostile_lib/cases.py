"""Scripts that ask for much, each with the replies that it has to have, which are worked out here."""
import functools
import os
import subprocess
import sys

HERE = os.path.dirname(os.path.abspath(__file__))
sys.path.insert(0, os.path.join(HERE, "..", "..", ".ci"))

from large import heaviest_case  # noqa: E402
from large_scripts import (CELLS, LABEL_BYTES, LABELS, LEAVES, LEVELS, MEMBERS, NAMES, NODES, OBJECTS, START_NODES,  # noqa: E402
                           STATEMENT_BYTES, TEXT_BYTES, Case, braces, doubled, head, ok, refused, rows)

RING = 60_000
MEETING = 131_072  # locals in one group of a table that has as many groups as a load of that size needs
GROUPS = 32_768
GROUP_LOAD = 9


def graph_cases():
    yield Case("a graph with 2^20 target sets, with both limits on nodes",
               [doubled(20), f"set nodes {NODES};", doubled(20)], 1,
               refused("GuideNodes") + ok(0, 0, 0) + refused("GuideNodes"))
    yield Case("a graph with 2^14 target sets, and one more", [f"set nodes {NODES};", doubled(14), "update Q.c += 1;"], 1,
               ok(0, 0, 0) + ok(15, 29, NODES) + refused("GuideNodes"))


def copy_cases():
    members = ", ".join(["c 0"] * RING)
    yield Case("a copy of 60,001 objects for each of 60,000, 3,600,060,000 in all",
               [braces("N", ["a {}"] * RING), f"update N.a.b += {{ {members} }};"], 1,
               ok(RING + 1, RING, 2) + refused("TooManyObjects"))


def ring(members):
    """A load of a ring of objects, which are all members too. The object of the local &i is &(i + 1)."""
    return braces("G", (f"m &{i} {{ n &{i % members + 1} }}" for i in range(1, members + 1)))


def ring_cases():
    loaded, all_of_it = ok(RING + 1, 2 * RING, 2), rows(f"&{i} {{}}" for i in range(2, RING + 2))
    path = "G" + ".#" * LEAVES
    for mode in ("top", "guide"):
        yield Case(f"a path with 64 times `.#` round a ring of 60,000, plan {mode}",
                   [ring(RING), f"set plan {mode};", f"select {path};"], 0,
                   loaded * 2 + rows(f"&{i} {{}}" for i in range(1, RING + 2)))
    stars = "(" * 60 + ".n" + ")*" * 60
    yield Case("60 stars one in another, round the ring", [ring(RING), "set plan top;", f"select G.m{stars};"], 0,
               loaded * 2 + all_of_it)
    yield Case("all pairs of the ring's members", [ring(RING), "select X, Y from G.m X, G.m Y;"], 1,
               loaded + refused("TooManyRows"))
    yield Case("the words of all walks round a ring of 16,000",
               [f"set nodes {NODES};", braces("G", ["first &1", *(f"x &{i} {{ n &{i % 16_000 + 1} }}"
                                                                    for i in range(1, 16_001))]),
                "set plan top;", "select path-of(P) from G.first.n*@P X;"], 1,
               ok(0, 0, 0) + ok(16_001, 32_001, 16_002) * 2 + refused("TooManyRows"))


def quantified(words, first, step, last):
    """A condition of 64 quantifiers, each over what the step leads to from the object of the one around it."""
    parts = [f"{words} X0 in {first} : "]
    parts += [f"{words} X{i} in X{i - 1}{step} : " for i in range(1, LEVELS)]
    return "".join(parts) + last


def condition_cases():
    loaded = ok(RING + 1, 2 * RING, 2)
    found, none = rows(["&1 {}"]), rows([])
    yield Case("64 quantifiers along the ring, which holds for none and for all of 60,000 starts",
               [ring(RING), f"select G where {quantified('exists', 'G.m', '.n', '1 = 2')};"
                f"select G where {quantified('for all', 'G.m', '.n', '1 = 1')};"], 0, loaded + none + found)
    yield Case("64 quantifiers, each over the whole ring, which holds at once",
               [ring(RING), f"select G where {quantified('exists', 'G.#', '.#', '1 = 1')};"], 0, loaded + found)
    small = 100
    yield Case("three quantifiers over a ring of 100, in vain: a million choices",
               [ring(small), "select G where exists X in G.m : exists Y in X.# : exists Z in Y.# : 1 = 2;"], 0,
               ok(small + 1, 2 * small, 2) + none)
    half = "%a" * (TEXT_BYTES // 2 - 1)
    yield Case("`like` with 2,047 signs over 1,000 texts of 4,096 bytes",
               [braces("T", [f't "{"a" * TEXT_BYTES}"'] * 1_000), f'select T.t where T.t like "{half}%b";'], 0,
               ok(1_001, 1_000, 2) + none)


def many(part, count):
    """A text so many times, in pieces."""
    for start in range(0, count, 65_536):
        yield part * min(65_536, count - start)


def open_cases():
    yield Case("a text that is never closed, of 64 MiB", ['load A := "', *many("x", STATEMENT_BYTES - 11)], 1,
               refused("Unfinished"))
    yield Case("the same with one byte more", ['load A := "', *many("x", STATEMENT_BYTES - 10)], 5, "")
    for front, part in (("select A where ", "("), ("select A where ", "not "), ("load A := ", "{ a ")):
        count = (STATEMENT_BYTES - len(front)) // len(part)
        yield Case(f"64 MiB of `{part}`", [front, *many(part, count), ";"], 1, refused("Syntax"))
    yield Case("64 MiB of comment", ["--", *many("x", STATEMENT_BYTES - 3), "\n;"], 1, refused("Syntax"))
    yield Case("a million statements without a token", many(";", 1_000_000), 1, refused("Syntax") * 1_000_000)


def dump_cases():
    count = 1_000_000
    lost = "".join(f"object &{i} {i}\n" for i in range(2, count + 1))
    fresh = f"restore {head(1)}end;"
    yield Case("a dump text of a million objects that no name leads to",
               [f"restore {head(count + 1)}name A &1\nobject &1 {{}}\n", lost, "end;", fresh], 1,
               refused("BadRestore") + ok(0, 0, 0))
    lost = "".join(f"object &{i} {i}\n" for i in range(2, OBJECTS + 1))
    yield Case("one of as many as there may be",
               [f"restore {head(OBJECTS + 1)}name A &1\nobject &1 {{}}\n", lost, "end;", fresh], 1,
               refused("BadRestore") + ok(0, 0, 0))
    turns = 60
    state = ok(OBJECTS, OBJECTS - 1, 2)
    yield Case("as many objects as there may be, which vanish and come again, 60 times",
               [braces("A", ["a 0"] * (OBJECTS - 1)), "unname A;"] * turns, 0, (state + ok(0, 0, 0)) * turns)


@functools.cache
def meeting():
    """Numbers that a table puts into one group, found by a program in C; none where it can't be compiled."""
    program = os.path.join(os.environ.get("TMPDIR", "/tmp"), f"meeting.{os.getpid()}")
    try:
        subprocess.run(["gcc", "-O2", "-o", program, os.path.join(HERE, "meeting.c")], check=True, capture_output=True)
        found = subprocess.run([program, str(MEETING), str(GROUPS)], check=True, capture_output=True).stdout.split()
    except (OSError, subprocess.CalledProcessError):
        return []
    finally:
        if os.path.exists(program):
            os.remove(program)
    return [int(number) for number in found][:GROUPS * GROUP_LOAD]


def local_cases():
    there = meeting()
    if not there:
        return
    for name, found in ((f"{len(there)} locals whose hashes meet", there),
                        (f"{len(there)} locals in turn", range(1, len(there) + 1))):
        marked = [f"a &{local} 0" for local in found]
        used = [f"b &{local}" for local in found]
        yield Case(name, [braces("A", marked + used)], 0, ok(len(there) + 1, 2 * len(there), 2))


def object_cases():
    there = meeting()
    if not there:
        return
    for name, found in ((f"{len(there)} restored objects whose hashes meet, and a search over them", there),
                        (f"{len(there)} restored objects in turn, and a search over them", range(2, len(there) + 2))):
        objects = "".join(f"object &{number} 0\n" for number in found)
        edges = "".join(f"edge &1 a &{number}\n" for number in found)
        yield Case(name, [f"restore {head(found[-1] + 1)}label a\nname A &1\nobject &1 {{}}\n", objects, edges, "end;",
                          "set plan top;", "select A.# where 1 = 2;"], 0,
                   ok(len(there) + 1, len(there), 2) * 2 + rows([]))


def long_word(letter, number):
    digits = f"{number:04}"
    return letter * (LABEL_BYTES - len(digits)) + digits


def word_cases():
    names = [long_word("n", i) for i in range(NAMES)]
    replies = [ok(i + 1, 0, i + 1) + rows([f"&{i + 1} {i}"]) for i in range(NAMES)]
    guide = "".join(f"{name} 1\n" for name in names) + f"nodes {NAMES}\n"
    yield Case("1,024 names of 255 bytes, each asked, and the guide",
               [*(f"load {name} := {i}; select {name};" for i, name in enumerate(names)), "guide;"], 0, "".join(replies) + guide)
    count = START_NODES - 1
    labels = [long_word("l", i) for i in range(count)]
    asked = "".join(f"select L.{label};" for label in labels)
    guide = "".join(["L 1\n", *(f"L.{label} 1\n" for label in labels), f"nodes {START_NODES}\n"])
    replies = "".join(rows([f"&{i + 2} {i}"]) for i in range(count))
    yield Case("4,095 labels of 255 bytes, each asked, and the guide",
               [braces("L", (f"{label} {i}" for i, label in enumerate(labels))), asked, "guide;"], 0,
               ok(START_NODES, count, START_NODES) + replies + guide)
    pattern = "%l" * (LABEL_BYTES // 2)
    same = [f"{'l' * 250}{i:04}" for i in range(LABELS)]
    yield Case("a pattern with 127 signs over 4,096 labels of 254 bytes, of which none fits",
               [braces("L", [f"{same[0]} &1 0", *(f"{label} &1" for label in same[1:])]),
                "set plan top;", f"select L.{pattern};"], 0, ok(2, LABELS, 2) * 2 + rows([]))


def full_guide():
    """A dump text whose guide has as many nodes as there may be and almost as many members: a chain of objects, all of them
    members of one, with a name for the last, and a chain that isn't. Gives it with the numbers of objects and edges."""
    chain = 5_790  # its sets have chain * (chain + 1) / 2 members
    alone = NODES - chain - 2
    last, other = chain + 1, chain + 2
    count = other + alone
    lines = [head(count + 1).replace(f"nodes {START_NODES}", f"nodes {NODES}"), "label m\nlabel n\n",
             f"name C &1\nname D &{other}\nname E &{last}\n", *(f"object &{i} {{}}\n" for i in range(1, count + 1)),
             *(f"edge &1 m &{i}\n" for i in range(2, last + 1)), *(f"edge &{i} n &{i + 1}\n" for i in range(2, last)),
             *(f"edge &{i} n &{i + 1}\n" for i in range(other, count)), "end;"]
    members = chain * (chain + 1) // 2 + 1 + alone + 1
    assert CELLS - 2_000 < members < CELLS
    return "restore " + "".join(lines), count, chain + chain - 1 + alone


def guide_cases():
    text, objects, edges = full_guide()
    state, more = ok(objects, edges, NODES), ok(objects, edges + 1, NODES)
    turns = 50
    yield Case("a guide just below both of its limits, changed a hundred times by its first object",
               [text, "update C.m += C; update C.m -= C;" * turns], 0, state + (more + state) * turns)
    yield Case("the same, changed ten times by an object that is in almost every set",
               [text, "update E.y += E; update E.y -= E;" * 5], 0, state + (more + state) * 5)
    yield Case("the same, with a hundred changes that would pass one of the limits",
               [text, "update D.x += 1; update C.m += X from D.n.# X;" * turns], 1,
               state + (refused("GuideNodes") + refused("GuideCells")) * turns)


def moment_cases():
    turns, asked = 30_000, 1_000
    state, more = ok(2, 1, 2), ok(2, 2, 2)
    yield Case("an edge that comes and goes 30,000 times, and a thousand questions about the first moment",
               ["load A := { a 1 }; history on;", *(["update A.b += A.a;", "update A.b -= A.a;"] * turns),
                *(["at 0 select A.a;"] * asked)], 0, state * 2 + (more + state) * turns + rows(["&2 1"]) * asked)
    one = ok(1, 0, 1)
    yield Case("60,000 values of one object, and a thousand questions about the first one",
               ["load A := 0; history on;", *(f"update A := {i};" for i in range(1, 2 * turns + 1)), *(["at 0 select A;"] * asked)], 0,
               one * (2 * turns + 2) + rows(["&1 0"]) * asked)
    yield Case("a name that comes and goes 30,000 times, and a thousand questions about a moment between",
               ["load A := 0; history on;", *(["name N := A;", "unname N;"] * turns), *([f"at {turns - 1} select N;"] * asked)], 0,
               one * (2 * turns + 2) + rows(["&1 0"]) * asked)
    full = ok(OBJECTS, MEMBERS, 2)
    yield Case("what differs between two moments of as many objects as there may be, a thousand times",
               [braces("A", ["a 0"] * MEMBERS), "history on; name B := A;", *(["changes 0 1;"] * asked)], 0,
               full * 3 + "+ name B &1\nchanges 1\n" * asked)
    yield heaviest_case()


def cases():
    """All cases, one after another, since each may hold many megabytes."""
    for group in [graph_cases, copy_cases, ring_cases, condition_cases, open_cases, dump_cases, local_cases,
                  object_cases, word_cases, guide_cases, moment_cases]:
        yield from group()
