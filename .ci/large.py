#!/usr/bin/env python3
"""Runs the built program, or the one that a word names, on scripts that are large or stand just at a limit.

    large.py [PROGRAM]

The prover can't refuse a program that gives up with want of memory, nor one whose limits are other numbers than the documents
name; these cases do. What the program has to write is worked out here. Each run may take 4 GiB and a minute of a processor, far
more than any needs: so one that keeps what it need not, or does for each row what is done once, fails too. The cases of
`large_joins.py` may take ten minutes, which stops only a run that hangs: `large_counts.py` counts what they take.

Statuses: 0 all is as it has to be, 1 a case failed, 2 the program can't be run, or the words are wrong.
"""
import contextlib
import hashlib
import os
import resource
import signal
import subprocess
import sys
from math import ceil, isqrt, lcm

sys.dont_write_bytecode = True
from generated_people import generated_cases
from large_joins import join_cases
from large_scripts import (EDGES, FACT_WEIGHT, HISTORY_WEIGHT, ITEMS, LABELS, LABEL_BYTES, LAST_MOMENT, LAST_NUMBER, LAST_SEED,
                           LEAVES, LEVELS, MANY, MEMBERS, NAMES,
                           NODES, OBJECTS, PERSONS, ROWS, SAMPLES, SCRIPT_BYTES, START_NODES, STATEMENT_BYTES, TEXT_BYTES,
                           VIEWS, WORD_LABELS, Case, around, braces, doubled, doubling, dump_text, escaped, head, in_turn, labelled,
                           long_script, long_texts, longest_chain, numbered, ok, passing_set, people, quoted_label,
                           refused, repeated, rows, sampled)

HERE = os.path.dirname(os.path.abspath(__file__))
PROGRAM = os.path.join(HERE, "..", "crates", "lore", "out", "lore")
MEMORY = 4 * 1_073_741_824
MIXED = 600  # more labels than a set's members have a list for each of, unless they come in order


def run(program, case):
    """The status and the bytes that the program writes for the script of a case, which a process of its own hands it."""

    def limit():
        resource.setrlimit(resource.RLIMIT_AS, (MEMORY, MEMORY))
        resource.setrlimit(resource.RLIMIT_CPU, (case.seconds, case.seconds))

    process = subprocess.Popen([program], stdin=subprocess.PIPE, stdout=subprocess.PIPE, preexec_fn=limit)
    writer = os.fork()
    if writer == 0:
        process.stdout.close()
        with contextlib.suppress(BrokenPipeError):
            for piece in case.script:
                process.stdin.write(piece.encode())
            process.stdin.close()
        os._exit(0)
    process.stdin.close()
    written = process.stdout.read()
    os.waitpid(writer, 0)
    return process.wait(), written


def row_cases():
    state = ok(MANY + 1, MANY, 2)
    lines = [f"&{i + 2} {i}" for i in range(MANY)]
    yield Case("as many rows as objects", [numbered(MANY), "select A.a;"], 0, state + rows(lines))
    yield Case("any word over as many objects", [numbered(MANY - 1), "select A.#; select A.%+;"], 0,
               ok(MANY, MANY - 1, 2) + rows(["&1 {}", *lines[:-1]]) + rows(lines[:-1]))
    yield Case("as many leaves as there may be over as many objects", [numbered(MANY), f"select A{'.#' * (LEAVES - 1)}.a;"], 0,
               state + rows(lines))
    side = isqrt(ROWS)
    pairs = (f"&{i} 0 | &{j} 0" for i in range(2, side + 2) for j in range(2, side + 2))
    yield Case("as many rows as an answer may have, nearly", [braces("N", ["a 0"] * side), "select X, Y from N.a X, N.a Y;"], 0,
               ok(side + 1, side, 2) + rows(pairs))
    count = ROWS // 25
    pairs = [f"&{i} {i - 2} | &{j} {j - 2}" for i in range(2, 27) for j in range(2, count + 2)]
    yield Case("a row too many, and far too many",
               [braces("N", (f"a {i}" for i in range(count))), "select Y, X from N.a X, N.a Y;",
                f"select X, Y from N.a X, N.a Y where X <= 24 and Y < {count};",
                "select X, Y from N.a X, N.a Y where X <= 25;"], 1,
               ok(count + 1, count, 2) + refused("TooManyRows") + rows(pairs) + refused("TooManyRows"))
    yield Case("a row too many at a moment, and by blocks",
               [braces("N", (f"a {i}" for i in range(count))), "history on; at 0 select Y, X from N.a X, N.a Y;",
                "blocks select Y, X from N.a X, N.a Y;"], 1, ok(count + 1, count, 2) * 2 + refused("TooManyRows") * 2)
    cells = [" | ".join([f"&{i} {{}}", f"&{j} 0"] * (ITEMS // 2)) for i in range(2, 27) for j in range(27, count + 27)]
    yield Case("as many rows as there may be, with as many cells",
               [braces("N", ["a {}"] * 25 + ["b 0"] * count),
                f"select {', '.join(['X, Y'] * (ITEMS // 2))} from N.a X, N.b Y;"], 0,
               ok(count + 26, count + 25, 3) + rows(cells))
    some = 1_500
    yield Case("millions of choices and few rows",
               [braces("N", (f"a {i % 5}" for i in range(some))), "select X from N.a X, N.a Y;"], 0,
               ok(some + 1, some, 2) + rows(f"&{i + 2} {i % 5}" for i in range(some)))


def statement_cases():
    replies = "".join(ok(i + 1, 0, i + 1) + rows([f"&{i + 1} {i}"]) for i in range(NAMES))
    shown = "".join(f"{name} 1\n" for name in sorted(f"n{i}" for i in range(NAMES)))
    yield Case("as many names as there may be, each asked, and their guide",
               [*(f"load n{i} := {i}; select n{i};\n" for i in range(NAMES)), "guide;"], 0, replies + f"{shown}nodes {NAMES}\n")
    items = 100_000
    yield Case("a select of a hundred thousand items", ["load A := 1; select ", "A, " * (items - 1), "A;"], 1,
               ok(1, 0, 1) + refused("TooManyRanges"))
    members = 4 * OBJECTS
    yield Case("a literal of far too many members", [numbered(members)], 1, refused("TooManyObjects"))
    steps = 200_000
    start, state, found = "load G := { a 1, a 2 };", ok(3, 2, 2), rows(["&2 1", "&3 2"])
    chain = ", ".join(["G.a V0", *(f"V{i} V{i + 1}" for i in range(steps))])
    yield Case(f"{steps} ranges that fuse to one", [start, f"select V{steps} from {chain};"], 0, state + found)
    chain = ", ".join(["G.a V0", *(f"V{i}@P{i + 1} V{i + 1}" for i in range(steps))])
    yield Case(f"{steps} path variables",
               [start, f"select V{steps} from {chain}; select path-of(P{steps}), V{steps} from {chain};"], 0,
               state + found + rows([". | &2 1", ". | &3 2"]))
    tests = " and ".join(["1 = 1"] * steps)
    yield Case(f"{steps} comparisons in one condition",
               [start, f"select G where {tests}; select G where {tests} and 1 = 2;",
                f"select G where not ({' or '.join(['1 = 2'] * steps)});"], 0,
               state + rows(["&1 {}"]) + rows([]) + rows(["&1 {}"]))
    levels = [" ".join(f"exists X{i} in G :" for i in range(count)) for count in [LEVELS, LEVELS + 1]]
    yield Case("as many quantifiers one in another as there may be, and one more",
               [start, *(f"select G where {each} X0.a = 2;" for each in levels)], 1,
               state + rows(["&1 {}"]) + refused("Syntax"))


def label_cases():
    last = LABELS - 1
    yield Case("as many labels as there may be", [labelled("L", LABELS), f"select L.l{last};"], 0,
               ok(2, LABELS, 2) + rows(["&2 0"]))
    yield Case("a label too many", [labelled("L", LABELS + 1), "load L := { l0 0 }; select L.l0;"], 1,
               refused("TooManyLabels") + ok(2, 1, 2) + rows(["&2 0"]))
    yield Case("labels that vanished objects had", [labelled("L", LABELS), "load L := {}; update L.x += 1;"], 1,
               ok(2, LABELS, 2) + ok(1, 0, 1) + refused("TooManyLabels"))
    yield Case("labels that refused statements would bring", [labelled("L", last),
               "update L.l0.x += 1; load L := { x &1 }; load L := { x 1, y 2 }; update L.none.x += 1;",
               "update L.last += 1; update L.x += 1; load M := { x 1 }; update L.y += L; update L.l0 += L;"], 1,
               ok(2, last, 2) + refused("AtomicParent") + refused("UndefinedLocal") + refused("TooManyLabels") + ok(2, last, 2)
               + ok(3, LABELS, 3) + refused("TooManyLabels") * 3 + ok(3, LABELS + 1, 4))
    yield Case("many atoms gone beside many labels", [labelled("L", last), numbered(ROWS), "unname A;"], 0,
               ok(2, last, 2) + ok(ROWS + 3, last + ROWS, 4) + ok(2, last, 2))
    yield Case("as many labels as there are, browsed", [labelled("L", LABELS), "browse L;"], 0,
               ok(2, LABELS, 2) + "".join(["at L 1\n", *(f".l{i} 1\n" for i in range(LABELS)), f"labels {LABELS}\n"]))
    parts = ", ".join(f"x {{ {', '.join(f'l{i} &1' + ' 0' * (i == 1) for i in range(first, MIXED, 2))} }}" for first in (1, 0))
    yield Case("members whose labels come among one another's, of many", [labelled("L", MIXED), f"load A := {{ {parts} }};",
               "browse A.x; select A.x.l7;"], 0,
               ok(2, MIXED, 2) + ok(6, 2 * MIXED + 2, 5)
               + "".join(["at A.x 2\n", *(f".l{i} 1\n" for i in range(MIXED)), f"labels {MIXED}\n"]) + rows(["&5 0"]))
    asked = ("select L.%; select L.l%; select L.%9; select L.#; select L.%.%;"
             "select path-of(P) from L.%@P X; select path-of(P) from L.%5@P X;")
    one = rows(["&2 0"])
    answers = one * 3 + rows(["&1 {}", "&2 0"]) + rows([]) + rows([".l0"]) + rows([".l5"])
    yield Case("one object under as many labels as there may be, by two plans",
               [labelled("L", LABELS), "set plan top;", asked, "set plan guide;", asked], 0,
               ok(2, LABELS, 2) * 2 + answers + ok(2, LABELS, 2) + answers)


def name_cases():
    counts = "".join(ok(i, 0, i) for i in range(1, NAMES + 1))
    loads = [f"load n{i} := 0;\n" for i in range(NAMES)]
    more = f"load n{NAMES} := 0;\n"
    yield Case("a name too many", [*loads, more, "unname n0;", more], 1,
               counts + refused("TooManyNames") + ok(NAMES - 1, 0, NAMES - 1) + ok(NAMES, 0, NAMES))
    rest = OBJECTS - NAMES
    yield Case("causes before and behind a name too many",
               [*loads, "name m := n0.a; name m := n0; load m := { x &1 };", braces("m", ["a 0"] * OBJECTS),
                braces("n0", ["a 0"] * rest), "name n0 := n1; load n0 := { a 0 };"], 1,
               counts + refused("NotOne") + refused("TooManyNames") + refused("UndefinedLocal") + refused("TooManyNames")
               + ok(OBJECTS, rest, NAMES + 1) + ok(NAMES - 1, 0, NAMES - 1) + ok(NAMES + 1, 1, NAMES + 1))
    yield Case("many objects of two names", [numbered(MEMBERS), "name B := A; unname A; unname B;"], 0,
               ok(OBJECTS, MEMBERS, 2) * 3 + ok(0, 0, 0))


def size_cases():
    state = ok(OBJECTS, MEMBERS, 2)
    yield Case("as many objects as there may be, again and again", [numbered(MEMBERS)] * 3, 0, state * 3)
    values = [i * 40_503 % OBJECTS for i in range(MEMBERS)]
    yield Case("as many numbers and texts in no order, ten times",
               [braces("A", (f"a {value}" if i % 2 else f'a "{value}"' for i, value in enumerate(values)))] * 10, 0, state * 10)
    members, row_count = 300, 300 * 300
    fits = (EDGES - members) // row_count
    links = (f"update X.l{i} += Y from N.a X, N.a Y;" for i in range(fits + 1))
    yield Case("edges from all members to all members", [braces("N", ["a {}"] * members), *links], 1,
               "".join(ok(members + 1, members + row_count * i, 2) for i in range(fits + 1)) + refused("TooManyEdges"))
    yield Case("a ring by locals",
               [braces("R", (f"m &{i} {{ next &{(i + 1) % MANY} }}" for i in range(MANY))),
                "update R.m -= R.m; select R.m; unname R; load R := 1; select R;"], 0,
               ok(MANY + 1, 2 * MANY, 2) + ok(1, 0, 1) + rows([]) + ok(0, 0, 0) + ok(1, 0, 1) + rows([f"&{MANY + 2} 1"]))
    large = min(OBJECTS - OBJECTS // 16, ROWS)
    each = min(large, LAST_NUMBER // large - 2)  # so that the numbers would do
    yield Case("copies that are counted before they are made",
               [braces("P", ["x {}"] * large), f"update P.x.y += {{ {', '.join(['a 0'] * each)} }};",
                f"update P.x.y += {{ a &1 0, {', '.join(['a &1'] * large)} }};", "update P.y += 1;"], 1,
               ok(large + 1, large, 2) + refused("TooManyObjects") * 2 + ok(large + 2, large + 1, 3))
    apart = ["a { v 1, w 2 }", *["m 0"] * 100, "a { v 3, w 4 }"]
    yield Case("changes of objects far apart",
               [braces("A", apart), "update A.a.v := 5; update X.y += Y from A.a X, A.a.w Y;",
                "select A.a.v, A.a.y; select X.y from A.a X where X.v = 5;"], 0,
               ok(107, 106, 5) * 2 + ok(107, 110, 5) + rows(["&3 5 | &4 2", "&3 5 | &107 4", "&106 5 | &4 2", "&106 5 | &107 4"])
               + rows(["&4 2", "&107 4"]))


def update_cases():
    state, values = ok(MANY + 1, MANY, 2), ["7", '"seven"', "{}"]
    turn = "".join(f"update A.a := {value}; sample A.a {SAMPLES};" for value in values)
    yield Case("many objects given a number, a text and braces, twice", [numbered(MANY), turn * 2], 0,
               state + "".join(state + sampled(f"&{i + 2} {value}" for i in range(MANY)) for value in values) * 2)
    some, text = 5_000, "x" * TEXT_BYTES
    yield Case("a text as long as one may be given to thousands of objects, and taken away",
               [numbered(some), f'update A.a := "{text}"; sample A.a 1; update A.a := 1; sample A.a 1;'], 0,
               ok(some + 1, some, 2) * 2 + f'&2 "{text}"\nsample 1 of {some}\n' + ok(some + 1, some, 2)
               + f"&2 1\nsample 1 of {some}\n")
    yield Case("many objects given values before as many others, four times",
               [braces("A", ["a {}"] * ROWS), braces("B", (f"b {i}" for i in range(ROWS))), "update A.a := 7;"] * 4, 0,
               ok(ROWS + 1, ROWS, 2) + ok(2 * ROWS + 2, 2 * ROWS, 4) * 11)
    parents = min(MEMBERS // 3, ROWS)
    yield Case("as many copies as fit, cut off again, and their parents linked and cut off",
               [braces("B", ["m {}"] * parents), f'update B.m.c += {{ v "copy" }}; sample B.m.c.v {SAMPLES};',
                "update X.c -= Y from B.m X, X.c Y; update B.l += B.m; update B.m -= B.m; update B.l -= B.l; select B.#;"], 0,
               ok(parents + 1, parents, 2) + ok(3 * parents + 1, 3 * parents, 4)
               + sampled(f'&{parents + 3 + 2 * i} "copy"' for i in range(parents)) + ok(parents + 1, parents, 2)
               + ok(parents + 1, 2 * parents, 2) + ok(parents + 1, parents, 2) + ok(1, 0, 1) + rows(["&1 {}"]))
    yield Case("one copy of as many objects as fit",
               ["load D := {};", f"update D.c += {{ {', '.join(['m 0'] * (OBJECTS - 2))} }};", "update D.c -= D.c;"], 0,
               ok(1, 0, 1) + ok(OBJECTS, MEMBERS, 3) + ok(1, 0, 1))
    count, both = ROWS // 250, "update X.l += Y from N.a X, N.b Y; update X.l -= Y from N.a X, N.b Y;"
    yield Case("as many rows linked as an update may have, unlinked, and one more",
               [braces("N", ["a {}"] * 250 + ["b 0"] * count), both, "update N.b += 0;", both], 1,
               ok(count + 251, count + 250, 3) + ok(count + 251, count + 250 + ROWS, 3) + ok(count + 251, count + 250, 3)
               + ok(count + 252, count + 251, 3) + refused("TooManyRows") * 2)
    half = min((OBJECTS - 3) // 2, ROWS)
    yield Case("half of the objects linked elsewhere, and then cut off",
               [f"load H := {{ a {{ {', '.join(['m 0'] * half)} }}, b {{ {', '.join(['m 0'] * half)} }} }};",
                f"update H.b.k += H.a.m; update H.a -= H.a; update H.b.k -= H.b.k; sample H.b.m {SAMPLES};"], 0,
               ok(2 * half + 3, 2 * half + 2, 5) + ok(2 * half + 3, 3 * half + 2, 5) + ok(2 * half + 2, 2 * half + 1, 4)
               + ok(half + 2, half + 1, 3) + sampled(f"&{i} 0" for i in range(half + 4, 2 * half + 4)))


def condition_cases():
    count = min(MEMBERS // 2, ROWS)
    state, one, none = ok(2 * count + 1, 2 * count, 3), rows(["&1 {}"]), rows([])
    found = [f"&{2 + 2 * i} {{}}" for i in range(count)]
    whole = (f"select C where C.r.v = {count - 1}; select C where C.r.v = {count};"
             "select C where C.r == C.r; select C where C.r == C.r.v;"
             f"select C where for all X in C.r : X.v < {count}; select C where for all X in C.r : X.v < {count - 1};"
             f"select C where exists X in C.r : X.v = {count - 1}; select X from C.r X where X.v > {count - 4};")
    answers = (one + none) * 3 + one + rows(found[-3:])
    values = ("explain select X from C.r X where X.v >= 0;"
              f"select X from C.r X where X.v >= 0 and for all Y in X.v : Y < {count - 3};"
              f'update C.r.v := "many"; select X from C.r X where X.v >= 0; select X from C.r X where X.v = "many";')
    yield Case("conditions over many objects, by each plan",
               [braces("C", (f"r {{ v {i} }}" for i in range(count))),
                *(f"set plan {plan}; {whole}" for plan in ["top", "guide", "bottom"]), values], 0,
               state + (state + answers) * 3 + f"plan bottom {count} {count}\n" + rows(found[:-3]) + state + none + rows(found))
    pairs = min(MEMBERS // 5, ROWS)
    yield Case("one object or two, many times over",
               [braces("E", ["r { v 0, w 0 }, r { v &LOCAL 0, w &LOCAL }".replace("LOCAL", str(i)) for i in range(pairs)]),
                "select X from E.r X where X.v == X.w; select X from E.r X where not X.v == X.w;"], 0,
               ok(5 * pairs + 1, 6 * pairs, 4) + rows(f"&{5 + 5 * i} {{}}" for i in range(pairs))
               + rows(f"&{2 + 5 * i} {{}}" for i in range(pairs)))
    labels, texts = 256, 64  # of what there may be a sixteenth: the index of values has a copy of each text for each label
    shown = [str(i).rjust(TEXT_BYTES, "x") for i in range(texts)]
    first = [f'l0 &{i} "{text}"' for i, text in enumerate(shown)]
    more = [f"l{label} &{i}" for label in range(1, labels) for i in range(texts)]
    asked = [f'select R from T.r R where R.l{label} = "{shown[-1]}";' for label in (0, labels - 1)]
    state = ok(texts + 2, labels * texts + 1, 3)
    yield Case("texts as long as they may be, each under many labels",
               [f"load T := {{ r {{ {', '.join(first + more)} }} }};", "set plan bottom; explain ", asked[0], *asked,
                f"update T.r.l0 := 5; explain select R from T.r R where R.l{labels - 1} = 5;"], 0,
               state * 2 + "plan bottom 1 1\n" + rows(["&2 {}"]) * 2 + state + f"plan bottom {texts} 1\n")


def node_cases():
    last = START_NODES - 1
    full = ok(START_NODES, 2 * last - 1, START_NODES)
    yield Case("as many sets as there may be, and one more", [braces("A", (f"l{i} 0" for i in range(last))),
               "update A.l0 += 1; update A.l0 += A.l1; update A.l5 += A.l5; name B := A.l0; load B := 1;",
               "update A.l0 -= A.l1; load B := 1;"], 1,
               ok(START_NODES, last, START_NODES) + ok(START_NODES + 1, START_NODES, START_NODES)
               + ok(START_NODES + 1, START_NODES + 1, START_NODES) * 2 + refused("NotOne") + refused("GuideNodes")
               + ok(START_NODES + 1, START_NODES, START_NODES) + refused("GuideNodes"))
    yield Case("more labels than there may be sets", [braces("A", (f"l{i} 0" for i in range(START_NODES))), "guide;"], 1,
               refused("GuideNodes") + "nodes 0\n")
    yield Case("sets of many objects and fewer",
               [in_turn(last), in_turn(START_NODES), f"set nodes {last}; load C := 1; set nodes 1;"], 1,
               full + refused("GuideNodes") + refused("LimitRange") + ok(1, 0, 1) * 2)
    lines = "".join(f"C.m{'.n' * i} {last - i}\n" for i in range(last))
    yield Case("a guide of as many nodes as there may be, with long paths",
               [in_turn(last), "guide; set plan guide; explain select C.#; select C.#;"], 0,
               full + f"C 1\n{lines}nodes {START_NODES}\n" + full + "plan guide - -\n"
               + rows([*(f"&{i} {{}}" for i in range(1, START_NODES)), f"&{START_NODES} 0"]))
    yield Case("sets that double with each object", [doubling(START_NODES.bit_length()), doubling(1_000), "guide;"], 1,
               refused("GuideNodes") * 2 + "nodes 0\n")
    most = NODES.bit_length() - 1
    yield Case("as many sets as `set nodes` allows at most, and twice as many",
               [doubled(most), f"set nodes {NODES};", doubled(most), doubled(most + 1), f"set nodes {NODES + 1};",
                f"set nodes {NODES - 1};", "unname Q; set nodes 1;"], 1,
               refused("GuideNodes") + ok(0, 0, 0) + ok(most + 1, 2 * most + 1, NODES) + refused("GuideNodes")
               + refused("LimitRange") * 2 + ok(0, 0, 0) * 2)


def cell_cases():
    fits = longest_chain()
    at = passing_set(fits + 1)
    longer = in_turn(fits + 1)
    yield Case("as many members of sets as there may be, nearly, and some more",
               [f"set nodes {at - 1};", longer, f"set nodes {at};", longer, f"set nodes {NODES};", longer, in_turn(fits), longer,
                "update C.y += X from C.m X where exists Y in X.n.n.n : Y == Y; update C.z += 0;"], 1,
               ok(0, 0, 0) + refused("GuideNodes") + (ok(0, 0, 0) + refused("GuideCells")) * 2
               + ok(fits + 1, 2 * fits - 1, fits + 1) + refused("GuideCells") * 2 + ok(fits + 2, 2 * fits, fits + 2))
    for count, replies in [(fits, ok(fits + 1, 2 * fits - 1, fits + 1)), (fits + 1, refused("BadRestore"))]:
        text = [head(count + 2).replace(f"nodes {START_NODES}", f"nodes {NODES}"), "label m\nlabel n\nname C &1\nobject &1 {}\n"]
        text += [*(f"object &{i} {{}}\n" for i in range(2, count + 1)), f"object &{count + 1} 0\n"]
        text += [f"edge &1 m &{i}\n" for i in range(2, count + 2)] + [f"edge &{i} n &{i + 1}\n" for i in range(2, count + 1)]
        yield Case(f"a dump of a chain of {count}", ["restore ", *text, "end;"], int("refused" in replies), replies)


def word_cases():
    words = ["." if i == 0 else ".n" * i for i in range(2_000)]
    yield Case("words around a ring", [around(2_000, 0), "select path-of(P) from C.first X, X.n*@P Y;"], 0,
               ok(2_002, 4_002, 2_003) + rows(words))
    # The words round a ring of n objects have n * (n - 1) / 2 labels, and a word more has half as many as the ring has objects.
    ring = isqrt(2 * WORD_LABELS // ITEMS)
    words = [".n" * i or "." for i in range(ring)]
    words.insert(ring // 2 + 1, ".n" * (ring // 2 - 1) + ".s")
    asked = f"select {', '.join(['path-of(P)'] * ITEMS)} from C.first X, X(.n|.s)*@P Y;"
    yield Case("as many labels in words as an answer may have, and some more",
               [around(ring, ring // 2), asked, "update C.first.s += 0;", asked, "explain ", asked], 1,
               ok(ring + 2, 2 * ring + 3, ring + 3) + rows(" | ".join([word] * ITEMS) for word in words)
               + ok(ring + 3, 2 * ring + 4, ring + 5) + refused("TooManyRows") + "plan top - -\n")
    each = WORD_LABELS // 4
    ring = (1 + isqrt(1 + 8 * each)) // 2
    left = each - ring * (ring - 1) // 2
    words = [".n" * i or "." for i in range(ring)]
    words.insert(left + 1, ".n" * (left - 1) + ".s")
    asked = f"select {'path-of(P), ' * 4}path-of(Q) from C.first X, X(.n|.s)*@P Y, Y.t?@Q Z;"
    yield Case("as many labels in words as an answer may have, and one more",
               [around(ring, left), asked, "update C.first.t += 0;", asked], 1,
               ok(ring + 2, 2 * ring + 3, ring + 3) + rows(f"{' | '.join([word] * 4)} | ." for word in words)
               + ok(ring + 3, 2 * ring + 4, ring + 4) + refused("TooManyRows"))
    ring = 4_000
    yield Case("far more labels in words than an answer may have",
               [around(ring, 0), f"select {', '.join(['path-of(P)'] * ITEMS)} from C.first X, X({'.n' * 61})+@P Y;"], 1,
               ok(ring + 2, 2 * ring + 2, ring + 3) + refused("TooManyRows"))
    ring, step = 2_048, LEAVES - 1
    yield Case("a word of many labels",
               [around(ring, 0), f"select path-of(P) from C.first X, X({'.n' * step})+@P Y where Y == X;"], 0,
               ok(ring + 2, 2 * ring + 2, ring + 3) + rows([".n" * lcm(ring, step)]))


def path_cases():
    some = 3_000
    yield Case("millions of choices and one word", [braces("N", ["a 0"] * some), "select path-of(P) from N.a@P X, N.a Y;"], 0,
               ok(some + 1, some, 2) + rows([".a"]))
    shown = [f".a | &{i + 2} {i}" for i in range(MANY)]
    yield Case("a word to each of many objects, by one leaf and by as many as there may be",
               [numbered(MANY), "select path-of(P), X from A.%@P X;",
                f"select path-of(P), X from A{'.#' * (LEAVES - 1)}.%@P X;"], 0,
               ok(MANY + 1, MANY, 2) + rows(shown) * 2)
    many = min(MEMBERS // 2, ROWS)
    yield Case("a word from each of many objects",
               [braces("C", (f"r {{ v {i} }}" for i in range(many))), "select path-of(P), X from C.r R, R.v@P X;"], 0,
               ok(2 * many + 1, 2 * many, 3) + rows(f".v | &{3 + 2 * i} {i}" for i in range(many)))
    leaves = ", ".join(["c { v 1 }"] * 10_000)
    yield Case("words to ten thousand ends, which come first",
               [f"load G := {{ p &1 {{ h &3 {{ {leaves} }} }}, p &2 {{ h &3 }} }};", "set plan bottom;",
                "select path-of(P) from G.p X, X.#@P Y where Y.v = 1;"], 0,
               ok(20_004, 20_004, 5) * 2 + rows([".h.c"]))
    deep = (OBJECTS - 2) // 2
    yield Case("a path over many objects, fifty times",
               [f"load D := {{ r {{ {', '.join(['m { x 0 }'] * deep)} }} }};", "set plan top;", "select D.r.m.x.y;" * 50], 0,
               ok(2 * deep + 2, 2 * deep + 1, 4) * 2 + rows([]) * 50)


def text_cases():
    """A name, labels and texts as long as they may be, with as many escapes as they may have."""
    name, text = "N" * LABEL_BYTES, "\n" * TEXT_BYTES
    label = "'\\\n\r\t" * (LABEL_BYTES // 5)
    label += "'" * (LABEL_BYTES - len(label))
    quoted, shown = quoted_label(label), f'"{escaped(text)}"'
    asked = (f"select {name}.{quoted}; select path-of(P) from {name}.%@P X;"
             f"guide; browse {name}; sample {name}.{quoted} 1; dump;")
    dump = f"{head(3)}label {quoted}\nname {name} &1\nobject &1 {{}}\nobject &2 {shown}\nedge &1 {quoted} &2\nend\n"
    answers = ok(2, 1, 2) + rows([f"&2 {shown}"]) + rows([f".{quoted}"]) + f"{name} 1\n{name}.{quoted} 1\nnodes 2\n"
    answers += f"at {name} 1\n.{quoted} 1\nlabels 1\n&2 {shown}\nsample 1 of 1\n{dump}"
    yield Case("a name, a label and a text as long as they may be",
               [f"load {name} := {{ {quoted} {shown} }};", asked], 0, answers)
    raw = label.replace("\\", "\\\\").replace("'", "\\'")
    yield Case("the same without the escapes that can be left out",
               [f"load {name} := {{ '{raw}' \"{text}\" }};", asked], 0, answers)
    yield Case("the same from its dump", ["restore ", dump, ";", asked], 0, answers)
    yield Case("a name, a label, a text and a pattern of one byte more",
               [f"load {name}N := 1; load A := {{ {quoted[:-1]}\\'' 1 }};",
                f"load A := {shown[:-1]}\\n\"; select A.{name}%;"], 1,
               refused("TextTooLong") * 4)


def long_label_cases():
    width = len(str(LABELS))
    labels = [quoted_label(f"{i:0{width}}" + "\t" * (LABEL_BYTES - width)) for i in range(LABELS)]
    each = STATEMENT_BYTES * 3 // 4 // (LABELS * (len(labels[0]) + 30))
    lines = [head(each + 2), *(f"label {it}\n" for it in labels), "name A &1\nobject &1 {}\n"]
    lines += [f"object &{i + 2} {i}\n" for i in range(each)]
    lines += [f"edge &1 {it} &{i + 2}\n" for it in labels for i in range(each)]
    dump = "".join([*lines, "end\n"])
    shown = "".join(["at A 1\n", *(f".{it} {each}\n" for it in labels), f"labels {LABELS}\n"])
    yield Case("all labels as long as they may be, with many edges", ["restore ", dump, "; dump; browse A;"], 0,
               ok(each + 1, LABELS * each, 2) + dump + shown)


def dump_cases():
    paths = EDGES // OBJECTS
    full = "".join(dump_text(LABELS, NAMES, MEMBERS, paths))
    yield Case("a dump of a full database", ["restore ", full, "; dump;"], 0, ok(OBJECTS, EDGES, 2) + full)
    over = [("label", (LABELS + 1, 1, 1, paths)), ("name", (8, NAMES + 1, 1, paths)), ("object", (8, 1, OBJECTS, 1)),
            ("edge", (2 * paths + 1, 1, MEMBERS, paths))]
    for name, more in over:
        text = "".join(dump_text(*more))
        if name == "edge":
            text = text.replace("end\n", f"edge &1 l{2 * paths} &1\nend\n")
        yield Case(f"a dump of one {name} too many", ["restore ", text, "; restore ", head(1), "end;"], 1,
                   refused("BadRestore") + ok(0, 0, 0))
    lines = [head(OBJECTS + 1), f"label a\nname A &{OBJECTS}\n", *(f"object &{i} {i}\n" for i in range(1, OBJECTS))]
    lines += [f"object &{OBJECTS} {{}}\n", *(f"edge &{OBJECTS} a &{i}\n" for i in range(1, OBJECTS)), "end\n"]
    dump = "".join(lines)
    yield Case("a dump whose name leads to its last object", ["restore ", dump, "; dump; unname A;"], 0,
               ok(OBJECTS, MEMBERS, 2) + dump + ok(0, 0, 0))
    lines = [head(OBJECTS + 1), "label a\nname A &1\nobject &1 {}\n", *(f"object &{i + 2} {i}\n" for i in range(MEMBERS))]
    dump = "".join([*lines, *(f"edge &1 a &{i + 2}\n" for i in range(MEMBERS)), "end\n"])
    yield Case("as many objects as there may be, dumped", [numbered(MEMBERS), "dump;"], 0, ok(OBJECTS, MEMBERS, 2) + dump)
    yield Case("the same from its dump, and dumped again", ["restore ", dump, "; dump;"], 0, ok(OBJECTS, MEMBERS, 2) + dump)
    words = ("true", '"false"', '"true"', "false")
    found = [f"&{i + 2} {words[i % 4]}" for i in range(MANY)]
    yield Case("as many flags as there may be rows, and texts that read so",
               [braces("F", (f"a {words[i % 4]}" for i in range(MANY))), "select F.a; select X from F.a X where X < true;"], 0,
               ok(MANY + 1, MANY, 2) + rows(found) + rows(found[1::2]))
    signed = [(-1) ** i * i * ROWS for i in range(MANY)]
    yield Case("as many numbers of both signs", [braces("A", (f"a {number}" for number in signed)), "select X from A.a X where X < 0;"], 0,
               ok(MANY + 1, MANY, 2) + rows(f"&{i + 2} {signed[i]}" for i in range(1, MANY, 2)))
    line = "label lost\n"
    entries = STATEMENT_BYTES // len(line) - 100
    yield Case("a dump text of almost the longest statement", ["restore ", head(1), line * entries, "end;"], 1,
               refused("BadRestore"))
    each = 2_000
    yield Case("a statement of many megabytes", [long_texts(1, each)[0][0]], 0, ok(each + 1, each, 2))
    names = STATEMENT_BYTES // (3_500 * each) + 1
    loads, dump = long_texts(names, each)
    yield Case("a dump longer than a statement may be", [*loads, "dump;"], 0,
               "".join(ok((each + 1) * i, each * i, 2 * i) for i in range(1, names + 1)) + dump)
    last, before = LAST_NUMBER, LAST_NUMBER - 1
    far = (f"{head(last + 1)}label a\nname A &1\nobject &1 {{}}\nobject &2 {{}}\nobject &{before} {{}}\nobject &{last} 5\n"
           f"edge &1 a &2\nedge &1 a &{before}\nedge &{before} a &{last}\nend\n")
    yield Case("numbers far apart", ["restore ", far, "; update A.a.a := 6; dump;"], 0,
               ok(4, 3, 3) * 2 + far.replace(" 5\n", " 6\n"))
    apart = range(2_000, 102_000, 1_000)
    dump = "".join([head(last), "label a\nname A &1\nobject &1 {}\n", *(f"object &{i} {i}\n" for i in apart),
                    *(f"edge &1 a &{i}\n" for i in apart), "end\n"])
    yield Case("many numbers far apart", ["restore ", dump, "; select A.a; select X from A.a X where X = 50000; dump;"], 0,
               ok(len(apart) + 1, len(apart), 2) + rows(f"&{i} {i}" for i in apart) + rows(["&50000 50000"]) + dump)


def made_cases():
    objects, edges, nodes = people(PERSONS)
    fits = min(OBJECTS // objects, EDGES // edges)
    script = [f"generate {LAST_SEED - i} {PERSONS}; name A{i} := People;" for i in range(fits)]
    counts = [ok(objects * i, edges * i, nodes * i) for i in range(1, fits + 1)]
    yield Case("as many generated objects as there are", [f"generate 0 {PERSONS};", *script, f"generate 1 {PERSONS};"], 1,
               counts[0] + "".join(count * 2 for count in counts) + refused("TooManyObjects"))
    yield Case("a sample of all objects", [numbered(MEMBERS), f"sample A.a {SAMPLES};"], 0,
               ok(OBJECTS, MEMBERS, 2) + sampled(f"&{i + 2} {i}" for i in range(MEMBERS)))


def script_cases():
    blanks, more = STATEMENT_BYTES, STATEMENT_BYTES + 1
    yield Case("a statement as long as one may be", [*repeated(" ", blanks), ";"], 1, refused("Syntax"))
    yield Case("a statement of one byte more", [*repeated(" ", more), ";"], 5, "")
    yield Case("a rest as long as one may be", repeated(" ", blanks), 0, "")
    yield Case("a rest of one byte more", ["load A := 1;", *repeated(" ", more)], 5, ok(1, 0, 1))
    script, replies = long_script(SCRIPT_BYTES)
    yield Case("a script as long as one may be", script, 1, replies)
    script, replies = long_script(SCRIPT_BYTES + 1)
    yield Case("a script of one byte more", script, 7, replies)


def heaviest_case():
    """A history that weighs exactly what it may. What goes weighs on, and what comes counts 64, and the bytes of a text beside."""
    some = 65_000
    left = HISTORY_WEIGHT - FACT_WEIGHT * (1 + (some + 1) + some)  # without the name, the objects and the edges
    fits = left // (some * (FACT_WEIGHT + TEXT_BYTES))
    left -= fits * some * (FACT_WEIGHT + TEXT_BYTES)
    each = left // some - FACT_WEIGHT  # bytes of the text that all may have then
    left -= some * (FACT_WEIGHT + each) + (2 * FACT_WEIGHT + TEXT_BYTES)  # and a name with an object that has the longest text
    last = left - 2 * FACT_WEIGHT  # bytes of the text that one more may have
    texts = [chr(97 + i) * TEXT_BYTES for i in range(fits + 1)] + ["y" * (each + 1), "z" * each]
    moment = fits + 5  # the last: behind the texts and the one of `each`, two loads, what changes nothing, and a name less
    full = refused("HistoryFull")
    state, more, most = (ok(some + 1 + i, some, 2 + i) for i in range(3))
    return Case("a history as heavy as it may be",
                [numbered(some), "history on;", *(f'update A.a := "{text}";' for text in texts),
                 f'load B := "{"b" * TEXT_BYTES}"; load C := "{"c" * (last + 1)}"; load C := "{"c" * last}"; load D := 1;',
                 "update A := {}; unname B; load D := 1;",
                 f"at 0 select X from A.a X where X = 7; at {moment} select X from A.a X where X = 7; at {moment + 1} select A;"], 1,
                state * (2 + fits) + full * 2 + state + more + full + most + full + most + more + full
                + rows(["&9 7"]) + rows([]) + refused("MomentRange"))


def begun_case():
    """A database that is too heavy for a history by one byte."""
    left = HISTORY_WEIGHT - FACT_WEIGHT * (1 + OBJECTS + MEMBERS)  # for texts: as many of the longest as fit, which fill it
    longest = left // TEXT_BYTES
    groups = ceil(longest / MANY)
    load = braces("A", [*(f"t{i % groups} {i}" for i in range(longest)), "e 7", *(["d 0"] * (MEMBERS - longest - 1))])
    texts = [f'update A.t{i} := "{"t" * TEXT_BYTES}";' for i in range(groups)]
    state = ok(OBJECTS, MEMBERS, groups + 3)
    return Case("a database too heavy for a history",
                [load, *texts, 'update A.e := "e"; history on; at 0 select A.e;'], 1,
                state * (groups + 2) + refused("HistoryFull") + refused("NoHistory"))


def history_cases():
    one = ok(1, 0, 1)
    yield Case("as many moments as there may be, and one more",
               ["load A := 1; history on;", *(["update A := 1;\n"] * (LAST_MOMENT + 1)),
                f"at {LAST_MOMENT} select A; at {LAST_MOMENT + 1} select A; changes 0 {LAST_MOMENT}; history off; update A := 1;"], 1,
               one * (LAST_MOMENT + 2) + refused("HistoryFull") + rows(["&1 1"]) + refused("MomentRange") + "changes 0\n" + one * 2)
    yield heaviest_case()
    yield begun_case()
    yield Case("an object that comes and goes at each moment",
               ["load A := {}; history on;", *(["update A.b += 1;\n", "update A.b -= A.b;\n"] * 10_000),
                f"at 1 select A.b; at 2 select A.b; at {2 * 10_000 - 1} select A.b;"], 0,
               one * 2 + (ok(2, 1, 2) + one) * 10_000 + rows(["&2 1"]) + rows([]) + rows([f"&{10_000 + 1} 1"]))


def block_cases():
    yield Case("blocks of as many objects as there may be", [numbered(OBJECTS - 1), "blocks; blocks select A.a.b;"], 0,
               ok(OBJECTS, OBJECTS - 1, 2) + f"block &1 1\nblock &2 {OBJECTS - 1}\nblocks 2\n" + rows([]))
    lines = "".join(f"block &{i} 1\n" for i in range(1, 14))
    yield Case("twelve objects of which the guide has each set", [doubled(12), "blocks;"], 0, ok(13, 25, 4096) + lines + "blocks 13\n")


def view_cases():
    side = isqrt(ROWS)
    pairs = [f"&{i} 0 | &{j} 0" for i in range(2, side + 2) for j in range(2, side + 2)]
    watches = [f"watch v{i} := select X, Y from N.a X, N.a Y;" for i in range(VIEWS + 1)]
    yield Case("as many views as there may be of nearly as many rows, and one more",
               [braces("N", ["a 0"] * side), *watches, f"update N.b += 1; show v0; update N.a += 1; show v{VIEWS - 1};"], 1,
               ok(side + 1, side, 2) * (VIEWS + 1) + refused("TooManyViews") + ok(side + 2, side + 1, 3) + rows(pairs)
               + ok(side + 3, side + 2, 3) + refused("TooManyRows"))
    watches = ["watch v%d := select A(%s);" % (i, "|".join(f".%y{i}_{leaf}" for leaf in range(LEAVES))) for i in range(VIEWS)]
    labels = ", ".join(["x0 &1 1", *(f"x{i} &1" for i in range(1, LABELS))])
    yield Case("a change of as many labels as there may be, which concerns none of as many views of as many steps",
               ["load A := {};", *watches, f"load B := {{ {labels} }}; show v0;"], 0,
               ok(1, 0, 1) * (VIEWS + 1) + ok(3, LABELS, 3) + rows([]))


def cases():
    """All cases, one after another, since each may hold many megabytes."""
    for group in [row_cases, statement_cases, label_cases, name_cases, size_cases, update_cases, condition_cases, node_cases,
                  cell_cases, word_cases, path_cases, text_cases, long_label_cases, dump_cases, made_cases, generated_cases,
                   history_cases, block_cases, view_cases, join_cases, script_cases]:
        yield from group()


def told(case, got, written):
    """What is wrong with a run, in a line."""
    bytes_of = [written, case.replies.encode()]
    sizes, sums = [len(it) for it in bytes_of], [hashlib.sha256(it).hexdigest()[:8] for it in bytes_of]
    return (f"{case.name}: status {got} in place of {case.status}, {sizes[0]} bytes in place of {sizes[1]}, "
            f"{sums[0]} in place of {sums[1]}")


def main(words):
    if len(words) > 1:
        print("large.py: at most one word, the path of a program", file=sys.stderr)
        return 2
    program = words[0] if words else PROGRAM
    failed = 0
    for case in cases():
        try:
            got, written = run(program, case)
        except (OSError, subprocess.SubprocessError) as error:
            print(f"large.py: {program}: {getattr(error, 'strerror', None) or error}", file=sys.stderr)
            return 2
        if (got, written) != (case.status, case.replies.encode()):
            failed += 1
            print(told(case, got, written), flush=True)
    return 1 if failed else 0


if __name__ == "__main__":
    signal.signal(signal.SIGINT, signal.SIG_DFL)  # an interrupt and a closed pipe end it quietly
    signal.signal(signal.SIGPIPE, signal.SIG_DFL)
    sys.exit(main(sys.argv[1:]))
