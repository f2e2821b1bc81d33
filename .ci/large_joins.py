"""Questions that could be answered by trying all pairs, by tests that wait until a row is whole, or by a walk from each row.

Each is made for any number of members, and its replies are worked out here. `large.py` asks them of tens of thousands and looks
at the replies; `large_counts.py` counts what they take of hundreds or thousands, and looks at the replies too.
"""
from dataclasses import dataclass

from large_scripts import Case, braces, ok, rows

EACH = 60_000  # members on each side in `large.py`
SECONDS = 600  # of a processor in `large.py`, against a run that hangs
SCATTER = 7_919  # has no divisor with a number of members in common


@dataclass
class Asked:
    """Questions of what a load brings, each a text with its replies."""

    name: str
    load: str
    state: str
    questions: list


def by_two_plans(question, state, found):
    """A question by two plans, with its replies: the last line of the state comes behind each `set plan`."""
    return f"set plan auto; {question} set plan top; {question}", (state.splitlines(True)[-1] + found) * 2


def key_of(place, each):
    """What the member at a place refers to: each key twice, in no order, and some that nobody has."""
    return each + place if place % 11 == 0 else place // 2 * SCATTER % each


def left_member(key):
    return f"&{2 + 2 * key} {{}}"


def right_member(place, each):
    return f"&{3 + 2 * each + 2 * place} {{}}"


def two_sides(each):
    """Loads of members with keys, and of members that refer to them, every seventh by a text; and the replies."""
    refs = (f'"{key_of(i, each)}"' if i % 7 == 0 else key_of(i, each) for i in range(each))
    load = braces("A", (f"x {{ k {i} }}" for i in range(each))) + braces("B", (f"y {{ ref {ref} }}" for ref in refs))
    return load, ok(2 * each + 1, 2 * each, 3) + ok(4 * each + 2, 4 * each, 6)


def joined(each):
    """The places of the members that refer to each key, in order."""
    found = {key: [] for key in range(each)}
    for place in range(each):
        found.get(key_of(place, each), []).append(place)
    return found


def join(each):
    load, state = two_sides(each)
    found = joined(each)
    by_key = rows(f"{left_member(key)} | {right_member(place, each)}" for key in range(each) for place in found[key])
    low = rows(f"{left_member(key)} | {right_member(place, each)}" for key in range(each // 2) for place in found[key])
    places = sorted((place, key) for key in range(each) for place in found[key])
    by_place = rows(f"{right_member(place, each)} | {left_member(key)}" for place, key in places)
    once, text = next((key, found[key][0]) for key in range(each) if len(found[key]) == 1 and found[key][0] % 7 == 0)
    to_all = rows(f"{left_member(key)} | {right_member(text, each)}" for key in range(each))
    return Asked("a join with as many", load, state, [
        ("select X, Y from A.x X, B.y Y where X.k = Y.ref;", by_key),
        ("select X, Y from B.y Y, A.x X where Y.ref = X.k;", by_key),
        ("select Y, X from A.x X, B.y Y where X.k = Y.ref and Y.ref = X.k;", by_place),
        ("select X, Y from A.x X, B.y Y where Y.ref = X.k;", by_key),
        (f"select X, Y from A.x X, B.y Y where X.k = Y.ref and Y.ref < {each // 2};", low),
        (f"select X, Y from A.x X, B.y Y where Y.ref = {once};", to_all)])


def filtered(each):
    load, state = two_sides(each)
    found = {key: rows(f"{left_member(key)} | {right_member(place, each)}" for place in range(each)) for key in (0, 7)}
    asked = [("X.k = 7", found[7]), ("X.k < 1", found[0]), ("not X.k != 7", found[7])]
    return Asked("a condition on one, beside as many", load, state,
                 [by_two_plans(f"select X, Y from A.x X, B.y Y where {cond};", state, pairs) for cond, pairs in asked])


def first_of_three(each):
    """What concerns the first range alone is told before the second one is filled, whatever else is asked of the third."""
    load, state = two_sides(each)
    load += braces("C", ["z 0", "z 1"])
    state += ok(4 * each + 5, 4 * each + 2, 8)
    zero, one = (f"&{4 * each + 4 + i} {i}" for i in range(2))
    to_first = [f"{left_member(7)} | {right_member(place, each)} | {zero}" for place in range(each)]
    found = joined(each)
    places = sorted((place, member) for key, member in enumerate((zero, one)) for place in found[key])
    referring = [f"{left_member(0)} | {right_member(place, each)} | {member}" for place, member in places]
    asked = [("X.k = 7 and Z != 1", to_first), ("Y.ref = Z and not X.k >= 1", referring)]
    return Asked("a condition on the first of three", load, state, [
        by_two_plans(f"select X, Y, Z from A.x X, B.y Y, C.z Z where {cond};", state, rows(lines)) for cond, lines in asked])


def shared(each):
    """All lead to one object with as many members: a test that walks from each of them meets each member as many times."""
    records = [f"x {{ s &1 {{ {', '.join(f'm {i}' for i in range(each))} }} }}", *["x { s &1 }"] * (each - 1)]
    state = ok(2 * each + 2, 3 * each, 4) * 2
    conds = [f"exists S in X.s : (S.m < {each} and S.m = {each})", f"exists S in X.s : S.m = {each}",
             f"exists M in X.s.m : M = {each}", "X.s.m == S", f"X.s.m = {each}"]
    return Asked("a condition on what all share", braces("A", records) + "name S := A.x.s;", state,
                 [by_two_plans(f"select X from A.x X where {cond};", state, rows([])) for cond in conds])


def passing(each):
    """The condition, of which no index tells, is met by the first members: few beside those that fail it."""
    first, others = 70, each // 500
    rest = 2 * each + 3  # the number of the first member of C
    load = braces("A", (f"x {{ k {i} }}" for i in range(each))) + braces("C", ["y {}"] * others)
    state = ok(2 * each + 1, 2 * each, 3) + ok(rest + others - 1, 2 * each + others, 5)
    found = rows(f"{left_member(i)} | &{rest + j} {{}}" for i in range(first) for j in range(others))
    return Asked("a condition that is met before it isn't", load, state,
                 [(f"select X, Y from A.x X, C.y Y where not X.k >= {first};", found)])


def meeting(each):
    """Each member leads to one, and one leads to each: joins of objects and not of values, from either side."""
    leads = [place * SCATTER % each for place in range(each)]
    load = braces("A", (f"x &{place} {{ to &{to} }}" for place, to in enumerate(leads)))
    members = [f"&{2 + place} {{}}" for place in range(each)]
    led = rows(f"{members[place]} | {members[to]}" for place, to in enumerate(leads))
    back = rows(f"{members[to]} | {members[place]}" for to, place in sorted((to, place) for place, to in enumerate(leads)))
    return Asked("a join with what members lead to", load, ok(each + 1, 2 * each, 2), [
        ("select X, Y from A.x X, A.x Y where X.to == Y;", led), ("select X, Y from A.x X, A.x Y where Y == X.to;", led),
        ("select Y, X from A.x Y, A.x X where X.to == Y;", back),
        ("select X, Y from A.x X, A.x Y where exists T in Y.to : T == X;", back)])


def ranked(each):
    """All are of one kind, which tells nothing, and each refers to one by its key, which tells all, whichever stands first."""
    refers = [place * SCATTER % each for place in range(each)]
    load = braces("A", ["kind &1 {}", *(f"x {{ kind &1, part {{ k {place} }}, ref {ref} }}" for place, ref in enumerate(refers))])
    pairs = rows(f"&{3 + 4 * place} {{}} | &{3 + 4 * ref} {{}}" for place, ref in enumerate(refers))
    key, kind, part = "X.ref = Y.part.k", "X.kind == Y.kind", "(exists P in Y.part : P.k = X.ref)"
    return Asked("a join by a key, of which one kind tells nothing", load, ok(4 * each + 2, 5 * each + 1, 6), [
        (f"select X, Y from A.x X, A.x Y where {cond};", pairs) for cond in (f"{kind} and {key}", f"{key} and {kind}", part)])


def common(each):
    """Each key is had by a hundred, among which each of some hundreds finds those that have its own."""
    keys, others = each // 100, 3 * each // 200
    rest = 3 + 2 * each  # the number of the first member of C
    load = braces("A", (f"x {{ k {i % keys} }}" for i in range(each))) + braces("C", (f"y {{ ref {j % keys} }}" for j in range(others)))
    state = ok(2 * each + 1, 2 * each, 3) + ok(rest - 1 + 2 * others, 2 * each + 2 * others, 6)
    found = rows(f"&{rest + 2 * j} {{}} | {left_member(i)}" for j in range(others) for i in range(j % keys, each, keys))
    return Asked("a join by a key that a hundred have", load, state, [("select Y, X from C.y Y, A.x X where X.k = Y.ref;", found)])


def ring(each):
    """Each leads on to all, round a ring: what leads to a value is found once, and not by a walk from each."""
    load = braces("A", (f"x &{place} {{ k {place}, next &{(place + 1) % each} }}" for place in range(each)))
    members = [left_member(place) for place in range(each)]
    conds = [("X.next+.k = 5", members), ("exists Y in X.next+ : Y.k = 5", members),
             ("X.next+.k = 5 and not X.k != 7", members[7:8])]
    asked = [(f"select X from A.x X where {cond};", rows(found)) for cond, found in conds]
    keyed = rows(f"&{3 + 2 * place} {place} | {member}" for place, member in enumerate(members))
    asked.append((f"select X.k, X from A.x X where X.k < {each} and X.next+.k = 5;", keyed))
    return Asked("a condition that takes long walks", load, ok(2 * each + 1, 3 * each, 3), asked)


def key(number):
    return f"&{3 + 2 * number} {number}"


def reference(place, each):
    """What a member refers to, as it is shown."""
    kept = key_of(place, each)
    return f"&{4 + 2 * each + 2 * place} " + (f'"{kept}"' if place % 7 == 0 else f"{kept}")


def shown(each):
    """What is compared is shown too, beside something else of each: from either side, from both, and with a value."""
    load, state = two_sides(each)
    found = joined(each)
    pairs = [(number, place) for number in range(each) for place in found[number]]
    left = rows(f"{key(number)} | {left_member(number)} | {right_member(place, each)}" for number, place in pairs)
    right = rows(f"{left_member(number)} | {right_member(place, each)} | {reference(place, each)}" for number, place in pairs)
    both = rows(f"{key(number)} | {left_member(number)} | {right_member(place, each)} | {reference(place, each)}"
                for number, place in pairs)
    low = rows(f"{key(number)} | {left_member(number)} | {right_member(place, each)}" for number, place in pairs if number < each // 2)
    to_all = rows(f"{key(7)} | {left_member(7)} | {right_member(place, each)}" for place in range(each))
    return Asked("a join by what is shown", load, state, [
        ("select X.k, X, Y from A.x X, B.y Y where X.k = Y.ref;", left),
        ("select X, Y, Y.ref from A.x X, B.y Y where X.k = Y.ref;", right),
        ("select X.k, X, Y, Y.ref from A.x X, B.y Y where Y.ref = X.k;", both),
        (f"select X.k, X, Y from A.x X, B.y Y where X.k = Y.ref and Y.ref < {each // 2};", low),
        ("select X.k, X, Y from A.x X, B.y Y where X.k = 7;", to_all)])


def shown_meeting(each):
    """What is to be one and the same is shown too."""
    leads = [place * SCATTER % each for place in range(each)]
    load = braces("A", (f"x &{place} {{ to &{to} }}" for place, to in enumerate(leads)))
    members = [f"&{2 + place} {{}}" for place in range(each)]
    found = sorted((to, place) for place, to in enumerate(leads))
    led = rows(f"{members[to]} | {members[place]} | {members[to]}" for to, place in found)
    return Asked("a join with what is led to and shown", load, ok(each + 1, 2 * each, 2), [
        ("select X, Y, Y.to from A.x X, A.x Y where Y.to == X;", led)])


def guarded(each):
    """What is compared is shown, beside another part of the one object that all members belong to: it is walked to once, and not
    again for each."""
    members = (f"m {{ v {i} }}" for i in range(each))
    load = braces("A", [f"g {{ name \"n\", {', '.join(members)} }}"])
    least = each // 2
    values = rows(f'&3 "n" | &{5 + 2 * i} {i}' for i in range(least, each))
    return Asked("a condition on what is shown of one object's members", load, ok(2 * each + 3, 2 * each + 2, 5), [
        (f"select G.name, G.m.v from A.g G where G.m.v >= {least};", values)])


def grouped(each):
    """What is shown of one object, beside each of its members: it is walked to once, whatever the path, and not again for each."""
    load = braces("A", [f"g {{ name \"n\", {', '.join(f'm {i}' for i in range(each))} }}"])
    found = rows(f'&3 "n" | &{4 + i} {i}' for i in range(each))
    return Asked("one object's members, beside what is shown of it", load, ok(each + 3, each + 2, 4), [
        (f"select G{path}, M from A.g G, G.m M;", found) for path in (".name", "(.name|.title)")])


def named(each):
    """The same where two objects are shown of the one: what is kept of its walk is put into a row again for each member."""
    members = range(each // 2)
    load = braces("A", [f"g {{ name \"n\", name \"o\", {', '.join(f'm {i}' for i in members)} }}"])
    found = rows(f'&{3 + place} "{name}" | &{5 + i} {i}' for place, name in enumerate("no") for i in members)
    return Asked("one object's members, beside two that are shown of it", load, ok(len(members) + 4, len(members) + 3, 4), [
        ("select G.name, M from A.g G, G.m M;", found)])


def parts(each):
    """What two parts of one object refer to is joined: the one's are not compared with all of the other's, though both are known with it."""
    members = [*(f"y {{ a {i} }}" for i in range(each)), *(f"c {{ b {each + i} }}" for i in range(each))]
    return Asked("a join of parts of one object", braces("A", [f"x {{ {', '.join(members)} }}"]), ok(4 * each + 2, 4 * each + 1, 6), [
        ("select Y, Z from A.x X, X.y Y, X.c Z where Y.a = 7 and Y.a = Z.b;", rows([]))])


def sorts(each):
    """Each order is of one thing, whose sort, that of a tenth of all, it names too: the thing tells most, and the sort is passed over."""
    sorts, first = 10, 22 + each  # the number of the first order
    things = [place * SCATTER % each for place in range(each)]
    load = braces("A", [*(f'sort &{i} {{ name "s{i}" }}' for i in range(sorts)), *(f"x &{sorts + i} {{ c &{i % sorts} }}" for i in range(each)),
                        *(f'y {{ of &{sorts + thing}, want "s{thing % sorts}" }}' for thing in things)])
    found = rows(f"&{first + 2 * place} {{}} | &{22 + thing} {{}} | &{2 + 2 * (thing % sorts)} {{}}" for place, thing in enumerate(things))
    return Asked("a join by what is led to, beside one by what a tenth have", load, ok(3 * each + 21, 5 * each + 20, 6), [
        ("select Y, X, C from A.y Y, A.x X, X.c C where Y.want = C.name and Y.of == X;", found)])


# What makes questions, and how many members are enough to count what they take: so many that an index is asked. Once 1,024 objects
# stood for a slot, a condition is asked which of them fit; behind 64 rows that met it, 4,096 aren't tested early.
QUESTIONS = (
    (join, 500), (filtered, 500), (first_of_three, 500), (shared, 1_200), (passing, 5_000), (meeting, 500), (ranked, 500),
    (common, 4_000), (ring, 1_200), (shown, 500), (shown_meeting, 500), (guarded, 2_000),
    (grouped, 1_000), (named, 1_000), (parts, 2_000), (sorts, 1_000),
)


def join_cases():
    for make, _ in QUESTIONS:
        asked = make(EACH)
        texts, replies = zip(*asked.questions)
        yield Case(f"{asked.name}, of tens of thousands", [asked.load, *texts], 0, asked.state + "".join(replies), SECONDS)
