"""Cases of generated objects, for `large.py`: each object and edge of them is worked out here, from what docs/LANGUAGE.md says
of `generate`, and the sets that label paths lead to are counted by a search of its own."""
from large_scripts import LABELS, LAST_SEED, Case, head, labelled, ok, refused, rows

WORDS = ["person", "id", "name", "age", "boss", "club", "member", "leader", "ring", "next"]


def people(seed, persons, first):
    """The values of generated objects by their numbers, and their edges as parent, label and child, from this number on."""
    values, edges = {first: "{}"}, []

    def add(parent, label, child, value=None):
        edges.append((parent, label, child))
        if value is not None:
            values[child] = value

    def person(i):
        return first + 4 * i - 3

    def link(j):
        return first + 4 * persons + 11 + j % 100

    for i in range(1, persons + 1):
        seed = (1_103_515_245 * seed + 12_345) % 2_147_483_648
        age = 18 + seed // 65_536 % 60
        add(first, "person", person(i), "{}")
        add(person(i), "id", person(i) + 1, i)
        add(person(i), "name", person(i) + 2, f'"p{i}"')
        add(person(i), "age", person(i) + 3, f'"{age}"' if i % 7 == 0 else age)
        if i > 1:
            add(person(i), "boss", person(i // 2))
    for c in range(10):
        club = first + 4 * persons + 1 + c
        add(first, "club", club, "{}")
        add(club, "leader", person(10 + c))
        for i in range(1, persons + 1):
            if i % 10 == c:
                add(club, "member", person(i))
    add(first, "ring", link(0))
    for j in range(100):
        add(link(j), "next", link(j + 1), "{}")
    return values, edges


def set_count(roots, edges):
    """How many sets of objects label paths from these objects reach."""
    children = {}
    for parent, label, child in edges:
        children.setdefault(parent, {}).setdefault(label, set()).add(child)
    met = {frozenset([root]) for root in roots}
    waiting = list(met)
    while waiting:
        further = {}
        for oid in waiting.pop():
            for label, oids in children.get(oid, {}).items():
                further.setdefault(label, set()).update(oids)
        for oids in map(frozenset, further.values()):
            if oids not in met:
                met.add(oids)
                waiting.append(oids)
    return len(met)


def dump_of(labels, names, values, edges):
    """The dump of a database with these label texts in order, names, values and edges, behind its `ok`."""
    lines = [head(max(values) + 1), *(f"label {label}\n" for label in labels)]
    lines += [f"name {name} &{names[name]}\n" for name in sorted(names)]
    lines += [f"object &{oid} {values[oid]}\n" for oid in sorted(values)]
    ordered = sorted((parent, labels.index(label), child) for parent, label, child in edges)
    lines += [f"edge &{parent} {labels[label]} &{child}\n" for parent, label, child in ordered]
    return ok(len(values), len(edges), set_count(names.values(), edges)) + "".join([*lines, "end\n"])


def generated_cases():
    for seed, persons in [(7, 20), (0, 29), (LAST_SEED, 143)]:
        yield Case(f"a dump of {persons} persons", [f"generate {seed} {persons}; dump;"], 0,
                   dump_of(WORDS, {"People": 1}, *people(seed, persons, 1)))
    values, edges = people(7, 23, 4)
    values.update({1: "{}", 2: 1, 3: 2})
    edges += [(1, "next", 2), (1, "age", 3)]
    labels = ["next", "age", *(word for word in WORDS if word not in ("next", "age"))]
    yield Case("a dump of persons beside other objects", ["load A := { next 1, age 2 }; generate 7 23; dump;"], 0,
               ok(3, 2, 3) + dump_of(labels, {"A": 1, "People": 4}, values, edges))
    values, edges = people(1, 20, 5)
    objects, links, sets = 4 + len(values), 2 + len(edges), 4 + set_count([5], edges)
    watches = "load A := { b 1 }; watch V := select A.#; watch W := select A.b;"
    shows = "load B := { b 2 }; show W; generate 1 20; show V; load A := { b 3 }; show V; show W;"
    yield Case("views that a load, generated objects, and another load concern", [watches, shows], 0,
               ok(2, 1, 2) * 3 + ok(4, 2, 4) + rows(["&2 1"]) + ok(objects, links, sets) + rows(["&1 {}", "&2 1"])
               + ok(objects, links, sets) + rows([f"&{objects + 1} {{}}", f"&{objects + 2} 3"]) + rows([f"&{objects + 2} 3"]))
    room = LABELS - len(WORDS)
    values, edges = people(7, 20, 4)
    objects, links, sets = len(values), len(edges), set_count([4], edges)
    yield Case("labels that generated objects bring", [labelled("L", room), "update L.age += 1; generate 7 20;"], 0,
               ok(2, room, 2) + ok(3, room + 1, 3) + ok(3 + objects, room + 1 + links, 3 + sets))
    yield Case("a label too many of generated objects", [labelled("L", room + 1), "generate 7 20; generate 7 19;"], 1,
               ok(2, room + 1, 2) + refused("TooManyLabels") + refused("LimitRange"))
