"""Writes objects of a dump as JSON and as tables: nothing here calls itself, so a dump may nest as deep as it likes."""
import csv
import io
import json
import re
from collections import Counter
from dataclasses import dataclass

from lore_lib import kept, limits
from lore_lib.dump import members_of
from lore_lib.tool import Fault

NUMBER = re.compile(r"-?(?:0|[1-9][0-9]*)(?:\.[0-9]+)?(?:[eE][+-]?[0-9]+)?")
ID, REF, VALUES = "$id", "$ref", "$values"


class Bare(str):
    """What stands in JSON without quotes: null, or a number by its spelling."""


def atom_json(value):
    """An atom in JSON."""
    if isinstance(value, Bare) or isinstance(value, int) and not isinstance(value, bool):
        return str(value)
    return json.dumps(value, ensure_ascii=False)


def plain_text(value):
    """An atom without quotes."""
    return limits.FLAGS[value] if isinstance(value, bool) else str(value)


class View:
    """Objects as JSON has them: an atom, a list of pairs, which is an object, or a list. A child is an object's number, or
    a tuple of these, which is an array of what one label leads to."""

    def __init__(self, dump, arrays=False, empty_key=None):
        self.values = dump.objects
        self.members = members_of(dump)
        self.arrays = arrays
        self.empty_key = empty_key

    def of(self, child):
        """The number of the object that is shown, 0 for none, its kind, which is `atom`, `object` or `array`, and what is
        in it."""
        if isinstance(child, tuple):
            return 0, "array", list(child)
        child = self.inside(child) if self.arrays else child
        value = self.values[child]
        if value is not None:
            return child, "atom", value
        grouped = {}
        for label, held in self.members[child]:
            grouped.setdefault(label, []).append(held)
        marks = [label for label in grouped if kept.is_mark(label)] if self.arrays else []
        if marks == [kept.AT]:
            del grouped[kept.AT]
            marks = []
        if marks:
            return child, *self.marked(child, marks[0], grouped)
        return child, "object", self.pairs(grouped)

    def pairs(self, grouped):
        """The pairs of an object."""
        return [(self.key(label), held[0] if len(held) == 1 else tuple(held)) for label, held in grouped.items()]

    def inside(self, child):
        """What stands in an element with a position where that is a value of its own; else the object itself."""
        passed = set()
        while True:
            held = dict(self.members.get(child, ()))
            if kept.AT not in held or kept.VALUE not in held:
                return child
            if len(self.members[child]) != 2 or child in passed:
                raise Fault(1, f"&{child}, an element with a position, has no one value")
            passed.add(child)
            child = held[kept.VALUE]

    def key(self, label):
        """The key of a label."""
        if self.empty_key is not None and label == self.empty_key:
            return ""
        return kept.key_of_label(label) if self.arrays else label

    def marked(self, number, mark, grouped):
        """What a marked object stands for."""
        if mark == kept.ARRAY:
            return "array", self.elements(number, grouped)
        if mark == kept.PARTS:
            return "atom", "".join(self.parts(number))
        if mark == kept.NULL and len(grouped) == 1:
            return "atom", Bare("null")
        text = self.one_text(number, mark, grouped)
        if mark == kept.NUMBER and NUMBER.fullmatch(text):
            return "atom", Bare(text)
        raise Fault(1, f"&{number} has the mark {mark}, but isn't made as json-lore --arrays makes it")

    def one_text(self, number, mark, grouped):
        """The text behind a mark, which is all that its object has; it may be in parts."""
        if len(grouped) == 1 and len(grouped[mark]) == 1:
            inner = grouped[mark][0]
            if isinstance(self.values[inner], str):
                return self.values[inner]
            if any(label == kept.PARTS for label, _ in self.members.get(inner, ())):
                return "".join(self.parts(inner))
        return ""

    def parts(self, number):
        """The texts of a text in parts."""
        for label, child in self.members[number]:
            if label == kept.PARTS:
                continue
            if label != kept.PART or not isinstance(self.values[child], str):
                raise Fault(1, f"&{number} has the mark {kept.PARTS}, and something else than parts that are texts")
            yield self.values[child]

    def elements(self, number, grouped):
        """The elements of an array, in the order of positions where each tells its own, else of numbers."""
        strange = grouped.keys() - {kept.ARRAY, kept.ITEM}
        if strange:
            raise Fault(1, f"&{number} has the mark {kept.ARRAY}, and a member {min(strange)}")
        elements = grouped.get(kept.ITEM, [])
        places = {element: self.position(element) for element in elements}
        return elements if None in places.values() else sorted(elements, key=places.get)

    def position(self, element):
        """The position that an element tells, None for none."""
        held = [child for label, child in self.members.get(element, ()) if label == kept.AT]
        value = self.values[held[0]] if len(held) == 1 else None
        return value if isinstance(value, int) and not isinstance(value, bool) else None

    def records(self, number):
        """The members of an object, or the elements of an array, as (label, child)."""
        _, kind, held = self.of(number)
        if kind == "array":
            return [(kept.ITEM, child) for child in held]
        if kind == "atom":
            raise Fault(1, f"&{number} is an atom, which has no records")
        return [member for member in self.members[number] if not self.arrays or member[0] != kept.AT]


@dataclass
class Open:
    """An object or array that is being written: what is left of its members, whether these have keys, what ends it, and whether
    a comma stands before the next one."""
    rest: object
    keyed: bool
    last: str
    between: bool


class Json:
    """Writes JSON. Where `refs` is set, an object in several places, or on a ring, tells its number as `$id`, and stands at
    each later place as `$ref` with that number; else it is repeated, and a ring is a fault."""

    def __init__(self, view, refs=False, starts=()):
        self.view = view
        self.shared = self.in_places(starts) if refs else frozenset()
        self.told = set()
        self.weights = None if refs else {}
        self.left = limits.OUTPUT_VALUES
        self.pieces = []
        self.bytes = 0

    def in_places(self, starts):
        """The objects to which several edges or starts lead."""
        counts = Counter(starts)
        for members in self.view.members.values():
            counts.update(child for _, child in members)
        shared = frozenset(number for number, count in counts.items() if count > 1 and number in self.view.members)
        taken = {ID, REF, VALUES} & {label for members in self.view.members.values() for label, _ in members}
        if shared and taken:
            raise Fault(1, f"the label {min(taken)} is there, which --shared ref needs for itself")
        return shared

    def put(self, piece):
        self.pieces.append(piece)
        self.bytes += len(piece)
        if self.bytes > limits.OUTPUT_BYTES:
            raise Fault(1, f"there would be more than {limits.OUTPUT_BYTES} bytes of JSON")

    def weigh(self, start):
        """Faults a ring, and what is repeated so often that there would be too much of it."""
        stack, entered = [start], set()
        while stack:
            number = stack[-1]
            children = [child for _, child in self.view.members.get(number, ())]
            if number in self.weights:
                stack.pop()
            elif number in entered:
                entered.remove(number)
                self.weights[number] = 1 + sum(self.weights[child] for child in children)
                stack.pop()
            else:
                entered.add(number)
                ring = entered.intersection(children)
                if ring:
                    raise Fault(1, f"&{min(ring)} leads back to itself, a ring: JSON has none, but --shared ref writes it")
                stack.extend(child for child in children if child not in self.weights)
        self.left -= self.weights[start]
        if self.left < 0:
            raise Fault(1, f"there would be more than {limits.OUTPUT_VALUES} values, since parts that are shared are repeated: "
                           "--shared ref writes them once")

    def start(self, child):
        """Writes an atom, or the beginning of what has more in it, which comes back as what is open of it."""
        number, kind, held = self.view.of(child)
        if kind == "atom":
            self.put(atom_json(held))
            return None
        if number in self.told:
            self.put(json.dumps({REF: number}))
            return None
        first, last = "{}" if kind == "object" else "[]"
        if number in self.shared:
            self.told.add(number)
            first, last = "{" + f'"{ID}": {number}', "}"
            if kind == "array":
                first, last = first + f', "{VALUES}": [', "]}"
        self.put(first)
        between = first.startswith("{") and len(first) > 1 and kind == "object"
        return Open(iter(held), kind == "object", last, between)

    def text(self, child):
        """The JSON of an object."""
        self.pieces.clear()
        if self.weights is not None:
            for number in child if isinstance(child, tuple) else [child]:
                self.weigh(number)
        stack = [self.start(child)]
        while stack and stack[-1]:
            here = stack[-1]
            member = next(here.rest, None)
            if member is None:
                self.put(here.last)
                stack.pop()
                continue
            if here.between:
                self.put(", ")
            here.between = True
            if here.keyed:
                self.put(json.dumps(member[0], ensure_ascii=False) + ": ")
                member = member[1]
            inner = self.start(member)
            if inner:
                stack.append(inner)
        return "".join(self.pieces)


def pairs_json(pairs):
    """An object of texts that are JSON."""
    return "{" + ", ".join(f"{json.dumps(key, ensure_ascii=False)}: {text}" for key, text in pairs) + "}"


def table(rows, head=None):
    """Rows as CSV."""
    out = io.StringIO()
    writer = csv.writer(out, lineterminator="\n")
    writer.writerows([head] * (head is not None) + rows)
    return out.getvalue()


def record_table(view, writer, records):
    """Records as a table: a column for each key, in the order in which keys come. A cell is an atom, else JSON."""
    rows, columns = [], {}
    for _, child in records:
        _, kind, held = view.of(child)
        row = {}
        for key, inner in held if kind == "object" else [("value", child)]:
            _, inner_kind, value = view.of(inner)
            columns.setdefault(key)
            row[key] = plain_text(value) if inner_kind == "atom" else writer.text(inner)
        rows.append(row)
    return table([[row.get(column, "") for column in columns] for row in rows], list(columns))
