"""Writes values as a load of the language, or as updates that add them to what is there."""
import json
from collections import Counter
from dataclasses import dataclass

from lore_lib import kept, limits
from lore_lib.references import References
from lore_lib.texts import IDENTIFIER, atom_text, braces, label_text, size_of
from lore_lib.tool import Fault
from lore_lib.values import Element, Reference, Spelled

BATCH = "json_lore_batch"
RECORD = "record"
SKIPPED = object()


@dataclass(frozen=True)
class Parts:
    """A long text in parts."""
    parts: tuple

    def members(self, marked):
        if marked:
            yield "", kept.PARTS, len(self.parts)
        for part in self.parts:
            yield "", kept.PART, part


@dataclass
class Options:
    """How values are written: what is done with long texts, which label an empty key has, whether JSON is kept exactly and
    with positions, the label of the file's name, the path that records are added to, and the keys of references."""
    long: str = None
    empty_key: str = None
    arrays: bool = False
    positions: bool = False
    file: str = None
    into: str = None
    id: str = None
    ref: tuple = ()


def key_step(key):
    """A key as a step of a place."""
    if IDENTIFIER.fullmatch(key):
        return "." + key
    return f"[{json.dumps(key if len(key) <= 40 else key[:40] + '..')}]"


def cut(text, most=limits.TEXT_BYTES):
    """The beginning of a text that fits, whole characters alone."""
    return text.encode()[:most].decode(errors="ignore")


def parts_of(text, most=limits.TEXT_BYTES):
    """A text in parts that fit, whole characters each."""
    data, parts = text.encode(), []
    while data:
        part = data[:most].decode(errors="ignore")
        parts.append(part)
        data = data[len(part.encode()):]
    return parts


class Writer:
    """Writes values as literals. What is counted is what the database would hold after it, were it empty before: each value
    is an object, and, where nothing is referred to, each path of labels a node of its guide."""

    def __init__(self, options, references=None):
        self.options = options
        self.references = references or References()
        self.place = []
        self.objects = 0
        self.nodes = {}
        self.labels = set()
        self.trees = not self.references.used and options.into is None
        self.became = Counter()
        self.notes = []

    def member(self, step, label, value, node, level):
        """A label and its literal, None where the value is left out. The node is that of the object whose member this is."""
        self.place.append(step)
        label_shown = label_text(self.label(label))
        child = self.node_of(node, label) if self.trees else 0
        shown = self.literal(value, child, level)
        self.place.pop()
        return None if shown is None else f"{label_shown} {shown}"

    def node_of(self, node, label):
        """The node to which a label leads from a node, 0 being that of the name."""
        child = self.nodes.setdefault((node, label), len(self.nodes) + 1)
        if child == limits.NODES:
            raise Fault(1, f"there are more than {limits.NODES} paths of labels")
        self.labels.add(label)
        if len(self.labels) > limits.LABELS:
            raise Fault(1, f"there are more than {limits.LABELS} different labels")
        return child

    def label(self, key):
        """The label of a key, which is the key save where it is empty."""
        if key == self.options.empty_key:
            raise Fault(1, f"the key {key} is there, which was to stand for the empty key")
        return self.options.empty_key if key == "" and self.options.empty_key is not None else key

    def literal(self, value, node=0, level=1):
        """The literal of a value that is reached by this node; its own braces are the level's."""
        if isinstance(value, Reference):
            return f"&{value.local}"
        if self.options.long and isinstance(value, str) and not (self.options.arrays and isinstance(value, Spelled)):
            value = self.shortened(value)
            if value is SKIPPED:
                return None
        members = self.members(value)
        self.objects += 1
        if self.objects > limits.OBJECTS:
            raise Fault(1, f"there are more than {limits.OBJECTS} objects")
        if members is None:
            return self.atom(value)
        if level > limits.LEVELS:
            raise Fault(1, f"there are more than {limits.LEVELS} levels of braces")
        local = self.references.local(value.value if isinstance(value, Element) else value)
        lines = [self.member(*member, node, level + 1) for member in members]
        shown = braces(level, [line for line in lines if line is not None])
        return shown if local is None else f"&{local} {shown}"

    def atom(self, value):
        """A number, a text or a flag; what was none of these becomes a text."""
        if value is None:
            self.became["null"] += 1
            value = "null"
        elif isinstance(value, Spelled):
            self.became["number"] += 1
        return atom_text(value)

    def shortened(self, text):
        """A text as it is where it fits; else cut, in parts, or skipped."""
        if len(text) <= limits.TEXT_BYTES // 4 or size_of(text) <= limits.TEXT_BYTES:
            return text
        size = size_of(text)
        done = {"cut": f"cut to {limits.TEXT_BYTES}", "skip": "skipped", "parts": "laid into parts"}[self.options.long]
        self.notes.append(f"{''.join(self.place)}: a text of {size} bytes, {done}")
        if self.options.long == "skip":
            return SKIPPED
        return cut(text) if self.options.long == "cut" else Parts(tuple(parts_of(text)))

    def members(self, value):
        """The members of an object, array or text in parts, to each the step that leads there and its label; None for an
        atom."""
        if isinstance(value, Parts):
            return value.members(self.options.arrays)
        if self.options.arrays:
            return self.kept_members(value)
        if isinstance(value, tuple):
            return self.object_members(value)
        return self.elements(value) if isinstance(value, list) else None

    def elements(self, array):
        """The elements of an array."""
        for place, element in enumerate(array):
            yield f"[{place}]", kept.ITEM, element

    def object_members(self, value):
        """The members of an object; an array behind a key gives each element under this key."""
        for key, held in value:
            held = self.references.resolved(key, held)
            if isinstance(held, list):
                for place, element in enumerate(held):
                    yield f"{key_step(key)}[{place}]", key, element
            else:
                yield key_step(key), key, held

    def kept_members(self, value):
        """The members of a value that is kept exactly."""
        if isinstance(value, tuple):
            return self.kept_object(value)
        if isinstance(value, list):
            return self.kept_array(value)
        if isinstance(value, Element):
            return self.kept_element(value)
        if value is None:
            return [("", kept.NULL, "null")]
        return [("", kept.NUMBER, str(value))] if isinstance(value, Spelled) else None

    def kept_object(self, value):
        """The members of an object, each key once in the database too."""
        self.became["twice"] += len(value) - len({key for key, _ in value})
        for key, held in value:
            yield key_step(key), kept.label_of_key(key), self.references.resolved(key, held)

    def kept_array(self, array):
        """The mark of an array, and its elements."""
        yield "", kept.ARRAY, len(array)
        for place, element in enumerate(array):
            positioned = self.options.positions
            yield f"[{place}]", kept.ITEM, Element(place, element) if positioned else element

    def kept_element(self, element):
        """An element that tells its position."""
        yield "", kept.AT, element.at
        if isinstance(element.value, tuple):
            yield from self.kept_object(element.value)
        else:
            yield "", kept.VALUE, element.value

    def records(self, documents):
        """The literal of an object that has each record as a member."""
        self.objects = 1
        lines = []
        for place, step, value in records_in(documents, self.options.arrays):
            self.place = [place, ", $"]
            lines.append(self.member(step, RECORD, value, 0, 2))
        return braces(1, [line for line in lines if line is not None])

    def whole(self, documents, apart):
        """The literal of all documents: of the one document, or of an object of records."""
        if apart or len(documents) != 1 or isinstance(documents[0].value, list) and not self.options.arrays:
            return self.records(documents)
        self.place = [documents[0].place, ", $"]
        shown = self.literal(documents[0].value)
        if shown is None:
            raise Fault(1, "nothing is left of it")
        return shown

    def updates(self, documents, path):
        """An update for each record."""
        for place, step, value in records_in(documents, self.options.arrays):
            self.place = [place, ", $", step]
            shown = self.literal(value)
            if shown is not None:
                yield f"update {path}.{RECORD} += {shown};\n"

    def batch(self, documents, path):
        """Statements that add all records at once, since references lead from one to another: they are loaded under a name,
        which is taken away again."""
        yield f"load {BATCH} := {self.records(documents)};\n"
        yield f"update {path}.{RECORD} += {BATCH}.{RECORD};\n"
        yield f"unname {BATCH};\n"

    def statements(self, name, documents, apart):
        """The statements that bring the documents into a database."""
        try:
            if self.options.into is None:
                return [f"load {name} := {self.whole(documents, apart)};\n"]
            write = self.batch if self.references.used else self.updates
            return list(write(documents, self.options.into))
        except Fault as fault:
            raise Fault(1, f"{''.join(self.place)}: {fault}")

    def told(self):
        """What is told on standard error."""
        kinds = [("decimal or large number", "number"), ("null", "null")]
        became = [f"{self.became[kind]} {words}{'s' * (self.became[kind] > 1)}" for words, kind in kinds if self.became[kind]]
        if became:
            yield "became texts: " + ", ".join(became)
        if self.became["twice"]:
            yield f"keys that stand twice in one object, and come back as an array: {self.became['twice']}"
        if len(self.nodes) >= limits.START_NODES:
            yield (f"{len(self.nodes) + 1} paths of labels, more than a new database takes: "
                   f"`set nodes {len(self.nodes) + 1};` has to stand before the load")
        yield from self.notes
        yield from self.references.notes()


def records_in(documents, arrays):
    """The records, each with its place and the step to it: an array at the top stands for its elements, save where arrays
    are kept."""
    for document in documents:
        if isinstance(document.value, list) and not arrays:
            for at, element in enumerate(document.value):
                yield document.place, f"[{at}]", element
        else:
            yield document.place, "", document.value


def script(name, documents, options, apart=False):
    """The bytes of the statements, and what is to be told."""
    if not documents:
        raise Fault(1, "there is no " + (RECORD if apart else "document"))
    values = [document.value for document in documents]
    writer = Writer(options, References(options.id, options.ref, values))
    statements = [statement.encode() for statement in writer.statements(name, documents, apart)]
    if max(map(len, statements), default=0) > limits.STATEMENT_BYTES:
        raise Fault(1, f"the statement would have more than {limits.STATEMENT_BYTES} bytes")
    return b"".join(statements), list(writer.told())
