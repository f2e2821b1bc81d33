"""Reads dumps: the text that the statement `dump` prints, alone or at any place of a session's replies.

What is read is what lore prints, and nothing else: a fault tells its line.
"""
import re
from dataclasses import dataclass, field

from lore_lib import limits
from lore_lib.texts import IDENTIFIER_FORM, LABEL_FORM, OBJECT_FORM, label_of, size_of, unquoted
from lore_lib.tool import Fault

NUMBER_FORM = "0|[1-9][0-9]*"
START = re.compile(rb"^oem [0-9]+\nnext [0-9]", re.MULTILINE)
VERSION = re.compile(rf"oem ({NUMBER_FORM})")
NEXT = re.compile(rf"next ({NUMBER_FORM})")
NODES = re.compile(rf"nodes ({NUMBER_FORM})")
PLAN = re.compile("plan (" + "|".join(limits.PLANS) + ")")
LABEL = re.compile(rf"label ({LABEL_FORM})")
NAME = re.compile(rf"name ({IDENTIFIER_FORM}) &([1-9][0-9]*)")
OBJECT = re.compile(f"object {OBJECT_FORM}")
EDGE = re.compile(rf"edge &([1-9][0-9]*) ({LABEL_FORM}) &([1-9][0-9]*)")
LINES = 5 + limits.LABELS + limits.NAMES + limits.OBJECTS + limits.EDGES
OLDEST_VERSION = 1
FLAGS_SINCE = 2
SHORT_TEXT = limits.TEXT_BYTES // 4


@dataclass
class Dump:
    """A database. An object's value is a number, a text, a flag, which is True or False, or None where
    it is complex. Labels stand in the order in which
    they came, and edges, which are (parent, label, child), in that of parents, labels and children."""
    version: int = limits.DUMP_VERSION
    next: int = 1
    nodes: int = limits.START_NODES
    plan: str = "auto"
    labels: list = field(default_factory=list)
    names: list = field(default_factory=list)
    objects: dict = field(default_factory=dict)
    edges: list = field(default_factory=list)


class Reader:
    """The lines of a dump of either version, one after another. `first` is the number of the first line in the whole of the
    replies."""

    def __init__(self, lines, first):
        self.lines = lines
        self.first = first
        self.place = 0
        self.label_numbers = {}

    def fault(self, text, back=0):
        return Fault(1, f"line {self.first + self.place - back}: {text}")

    def line(self):
        if self.place == len(self.lines):
            raise self.fault("the dump ends without `end`", back=1)
        return self.lines[self.place]

    def one(self, form, what):
        """What a line of this form says; it has to stand here."""
        found = form.fullmatch(self.line())
        if not found:
            raise self.fault(f"in place of `{what}` stands {shown(self.line())}")
        self.place += 1
        return found.group(1)

    def number(self, form, what, least, most):
        number = int(self.one(form, what)[:20])
        if not least <= number <= most:
            raise self.fault(f"{what} isn't from {least} to {most}", back=1)
        return number

    def all(self, word, form):
        """What the lines say that begin with the word."""
        while self.line().startswith(word):
            found = form.fullmatch(self.line())
            if not found:
                raise self.fault(f"no {word}is written as {shown(self.line())}")
            yield found
            self.place += 1

    def labels(self, dump):
        for found in self.all("label ", LABEL):
            label = label_of(found.group(1))
            if label in self.label_numbers:
                raise self.fault("the label stands twice")
            if size_of(label) > limits.LABEL_BYTES:
                raise self.fault(f"the label has more than {limits.LABEL_BYTES} bytes")
            self.label_numbers[label] = len(dump.labels)
            dump.labels.append(label)

    def names(self, dump):
        for found in self.all("name ", NAME):
            name = found.group(1)
            if name in limits.RESERVED or len(name) > limits.LABEL_BYTES:
                raise self.fault("no name may be called so")
            if dump.names and dump.names[-1][0] >= name:
                raise self.fault("names don't ascend")
            dump.names.append((name, int(found.group(2)[:20])))

    def objects(self, dump):
        last = 0
        for found in self.all("object ", OBJECT):
            number = int(found.group(1)[:20])
            if not last < number < dump.next:
                raise self.fault("numbers of objects don't ascend, or one isn't below the next")
            last = number
            dump.objects[number] = self.value(found, dump.version)

    def value(self, found, version):
        """The value of an object's line."""
        if found.group(2):
            whole = int(found.group(2)[:21])
            if not limits.WHOLE_LEAST <= whole <= limits.WHOLE_MOST or str(whole) != found.group(2):
                raise self.fault("this is no number of 64 bits with a sign as a dump writes it")
            return whole
        if found.group(4):
            if version < FLAGS_SINCE:
                raise self.fault(f"a dump of version {version} has no flags")
            return found.group(4) == "true"
        if not found.group(3):
            return None
        text = unquoted(found.group(3))
        if len(text) > SHORT_TEXT and size_of(text) > limits.TEXT_BYTES:
            raise self.fault(f"the text has more than {limits.TEXT_BYTES} bytes")
        return text

    def edges(self, dump):
        last = (0, 0, 0)
        for found in self.all("edge ", EDGE):
            parent, label, child = int(found.group(1)[:20]), label_of(found.group(2)), int(found.group(3)[:20])
            if label not in self.label_numbers:
                raise self.fault("the label of the edge isn't among the labels")
            if dump.objects.get(parent, 0) is not None or child not in dump.objects:
                raise self.fault("the edge leaves no complex object, or leads to none that is there")
            key = (parent, self.label_numbers[label], child)
            if key <= last:
                raise self.fault("edges don't ascend")
            last = key
            dump.edges.append((parent, label, child))

    def dump(self):
        """The whole dump, down to its `end`."""
        dump = Dump()
        dump.version = self.number(VERSION, "oem VERSION", OLDEST_VERSION, limits.DUMP_VERSION)
        dump.next = self.number(NEXT, "next NUMBER", 1, limits.NEXT_MOST)
        dump.nodes = self.number(NODES, "nodes LIMIT", 1, limits.NODES)
        dump.plan = self.one(PLAN, "plan MODE")
        self.labels(dump)
        self.names(dump)
        self.objects(dump)
        self.edges(dump)
        if self.line() != "end":
            raise self.fault(f"no line of a dump, or none that may stand here, is {shown(self.line())}")
        self.whole(dump)
        return dump

    def whole(self, dump):
        """Whether names lead to objects that are there, and to all of these."""
        for name, number in dump.names:
            if number not in dump.objects:
                raise self.fault(f"the name {name} leads to no object")
        lost = dump.objects.keys() - reached(members_of(dump), [number for _, number in dump.names])
        if lost:
            raise self.fault(f"no name leads to the object &{min(lost)}")


def shown(line):
    """A line in a message."""
    return "an empty line" if not line else "`" + (line if len(line) <= 60 else line[:60] + "..") + "`"


def members_of(dump):
    """The members of each complex object, as (label, child), in the order of children: in which a load wrote them."""
    members = {number: [] for number, value in dump.objects.items() if value is None}
    for parent, label, child in dump.edges:
        members[parent].append((label, child))
    for held in members.values():
        held.sort(key=lambda member: member[1])
    return members


def reached(members, starts):
    """The objects that are reached from the starts, these among them."""
    seen = set(starts)
    left = list(seen)
    while left:
        for _, child in members.get(left.pop(), ()):
            if child not in seen:
                seen.add(child)
                left.append(child)
    return seen


def read_dump(data):
    """The last dump in the bytes of a session's replies. No other two lines of replies look like the first two of a dump:
    a guide has names in order, `next` before `oem`."""
    starts = [found.start() for found in START.finditer(data)]
    if not starts:
        raise Fault(1, "there is no dump in the replies; a session prints one where it says `dump;`")
    first = data.count(b"\n", 0, starts[-1]) + 1
    part = data[starts[-1]:]
    end = part.find(b"\nend\n")
    part = part[:end + 4] if end >= 0 else part
    if part.count(b"\n") > LINES:
        raise Fault(1, f"line {first}: the dump has more lines than any database, which are {LINES}")
    try:
        text = part.decode()
    except UnicodeDecodeError as error:
        raise Fault(1, f"line {first + part.count(10, 0, error.start)}: this is no UTF-8")
    return Reader(text.removesuffix("\n").split("\n"), first).dump()
