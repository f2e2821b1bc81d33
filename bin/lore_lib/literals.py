"""Writes objects of a dump as literals of the language, which can be loaded again.

An object that stands in several places, or that leads back to itself, is marked by a local with its own number. Members
stand in the order of their objects' numbers. An object's braces stand where fewest others enclose them, so a literal nests
no deeper than its objects lie from the first one; where that is too deep for the language there is no such literal.
"""
from lore_lib import limits
from lore_lib.dump import members_of
from lore_lib.texts import atom_text, braces, label_text, size_of
from lore_lib.tool import Fault


class Literal:
    """The literal of one object. `levels` has the level of each object's own braces, in the order in which they are met,
    and `homes` the parent under which it is written out, with the label."""

    def __init__(self, objects, members, start):
        self.objects = objects
        self.members = members
        self.start = start
        self.levels = {start: 1}
        self.homes = {}
        self.shared = set()

    def lay_out(self):
        """Finds where each object is written out: at the first edge to it, nearest objects first."""
        order = [self.start]
        for number in order:
            for label, child in self.members.get(number, ()):
                if child in self.levels:
                    self.shared.add(child)
                    continue
                self.levels[child] = self.levels[number] + 1
                self.homes[child] = (number, label)
                order.append(child)
                if self.levels[child] > limits.LEVELS and self.objects[child] is None:
                    raise Fault(1, f"from &{self.start} to &{child} there are more than {limits.LEVELS} levels of braces, "
                                   "by the shortest way too")
        return order

    def member(self, number, label, child, texts):
        """A member of an object: a local alone where the child is written out elsewhere."""
        if self.homes.get(child) == (number, label):
            return f"{label_text(label)} {texts.pop(child)}"
        return f"{label_text(label)} &{child}"

    def text(self):
        """The literal, from the innermost objects outwards."""
        texts = {}
        for number in reversed(self.lay_out()):
            value = self.objects[number]
            if value is None:
                lines = [self.member(number, label, child, texts) for label, child in self.members[number]]
                value_text = braces(self.levels[number], lines)
            else:
                value_text = atom_text(value)
            texts[number] = f"&{number} {value_text}" if number in self.shared else value_text
        return texts[self.start]


def literal(dump, number, members=None):
    """The literal of an object of a dump, with all that it leads to. Who writes many of them hands over `members_of(dump)`."""
    if number not in dump.objects:
        raise Fault(1, f"there is no object &{number}")
    return Literal(dump.objects, members_of(dump) if members is None else members, number).text()


def load_text(dump, name, number=None):
    """The load that binds a name to the literal of an object: to that of the dump's own name where no number is given."""
    if number is None:
        bound = dict(dump.names)
        if name not in bound:
            raise Fault(1, f"the dump has no name {name}")
        number = bound[name]
    text = f"load {name} := {literal(dump, number)};\n"
    if size_of(text) > limits.STATEMENT_BYTES:
        raise Fault(1, f"the statement would have more than {limits.STATEMENT_BYTES} bytes")
    return text
