"""Values on their way into a load. An object is a tuple of pairs, which keeps a key that stands twice; an array is a list;
a text, a whole number, a flag, which is True or False, and None are themselves. Beside these there are the classes below."""
from dataclasses import dataclass


class Spelled(str):
    """A number that is no whole one of 64 bits, as the document spells it."""


@dataclass(frozen=True)
class Element:
    """An element of an array that tells its position."""
    at: int
    value: object


@dataclass(frozen=True)
class Reference:
    """An edge to the record that has this local."""
    local: int


@dataclass(frozen=True)
class Document:
    """A value, with its place in words."""
    place: str
    value: object


def inner(value):
    """The values that an object or array has directly."""
    if isinstance(value, tuple):
        return [held for _, held in value]
    return value if isinstance(value, list) else ()


def objects_in(values):
    """All objects in these values, outer ones first, in no other order that matters; any depth."""
    left = list(reversed(values))
    while left:
        value = left.pop()
        if isinstance(value, tuple):
            yield value
        left.extend(reversed(inner(value)))
