"""Reads JSON documents, one after another, as the values that a load is written of."""
import json
import re

from lore_lib import limits
from lore_lib.tool import Fault, source_of
from lore_lib.values import Document, Spelled

BLANKS = re.compile("[ \t\r\n]*")


def whole(spelling):
    """A whole number where it has 64 bits with a sign, else its spelling."""
    number = int(spelling) if len(spelling) <= 20 else None
    fits = number is not None and limits.WHOLE_LEAST <= number <= limits.WHOLE_MOST
    return number if fits else Spelled(spelling)


def whole_exactly(spelling):
    """The same, but `-0`, which a whole number would lose."""
    return Spelled(spelling) if spelling == "-0" else whole(spelling)


def no_number(spelling):
    """NaN and the infinities, which Python would read."""
    raise Fault(1, f"{spelling} is no JSON")


def decoder(exactly):
    """Objects are read as tuples of pairs, arrays as lists."""
    return json.JSONDecoder(object_pairs_hook=tuple, parse_float=Spelled, parse_constant=no_number,
                            parse_int=whole_exactly if exactly else whole)


def values(text, read):
    """The values that stand one after another in a text."""
    place = BLANKS.match(text).end()
    while place < len(text):
        value, end = read(text, place)
        place = BLANKS.match(text, end).end()
        if place == end < len(text) and text[end - 1] not in '}]"':
            raise json.JSONDecodeError("Expecting a blank between two documents", text, end)
        yield value


def documents(source, data, exactly=False):
    """The documents of a file, each with its place in words."""
    place = f"{source}, document 1"
    try:
        for number, value in enumerate(values(data.decode("utf-8-sig"), decoder(exactly).raw_decode), 1):
            yield Document(place, value)
            place = f"{source}, document {number + 1}"
    except UnicodeDecodeError as error:
        raise Fault(1, f"{source}: the bytes from {error.start + 1} on are no UTF-8")
    except json.JSONDecodeError as error:
        where = f"line {error.lineno}, column {error.colno}"
        raise Fault(1, f"{place}: no JSON: {error.msg.removesuffix(' at')} at {where}")
    except RecursionError:
        raise Fault(1, f"{place}: there are more than {limits.LEVELS} levels of braces")
    except Fault as fault:
        raise Fault(1, f"{place}: {fault}")


def with_file(document, label, file, arrays):
    """A document whose records have a member that tells the file's name."""
    first = (label, source_of(file))
    if isinstance(document.value, list) and not arrays:
        return Document(document.place, [added(element, first, document.place) for element in document.value])
    return Document(document.place, added(document.value, first, document.place))


def added(record, first, place):
    """A record with one member more, in front."""
    if not isinstance(record, tuple):
        raise Fault(1, f"{place}: a record that is no object can't have the member {first[0]}")
    return (first, *record)


def read_documents(files, source, options):
    """The documents of all files, or of standard input where there is none."""
    for file in files or [None]:
        for document in documents(source_of(file), source.read(file), options.arrays):
            yield with_file(document, options.file, file, options.arrays) if options.file else document
