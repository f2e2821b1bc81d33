"""Reads tables in CSV as records, which a load is written of."""
import csv
import io
import re
from dataclasses import dataclass, field

from lore_lib import limits
from lore_lib.tool import Fault, source_of
from lore_lib.values import Document, Spelled

WHOLE = re.compile("-?[1-9][0-9]{0,18}|0")
OTHER_NUMBER = re.compile(r"-?(?:0|[1-9][0-9]*)(?:\.[0-9]+)?(?:[eE][+-]?[0-9]+)?")


@dataclass
class Form:
    """How a table is read: what parts its fields, whether its first line is its head, which columns are text, and whether
    an empty field is an empty text; else it leaves nothing."""
    delimiter: str = ","
    header: bool = True
    text: frozenset = field(default_factory=frozenset)
    empty: bool = False


def value_of(shown, as_text):
    """A whole number of 64 bits as one, spelled without a zero in front; any other field is a text. What reads as another
    number is told apart, since it is counted."""
    if as_text:
        return shown
    if WHOLE.fullmatch(shown) and limits.WHOLE_LEAST <= int(shown) <= limits.WHOLE_MOST:
        return int(shown)
    return Spelled(shown) if OTHER_NUMBER.fullmatch(shown) else shown


def rows_of(source, data, delimiter):
    """The rows of a table that aren't blank, each with the line where it ends."""
    try:
        text = io.StringIO(data.decode("utf-8-sig"), newline="")
    except UnicodeDecodeError as error:
        raise Fault(1, f"{source}: the bytes from {error.start + 1} on are no UTF-8")
    csv.field_size_limit(limits.REPLY_BYTES)
    reader = csv.reader(text, delimiter=delimiter, strict=True)
    while True:
        try:
            row = next(reader, None)
        except csv.Error as error:
            raise Fault(1, f"{source}, line {reader.line_num}: no CSV: {error}")
        if row is None:
            return
        if row:
            yield reader.line_num, row


def records(source, data, form):
    """The records of a table."""
    head = None
    for line, row in rows_of(source, data, form.delimiter):
        if head is None:
            head = row if form.header else [f"column{number}" for number in range(1, len(row) + 1)]
            strange = form.text - set(head)
            if strange:
                raise Fault(1, f"{source}, line {line}: there is no column {min(strange)}")
            if form.header:
                continue
        if len(row) != len(head):
            raise Fault(1, f"{source}, line {line}: a row of {len(row)} fields, and a head of {len(head)}")
        members = [(column, value_of(shown, column in form.text)) for column, shown in zip(head, row) if shown or form.empty]
        yield Document(f"{source}, line {line}", tuple(members))


def read_tables(files, source, options, form):
    """The records of all files, or of standard input where there is none."""
    for file in files or [None]:
        for record in records(source_of(file), source.read(file), form):
            first = ((options.file, source_of(file)),) if options.file else ()
            yield Document(record.place, first + record.value)
