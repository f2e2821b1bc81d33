"""Reads the rows of selects out of a session's replies; all other replies are passed over.

A row is one line: its cells stand with a bar between them, and behind the last row stands `rows` with their number. A cell
is an object, as `&7 "text"`, `&7 5` or `&7 {}`, or a word of labels, as `.path.to` or a single dot.
"""
import io
import re
from dataclasses import dataclass

from lore_lib import limits
from lore_lib.texts import LABEL_FORM, OBJECT_FORM, STEP, label_of, path_text, unquoted
from lore_lib.tool import Fault

PATH_FORM = rf"((?:\.(?:{LABEL_FORM}))+|\.)"
CELL = re.compile(rf"(?:{OBJECT_FORM}|{PATH_FORM})(?: \| |\Z)")
LAST = re.compile("rows (0|[1-9][0-9]*)")


@dataclass(frozen=True)
class Cell:
    """An object: its number, and its value, which is a number, a text, a flag, or None where it is complex."""
    number: int
    value: object

    def plain(self):
        """It as a value of JSON; an object with members is an empty one."""
        return {} if self.value is None else self.value


@dataclass(frozen=True)
class Word:
    """The word of a path variable: its labels."""
    labels: tuple

    def plain(self):
        """It as a value of JSON, which is a text."""
        return path_text(self.labels)


def cell_of(found):
    """The cell that was found."""
    number, whole, text, flag, path = found.groups()
    if path:
        return Word(tuple(label_of(step.group(1)) for step in STEP.finditer(path)))
    if flag:
        return Cell(int(number[:20]), flag == "true")
    if whole:
        return Cell(int(number[:20]), int(whole[:21]))
    return Cell(int(number[:20]), unquoted(text) if text else None)


def row_of(line):
    """The cells of a line, None where it is no row."""
    if line[:1] not in ("&", "."):
        return None
    cells, place = [], 0
    while True:
        found = CELL.match(line, place)
        if not found:
            return None
        cells.append(cell_of(found))
        place = found.end()
        if place == len(line):
            return None if found.group().endswith(" | ") else cells


def answers(data):
    """The answers of the selects in the bytes of replies, one after another: each a list of rows, each row a list of cells.
    A guide may have a line `rows 1` for a name: no row stands before it."""
    rows = []
    for number, line in enumerate(io.BytesIO(data), 1):
        try:
            line = line.decode().removesuffix("\n")
        except UnicodeDecodeError:
            raise Fault(1, f"line {number}: this is no UTF-8")
        row = row_of(line)
        if row:
            rows.append(row)
            if len(rows) > limits.ROWS:
                raise Fault(1, f"line {number}: more than {limits.ROWS} rows stand one after another")
            continue
        last = LAST.fullmatch(line)
        if last and int(last.group(1)[:20]) == len(rows):
            yield rows
        elif last and line != "rows 1":
            raise Fault(1, f"line {number}: {line}, but {len(rows)} rows stand before it")
        rows = []


def read_rows(data):
    """The same as a list."""
    return list(answers(data))
