"""Rows of a select as JSON lines, as CSV and as a table for people; and values counted."""
import json
from collections import Counter

from lore_lib import limits
from lore_lib.json_out import table as csv_table
from lore_lib.places import columns, visible
from lore_lib.replies import Word
from lore_lib.texts import enclosed


def heads(data, tokens):
    """The items of a select as they are written, for the heads of columns."""
    begins, depth, items = None, 0, []
    for place, token in enumerate(tokens):
        label = tokens[place - 1].text == b"." if place else False
        depth += {b"(": 1, b")": -1}.get(token.text, 0)
        if token.text == b"select" and begins is None:
            begins = place + 1
        elif token.text in (b",", b"from", b"where") and depth == 0 and begins is not None and not label:
            items.append((begins, place))
            begins = place + 1
            if token.text != b",":
                break
    else:
        items.append((begins or 0, len(tokens)))
    texts = [data[tokens[first].start:tokens[end - 1].end].decode() for first, end in items if end > first]
    return [" ".join(text.split()) for text in texts]


def distinct(names):
    """Names of columns, each once."""
    seen = Counter()
    for name in names:
        seen[name] += 1
        yield name if seen[name] == 1 else f"{name} ({seen[name]})"


def spelled(cell):
    """A cell as a text without quotes."""
    value = cell.plain()
    if isinstance(value, bool):
        return limits.FLAGS[value]
    return "{}" if value == {} else str(value)


def is_number(value):
    """Whether a value is a whole number."""
    return isinstance(value, int) and not isinstance(value, bool)


def literal(cell):
    """A cell as its value is written in the language."""
    value = cell.plain()
    if isinstance(cell, Word) or not isinstance(value, str):
        return spelled(cell)
    return enclosed(value, '"')


def as_json(names, rows):
    """Each row as an object on a line."""
    names = list(distinct(names))
    return "".join(json.dumps(dict(zip(names, [cell.plain() for cell in row])), ensure_ascii=False) + "\n" for row in rows)


def as_csv(names, rows):
    """Rows with a head."""
    return csv_table([[spelled(cell) for cell in row] for row in rows], names)


def as_table(names, rows):
    """Columns side by side; numbers stand to the right, and what can't be seen is written by its number."""
    cells = [[visible(spelled(cell)) for cell in row] for row in rows]
    right = [all(is_number(row[place].plain()) for row in rows) for place in range(len(names))]
    widths = [max(map(columns, [name] + [row[place] for row in cells])) for place, name in enumerate(names)]

    def line(words):
        padded = [(" " * (width - columns(word)) + word if left_free else word + " " * (width - columns(word)))
                  for word, width, left_free in zip(words, widths, right)]
        return " | ".join(padded).rstrip() + "\n"

    rule = "-+-".join("-" * width for width in widths) + "\n"
    return line(names) + rule + "".join(line(row) for row in cells) + f"rows {len(rows)}\n"


def counted(rows):
    """Each value with the number of its rows, the most frequent first."""
    counts = Counter(" | ".join(literal(cell) for cell in row) for row in rows)
    ordered = sorted(counts.items(), key=lambda pair: (-pair[1], pair[0]))
    width = len(str(ordered[0][1])) if ordered else 0
    return "".join(f"{count:{width}} {value}\n" for value, count in ordered) + f"values {len(ordered)}\n"


MODES = {"lines": None, "table": as_table, "json": as_json, "csv": as_csv}
