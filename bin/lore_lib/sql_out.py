"""Writes a dump as SQL, for sqlite3 and PostgreSQL."""
import re

from lore_lib import limits
from lore_lib.tool import Fault

CONTROL = re.compile("[\0-\x1f\x7f]")
BATCH = 500

TABLES = """create table objects (
  number bigint primary key,
  kind text not null check (kind in ('complex', 'number', 'text', 'flag')),
  whole bigint,
  text text,
  check ((kind = 'number') = (whole is not null) and (kind in ('text', 'flag')) = (text is not null))
);
create table labels (
  number integer primary key,
  label text not null unique
);
create table edges (
  parent bigint not null references objects (number),
  label text not null references labels (label),
  child bigint not null references objects (number),
  primary key (parent, label, child)
);
create table names (
  name text primary key,
  object bigint not null references objects (number)
);
"""
INDEXES = """create index edges_by_child on edges (child, label);
create index edges_by_label on edges (label, parent);
create index objects_by_whole on objects (whole);
create index objects_by_text on objects ({text});
create index names_by_object on names (object);
"""
BEGIN = {"sqlite3": "pragma encoding = 'UTF-8';\nbegin;\n",
         "postgresql": "set client_encoding = 'UTF8';\nset standard_conforming_strings = on;\nbegin;\n"}
# An index of PostgreSQL has no room for a long text: it has a hash of each.
TEXT_INDEX = {"sqlite3": "text", "postgresql": "md5(text)"}


def sqlite_text(text, _):
    """A text for sqlite3. One with control characters goes by its bytes: no line end in it can be taken for another."""
    if CONTROL.search(text):
        return f"cast(x'{text.encode().hex()}' as text)"
    return "'" + text.replace("'", "''") + "'"


def postgresql_text(text, what):
    """A text for PostgreSQL, which has no texts with a zero character."""
    if "\0" in text:
        raise Fault(1, f"{what} has a zero character, which no text of PostgreSQL may have")
    if CONTROL.search(text):
        escaped = text.replace("\\", "\\\\").replace("'", "''")
        return "E'" + CONTROL.sub(lambda it: f"\\x{ord(it.group()):02x}", escaped) + "'"
    return "'" + text.replace("'", "''") + "'"


WRITERS = {"sqlite3": sqlite_text, "postgresql": postgresql_text}


def inserted(table, rows):
    """The statements that put rows into a table."""
    for start in range(0, len(rows), BATCH):
        yield f"insert into {table} values\n" + ",\n".join(f"({row})" for row in rows[start:start + BATCH]) + ";\n"


def object_row(number, value, text_of):
    """The row of an object; a flag is the text of its word, of a kind of its own."""
    if value is None:
        return f"{number}, 'complex', null, null"
    if isinstance(value, bool):
        return f"{number}, 'flag', null, '{limits.FLAGS[value]}'"
    if isinstance(value, int):
        return f"{number}, 'number', {value}, null"
    return f"{number}, 'text', null, {text_of(value, f'the object &{number}')}"


def sql(dump, kind):
    """The pieces of the SQL of a dump."""
    text_of = WRITERS[kind]
    labels = {label: text_of(label, "a label") for label in dump.labels}
    yield BEGIN[kind]
    yield TABLES
    yield from inserted("objects", [object_row(number, value, text_of) for number, value in dump.objects.items()])
    yield from inserted("labels", [f"{number}, {shown}" for number, shown in enumerate(labels.values(), 1)])
    yield from inserted("edges", [f"{parent}, {labels[label]}, {child}" for parent, label, child in dump.edges])
    yield from inserted("names", [f"'{name}', {number}" for name, number in dump.names])
    yield INDEXES.format(text=TEXT_INDEX[kind])
    yield "commit;\n"
