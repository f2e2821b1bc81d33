"""How JSON is kept exactly, for `--arrays` of json-lore and lore-json: some labels are marks.

    an array            { _array 2, item "a", item "b" }    with the number of its elements, which are `item` in order
    null                { _null "null" }
    a number that isn't { _number "4.50" }                  spelled as in JSON
    whole or too large
    a long text         { _parts 2, part "..", part ".." }  where texts are laid into parts
    with positions      { _array 2, item { _at 0, _value "a" }, item { _at 1, name "Kim" } }

All else is as it is without: an object's keys are labels, a text is a text, true and false are flags, a whole
number of 64 bits is a number. A key that
is spelled as a mark, with any number of `_` in front, gets one `_` more, and loses it on the way back.
"""
import re

ARRAY = "_array"
NULL = "_null"
NUMBER = "_number"
PARTS = "_parts"
AT = "_at"
VALUE = "_value"
ITEM = "item"
PART = "part"
MARK = re.compile("_+(array|null|number|parts|at|value)")


def label_of_key(key):
    """The label of a key."""
    return "_" + key if MARK.fullmatch(key) else key


def key_of_label(label):
    """The key of a label that is no mark."""
    return label[1:] if label.startswith("__") and MARK.fullmatch(label) else label


def is_mark(label):
    """Whether a label is a mark and no key."""
    return bool(MARK.fullmatch(label)) and not label.startswith("__")
