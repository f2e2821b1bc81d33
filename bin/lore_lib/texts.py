"""Texts, labels and paths as the language writes them, both ways, and members in braces."""
import re

from lore_lib import limits
from lore_lib.tool import Fault

IDENTIFIER = re.compile("[A-Za-z_][A-Za-z0-9_]*")
TEXT = ('"', "a text", limits.TEXT_BYTES)
KEY = ("'", "a key", limits.LABEL_BYTES)
ESCAPE = re.compile(r"\\(.)", re.DOTALL)
ESCAPED = {"n": "\n", "r": "\r", "t": "\t"}

# Forms of what replies and dumps have in them, without groups, to be put together.
IDENTIFIER_FORM = "[A-Za-z_][A-Za-z0-9_]*"
LABEL_FORM = IDENTIFIER_FORM + r"|'(?:[^'\\\n\r\t]|\\['\\nrt])+'"
TEXT_FORM = r'"(?:[^"\\\n\r\t]|\\["\\nrt])*"'
STEP = re.compile(rf"\.({LABEL_FORM})")

# An object with its value, in rows and in dumps: the groups are its number, a number, a text and a flag.
OBJECT_FORM = rf"&([1-9][0-9]*) (?:(-?[0-9]+)|({TEXT_FORM})|(true|false)|\{{\}})"


def size_of(text):
    """How many bytes a text has."""
    try:
        return len(text.encode())
    except UnicodeEncodeError:
        raise Fault(1, "half of a surrogate pair stands alone, which is no character")


def enclosed(text, quote):
    """A text between quotes, with escapes; other control characters stand for themselves."""
    escapes = {quote: "\\" + quote, "\\": "\\\\", "\n": "\\n", "\r": "\\r", "\t": "\\t"}
    return quote + text.translate(str.maketrans(escapes)) + quote


def quoted(text, quote, kind, most):
    """A text or label between quotes, where it isn't too long."""
    size = size_of(text)
    if size > most:
        raise Fault(1, f"{kind} of {size} bytes; there may be {most}")
    return enclosed(text, quote)


def label_text(label):
    """A label as it is written: in quotes where it is no identifier."""
    if not label:
        raise Fault(1, "an empty key, which can't be a label")
    shown = quoted(label, *KEY)
    return label if IDENTIFIER.fullmatch(label) else shown


def atom_text(value):
    """A number, a text or a flag as it is written."""
    if isinstance(value, bool):
        return limits.FLAGS[value]
    return str(value) if isinstance(value, int) else quoted(value, *TEXT)


def unquoted(shown):
    """The text between quotes, without its escapes."""
    return ESCAPE.sub(lambda it: ESCAPED.get(it.group(1), it.group(1)), shown[1:-1])


def label_of(shown):
    """The label that is written so."""
    return unquoted(shown) if shown.startswith("'") else shown


def path_text(labels):
    """A word of labels as `path-of` shows it."""
    return "".join("." + label_text(label) for label in labels) or "."


def is_name(text):
    """Whether a name may be called so."""
    return bool(IDENTIFIER.fullmatch(text)) and len(text) <= limits.LABEL_BYTES and text not in limits.RESERVED


def braces(level, lines):
    """Members in braces of this level, on one line where they fit there."""
    line = "{ " + ", ".join(lines) + " }" if lines else "{}"
    if len(line) + 2 * level <= limits.WIDTH and "\n" not in line:
        return line
    margin = "\n" + "  " * level
    return "{" + margin + ("," + margin).join(lines) + margin[:-2] + "}"
