"""Places in a script: line and column of a byte of a chunk, the line itself with signs below it, and texts made printable."""
import unicodedata

WIDTH = 100
UNSEEN = ("Cc", "Cf", "Zl", "Zp", "Co", "Cn", "Cs")


def hidden(character):
    """Whether a character can't be seen, or not be told from a plain space."""
    return unicodedata.category(character) in UNSEEN or unicodedata.category(character) == "Zs" and character != " "


def escaped(character):
    """A character that can't be seen, by its number."""
    number = ord(character)
    return f"\\x{number:02x}" if number < 256 else f"\\u{number:04x}" if number < 65536 else f"\\U{number:08x}"


def visible(text):
    """A text with what would act on a terminal, or can't be seen, as its number."""
    if text.isascii() and text.isprintable():
        return text
    return "".join(escaped(character) if hidden(character) else character for character in text)


def place(chunk, offset):
    """The line and the column, both from 1 on, of a byte of a chunk."""
    whole = chunk.before + chunk.data
    at = len(chunk.before) + offset
    begin = whole.rfind(b"\n", 0, at) + 1
    return chunk.line + whole.count(b"\n", 0, at), len(whole[begin:at].decode("utf-8", "replace")) + 1


def words(chunk, offset):
    """A place in words."""
    return "line {}, column {}".format(*place(chunk, offset))


def columns(text):
    """How many columns of a terminal a text takes."""
    return sum(0 if unicodedata.combining(character) else 2 if unicodedata.east_asian_width(character) in "WF" else 1
               for character in text)


def shown(data):
    """Bytes of one line, each character that can't be seen as a sign of its own width."""
    text = data.decode("utf-8", "replace")
    return "".join(" " if character == "\t" else "\u00b7" if hidden(character) else character for character in text)


def marked(chunk, start, end):
    """The line of a place, and one below it that marks the bytes from there on, as far as they stand in that line."""
    whole = chunk.before + chunk.data + (b";" if chunk.closed else b"")
    at, end = len(chunk.before) + start, len(chunk.before) + max(end, start + 1)
    begin = whole.rfind(b"\n", 0, at) + 1
    close = whole.find(b"\n", at)
    close = len(whole) if close < 0 else close
    end = min(end, close)
    before, marks, behind = shown(whole[begin:at]), shown(whole[at:end]), shown(whole[end:close].rstrip(b"\r"))
    if len(before) > WIDTH // 2:
        before = ".." + before[-WIDTH // 2:]
    if len(marks) > WIDTH:
        marks = marks[:WIDTH]
        behind = ""
    line = before + marks + behind
    if len(line) > len(before) + len(marks) + WIDTH // 2:
        line = line[:len(before) + len(marks) + WIDTH // 2] + ".."
    return line, " " * columns(before) + "^" + "~" * (columns(marks) - 1)
