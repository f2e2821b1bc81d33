"""The tokens of the language: cuts a script into chunks and a chunk into tokens, and tells what no token is.

A chunk is what stands before a `;` that is in no text, quoted label or comment. A token is the longest that starts at its
place; blanks and comments part tokens. Of what may be wrong with a chunk's bytes the earliest place counts, save that a
chunk that isn't UTF-8 is BadToken whatever else stands in it.
"""
import re
from collections import namedtuple
from dataclasses import dataclass

from lore_lib import limits
from lore_lib.refusals import BAD_TOKEN, NUMBER_RANGE, REAL_REFUSED, TEXT_TOO_LONG

MARK = b"\xef\xbb\xbf"

PLAIN, TEXT, LABEL, COMMENT = "plain", "text", "label", "comment"
OPENING = {ord('"'): TEXT, ord("'"): LABEL}
PLAIN_RUN = re.compile(rb"""(?:[^;"'-]+|-(?!-))*""")
INSIDE = {
    TEXT: re.compile(rb'[^"\\]*(?:\\.[^"\\]*)*', re.S),
    LABEL: re.compile(rb"[^'\\]*(?:\\.[^'\\]*)*", re.S),
    COMMENT: re.compile(rb"[^\n]*"),
}
BLANK = re.compile(rb"(?:[ \t\r\n]+|--[^\n]*)*")
TOKEN = re.compile(
    rb"""(?P<blank>(?:[ \t\r\n]+|--[^\n]*)+)
       | (?P<pathof>path-of(?![A-Za-z0-9_%]))
       | (?P<word>[A-Za-z_%][A-Za-z0-9_%]*)
       | (?P<real>-?[0-9]+(?=\.[0-9]))
       | (?P<number>-?[0-9]+)
       | (?P<local>&[0-9]+)
       | (?P<text>"[^"\\]*(?:\\["\\nrt][^"\\]*)*")
       | (?P<label>'(?!')[^'\\]*(?:\\['\\nrt][^'\\]*)*')
       | (?P<symbol>:=|==|!=|<=|>=|\+=|-=|[{}(),.:=<>?*+|\#@])""",
    re.X,
)

Token = namedtuple("Token", "kind text start end")
Fault = namedtuple("Fault", "number start end")


@dataclass
class Chunk:
    """The bytes before a `;`, or the rest behind the last one. The line is that on which it begins, `before` what stands
    there before it, and `open_at` where in it what is still open began."""
    data: bytes
    closed: bool
    line: int
    before: bytes
    state: str = PLAIN
    open_at: int = 0

    def blank(self):
        """Whether it consists of blanks and comments."""
        return BLANK.match(self.data).end() == len(self.data)

    def begin(self):
        """Where the statement itself begins, behind blanks and comments."""
        return BLANK.match(self.data).end()


class Cutter:
    """Cuts a script into chunks as its lines come. Each piece that is fed ends with a line feed, save the last one."""

    def __init__(self, line=1):
        self.line = line
        self.drop()

    def drop(self):
        """Forgets what is open."""
        self.pieces, self.size, self.state, self.open_at = [], 0, PLAIN, 0
        self.first, self.before = self.line, b""
        self.empty, self.braces, self.brackets = True, 0, 0

    def pending(self):
        """The chunk that is still open."""
        return Chunk(b"".join(self.pieces), False, self.first, self.before, self.state, self.open_at)

    def feed(self, data):
        """The chunks that end in these bytes, one after another."""
        start = at = 0
        while at < len(data):
            if self.state == PLAIN:
                run = PLAIN_RUN.match(data, at)
                at = run.end()
                self.count(run.group())
                if data[at:at + 1] == b";":
                    self.keep(data[start:at])
                    yield self.closed(data, at + 1)
                    start = at = at + 1
                elif at < len(data):
                    self.open_at = self.size + at - start
                    self.state = OPENING.get(data[at], COMMENT)
                    at += 1
            else:
                at = min(INSIDE[self.state].match(data, at).end() + 1, len(data) + 1)
                if at <= len(data) and data[at - 1:at] in (b'"', b"'", b"\n"):
                    self.state = PLAIN
        self.keep(data[start:])
        self.line += data.count(b"\n")

    def keep(self, piece):
        """Adds bytes to the open chunk."""
        self.empty = self.empty and BLANK.match(piece).end() == len(piece)
        self.pieces.append(piece)
        self.size += len(piece)

    def count(self, run):
        """Counts what bytes outside quotes and comments open and close."""
        self.braces += run.count(b"{") - run.count(b"}")
        self.brackets += run.count(b"(") - run.count(b")")

    def closed(self, data, end):
        """The chunk whose `;` stands before this place; the next one begins there."""
        chunk = self.pending()
        chunk.closed = True
        self.drop()
        self.first = self.line + data.count(b"\n", 0, end)
        self.before = data[data.rfind(b"\n", 0, end) + 1:end]
        return chunk


def chunks(data):
    """All chunks of a script, and the rest where it isn't blank."""
    cutter = Cutter()
    yield from cutter.feed(data)
    rest = cutter.pending()
    if not rest.blank():
        yield rest


def outside(spelling, least, most):
    """Whether a whole number, of however many digits, is outside a range."""
    sign, digits = spelling[:1] == b"-", spelling.lstrip(b"-").lstrip(b"0") or b"0"
    return len(digits) > 20 or not least <= (-int(digits) if sign else int(digits)) <= most


def too_long(form, spelling):
    """Whether a text or label has more bytes, its escapes resolved, than there may be."""
    if form == "word":
        return len(spelling) > limits.LABEL_BYTES
    size = len(spelling) - 2
    most = limits.TEXT_BYTES if form == "text" else limits.LABEL_BYTES
    return size > most and size - len(re.findall(rb"\\.", spelling[1:-1])) > most


def fault_of(form, spelling):
    """The number of the refusal of one token by its form, or None."""
    if form == "real":
        return REAL_REFUSED
    if form == "number" and outside(spelling, limits.WHOLE_LEAST, limits.WHOLE_MOST):
        return NUMBER_RANGE
    if form == "local" and outside(spelling[1:], 0, limits.LOCALS):
        return NUMBER_RANGE
    if form in ("word", "text", "label") and too_long(form, spelling):
        return TEXT_TOO_LONG
    return None


def kind_of(form, spelling):
    """The kind of a token, as the grammar calls it."""
    if form == "word":
        return "pattern" if b"%" in spelling else "identifier"
    return {"label": "quoted label", "pathof": "symbol"}.get(form, form)


def tokens(data):
    """The tokens of a chunk and its fault, which is None where there is none; with a fault, the tokens before it."""
    try:
        data.decode("utf-8")
    except UnicodeDecodeError as error:
        return [], Fault(BAD_TOKEN, error.start, error.start + 1)
    found, at = [], 0
    while at < len(data):
        match = TOKEN.match(data, at)
        if not match:
            return found, Fault(BAD_TOKEN, at, at + 1)
        form, start, at = match.lastgroup, at, match.end()
        if form == "blank":
            continue
        spelling = match.group()
        number = fault_of(form, spelling)
        if number:
            return found, Fault(number, start, at)
        found.append(Token(kind_of(form, spelling), spelling, start, at))
    return found, None
