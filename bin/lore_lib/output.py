"""How lore-talk prints: replies go to standard output, all else to standard error, and rows as the mode says."""
import os
import re

from lore_lib.lexer import tokens
from lore_lib.places import visible
from lore_lib.replies import read_rows
from lore_lib.rows_out import MODES, heads


WATCHING = re.compile(rb"(?:\s|--[^\n]*\n)*watch\b")  # a select is kept under a name


class Stop(Exception):
    """The end of the work: after a refusal with `.stop on`, by `.quit`, or since the program ended or nothing can be printed.
    With a status where that is no matter of what was refused."""

    def __init__(self, status=None):
        super().__init__(status)
        self.status = status


def say(*lines):
    """Tells something that is no reply, on standard error."""
    text = "".join(visible(line) + "\n" for line in lines)
    try:
        os.write(2, text.encode("utf-8", "backslashreplace"))
    except OSError:
        pass


def out(data):
    """Prints bytes of a reply; what would act on a terminal is escaped there."""
    if os.isatty(1):
        text = data.decode("utf-8", "replace")
        data = "\n".join(visible(line) for line in text.split("\n")).encode("utf-8", "backslashreplace")
    rest = memoryview(data)
    try:
        while rest:
            rest = rest[os.write(1, rest):]
    except BrokenPipeError:     # whoever reads the replies went: that ends the tool, quietly
        raise
    except OSError as error:
        say(f"lore-talk: replies can't be written: {error.strerror}")
        raise Stop(1)


class Output:
    """Replies in one of the modes."""

    def __init__(self):
        self.mode = "lines"
        self.views = {}  # the heads of the select that each view keeps

    def reply(self, chunk, reply):
        """The reply to a statement. Where rows are to be read by another program, no other reply is put among them."""
        if reply.startswith(b"ok ") and WATCHING.match(chunk.data):
            found, _ = tokens(chunk.data)
            self.views[found[1].text] = heads(chunk.data, found)
        text = self.rows(chunk, reply) if self.mode != "lines" and reply.endswith(b"\n") else None
        if text is not None:
            out(text.encode())
        else:
            self.plain(reply)

    def plain(self, reply):
        """A reply that has no rows, as the program wrote it."""
        if self.mode in ("json", "csv"):
            say(*reply.decode("utf-8", "replace").split("\n")[:-1])
        else:
            out(reply)

    def rows(self, chunk, reply):
        """The rows of a reply in their mode, None where it has none."""
        found, _ = tokens(chunk.data)
        if not found or found[0].text not in (b"select", b"at", b"blocks", b"sample", b"show") or [it.text for it in found] == [b"blocks"]:
            return None
        if found[0].text == b"show":
            names = self.views[found[1].text]
        elif found[0].text != b"sample":
            names = heads(chunk.data, found)
        else:
            names = [chunk.data[found[1].start:found[-2].end].decode()]
            reply = reply[:reply.rindex(b"sample ")] + b"rows %d\n" % (reply.count(b"\n") - 1)
        return MODES[self.mode](names, read_rows(reply)[0])
