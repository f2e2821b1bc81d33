"""The shell around the program: reads statements and commands, sends one statement at a time, and prints the replies."""
import contextlib
import re
import time

from lore_lib import limits
from lore_lib.commands import Commands
from lore_lib.diagnosis import binds, diagnose
from lore_lib.lexer import MARK, Cutter
from lore_lib.output import Output, Stop, out, say
from lore_lib.saving import KeptFile
from lore_lib.session import Ended, Session, refusal_of
from lore_lib.telling import told
from lore_lib.tool import Fault

KEEPING = re.compile(rb"(?:\s|--[^\n]*\n)*(?:history|watch|unwatch)\b")  # of a history or a view: the database stays as it is


class Shell:
    """One session: a database, the file that it is kept in, and the scripts that are being read. `changes` counts what changed
    the database."""

    def __init__(self, path, terminal=False):
        self.path, self.terminal = path, terminal
        self.talk = Session(path)
        self.file, self.output, self.commands = KeptFile(), Output(), Commands(self)
        self.count = self.failures = self.changes = 0
        self.timer = self.stop = self.waiting = False
        self.lost, self.reads = {}, []

    def fault(self, text):
        """A command didn't do what it was to do."""
        say(f"lore-talk: {text}")
        self.failed()

    def failed(self):
        """Counts a fault, which ends a script where that is asked."""
        self.failures += 1
        if self.stop and (self.reads or not self.terminal):
            raise Stop

    def ask(self, statement, printed=True):
        """The program's reply."""
        try:
            return self.asked(self.talk, statement, printed)
        except Ended as ended:
            out(ended.partial)
            kept = f"; {self.file.called} is as it was saved last" if self.file.path else ""
            say(f"lore-talk: {ended}; what wasn't saved is lost{kept}")
            raise Stop(4)

    def asked(self, talk, statement, printed=True):
        """The reply of a run of the program. While it is at work an interrupt doesn't break the talk off."""
        self.waiting = True
        try:
            return talk.ask(statement, printed)
        finally:
            self.waiting = False

    def statement(self, chunk):
        """Sends a statement and prints its reply."""
        if self.terminal and not self.reads and chunk.blank():
            return
        self.count += 1
        self.commands.leaving = False
        begin = time.monotonic()
        reply = self.ask(chunk.data)
        took = time.monotonic() - begin
        refused = refusal_of(reply)
        if reply.startswith(b"ok ") and not KEEPING.match(chunk.data):
            self.changed()
        if refused:
            self.refused(chunk, reply, self.count)
        else:
            self.output.reply(chunk, reply)
        if self.timer:
            say(f"{took:.3f} s")

    def changed(self):
        """The database isn't what it was."""
        self.changes += 1
        self.file.changed = True

    def refused(self, chunk, reply, count=None, least=0):
        """Prints a refusal, and tells where and why; its place is no byte before the least. The count is the number of the
        statement where a person wrote it."""
        out(reply)
        number = refusal_of(reply) or 0
        diagnosis = diagnose(chunk, number, self.ask if number > 6 else None, self.lost)
        diagnosis.start = max(diagnosis.start, least)
        source = self.reads[-1] if self.reads else ""
        if count:
            self.lost.update({name: f"{count} of {source}" if source else count for name in binds(chunk)})
        say(*told(diagnosis, chunk, count, source))
        self.failed()

    @contextlib.contextmanager
    def reading(self, source):
        """While the statements of something else are done, they are counted for themselves, and told as of that."""
        outer, self.count = self.count, 0
        self.reads.append(source)
        try:
            yield
        finally:
            self.reads.pop()
            self.count = outer

    def line(self, cutter, data):
        """A line: a command where nothing is open, else a part of statements."""
        if cutter.empty and data.lstrip(b" \t").startswith(b"."):
            cutter.drop()
            cutter.line += data.count(b"\n")
            cutter.drop()
            self.commands.do(data.decode("utf-8", "surrogateescape").strip())
            return
        for chunk in cutter.feed(data):
            self.statement(chunk)

    def script(self, lines):
        """A whole script; what stands behind the last `;` is refused."""
        cutter = Cutter()
        for place, data in enumerate(lines):
            self.line(cutter, data.removeprefix(MARK) if place == 0 else data)
            if cutter.size > limits.STATEMENT_BYTES:
                raise Fault(1, f"line {cutter.first}: a statement has more than {limits.STATEMENT_BYTES:,} bytes")
        rest = cutter.pending()
        if not rest.blank():
            self.count += 1
            self.refused(rest, b"refused 6 Unfinished\n", self.count)

    def close(self):
        self.talk.close()
