"""The shell at a terminal: a prompt that tells what is open, a history, and what an interrupt does."""
import os
import signal
import sys

from lore_lib import session
from lore_lib.lexer import LABEL, TEXT, Cutter
from lore_lib.output import say


def prompt(cutter):
    """What stands before a line: what is still open."""
    if cutter.empty:
        return "lore> "
    if cutter.state in (TEXT, LABEL):
        return "   \"> " if cutter.state == TEXT else "   '> "
    return "   {> " if cutter.braces > 0 else "   (> " if cutter.brackets > 0 else "   ;> "


class Terminal:
    """Lines that a person types: with a prompt, a history, and Ctrl-C, which drops the statement that is being typed."""

    def __init__(self, shell):
        self.shell = shell
        self.history = os.environ.get("LORE_HISTORY", os.path.expanduser("~/.lore_history"))
        self.lines = None
        self.warned = False

    def interrupted(self, number, frame):
        """Ctrl-C: at the prompt it drops what is typed; while the program is at work the second one ends all."""
        if not self.shell.waiting:
            raise KeyboardInterrupt
        if self.warned:
            session.kill_all()
            say("", "lore-talk: interrupted; what wasn't saved is lost")
            self.keep()
            os._exit(130)
        self.warned = True
        say("", "lore-talk: the program is at work; Ctrl-C again ends it, and what wasn't saved is lost")

    def editing(self):
        """Line editing with a history, where both ends are a terminal."""
        if not os.isatty(1):
            return
        try:
            import readline
        except ImportError:
            return
        self.lines = readline
        sys.stdin.reconfigure(errors="surrogateescape")
        readline.set_history_length(1000)
        try:
            readline.read_history_file(self.history)
        except (OSError, UnicodeError):
            pass

    def keep(self):
        """Keeps the history."""
        if self.lines and self.history:
            try:
                self.lines.write_history_file(self.history)
            except OSError:
                pass

    def typed(self, cutter):
        """The next line, None at the end."""
        if os.isatty(1):
            try:
                return input(prompt(cutter)).encode("utf-8", "surrogateescape") + b"\n"
            except EOFError:
                say("")
                return None
        os.write(2, prompt(cutter).encode())
        return sys.stdin.buffer.readline() or None

    def run(self):
        """Reads lines until the end, or until `.quit`."""
        signal.signal(signal.SIGINT, self.interrupted)
        self.editing()
        say("lore-talk: statements end with `;`; .help tells more, .quit or Ctrl-D ends")
        cutter = Cutter()
        try:
            while True:
                try:
                    cutter = self.step(cutter)
                except KeyboardInterrupt:
                    say("")
                    cutter = Cutter()
        finally:
            self.keep()

    def step(self, cutter):
        """One line; what is open behind it."""
        if cutter.empty:
            cutter = Cutter()
        data = self.typed(cutter)
        self.warned = False
        if data is None:
            if not cutter.empty:
                say("lore-talk: the statement that was begun is dropped")
            self.shell.commands.do(".quit")
            return Cutter()
        word = data.strip().rstrip(b";").strip()
        if cutter.empty and word in (b"help", b"?", b"quit", b"exit", b"\\q", b"\\?"):
            self.shell.commands.do(".quit" if word in (b"quit", b"exit", b"\\q") else ".help")
            return Cutter()
        self.shell.line(cutter, data)
        return cutter
