"""The commands of lore-talk: each stands on a line of its own and begins with a point. `help_texts` tells what they do."""
import os
import shlex
import subprocess
import sys

from lore_lib import limits, saving
from lore_lib.dump import members_of, read_dump
from lore_lib.help_texts import COMMANDS, help_on
from lore_lib.lexer import MARK, PLAIN, Chunk, Cutter
from lore_lib.literals import literal
from lore_lib.output import Stop, out, say
from lore_lib.replies import Cell, read_rows
from lore_lib.rows_out import MODES, counted
from lore_lib.session import Ended, Session, refusal_of
from lore_lib.tool import Fault

NESTED_READS = 16
TOOLS = os.path.join(os.path.dirname(os.path.realpath(__file__)), "..")
OVER = (".open", ".save", ".quit")      # a `!` behind these says that something may be lost
RESTORE = b"restore\n"


class Commands:
    """The commands of a shell. `leaving` says that `.quit` was refused right before, and `dumped` has the number of
    changes at which the database was dumped, its dump, and the members in that."""

    def __init__(self, shell):
        self.shell = shell
        self.leaving = False
        self.dumped = None, None, None

    def do(self, text):
        """Does a command."""
        word, _, rest = text.partition(" ")
        over = word.endswith("!") and word[:-1] in OVER
        name = word.rstrip("!") if over else word
        work = getattr(self, "do_" + name[1:], None) if name in COMMANDS else None
        if not work:
            self.shell.fault(f"there is no command {word}; .help tells which there are")
            return
        try:
            work(rest.strip(), over) if name in OVER else work(rest.strip())
        except Fault as fault:
            self.shell.fault(fault)
        except BrokenPipeError:     # whoever reads the replies went: that ends the tool, quietly
            raise
        except OSError as error:
            self.shell.fault(error.strerror or error)

    def do_help(self, rest):
        lines = help_on(rest)
        if lines is None:
            raise Fault(1, f"there is no statement, command or refusal {rest}; .help alone tells all")
        out("".join(line + "\n" for line in lines).encode())

    def do_open(self, rest, over):
        """Opens a file in a new run of the program; the old one is left only when that has taken the database in."""
        shell, path = self.shell, one_file(rest, ".open FILE")
        if shell.file.changed and not over:
            raise Fault(1, "there are changes that weren't saved: `.save` them, or `.open!` drops them")
        data = saving.content(path, limits.STATEMENT_BYTES)
        chunk = restoring(path, data.removeprefix(MARK))
        fresh = Session(shell.path)
        try:
            reply = shell.asked(fresh, chunk.data)
            if not reply.startswith(b"ok "):
                with shell.reading(path):
                    shell.refused(chunk, reply, least=len(RESTORE))
                return
            shell.talk, fresh = fresh, shell.talk
        except Ended as ended:
            raise Fault(1, f"{path}: {ended}")
        finally:
            fresh.close()
        shell.changed()
        shell.file.opened(path, data)
        shell.lost = {}
        shell.output.plain(reply)

    def do_save(self, rest, over):
        """Saves the database."""
        file = self.shell.file
        called = one_file(rest, ".save FILE") if rest or not file.path else file.called
        data = self.shell.ask(b"dump", printed=False)
        if not (data.startswith(b"oem ") and data.endswith(b"\nend\n")):
            raise Fault(1, "the program's dump isn't whole; nothing was written")
        if len(RESTORE) + len(data) > limits.STATEMENT_BYTES:
            say(f"lore-talk: the database has {len(data):,} bytes, and `.open` takes at most {limits.STATEMENT_BYTES:,}: "
                "it is saved, and can't be opened again as a whole")
        saved = file.save(called, data, over)
        say(f"saved {called}, {len(data):,} bytes" + (f"; {saved.owner}" if saved.owner else ""))
        if saved.unsure:
            raise Fault(1, f"{called}: {saved.unsure}")

    def do_read(self, rest):
        path = one_file(rest, ".read FILE")
        if len(self.shell.reads) == NESTED_READS:
            raise Fault(1, f"scripts read one another more than {NESTED_READS} deep")
        with self.shell.reading(path):
            self.shell.script(lines_of(path, path, 1))

    def load_by(self, tool, rest, form):
        """Does the statements that another tool writes."""
        words = shlex_words(rest)
        if len(words) < 2:
            raise Fault(1, f"the command is {form}")
        file = words[0] if words[0][:1] != "-" else "./" + words[0]
        name = [] if words[1][:1] == "-" else [words[1]]
        command = [sys.executable, os.path.join(TOOLS, tool), *words[1 + len(name):], *name, file]
        done = subprocess.run(command, stdin=subprocess.DEVNULL, stdout=subprocess.PIPE)
        if done.returncode:
            raise Fault(1, f"{words[0]} wasn't loaded")
        with self.shell.reading(f"load of {words[0]}"):
            self.shell.script(done.stdout.splitlines(keepends=True))

    def do_json(self, rest):
        self.load_by("json-lore", rest, ".json FILE NAME [OPTION ..]")

    def do_csv(self, rest):
        self.load_by("csv-lore", rest, ".csv FILE NAME [OPTION ..]")

    def found(self, rest, name, before=b""):
        """A select of this path, behind what stands before it, and the reply; None where it was refused."""
        path = rest.removesuffix(";").encode("utf-8", "surrogateescape")
        chunk = Chunk(before + b"select " + path, True, 1, b"")
        cutter = Cutter()
        if not path.strip() or list(cutter.feed(chunk.data)) or cutter.pending().state != PLAIN:
            raise Fault(1, f"the command is {COMMANDS[name][0]}, of one path")
        return self.accepted(chunk, name)

    def accepted(self, chunk, name):
        """The statement of a command, and its reply; None where it was refused."""
        reply = self.shell.ask(chunk.data)
        if refusal_of(reply):
            with self.shell.reading(name):
                self.shell.refused(chunk, reply)
            return None
        return chunk, reply

    def selected(self, rest, name):
        """The rows of a select of this path, None where it was refused."""
        found = self.found(rest, name)
        return read_rows(found[1])[0] if found else None

    def do_show(self, rest):
        """Prints objects whole."""
        rows = self.selected(rest, ".show")
        if rows is None:
            return
        numbers = dict.fromkeys(cell.number for row in rows for cell in row if isinstance(cell, Cell))
        if numbers and self.dumped[0] != self.shell.changes:
            dump = read_dump(self.shell.ask(b"dump"))
            self.dumped = self.shell.changes, dump, members_of(dump)
        pieces = [f"-- &{number}\n{literal(self.dumped[1], number, self.dumped[2])}\n" for number in numbers]
        out("".join(pieces).encode() + f"-- objects {len(numbers)}\n".encode())

    def do_values(self, rest):
        rows = self.selected(rest, ".values")
        if rows is not None:
            out(counted(rows).encode())

    def do_at(self, rest):
        moment, _, path = rest.partition(" ")
        found = self.found(path, ".at", b"at %d " % number_of(moment, ".at"))
        if found:
            self.shell.output.reply(*found)

    def do_changes(self, rest):
        """Prints what differs between a moment, or the one before the last, and the last one, which is the present."""
        last = self.last_moment()
        first = number_of(rest, ".changes") if rest else max(last - 1, 0)
        found = self.accepted(differing(first, last), ".changes")
        if found:
            self.shell.output.reply(*found)

    def last_moment(self):
        """The number of the last moment, found by halves; 0 where no history is kept."""
        last, behind = 0, 1
        while self.is_moment(behind):
            last, behind = behind, 2 * behind
        while last + 1 < behind:
            middle = (last + behind) // 2
            last, behind = (middle, behind) if self.is_moment(middle) else (last, middle)
        return last

    def is_moment(self, number):
        return refusal_of(self.shell.ask(differing(number, number).data)) is None

    def do_mode(self, rest):
        if rest not in MODES:
            raise Fault(1, f"rows are printed as {', '.join(MODES)}; now it is {self.shell.output.mode}")
        self.shell.output.mode = rest

    def do_timer(self, rest):
        self.shell.timer = switched(rest, ".timer")

    def do_stop(self, rest):
        self.shell.stop = switched(rest, ".stop")

    def do_quit(self, rest, over):
        if self.shell.terminal and self.shell.file.changed and not over and not self.leaving:
            self.leaving = True
            raise Fault(1, "there are changes that weren't saved: `.save` them, or `.quit` again drops them")
        raise Stop


def number_of(word, name):
    """The number of a moment."""
    if not (word.isascii() and word.isdigit()):
        raise Fault(1, f"the command is {COMMANDS[name][0]}")
    return int(word)


def differing(first, last):
    """The statement that tells what differs between two moments."""
    return Chunk(b"changes %d %d" % (first, last), True, 1, b"")


def restoring(path, text):
    """The statement that makes the database of a file, whose first line is the file's: so its places are those of the file."""
    cutter = Cutter(0)
    before = list(cutter.feed(RESTORE + text))
    chunk = cutter.pending()
    if before or chunk.state != PLAIN or not text.startswith(b"oem "):
        raise Fault(1, f"{path}: this is no database that `.save` or `dump;` wrote")
    chunk.closed = True
    return chunk


def lines_of(file, source, status):
    """The lines of a file, none longer than a statement may be. Where it can't be read, that is a fault of this status."""
    try:
        with open(file, "rb", closefd=file != 0) as opened:
            while data := opened.readline(limits.STATEMENT_BYTES + 2):
                if len(data) > limits.STATEMENT_BYTES + 1:
                    raise Fault(1, f"{source}: a line has more than {limits.STATEMENT_BYTES:,} bytes")
                yield data
    except OSError as error:
        raise Fault(status, f"{source}: {error.strerror}")


def switched(rest, name):
    """Whether a command switches something on."""
    if rest not in ("on", "off"):
        raise Fault(1, f"the command is {name} on or {name} off")
    return rest == "on"


def one_file(rest, form):
    """The file that a command names; quotes round it are taken off."""
    if len(rest) > 1 and rest[0] == rest[-1] and rest[0] in "\"'":
        rest = rest[1:-1]
    if not rest or "\0" in rest:
        raise Fault(1, f"the command is {form}")
    return os.path.expanduser(rest)


def shlex_words(rest):
    """The words of a command, with quotes round those that have blanks."""
    try:
        return shlex.split(rest)
    except ValueError as error:
        raise Fault(1, f"the words can't be taken apart: {error}")
