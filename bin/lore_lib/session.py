"""A talk with the program, which runs as a child and is talked to through pipes: one statement, then its whole reply.

Behind each statement an empty one is sent. It changes nothing and its reply is always the line of MARKER, which is no line of
any other reply but the one line of a statement that is refused so. So a reply is what comes before a second line that is
MARKER, or before the first one that isn't the first line, whatever the statement was. A talk begins with an empty statement:
what answers it otherwise, or not within PATIENCE seconds, isn't lore.

The child doesn't outlive the tool: Linux ends it with the tool whatever ends that, and elsewhere a signal that ends the tool
ends it first.
"""
import contextlib
import os
import re
import select
import signal
import stat
import subprocess

from lore_lib import limits
from lore_lib.tool import Fault

MARKER = b"refused 5 Syntax\n"
BLOCK = 1 << 20
REFUSED = re.compile(rb"refused ([0-9]+) \w+\n")
STATUSES = {
    2: "words were given on its command line",
    3: "it couldn't read",
    4: "it couldn't write",
    5: f"a statement has more than {limits.STATEMENT_BYTES:,} bytes",
    6: "memory was refused",
    7: f"the script has more than {limits.SCRIPT_BYTES:,} bytes",
}
PATIENCE = 60
SET_PARENT_DEATH_SIGNAL = 1     # the number that Linux has for it
RUNNING = set()                 # the sessions whose programs run


class Ended(Exception):
    """The program ended in the middle of the talk; `partial` is what it wrote of a reply."""

    def __init__(self, status, partial=b""):
        super().__init__(in_words(status))
        self.status = status
        self.partial = partial


def refusal_of(reply):
    """The number with which a statement was refused, None where it wasn't."""
    refused = REFUSED.fullmatch(reply)
    return int(refused.group(1)) if refused else None


def kill_all():
    """Ends the programs that run, and waits until they are gone."""
    for session in list(RUNNING):
        session.kill()
        with contextlib.suppress(OSError):
            os.waitpid(session.child.pid, 0)


def end_by(number, frame=None):
    """Ends the programs that run, and then this process by a signal."""
    kill_all()
    signal.signal(number, signal.SIG_DFL)
    os.kill(os.getpid(), number)


@contextlib.contextmanager
def pipes():
    """While the program is talked to, a pipe that it closed is an error that is told; that of standard output still ends the
    tool quietly. What ends the tool ends the program first."""
    signal.signal(signal.SIGPIPE, signal.SIG_IGN)
    for number in (signal.SIGINT, signal.SIGTERM, signal.SIGHUP):
        if signal.getsignal(number) != signal.SIG_IGN:
            signal.signal(number, end_by)
    try:
        yield
    except BrokenPipeError:
        end_by(signal.SIGPIPE)


def ends_with_its_parent():
    """What a child does before all else so that it ends when this process does, where the system can; None elsewhere."""
    try:
        import ctypes
        control = ctypes.CDLL(None).prctl
    except (ImportError, OSError, AttributeError):
        return None
    parent = os.getpid()

    def begin():
        control(SET_PARENT_DEATH_SIGNAL, int(signal.SIGKILL))
        if os.getppid() != parent:
            os._exit(1)
    return begin


def in_words(status):
    """How the program ended."""
    if status < 0:
        try:
            name = signal.Signals(-status).name
        except ValueError:
            name = str(-status)
        return f"the program was ended by the signal {name}"
    return f"the program ended with status {status}" + (f": {STATUSES[status]}" if status in STATUSES else "")


def is_pipe(there):
    """Whether a number of an open file is a pipe's, whose other end may be closed."""
    try:
        return stat.S_ISFIFO(os.fstat(there).st_mode)
    except OSError:
        return False


class Session:
    """One run of the program, and so one database. Interrupts of the terminal don't reach it."""

    def __init__(self, program):
        try:
            self.child = subprocess.Popen([program], stdin=subprocess.PIPE, stdout=subprocess.PIPE, bufsize=0,
                                          start_new_session=True, preexec_fn=ends_with_its_parent())
        except OSError as error:
            raise Fault(4, f"{program} can't be run: {error.strerror}")
        RUNNING.add(self)
        try:
            self.greet(program)
        except BaseException:
            self.close()
            raise

    def greet(self, program):
        """Sends an empty statement, which is answered as by no other program."""
        answer = b""
        try:
            self.send(b";")
            while MARKER.startswith(answer) and answer != MARKER:
                piece = self.piece(PATIENCE, printed=False)
                if not piece:
                    raise Ended(self.child.wait())
                answer += piece
        except Ended as ended:
            raise Fault(4, f"{program} doesn't answer: {ended}")
        except TimeoutError:
            raise Fault(4, f"{program} isn't lore: it doesn't answer")
        if answer != MARKER:
            raise Fault(4, f"{program} isn't lore: it answers otherwise")

    def send(self, data):
        """Writes all bytes."""
        rest = memoryview(data)
        try:
            while rest:
                rest = rest[os.write(self.child.stdin.fileno(), rest):]
        except BrokenPipeError:
            raise Ended(self.child.wait(), self.rest())

    def piece(self, seconds=None, printed=True):
        """What the program writes next, nothing at the end, for which it may take so many seconds. Where replies are printed
        and their reader went, there is no need to wait for more."""
        there = select.poll()
        there.register(self.child.stdout, select.POLLIN)
        if printed and is_pipe(1):
            there.register(1, 0)
        ready = dict(there.poll(seconds and seconds * 1000))
        if not ready:
            raise TimeoutError
        if self.child.stdout.fileno() not in ready:
            raise BrokenPipeError
        return os.read(self.child.stdout.fileno(), BLOCK)

    def rest(self):
        """All that the program still writes."""
        pieces = []
        while piece := self.piece():
            pieces.append(piece)
        return b"".join(pieces)

    def ask(self, statement, printed=True):
        """The reply to a statement, which is given without its `;`."""
        self.send(statement + b";;")
        reply = bytearray()
        while not reply.endswith(b"\n" + MARKER):
            piece = self.piece(printed=printed)
            if not piece:
                raise Ended(self.child.wait(), bytes(reply))
            reply += piece
        return bytes(reply[:-len(MARKER)])

    def finish(self, rest=b""):
        """The reply to what stands behind the last `;`; the run ends with it."""
        self.send(rest)
        self.child.stdin.close()
        reply = self.rest()
        self.child.wait()
        return reply

    def kill(self):
        """Ends the program, and what it began."""
        if self.child.poll() is None:
            with contextlib.suppress(OSError):
                os.killpg(self.child.pid, signal.SIGKILL)

    def close(self):
        """Ends the run, whatever it is doing."""
        for pipe in (self.child.stdin, self.child.stdout):
            with contextlib.suppress(OSError):
                pipe.close()
        self.kill()
        self.child.wait()
        RUNNING.discard(self)
