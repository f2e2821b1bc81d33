"""Ends of the system that fail without a library: a full disk, a closed pipe, a terminal that goes away, and more."""
import os
import pty
import resource
import signal
import subprocess
import tempfile
import time

SCRIPT = b"load A := 1; select A; select Nobody; select A;"
REPLIES = b"ok objects 1 edges 0 nodes 1\n&1 1\nrows 1\nrefused 7 UnknownName\n&1 1\nrows 1\n"
SECONDS = 20


def status_of(program, **streams):
    """The status of a run, of which nothing is said on standard error."""
    return subprocess.run([program], stderr=subprocess.DEVNULL, timeout=SECONDS, check=False, **streams).returncode


def full_disk(program):
    with open("/dev/full", "wb") as full:
        return status_of(program, input=SCRIPT, stdout=full), 4


def closed_pipe(program):
    """Nobody reads what is written, and the signal of that is left as the system has it."""
    reading, writing = os.pipe()
    os.close(reading)
    got = status_of(program, input=SCRIPT, stdout=writing)
    os.close(writing)
    return got, 4


def pipe_that_closes(program):
    """The reader goes after the first reply."""
    process = subprocess.Popen([program], stdin=subprocess.PIPE, stdout=subprocess.PIPE)
    process.stdin.write(b"load A := 1;")
    process.stdin.flush()
    first = process.stdout.readline()
    process.stdout.close()
    process.stdin.write(b"select A;")
    process.stdin.close()
    return (process.wait(SECONDS), first), (4, b"ok objects 1 edges 0 nodes 1\n")


def file_of_limited_size(program):
    """A file that may have 40 bytes: what fits stands."""
    def limit():
        signal.signal(signal.SIGXFSZ, signal.SIG_IGN)
        resource.setrlimit(resource.RLIMIT_FSIZE, (40, 40))

    with tempfile.TemporaryFile() as file:
        got = status_of(program, input=SCRIPT, stdout=file, preexec_fn=limit)
        file.seek(0)
        return (got, file.read()), (4, REPLIES[:40])


def folder_to_read(program):
    folder = os.open("/", os.O_RDONLY)
    got = status_of(program, stdin=folder, stdout=subprocess.DEVNULL)
    os.close(folder)
    return got, 3


def pipe_that_has_nothing_yet(program):
    """A read that would have to wait, where it may not."""
    reading, writing = os.pipe()
    os.set_blocking(reading, False)
    got = status_of(program, stdin=reading, stdout=subprocess.DEVNULL)
    os.close(reading)
    os.close(writing)
    return got, 3


def read_end_for_writing(program):
    """A descriptor that can't be written to."""
    with open("/dev/null", "rb") as null:
        return status_of(program, input=SCRIPT, stdout=null), 4


def terminal_to_write_to(program):
    """A terminal goes away to which replies are written, and that isn't the process's own."""
    master, slave = pty.openpty()
    process = subprocess.Popen([program], stdin=subprocess.PIPE, stdout=slave, start_new_session=True)
    os.close(slave)
    os.close(master)
    process.stdin.write(SCRIPT)
    process.stdin.close()
    return process.wait(SECONDS), 4


def terminal_to_read_from(program):
    """A terminal goes away from which a script is read: that is the end of the script, or a fault."""
    master, slave = pty.openpty()
    process = subprocess.Popen([program], stdin=slave, stdout=subprocess.PIPE, start_new_session=True)
    os.close(slave)
    os.write(master, b"load A := 1;\nselect A;\n")
    first = process.stdout.readline()
    os.close(master)
    rest = process.stdout.read()
    return (process.wait(SECONDS) in (0, 3), first + rest), (True, b"ok objects 1 edges 0 nodes 1\n&1 1\nrows 1\n")


def own_terminal(program):
    """The terminal that the process has as its own goes away: the signal of that ends it."""
    child, master = pty.fork()
    if child == 0:
        signal.signal(signal.SIGHUP, signal.SIG_DFL)
        os.execv(program, [program])
    os.write(master, b"load A := 1;\n")
    until = time.monotonic() + SECONDS
    while b"nodes 1" not in os.read(master, 4_096) and time.monotonic() < until:
        pass
    os.close(master)
    return os.waitstatus_to_exitcode(os.waitpid(child, 0)[1]), -signal.SIGHUP


def signals_while_it_waits(program):
    """It is stopped and goes on while it waits for more, and is told that its window has another size."""
    process = subprocess.Popen([program], stdin=subprocess.PIPE, stdout=subprocess.PIPE)
    for number in (signal.SIGSTOP, signal.SIGCONT, signal.SIGWINCH, signal.SIGCHLD, signal.SIGURG) * 3:
        process.send_signal(number)
        time.sleep(0.01)
    written, _ = process.communicate(SCRIPT, SECONDS)
    return (process.returncode, written), (1, REPLIES)


CASES = (
    ("a full disk", full_disk),
    ("a pipe that nobody reads", closed_pipe),
    ("a pipe whose reader goes", pipe_that_closes),
    ("a file that may not grow", file_of_limited_size),
    ("a folder to read from", folder_to_read),
    ("a pipe that has nothing yet and may not wait", pipe_that_has_nothing_yet),
    ("a descriptor that is for reading", read_end_for_writing),
    ("a terminal to write to that goes away", terminal_to_write_to),
    ("a terminal to read from that goes away", terminal_to_read_from),
    ("its own terminal goes away", own_terminal),
    ("signals while it waits", signals_while_it_waits),
)


def faults(program):
    """What is wrong with each case that isn't right, and how many there are."""
    found = []
    for name, case in CASES:
        try:
            got, wanted = case(program)
        except (OSError, subprocess.TimeoutExpired) as error:
            got, wanted = error, "an end"
        if got != wanted:
            found.append(f"{name}: {got!r} in place of {wanted!r}")
    return found, len(CASES)
