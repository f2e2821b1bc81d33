"""The preloaded library of faults: it is compiled into a temporary folder, and programs are run under it."""
import os
import resource
import struct
import subprocess
from dataclasses import dataclass

HERE = os.path.dirname(os.path.abspath(__file__))
SOURCE = os.path.join(HERE, "faulty.c")
UNSEEN = "doesn't call the library that is loaded before it: is it linked statically?"
COUNTS = struct.Struct("<3Q")


class Trouble(Exception):
    """Why nothing can be tried."""


@dataclass(frozen=True)
class Ran:
    """How a run ended, what it wrote, and how many allocations, reads and writes it made; a status below 0 is a signal."""

    status: int
    written: bytes
    allocations: int
    reads: int
    writes: int


def compiled(folder):
    """The library's file, compiled into the folder."""
    library = os.path.join(folder, "faulty.so")
    words = ["gcc", "-O2", "-Wall", "-shared", "-fPIC", "-o", library, SOURCE]
    try:
        done = subprocess.run(words, stdin=subprocess.DEVNULL, stdout=subprocess.PIPE, stderr=subprocess.STDOUT, check=False)
    except OSError as error:
        raise Trouble(f"gcc: {error.strerror}") from error
    if done.returncode != 0:
        raise Trouble("gcc: " + done.stdout.decode("utf-8", "replace"))
    return library


def kept(data):
    """A file of the memory with these bytes, read from the start."""
    file = os.memfd_create("data")
    with open(file, "wb", closefd=False) as opened:
        opened.write(data)
    os.lseek(file, 0, os.SEEK_SET)
    return file


class Library:
    """Runs a program under the library. Each process that tries makes its own."""

    seconds = 120  # of a processor, for one run

    def __init__(self, library, program):
        self.library, self.program = library, program
        self.counts = os.memfd_create("counts")

    def environment(self, faults):
        found = {name: value for name, value in os.environ.items() if not name.startswith("FAULTY_")}
        found.update({f"FAULTY_{name.upper()}": str(value) for name, value in faults.items()})
        found.update(LD_PRELOAD=self.library, FAULTY_COUNTS=f"/proc/{os.getpid()}/fd/{self.counts}")
        return found

    def run(self, script, words=(), **faults):
        """The run over a script: `alloc`, `read`, `write` and `piece` are as the library's comment says."""
        os.pwrite(self.counts, bytes(COUNTS.size), 0)
        given, taken = kept(script), os.memfd_create("written")
        try:
            process = subprocess.Popen([self.program, *words], stdin=given, stdout=taken, stderr=subprocess.DEVNULL,
                                       env=self.environment(faults))
            resource.prlimit(process.pid, resource.RLIMIT_CPU, (self.seconds, self.seconds))
            status = process.wait()
            with open(taken, "rb", closefd=False) as opened:
                opened.seek(0)
                written = opened.read()
        finally:
            os.close(given)
            os.close(taken)
        return Ran(status, written, *COUNTS.unpack(os.pread(self.counts, COUNTS.size, 0)))


def checked(program, library):
    """Fails where a program can't be run, or doesn't see the library."""
    try:
        ran = Library(library, program).run(b"")
    except OSError as error:
        raise Trouble(f"{program}: {error.strerror}") from error
    if not ran.allocations:
        raise Trouble(f"{program} {UNSEEN}")
