"""Runs the program, and prints statements by the program of the crate print_cases."""
import os
import signal
import subprocess
import sys

sys.path.insert(0, os.path.join(os.path.dirname(os.path.abspath(__file__)), ".."))

from faults_lib.library import Library  # noqa: E402
from fuzz_lib.properties import Slow  # noqa: E402

NONE = (b"no statement", b"no tokens: ", b"too long")
WRONG = (b"it is read back otherwise", b"its copy is printed otherwise")


class Runner(Library):
    """Runs the program for a few seconds at most; the library is loaded only where reads and writes are to be cut."""

    seconds = 10

    def environment(self, faults):
        found = super().environment(faults)
        if not faults:
            del found["LD_PRELOAD"]
        return found

    def run(self, script, words=(), **faults):
        ran = super().run(script, words, **faults)
        if ran.status in (-signal.SIGXCPU, -signal.SIGKILL):
            raise Slow
        return ran


class Printer:
    """The program that prints statements."""

    def __init__(self, program):
        self.program = program

    def lines(self, texts):
        """Each statement as it is printed, None for what is no statement."""
        given = "".join(f"=== {place}\n{text}\n" for place, text in enumerate(texts))
        done = subprocess.run([self.program], input=given.encode(), stdout=subprocess.PIPE, check=True)
        found, place = [None] * len(texts), -1
        for line in done.stdout.splitlines():
            if line.startswith(b"=== "):
                place = int(line[4:])
            elif line in WRONG:
                found[place] = f"wrong: {texts[place]}: {line.decode()}"
            elif found[place] is None and not line.startswith(NONE):
                found[place] = line.decode()
        return found
