"""Two ways to run what is checked: a program that is built, and the sources in trial runs of `rt try`, which proves nothing.

A trial compiles for a minute or more and keeps no program; `rt try --cases` then runs one on many inputs. It takes words from a
file, a line each, gives at most 1 MiB of replies, and lets nobody talk with the program.
"""
import pathlib
import subprocess
import tempfile

from cases import joined, paired, repeats
from tally import differing

SECONDS = 240


class Built:
    """A program that stands in a file."""

    def __init__(self, path):
        self.path = path

    def faults(self, runs):
        """Each run with its fault, None for one that went as it has to."""
        for run in runs:
            ran = subprocess.run([self.path, *run.words], input=run.script, stdout=subprocess.PIPE)
            fault = differing(ran.stdout, run.replies)
            if not fault and ran.returncode != run.status:
                fault = f"status {ran.returncode} in place of {run.status}"
            yield run, fault


class Trial:
    """The program of the crate in a folder, compiled without proof."""

    def __init__(self, folder):
        self.folder = pathlib.Path(folder)

    def rt_try(self, words, script=b""):
        words = ["rt", "try", "--steps", "1", "--seconds", str(SECONDS), *words]
        return subprocess.run(words, cwd=self.folder, input=script, stdout=subprocess.PIPE, stderr=subprocess.PIPE)

    def faults(self, runs):
        """Each run with its fault, None for one that went as it has to: one compilation for all of them."""
        with tempfile.TemporaryDirectory() as folder:
            for number, run in enumerate(runs):
                case = pathlib.Path(folder) / f"{number:04}"
                case.write_bytes(run.script)
                case.with_suffix(".stdout").write_bytes(run.replies)
                if run.words:
                    case.with_suffix(".args").write_bytes(b"".join(word + b"\n" for word in run.words))
            ran = self.rt_try(["--cases", folder])
        lines = (line for line in ran.stderr.split(b"\n") if line.startswith(b"case="))
        told = (dict(word.partition(b"=")[::2] for word in line.split()) for line in lines)
        ends = {end[b"case"]: end for end in told}
        if not ends:
            said = ran.stderr.decode("utf-8", "replace")
            raise RuntimeError(f"rt try did not run {self.folder.name}:\n{said[-2000:]}")
        for number, run in enumerate(runs):
            yield run, self.fault_of(run, ends.get(b"%04d" % number, {}))

    def fault_of(self, run, end):
        if end.get(b"run") != b"ended":
            return "its trial run gave no answer"
        if end.get(b"output") != b"expected":
            return "its replies are other ones"
        got = int(end[b"status"])
        return None if got == run.status else f"status {got} in place of {run.status}"

    def whole(self, most):
        """The program run on its own cases: how many, how many repeat a text more often and are left, its fault."""
        cases = paired(self.folder)
        taken = [case for case in cases if repeats(case[1]) <= most]
        ran = self.rt_try([], joined((title, given) for title, given, _ in taken))
        fault = differing(ran.stdout, joined((title, wanted) for title, _, wanted in taken))
        if not ran.stderr.rstrip().rpartition(b"\n")[2].startswith(b"run=ended status=0 "):
            fault = "the trial run gave no answer:\n" + ran.stderr.decode("utf-8", "replace")[-2000:]
        return len(taken), len(cases) - len(taken), fault
