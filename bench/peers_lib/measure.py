"""Starts a program as a process of its own and tells what it cost."""
import os
import resource
import signal
import sys
from typing import NamedTuple

LIMIT = 60
# All that is measured is gone through in passes, with so many runs of each process in one, so that a bad moment of the machine hits
# a few runs of many cells and not all runs of one.
PASSES = 4
RUNS = 2


class Cost(NamedTuple):
    """Of some runs: the least processor time, of the system's work too, in milliseconds; how much more the middle one took; the peak in MiB."""

    time: float
    spread: float
    peak: float


def once(words, said, answer):
    """One run that reads the file `said` and writes the file `answer`; its milliseconds and peak, or None above the limit."""
    streams = [
        (os.POSIX_SPAWN_OPEN, 0, said, os.O_RDONLY, 0),
        (os.POSIX_SPAWN_OPEN, 1, answer, os.O_WRONLY | os.O_CREAT | os.O_TRUNC, 0o600),
        (os.POSIX_SPAWN_OPEN, 2, "errors", os.O_WRONLY | os.O_CREAT | os.O_TRUNC, 0o600),
    ]
    process = os.posix_spawn(words[0], words, os.environ, file_actions=streams)
    resource.prlimit(process, resource.RLIMIT_CPU, (LIMIT, LIMIT + 1))
    _, status, usage = os.wait4(process, 0)
    used = usage.ru_utime + usage.ru_stime
    if os.WIFSIGNALED(status) and os.WTERMSIG(status) in (signal.SIGXCPU, signal.SIGKILL) and used >= LIMIT - 1:
        return None
    if status != 0:
        sys.exit(f"peers: {' '.join(words)[:300]}: status {os.waitstatus_to_exitcode(status)}: {head('errors')}{head(answer)}")
    return used * 1000, usage.ru_maxrss / 1024


def head(path):
    with open(path, "rb") as source:
        return source.read(400).decode(errors="replace")


class Tally:
    """The runs of one process so far; none counts once one has passed the limit."""

    def __init__(self):
        self.runs = []
        self.stopped = False

    def add(self, start, runs=RUNS):
        """Runs it so often; `start` makes what a run needs and gives what `once` takes."""
        for _ in range(0 if self.stopped else runs):
            one = once(*start())
            if one is None:
                self.stopped = True
                return
            self.runs.append(one)

    def cost(self):
        """The cost of its runs, or None."""
        if self.stopped or not self.runs:
            return None
        times, peaks = (sorted(numbers) for numbers in zip(*self.runs))
        middle = len(times) // 2
        return Cost(times[0], times[middle] - times[0], peaks[middle])


def apart(work, *words):
    """Does the work in a process of its own, so that this one stays small: no peak is below that of the one that starts it."""
    process = os.fork()
    if process == 0:
        status = 1
        try:
            work(*words)
            status = 0
        except SystemExit as fault:
            print(fault.code, file=sys.stderr, flush=True)
        except Exception:
            sys.excepthook(*sys.exc_info())
        finally:
            os._exit(status)
    if os.waitpid(process, 0)[1] != 0:
        sys.exit(1)


def own_peak():
    return resource.getrusage(resource.RUSAGE_SELF).ru_maxrss / 1024
