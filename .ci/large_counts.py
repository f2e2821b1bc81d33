#!/usr/bin/env python3
"""Counts the instructions that questions take of the built program, or of the one that a word names.

    large_counts.py [PROGRAM]

Each question of `large_joins.py` is asked of some members and of twice as many, under callgrind of valgrind, and what a run takes
that only loads is left out. What a question takes grows as the members do, to 2 times, and where they are sorted to some 2.2.
With a join that tries all pairs, a condition that waits until a row is whole, or a test that walks again from each row it grows to
4 times; more than 2.6 are refused. An edge that goes between two members takes as much among twice as many, since no list of all of
them is read or made for it; more than 1.5 times as much is refused. Instructions repeat from run to run, whatever else the machine
does; the limit on time stops only a run that hangs. Each run has to write the replies that are worked out. All of it takes about a
minute of a processor.

Statuses: 0 all is as it has to be, 1 a question takes too many or has other replies, 2 the program or valgrind can't be run, or
the words are wrong.
"""
import functools
import os
import pathlib
import re
import resource
import shutil
import signal
import subprocess
import sys
import tempfile

sys.dont_write_bytecode = True
from large import PROGRAM
from large_joins import QUESTIONS, Asked
from large_scripts import braces, ok

MOST = 2.6
MOST_OF_A_CHANGE = 1.5
SECONDS = 600  # of a processor for one run


class Fault(Exception):
    """What is wrong with a run."""


def limit():
    resource.setrlimit(resource.RLIMIT_CPU, (SECONDS, SECONDS))


def spent(program, script, replies):
    """The instructions of a run that ends with status 0 and writes these replies."""
    with tempfile.TemporaryDirectory() as folder:
        counts = pathlib.Path(folder, "counts")
        words = ["valgrind", "--tool=callgrind", f"--callgrind-out-file={counts}", program]
        ran = subprocess.run(words, input=script.encode(), stdout=subprocess.PIPE, stderr=subprocess.PIPE, preexec_fn=limit)
        found = re.search(r"^totals: (\d+)$", counts.read_text(), re.M) if counts.exists() else None
    if ran.returncode or ran.stdout != replies.encode() or not found:
        told = "other replies" if found else "nothing counted"
        raise Fault(f"status {ran.returncode} or {told} where a script ends with: {script[-120:]}")
    return int(found[1])


def edge_gone(each):
    """Member i has member i // 2 as its boss. Of two edges that enter a member one goes, so all sets of members stay."""
    members = ["x &1 { k 1 }", *(f"x &{i} {{ k {i}, boss &{i // 2} }}" for i in range(2, each + 1))]
    edges, nodes = 3 * each - 1, 1 + 2 * each.bit_length()
    return Asked("an edge that goes", braces("A", members), ok(2 * each + 1, edges, nodes), [
        ("update X.boss -= Y from A.x X, X.boss Y where X.k = 7;", ok(2 * each + 1, edges - 1, nodes))])


def is_too_much(smaller, larger, most=MOST):
    """Whether what takes so many instructions takes too many with twice the members."""
    return not 0 < larger <= most * smaller


def figures(count, asked):
    """What each question takes, without what the load takes."""
    loaded = count(asked.load, asked.state)
    return [count(asked.load + text, asked.state + replies) - loaded for text, replies in asked.questions]


def faults(count, make, few, most=MOST):
    """What is wrong with questions, a line each, by a count of the instructions of a script with its replies."""
    asked, twice = make(few), make(2 * few)
    try:
        for (text, _), smaller, larger in zip(asked.questions, figures(count, asked), figures(count, twice)):
            if is_too_much(smaller, larger, most):
                yield f"{asked.name}: {text} takes {smaller} instructions with {few} members, and {larger} with twice as many"
    except Fault as fault:
        yield f"{asked.name}: {fault}"


def main(words):
    program = words[0] if words else PROGRAM
    if len(words) > 1 or not shutil.which("valgrind") or not os.access(program, os.X_OK):
        print("large_counts.py: it needs valgrind, and at most one word, the path of a program", file=sys.stderr)
        return 2
    count = functools.cache(functools.partial(spent, program))
    wrong = [fault for make, few in QUESTIONS for fault in faults(count, make, few)]
    wrong += faults(count, edge_gone, 2_000, MOST_OF_A_CHANGE)
    print(*wrong, sep="\n", end="\n" if wrong else "")
    return 1 if wrong else 0


if __name__ == "__main__":
    signal.signal(signal.SIGINT, signal.SIG_DFL)  # an interrupt and a closed pipe end it quietly
    signal.signal(signal.SIGPIPE, signal.SIG_DFL)
    sys.exit(main(sys.argv[1:]))
