"""Checks that need no program of the repository's: the tools in bin/, what documents repeat, and who counts reads."""
import collections
import io
import os
import pathlib
import re
import subprocess
import sys
import unittest
from unittest import mock

import counters
from tally import differing

WRITES = re.compile(rb"load is what `(bin/json-lore [^`]+)` writes")
TWO_DOCUMENTS = b'{"a": [1, [2, true]]}\n[{"a b": 0.5}, []]\n'
TWO_LOADED = b"load A := { record { a 1, a { item 2, item true } }, record { 'a b' \"0.5\" }, record {} };\n"
ENDS = (
    ("bin/guide-dot where no guide is", ["bin/guide-dot"], b"ok objects 1 edges 0 nodes 1\n", 1),
    ("bin/guide-dot for a wrong argument", ["bin/guide-dot", "x"], b"", 2),
    ("bin/blocks-dot where no blocks are", ["bin/blocks-dot"], b"ok objects 1 edges 0 nodes 1\n", 1),
    ("bin/json-lore for what is no JSON", ["bin/json-lore", "A"], b'{"a": 01}', 1),
    ("bin/json-lore for a key that is no label", ["bin/json-lore", "A"], b'{"": 1}', 1),
    ("bin/json-lore without an argument", ["bin/json-lore"], b"", 2),
    ("bin/lore for an argument", ["bin/lore", "x"], b"", 2),
    ("bin/lore for an argument that asks for help", ["bin/lore", "--help"], b"", 2),
)


def run(words, given=b""):
    return subprocess.run(words, input=given, stdout=subprocess.PIPE, stderr=subprocess.PIPE)


def examples(tally, top):
    """The pictures and loads among the examples, made again. A script says in a comment which command wrote its load."""
    folder = pathlib.Path(top, "examples")
    for picture in sorted(folder.rglob("*.dot")):
        tool = "bin/blocks-dot" if b"digraph blocks" in picture.read_bytes() else "bin/guide-dot"
        ran = run([tool], picture.with_suffix(".out").read_bytes())
        tally.check(f"the picture {picture.relative_to(top)}", differing(ran.stdout, picture.read_bytes()))
    written = set()
    for script in sorted(folder.rglob("*.lore")):
        text = script.read_bytes()
        command = WRITES.search(re.sub(rb"\s*\n-- ", b" ", text))
        if command:
            words = command[1].decode().split()
            load = re.search(rb"^load .*?^};\n", text, re.M | re.S)
            tally.check(f"the load of {script.relative_to(top)}", differing(run(words).stdout, load[0]))
            written.update(words)
    for document in sorted(folder.rglob("*.json")):
        name = document.relative_to(top).as_posix()
        if name not in written:
            tally.check(name, "no script says by which command its load is written")
    tally.check("the load of two documents", differing(run(["bin/json-lore", "A"], TWO_DOCUMENTS).stdout, TWO_LOADED))


def ends(tally):
    """How the tools end where they are given something wrong."""
    for name, words, given, status in ENDS:
        got = run(words, given).returncode
        tally.check(f"the status of {name}", None if got == status else f"{got} in place of {status}")


def unit_tests(tally, top, program):
    """The tests of the tools in .ci/tools; those that want a program find it by the variable LORE, and are left without. The
    variable is as before behind them."""
    said = io.StringIO()
    with mock.patch.dict(os.environ):
        os.environ.pop("LORE", None)
        if program:
            os.environ["LORE"] = os.path.abspath(program)
        tests = unittest.TestLoader().discover(os.path.join(top, ".ci", "tools"), "test_*.py")
        result = unittest.TextTestRunner(said, verbosity=0).run(tests)
    wrong = {id(getattr(test, "test_case", test)) for test, _ in result.failures + result.errors}
    wrong |= {id(test) for test in result.unexpectedSuccesses}
    if wrong:
        print(said.getvalue())
    tally.failed += len(wrong)
    tally.passed += max(0, result.testsRun - len(wrong) - len(result.skipped))
    reasons = collections.Counter(reason for _, reason in result.skipped)
    for reason, count in reasons.items():
        tally.leave(count, "tests of the tools", *([] if "LORE" in reason else [reason]))


def documents(tally, top):
    ran = run([sys.executable, os.path.join(top, ".ci", "tables"), "--check"])
    tally.check("the lists of crates and of definitions in the documents",
                ran.stdout.decode().strip() if ran.returncode else None)


def all_of_them(tally, top, program):
    examples(tally, top)
    ends(tally)
    documents(tally, top)
    tally.check("who makes a counter of reads", counters.fault(top))
    unit_tests(tally, top, program)
