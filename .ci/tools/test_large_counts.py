"""Tests of what .ci/large_counts.py refuses, with counts that are made up, and of how it is left out."""
import importlib.machinery
import importlib.util
import math
import os
import pathlib
import sys
import tempfile
import unittest
from unittest import mock

CI = pathlib.Path(__file__).resolve().parents[1]
sys.path[:0] = [str(CI), str(CI / "checks")]

import large_counts  # noqa: E402
from large_joins import Asked  # noqa: E402
from tally import Tally  # noqa: E402

LOAD = 1_000_000
GROWTHS = (("none", lambda each: 5_000, True), ("linear", lambda each: 9_000 * each, True),
           ("sorted", lambda each: 900 * each * math.log2(each), True), ("all pairs", lambda each: 90 * each * each, False),
           ("some pairs", lambda each: 9_000 * each + 40 * each * each, False))
VALGRIND = """#!/bin/sh
[ "$SAYS" = nothing ] || echo "totals: $SAYS" > "${2#--callgrind-out-file=}"
cat
"""


def asked(each):
    return Asked("members", f"{each};", "", [("few;", ""), ("many;", "")])


def faults(growth):
    """What is wrong where the second question, and no other one, takes so many instructions with so many members."""
    def count(script, replies):
        each, _, question = script.partition(";")
        return LOAD + {"": 0, "few;": 7_000, "many;": growth(int(each))}[question]
    return list(large_counts.faults(count, asked, 500))


class Growth(unittest.TestCase):
    def test_what_grows_more_than_its_members_is_refused(self):
        for name, growth, may in GROWTHS:
            found = faults(growth)
            self.assertEqual(len(found), 0 if may else 1, name)
        self.assertEqual(found, ["members: many; takes 14500000 instructions with 500 members, and 49000000 with twice as many"])

    def test_counts_that_tell_nothing_are_refused(self):
        for smaller, larger in ((0, 0), (1_000, 0), (0, 1_000), (-9, -9), (1_000, 2_601)):
            self.assertTrue(large_counts.is_too_much(smaller, larger), (smaller, larger))
        self.assertFalse(large_counts.is_too_much(1_000, 2_600))

    def test_a_change_that_takes_time_by_all_members_is_refused(self):
        for growth, may in ((lambda each: 200_000 + 10 * each, True), (lambda each: 200_000 + 500 * each, False)):
            def count(script, replies):
                each = script.count("x &")
                return LOAD + (growth(each) if "update" in script else 0)
            found = list(large_counts.faults(count, large_counts.edge_gone, 2_000, large_counts.MOST_OF_A_CHANGE))
            self.assertEqual(len(found), 0 if may else 1)


class Runs(unittest.TestCase):
    """A stand-in for valgrind that counts what a variable says, and a program that writes what it is given."""

    def setUp(self):
        folder = tempfile.TemporaryDirectory()
        self.addCleanup(folder.cleanup)
        stand_in = pathlib.Path(folder.name, "valgrind")
        stand_in.write_text(VALGRIND)
        stand_in.chmod(0o755)
        patch = mock.patch.dict(os.environ, {"PATH": f"{folder.name}:{os.environ['PATH']}", "SAYS": "1234"})
        patch.start()
        self.addCleanup(patch.stop)

    def test_a_run_is_held_to_its_replies(self):
        self.assertEqual(large_counts.spent("/bin/cat", "a", "a"), 1_234)
        self.assertRaises(large_counts.Fault, large_counts.spent, "/bin/cat", "a", "b")

    def test_a_run_that_is_not_counted_is_refused(self):
        with mock.patch.dict(os.environ, {"SAYS": "nothing"}):
            self.assertRaises(large_counts.Fault, large_counts.spent, "/bin/cat", "a", "a")

    def test_where_valgrind_is_missing_the_check_is_left_out(self):
        loader = importlib.machinery.SourceFileLoader("checks_main", str(CI / "checks" / "__main__.py"))
        checks = importlib.util.module_from_spec(importlib.util.spec_from_loader(loader.name, loader))
        loader.exec_module(checks)
        tally = Tally()
        with mock.patch.dict(os.environ, {"PATH": ""}):
            self.assertEqual(checks.counted(tally), [])
        self.assertEqual((tally.passed, tally.failed, len(tally.left)), (0, 0, 1))


if __name__ == "__main__":
    unittest.main()
