"""Tests of what .ci/test and .ci/tables look for: planted lines, faults of programs and trials, cases, and first sentences."""
import importlib.machinery
import importlib.util
import os
import pathlib
import sys
import tempfile
import unittest
from unittest import mock

CI = pathlib.Path(__file__).resolve().parents[1]
sys.path.insert(0, str(CI / "checks"))

import cases  # noqa: E402
import counters  # noqa: E402
import tools  # noqa: E402
from programs import Built, Trial  # noqa: E402
from tally import Tally, differing  # noqa: E402


def loaded(path):
    """A script without an ending, as a module."""
    loader = importlib.machinery.SourceFileLoader(path.name, str(path))
    module = importlib.util.module_from_spec(importlib.util.spec_from_loader(path.name, loader))
    loader.exec_module(module)
    return module


class Counters(unittest.TestCase):
    MAKING = (
        "let mut steps = Steps::<L>::new(blank);",
        "let mut steps = Steps::new(blank);",
        "let mut steps = <Steps<L>>::new(blank);",
        "let mut steps: Steps<L> = lore_base::Steps::new(Blank::new(1));",
        "let blank = <Blank>::new(1);",
        "let blank = < Blank as Fresh >::fresh();",
        "use std::sync::ledger::{Blank as Sheet, Ledger};",
        "use std::sync::ledger::{\n    Blank,\n};",
        "use std::sync::ledger::*;",
        "use std::sync::{ledger as books};",
        "use other::Blank as Sheet;",
        "use lore_base::{Steps as Count, Value};",
        "type Count<L> = Steps<L>;",
        "type Sheet = sync::Blank;",
        "type Sheet = Blank;",
        "let steps = Steps { book, share };",
    )
    FINE = (
        "use std::sync::ledger::Ledger;",
        "use lore_base::{Oid, Steps};",
        "fn read<L: Ledger>(&self, oid: Oid, steps: &mut Steps<L>) -> Option<Oid>",
        "impl<'a, L: Ledger> Space<Steps<L>> for Children<'a> {",
        "ghost use Rattle.plan_laws.specs.Steps.{steps_over};",
        "pub type PlanSteps = Listing<PlanStep>;",
        "            Rest::Blank",
        "    Blank,",
        "// Blank::new(1) is made by the program alone.",
    )

    def test_each_way_to_make_one_is_found(self):
        for line in self.MAKING:
            self.assertTrue(counters.ways("use lore_base::Oid;\n" + line + "\n"), line)

    def test_what_hands_one_on_is_not(self):
        for line in self.FINE:
            self.assertEqual(counters.ways(line + "\n"), [])

    def test_a_planted_file_is_found_where_it_may_not_stand(self):
        with tempfile.TemporaryDirectory() as top:
            for name in ("lore_db", "lore", "walk_tests", "print_cases"):
                source = pathlib.Path(top, "crates", name, "src", "inner", "planted.rt")
                source.parent.mkdir(parents=True)
                source.write_text("fn count() {\n    let blank = Blank::new(1);\n}\n")
            self.assertIn("crates/lore_db/src/inner/planted.rt: let blank = Blank::new(1);", counters.fault(top))
            self.assertEqual(counters.fault(top).count("planted.rt"), 1)

    def test_a_module_of_tests_may_make_one(self):
        with tempfile.TemporaryDirectory() as top:
            source = pathlib.Path(top, "crates", "links", "src", "lib.rt")
            source.parent.mkdir(parents=True)
            source.with_name("tests.rt").write_text("fn count() {\n    let blank = Blank::new(1);\n}\n")
            for text, may in (("#[cfg(test)]\nmod tests;\n", True), ("mod tests;\n", False), ("mod tests;\n#[cfg(test)]\nmod tests;\n", False)):
                source.write_text("mod links;\n" + text)
                self.assertEqual(counters.fault(top) is None, may, text)


class Cases(unittest.TestCase):
    def test_a_line_of_a_case_may_stand_for_a_text_many_times(self):
        text = b"before\n=== one\nload A := {\n+++ 3 [a 1,]\n};\n\n=== two\n+++ no count\n"
        sections = cases.sections(text)
        self.assertEqual([title for title, _ in sections], ["one", "two"])
        self.assertEqual([cases.script_of(lines) for _, lines in sections], [b"load A := {\na 1,a 1,a 1,};\n", b"+++ no count"])

    def test_the_place_of_a_difference_is_told(self):
        self.assertIsNone(differing(b"a\nb\n", b"a\nb\n"))
        self.assertEqual(differing(b"a\nc\n", b"a\nb\n"), "line 2 written is 'c' in place of 'b'")
        self.assertEqual(differing(b"a", b"a\nb"), "line 2 written is no more in place of 'b'")


RT = """#!/bin/sh
case "$*" in
  *--cases*) cat "$SAYS" >&2; exit 5 ;;
  *) cat; echo 'run=ended status=0 runners=1 proved=no' >&2 ;;
esac
"""


class Programs(unittest.TestCase):
    """A program that writes what it is given, and a stand-in for `rt` that says what a file has."""

    def setUp(self):
        folder = tempfile.TemporaryDirectory()
        self.addCleanup(folder.cleanup)
        self.folder = pathlib.Path(folder.name)
        (self.folder / "rt").write_text(RT)
        (self.folder / "rt").chmod(0o755)
        paths = f"{self.folder}:{os.environ['PATH']}"
        patch = mock.patch.dict(os.environ, {"PATH": paths, "SAYS": str(self.folder / "says")})
        patch.start()
        self.addCleanup(patch.stop)

    def test_a_program_is_held_to_replies_and_status(self):
        runs = [cases.Run("as it is", b"a\n", b"a\n", 0), cases.Run("other replies", b"a\n", b"b\n", 0),
                cases.Run("another status", b"a\n", b"a\n", 1)]
        faults = [fault for _, fault in Built("/bin/cat").faults(runs)]
        self.assertEqual(faults, [None, "line 1 written is 'a' in place of 'b'", "status 0 in place of 1"])

    def test_a_trial_is_held_to_replies_and_status(self):
        (self.folder / "says").write_text(
            "case=0000 run=ended status=1 runners=1 output=expected proved=no\n"
            "case=0001 run=ended status=1 runners=1 output=expected proved=no\n"
            "the output differs from `0002.stdout`: at byte 0\n"
            "case=0002 run=ended status=1 runners=1 output=differs proved=no\n"
            "case=0003 run=no-answer proved=no\n"
            "cases=4 ended=2 fault=0 differs=1 no-answer=1 proved=no\n")
        runs = [cases.Run(f"run {number}", b"", b"", int(number != 1)) for number in range(5)]
        faults = [fault for _, fault in Trial(self.folder).faults(runs)]
        self.assertEqual(faults, [None, "status 1 in place of 0", "its replies are other ones", "its trial run gave no answer",
                                  "its trial run gave no answer"])

    def test_a_trial_that_does_not_compile_is_told(self):
        (self.folder / "says").write_text("src/main.rt:1:1: error\nrun=none proved=no\n")
        self.assertRaises(RuntimeError, list, Trial(self.folder).faults([cases.Run("a run", b"", b"", 0)]))

    def test_a_program_of_cases_is_held_to_those_that_repeat_little(self):
        (self.folder / "stdin").write_text("=== one\na\n=== two\n+++ 9 [b]\n")
        (self.folder / "stdout").write_text("=== one\na\n=== two\nbbbbbbbbb\n")
        self.assertEqual(Trial(self.folder).whole(8), (1, 1, None))
        self.assertEqual(Trial(self.folder).whole(9), (2, 0, "line 4 written is '+++ 9 [b]' in place of 'bbbbbbbbb'"))
        (self.folder / "stdout").write_text("=== one\na\n=== three\n")
        self.assertRaises(ValueError, Trial(self.folder).whole, 8)


class ToolTests(unittest.TestCase):
    """The tests of the tools are run in this process, which is as before behind them."""
    PLANTED = ("import os, unittest\n\nclass Planted(unittest.TestCase):\n    def test_one(self):\n"
               "        self.assertEqual(os.environ.get('LORE'), %r)\n")

    def test_the_environment_is_as_before(self):
        for program, seen in (("program", os.path.abspath("program")), (None, None)):
            with tempfile.TemporaryDirectory() as top, mock.patch.object(sys, "path", list(sys.path)):
                folder = pathlib.Path(top, ".ci", "tools")
                folder.mkdir(parents=True)
                (folder / f"test_planted_{program}.py").write_text(self.PLANTED % seen)
                tally = Tally()
                with mock.patch.dict(os.environ, {"LORE": "/before"}):
                    tools.unit_tests(tally, top, program)
                    self.assertEqual(os.environ["LORE"], "/before")
                self.assertEqual((tally.passed, tally.failed), (1, 0))


class Sentences(unittest.TestCase):
    def test_the_first_sentence_ends_at_its_own_full_stop(self):
        tables = loaded(CI / "tables")
        with tempfile.TemporaryDirectory() as folder:
            file = pathlib.Path(folder, "lib.rt")
            file.write_text("//! Edges (Abiteboul et al. 1997,\n//! section 2. and on) and `A.b`. No more.\n")
            self.assertEqual(tables.first_sentence(file, "//!"), "Edges (Abiteboul et al. 1997, section 2. and on) and `A.b`.")
            tables.TOP = pathlib.Path(folder)
            for text in ("use std;\n", "//! no end\n", "//!\n//! Late.\n"):
                file.write_text(text)
                self.assertRaises(tables.Fault, tables.first_sentence, file, "//!")

    def test_a_list_that_was_changed_is_written_as_it_was(self):
        tables = loaded(CI / "tables")
        text = (CI.parent / "docs/GATE.md").read_text(encoding="utf-8")
        self.assertEqual(tables.written(text.replace("`base_tests`", "`old_tests`"), "tests"), text)
        self.assertRaises(tables.Fault, tables.written, text, "crates")


if __name__ == "__main__":
    unittest.main()
