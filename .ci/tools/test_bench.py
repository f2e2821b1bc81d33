"""Tests of what bench/faults, bench/hostile and bench/fuzz rest on, without a program: cuts of scripts, what they find wrong, and
how scripts are made and made smaller."""
import os
import pathlib
import random
import subprocess
import sys
import tempfile
import unittest

TOP = pathlib.Path(__file__).resolve().parents[2]
sys.path[:0] = [str(TOP / "bench"), str(TOP / "bin")]

from faults_lib import ends, memory  # noqa: E402
from faults_lib.library import Ran  # noqa: E402
from faults_lib.scripts import MARK, Script, ends_of, marked  # noqa: E402
from fuzz_lib import grammar  # noqa: E402
from fuzz_lib.properties import between  # noqa: E402
from fuzz_lib.shrinking import shrunk  # noqa: E402
from hostile_lib import cases  # noqa: E402
from lore_lib import lexer  # noqa: E402

# A ring of two objects with a value, and what it is once the value is another, the ring is open, and names and an object came.
RING = b"""oem 2
next 4
nodes 4096
plan auto
label next
label v
name G &1
name H &2
object &1 {}
object &2 {}
object &3 5
edge &1 next &2
edge &2 next &1
edge &2 v &3
end
"""
OPEN = b"""oem 2
next 11
nodes 4096
plan auto
label next
label v
label 'a b'
name B &10
name G &1
name H &1
object &1 {}
object &2 {}
object &3 6
object &10 "a b"
edge &1 next &2
edge &1 v &10
edge &1 'a b' &10
edge &2 v &3
end
"""
DIFFERING = (b"+ name B &10\n- name H &2\n+ name H &1\n- object &3 5\n+ object &3 6\n+ object &10 \"a b\"\n+ edge &1 v &10\n"
             b"+ edge &1 'a b' &10\n- edge &2 next &1\nchanges 9\n")

LOADED = Script("two loads", b"load A := 1; load B := 2;", b"one\ntwo\n", 0, (12, 25), (0, 4, 8, 8))


def ran(status, written):
    return Ran(status, written, 0, 0, 0)


def spelled(text):
    """The tokens of a text, as the tools of bin/ read them, and what is wrong with it."""
    tokens, fault = lexer.tokens(text.encode())
    return [(token.kind, token.text) for token in tokens], fault and fault.number


class Faults(unittest.TestCase):
    def test_a_statement_ends_at_a_sign_outside_of_texts_and_comments(self):
        for text, wanted in ((b"", ()), (b";", (1,)), (b"a;b;c", (2, 4)), (b'";";', (4,)), (b"';\\';';", (7,)), (b"--;\n;", (5,)),
                             (b"-;", (2,)), (b'"\\";";', (6,)), (b'a; "b;', (2,)), (b"3--2;\n;", (7,)), (b'"\\', ())):
            self.assertEqual(ends_of(text), wanted, text)

    def test_marks_stand_behind_each_statement(self):
        self.assertEqual(marked(b"a; b;c", (2, 5)), b"a;" + MARK + b" b;" + MARK + b"c")

    def test_which_allocations_are_refused(self):
        self.assertEqual(memory.numbers(3, 3), [1, 2, 3])
        self.assertEqual(memory.numbers(0, 3), [])
        self.assertEqual(memory.numbers(9, 3), [1, 5, 9])
        self.assertEqual(ends.numbers(20), [1, 2, 3, 4, 5, 6, 7, 8, 20])
        self.assertEqual(ends.numbers(0), [])

    def test_a_run_without_memory_has_whole_replies(self):
        for written in (b"", b"one\n", b"one\ntwo\n"):
            self.assertIsNone(memory.fault_of(LOADED, ran(6, written)))
        self.assertIsNone(memory.fault_of(LOADED, ran(0, b"one\ntwo\n")))
        for status, written in ((6, b"on"), (6, b"two\n"), (0, b"one\n"), (1, b"one\ntwo\n"), (-11, b"one\n"), (3, b"")):
            self.assertIsNotNone(memory.fault_of(LOADED, ran(status, written)), (status, written))

    def test_a_fault_of_reading_leaves_the_replies_to_what_was_read(self):
        for number, written in ((1, b""), (12, b""), (13, b"one\n"), (26, b"one\ntwo\n")):
            self.assertIsNone(ends.read_fault(LOADED, ran(3, written), number, 1))
        for status, written in ((0, b"one\n"), (3, b""), (3, b"one\ntwo\n"), (3, b"o")):
            self.assertIsNotNone(ends.read_fault(LOADED, ran(status, written), 13, 1), (status, written))

    def test_a_fault_of_writing_leaves_a_front(self):
        for status, written, right in ((4, b"", True), (4, b"one\ntw", True), (4, b"two", False), (4, b"one\ntwo\n", False),
                                       (0, b"one\n", False)):
            self.assertEqual(ends.write_fault(LOADED, ran(status, written)) is None, right, (status, written))


class Fuzz(unittest.TestCase):
    def test_a_number_makes_one_script(self):
        for seed in range(20):
            self.assertEqual(grammar.script(seed), grammar.script(seed))
        kinds = {each.kind for seed in range(150) for each in grammar.script(seed)}
        self.assertLessEqual({"load", "name", "unname", "update", "select", "explain", "guide", "browse", "sample", "set", "dump",
                              "restore", "generate", "history", "at", "changes", "blocks", "watch", "unwatch", "show"}, kinds)

    def test_statements_at_the_limits(self):
        made = [grammar.Maker(random.Random(seed)).at_limit() for seed in range(400)]
        tokens = {token for each in made for token in each}
        self.assertLessEqual({'"' + "x" * 4_096 + '"', '"' + "x" * 4_097 + '"', "l" * 255, "l" * 256, "%" * 255, "%" * 256}, tokens)
        for token, counts in (("not", (64, 65)), ("(", (64, 65)), ("{", (64, 65)), ("exists", (64, 65)), ("#", (64, 65)), (",", (7, 8))):
            self.assertLessEqual({*counts}, {each.count(token) for each in made}, token)

    def test_what_two_dumps_differ_in(self):
        self.assertEqual(between(RING, OPEN), DIFFERING)
        self.assertEqual(between(OPEN, OPEN), b"changes 0\n")

    def test_blanks_and_comments_leave_the_tokens(self):
        rng = random.Random(1)
        for each in grammar.script(3) + grammar.script(4):
            self.assertEqual(spelled(grammar.spread(rng, each.tokens)), spelled(each.text()))

    def test_a_script_is_made_smaller(self):
        def wrong(kept):
            return "both" if {"guide", "dump"} <= {each.kind for each in kept} else None

        seed = next(seed for seed in range(1_000) if wrong(grammar.script(seed)))
        small = shrunk(grammar.script(seed), wrong)
        self.assertEqual(sorted(each.kind for each in small), ["dump", "guide"])
        self.assertTrue(all(each.tokens == [each.kind] for each in small))


class Hostile(unittest.TestCase):
    def test_a_guide_just_below_its_limits(self):
        text, objects, edges = cases.full_guide()
        self.assertEqual((text.count("\nobject &"), text.count("\nedge &")), (objects, edges))

    def test_64_quantifiers_stand_one_in_another(self):
        self.assertEqual(cases.quantified("exists", "G", ".n", "1 = 1").count("exists"), 64)


class Ends(unittest.TestCase):
    def test_words(self):
        with tempfile.TemporaryDirectory() as folder:
            missing = os.path.join(folder, "none")
            for words, status in ((["faults", "--help"], 0), (["faults", "x"], 2), (["faults", "--most", "0"], 2),
                                  (["hostile", "-h"], 0), (["hostile", "x"], 2), (["hostile", "--program", missing], 3),
                                  (["fuzz", "--help"], 0), (["fuzz", "--minutes", "0"], 2), (["fuzz", "--program", missing], 3)):
                done = subprocess.run([TOP / "bench" / words[0], *words[1:]], capture_output=True, check=False)
                self.assertEqual(done.returncode, status, words)
                self.assertNotIn(b"Traceback", done.stderr)


if __name__ == "__main__":
    unittest.main()
