#!/usr/bin/env python3
"""Tests bin/blocks-dot: which blocks are drawn, and what is told where none can be. With a program, whose path the variable
LORE has, its blocks of random graphs are compared with those that the tool works out.
"""
import os
import random
import subprocess
import sys
import unittest

TOP = os.path.join(os.path.dirname(os.path.abspath(__file__)), "..", "..")
TOOL = os.path.join(TOP, "bin", "blocks-dot")
PROGRAM = os.environ.get("LORE")
DUMP = (b"oem 2\nnext 5\nnodes 4096\nplan auto\nlabel a\nlabel 'b c'\nname X &1\nobject &1 {}\nobject &2 {}\nobject &3 {}\n"
        b"object &4 7\nedge &1 a &2\nedge &1 a &3\nedge &2 'b c' &4\nedge &3 'b c' &4\nend\n")
BLOCKS = b"block &1 1\nblock &2 2\nblock &4 1\nblocks 3\n"
ARROWS = ['0 -> 1 [label = "a"];', '1 -> 2 [label = "\'b c\'"];']


def drawn(replies, *words):
    """What the tool did; it never tells of Python."""
    done = subprocess.run([sys.executable, TOOL, *words], input=replies, capture_output=True, timeout=60)
    assert b"Traceback" not in done.stderr, done.stderr
    return done


class Pictures(unittest.TestCase):
    """The last dump is drawn with the last blocks."""

    def test_what_stands_around(self):
        alone = drawn(DUMP + BLOCKS)
        self.assertEqual(alone.returncode, 0)
        text = alone.stdout.decode()
        for part in ['0 [shape = box, label = "X"', '1 [label = "2"', '2 [label = "1"', *ARROWS]:
            self.assertIn(part, text)
        self.assertEqual(text.count("->"), len(ARROWS))
        guide = b"X 1\nX.a 2\nblocks 3\nnodes 3\n"
        for replies in (BLOCKS + DUMP, b"blocks 0\n" + DUMP + BLOCKS + guide, DUMP + BLOCKS + b"&1 {}\nrows 1\n"):
            self.assertEqual(drawn(replies).stdout, alone.stdout, replies)

    def test_several_names_and_none(self):
        two = DUMP.replace(b"name X &1\n", b"name X &1\nname Y &3\nname Z &1\n")
        text = drawn(two + b"block &1 1\nblock &2 1\nblock &3 1\nblock &4 1\nblocks 4\n").stdout.decode()
        self.assertIn('label = "X, Z"', text)
        self.assertEqual(text.count("->"), 4)
        empty = drawn(b"oem 2\nnext 1\nnodes 4096\nplan auto\nend\nblocks 0\n")
        self.assertEqual((empty.returncode, empty.stdout.count(b"label")), (0, 0))

    def test_what_is_no_picture(self):
        many = b"".join(b"block &%d 1\n" % oid for oid in range(1, 1002)) + b"blocks 1001\n"
        for replies, said in ((b"", b"there are no blocks"), (BLOCKS, b"there is no dump"), (DUMP, b"there are no blocks"),
                              (DUMP + b"block &1 1\nblocks 3\n", b"there are no blocks"), (DUMP + many, b"no more than 1000"),
                              (DUMP + BLOCKS.replace(b"&2 2", b"&2 1"), b"aren't those"),
                              (DUMP + b"block &1 1\nblock &2 3\nblocks 2\n", b"aren't those"),
                              (DUMP.replace(b"end\n", b"") + BLOCKS, b"line"), (DUMP.replace(b"b c", b"\xff") + BLOCKS, b"UTF-8")):
            done = drawn(replies)
            self.assertEqual((done.returncode, done.stdout, said in done.stderr), (1, b"", True), (replies[-80:], done))

    def test_words(self):
        for words in (["x"], ["-T"], ["-T", "gif"], ["-T", "svg", "x"], ["--wrong"]):
            done = drawn(DUMP + BLOCKS, *words)
            self.assertEqual((done.returncode, done.stdout, b"usage: " in done.stderr), (2, b"", True), words)


def script(rng):
    """A load of a random graph: objects with few labels, rings among them, and some with names of their own."""
    count = rng.randint(1, 12)
    body = {oid: [] for oid in range(1, count + 1)}
    for oid in range(2, count + 1):
        body[rng.randint(1, oid - 1)].append((rng.choice("ab"), oid))
    for _ in range(rng.randint(0, 8)):
        body[rng.randint(1, count)].append((rng.choice("ab"), rng.randint(1, count)))
    seen = set()

    def written(oid):
        if oid in seen:
            return f"&{oid}"
        seen.add(oid)
        return f"&{oid} {{ " + ", ".join(f"{label} {written(child)}" for label, child in body[oid]) + " }"

    names = "".join(f"name N{i} := R.{rng.choice('ab')};" for i in range(rng.randint(0, 2)))
    return f"load R := {written(1)}; {names} dump; blocks;".encode()


@unittest.skipUnless(PROGRAM, "LORE names no program")
class Programs(unittest.TestCase):
    """The program and the tool have the same blocks."""

    def test_random_graphs(self):
        rng = random.Random(27)
        for _ in range(60):
            asked = script(rng)
            replies = subprocess.run([PROGRAM], input=asked, stdout=subprocess.PIPE, timeout=60).stdout
            done = drawn(replies)
            self.assertEqual((done.returncode, done.stderr), (0, b""), (asked, replies))


if __name__ == "__main__":
    unittest.main()
