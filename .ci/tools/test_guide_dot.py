#!/usr/bin/env python3
"""Tests bin/guide-dot: which guide is drawn, and what is told where none can be."""
import os
import resource
import stat
import subprocess
import sys
import tempfile
import unittest

TOP = os.path.join(os.path.dirname(os.path.abspath(__file__)), "..", "..")
TOOL = os.path.join(TOP, "bin", "guide-dot")
OK = b"ok objects 2 edges 1 nodes 2\n"
GUIDE = b"X 1\nX.a 1\nnodes 2\n"
LONG = b"".join([b"X 1\n", *(b"X.a%d 1\n" % i for i in range(4_000)), b"nodes 4001\n"])  # a picture that fills a pipe
DUMP = b"oem 2\nnext 3\nnodes %d\nplan auto\nlabel a\nname X &1\nobject &1 {}\nobject &2 1\nedge &1 a &2\nend\n"
BOX = b'0 [shape = box, label = "X"];'


def drawn(replies, *words, **more):
    """What the tool did; it never tells of Python."""
    done = subprocess.run([sys.executable, TOOL, *words], input=replies, capture_output=True, timeout=60, **more)
    assert b"Traceback" not in done.stderr, done.stderr
    return done


class Guides(unittest.TestCase):
    """The last guide is drawn, whatever stands around it."""

    def test_a_dump_behind_the_guide(self):
        alone = drawn(GUIDE)
        self.assertEqual((alone.returncode, alone.stdout.count(BOX), alone.stdout.count(b"->")), (0, 1, 1))
        for nodes, plan in ((1, b"auto"), (2, b"top"), (3, b"bottom"), (16384, b"guide")):
            dump = (DUMP % nodes).replace(b"auto", plan)
            for replies in (OK + GUIDE + dump, dump + GUIDE + dump + OK, GUIDE + dump[6:]):
                self.assertEqual(drawn(replies).stdout, alone.stdout, replies)
        self.assertEqual(drawn(OK + DUMP % 4096).returncode, 1)

    def test_names_as_in_the_head_of_a_dump(self):
        for names in ([b"next"], [b"next", b"nodes"], [b"next", b"nodes", b"plan"], [b"nodes"]):
            guide = b"".join(name + b" 1\n" for name in names) + b"nodes %d\n" % len(names)
            picture = drawn(guide + b"plan guide - -\n" + OK + DUMP % 2).stdout
            self.assertEqual(picture.count(b"shape = box"), len(names), guide)
            for name in names:
                self.assertIn(b'label = "%s"' % name, picture)

    def test_what_is_no_whole_guide(self):
        for replies, said in ((b"X.a 1\nnodes 2\n", b"whole"), (OK + b"X.a 1\nnodes 2\n", b"no line of a guide"),
                              (b"X.a 1\nnodes 1\n", b"no line before"), (b"", b"there is no guide"),
                              (b"\xff 1\nnodes 1\n", b"UTF-8"), (b"nodes " + b"9" * 5000 + b"\n", b"there is no guide"),
                              (b"nodes 99999999\n", b"whole")):
            done = drawn(replies)
            self.assertEqual((done.returncode, done.stdout, said in done.stderr), (1, b"", True), done)
        self.assertEqual(drawn(b"\xff\n" + GUIDE).returncode, 0)


class Ends(unittest.TestCase):
    """How it ends."""

    def test_words(self):
        for words in (["x"], ["-T"], ["-T", "gif"], ["-T", "svg", "x"], ["--wrong"]):
            done = drawn(GUIDE, *words)
            self.assertEqual((done.returncode, done.stdout, b"usage: " in done.stderr), (2, b"", True), words)

    def test_a_full_disk(self):
        for words in ([], ["--help"]):
            with open("/dev/full", "wb") as full:
                done = subprocess.run([sys.executable, TOOL, *words], input=GUIDE, stdout=full, stderr=subprocess.PIPE,
                                      timeout=60)
            self.assertEqual((done.returncode, done.stderr), (1, b"guide-dot: No space left on device\n"))

    def test_little_memory(self):
        def small():
            resource.setrlimit(resource.RLIMIT_AS, (150 << 20, 150 << 20))
        with open("/dev/zero", "rb") as zeros:
            done = subprocess.run([sys.executable, TOOL], stdin=zeros, capture_output=True, timeout=60, preexec_fn=small)
        self.assertEqual((done.returncode, done.stderr), (1, b"guide-dot: memory was refused\n"))

    def test_the_program_dot(self):
        """A stand-in for dot draws, fails before it has read all, or isn't there."""
        with tempfile.TemporaryDirectory() as folder:
            environment = {**os.environ, "PATH": folder}
            done = drawn(GUIDE, "-T", "svg", env=environment)
            self.assertEqual((done.returncode, done.stdout, b"graphviz" in done.stderr), (3, b"", True))
            for script, status, picture in (("/bin/echo $*; exec /bin/cat", 0, b"-Tsvg\n" + drawn(LONG).stdout),
                                            ("/bin/echo half; exit 1", 4, b"")):
                place = os.path.join(folder, "dot")
                with open(place, "w") as opened:
                    opened.write(f"#!/bin/sh\n{script}\n")
                os.chmod(place, stat.S_IRWXU)
                done = drawn(LONG, "-T", "svg", env=environment)
                self.assertEqual((done.returncode, done.stdout), (status, picture))


if __name__ == "__main__":
    unittest.main()
