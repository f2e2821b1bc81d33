#!/usr/bin/env python3
"""Tests bin/lore-talk: statements, files, modes and the terminal.

The program is named by the environment variable LORE; tests that need it are skipped where it is unset.
"""
import json
import os
import pty
import re
import resource
import select
import signal
import stat
import subprocess
import sys
import tempfile
import time
import unittest
from unittest import mock

HERE = os.path.dirname(os.path.abspath(__file__))
TOP = os.path.join(HERE, "..", "..")
TALK = os.path.join(TOP, "bin", "lore-talk")
sys.path.insert(0, os.path.join(TOP, "bin"))
from lore_lib import saving  # noqa: E402
from lore_lib.help_texts import COMMANDS  # noqa: E402
from lore_lib.session import Ended, Session, in_words  # noqa: E402
from lore_lib.tool import Fault  # noqa: E402

LORE = os.environ.get("LORE") and os.path.abspath(os.environ["LORE"])
if LORE:
    os.environ["LORE"] = LORE
NEEDS_PROGRAM = unittest.skipUnless(LORE, "LORE names no program")
SECONDS = 20
GREETS = b"#!/bin/sh\nhead -c 1 >/dev/null\necho refused 5 Syntax\n"     # a stand-in for the program begins so
SHOP = b'load Shop := { bike &1 { kind "road", price 900 }, bike { kind "cargo", price "1200", twin &1 } };\n'


class Folder(unittest.TestCase):
    """A test with a folder of its own."""

    def setUp(self):
        kept = tempfile.TemporaryDirectory()
        self.addCleanup(kept.cleanup)
        self.folder = kept.name

    def path(self, name):
        return os.path.join(self.folder, name)

    def write(self, name, data):
        with open(self.path(name), "wb") as opened:
            opened.write(data)

    def read(self, name):
        with open(self.path(name), "rb") as opened:
            return opened.read()

    def talk(self, script, *words, **more):
        """A script done; statuses and messages never tell of Python."""
        done = subprocess.run([sys.executable, TALK, *words], input=script, capture_output=True, timeout=30, cwd=self.folder,
                              **more)
        self.assertNotIn(b"Traceback", done.stderr)
        return done


@NEEDS_PROGRAM
class Scripts(Folder):
    """What a script is answered."""

    def test_replies_are_those_of_the_program(self):
        examples = os.path.join(TOP, "examples")
        for file in sorted(os.listdir(examples)):
            if file.endswith(".lore"):
                with open(os.path.join(examples, file[:-5] + ".out"), "rb") as replies:
                    expected = replies.read()
                with open(os.path.join(examples, file), "rb") as script:
                    done = self.talk(script.read())
                self.assertEqual(done.stdout, expected, file)
                self.assertEqual(done.returncode, int(b"refused" in expected), file)

    def test_statuses(self):
        self.assertEqual(self.talk(b"load A := 1;").returncode, 0)
        self.assertEqual(self.talk(b"load A := 1; select B;").returncode, 1)
        self.assertEqual(self.talk(b".nothing\n").returncode, 1)
        self.assertEqual(self.talk(b"", "a", "b").returncode, 2)
        self.assertEqual(self.talk(b"", "--wrong").returncode, 2)
        self.assertEqual(self.talk(b"", "nowhere").returncode, 3)
        self.assertEqual(self.talk(b"", env={**os.environ, "LORE": "/nowhere"}).returncode, 4)
        self.assertEqual(self.talk(b"", "--help").returncode, 0)
        with open("/dev/full", "wb") as full:
            done = subprocess.run([sys.executable, TALK], input=b"load A := 1;" * 3, stdout=full, stderr=subprocess.PIPE,
                                  timeout=30)
        self.assertEqual((done.returncode, b"Traceback" in done.stderr), (1, False))

    def test_places(self):
        done = self.talk(b"load A := { x 1 };\n\n  select A.x\n  wher A.x = 1;\nselect A.x; select B;\n")
        self.assertEqual(done.stdout, b"ok objects 2 edges 1 nodes 2\nrefused 5 Syntax\n&2 1\nrows 1\nrefused 7 UnknownName\n")
        self.assertIn(b"line 4, column 3: refused 5 Syntax", done.stderr)
        self.assertIn(b"in statement 2, which begins at line 3, column 3", done.stderr)
        self.assertIn(b"line 5, column 20: refused 7 UnknownName", done.stderr)
        done = self.talk(b"load A := 1;\n-- all\nselect A")
        self.assertEqual((done.returncode, done.stdout), (1, b"ok objects 1 edges 0 nodes 1\nrefused 6 Unfinished\n"))
        self.assertIn(b"line 3, column 9: refused 6 Unfinished", done.stderr)

    def test_a_guide_that_has_the_name_nodes(self):
        done = self.talk(b"load nodes := 1; load A := 1;\nguide; guide; select A;")
        self.assertEqual(done.stdout, b"ok objects 1 edges 0 nodes 1\nok objects 2 edges 0 nodes 2\n"
                         + b"A 1\nnodes 1\nnodes 2\n" * 2 + b"&2 1\nrows 1\n")

    def test_show(self):
        done = self.talk(SHOP + b'.show Shop.bike where Shop.bike.kind = "cargo"\n'
                         b".show Shop.bike.price\n.show Shop.none\n.show Shap\n")
        lines = done.stdout.split(b"\n")
        self.assertEqual(lines[1:8], [b"-- &5", b'{ twin { kind "road", price 900 }, kind "cargo", price "1200" }',
                                      b"-- objects 1", b"-- &4", b"900", b"-- &7", b'"1200"'])
        self.assertIn(b"-- objects 0\nrefused 7 UnknownName\n", done.stdout)

    def test_show_writes_locals_that_load_again(self):
        ring = b'load R := &1 { next &2 { next &1, v 5 }, also &2 };\n'
        shown = self.talk(ring + b".show R\n").stdout.split(b"\n", 1)[1]
        self.assertEqual(shown.count(b"&1"), 3, "a comment, a mark, and the local alone")
        again = self.talk(b"load R := " + shown + b";\nselect R.next.next.also.v; select R.also.next.next.v;")
        self.assertEqual(again.stdout, b"ok objects 3 edges 4 nodes 3\n&3 5\nrows 1\n&3 5\nrows 1\n")

    def test_values(self):
        done = self.talk(b'load A := { t "b", t "a", t "a", t 7, t {}, t "a" };\n.values A.t\n.values A.u\n.values\n')
        self.assertEqual(done.stdout.split(b"\n", 1)[1], b'3 "a"\n1 "b"\n1 7\n1 {}\nvalues 4\nvalues 0\n')
        self.assertEqual(done.returncode, 1)

    def test_moments(self):
        changed = b"load A := { t 1, t 2 };\nhistory on;\nupdate X := 5 from A.t X where X = 1;\nupdate A.t += { u 7 };\n"
        done = self.talk(changed + b".changes\n.changes 0\n.at 0 A.t\n.at 1 X from A.t X where X = 5\n")
        new = [b"+ object &4 {}", b"+ object &5 7", b"+ edge &1 t &4", b"+ edge &4 u &5"]
        old = [b"- object &2 1", b"+ object &2 5"]
        lines = done.stdout.split(b"\n")[4:]
        self.assertEqual(lines, [*new, b"changes 4", *old, *new, b"changes 6", b"&2 1", b"&3 2", b"rows 2", b"&2 5", b"rows 1", b""])
        self.assertEqual(done.returncode, 0)

    def test_many_moments(self):
        for count in (1, 2, 3, 4, 7, 8, 9):
            script = b"load A := 1;\nhistory on;\n" + b"".join(b"update A := %d;\n" % number for number in range(2, count + 2))
            done = self.talk(script + b".changes\n")
            told = [b"- object &1 %d" % count, b"+ object &1 %d" % (count + 1), b"changes 2", b""]
            self.assertEqual(done.stdout.split(b"\n")[-4:], told)

    def test_moments_that_are_not_there(self):
        done = self.talk(b"load A := 1;\n.changes\n.at 0 A\nhistory on;\n.changes\n.changes 1\n.at 1 A\n.at A\n.changes x\n.at 0\n")
        self.assertEqual(done.stdout.split(b"\n")[1:], [b"refused 28 NoHistory", b"refused 28 NoHistory", b"ok objects 1 edges 0 nodes 1",
                                                        b"changes 0", b"refused 29 MomentRange", b"refused 29 MomentRange", b""])
        self.assertIn(b"lore-talk: the command is .at MOMENT PATH\n", done.stderr)
        self.assertIn(b"lore-talk: the command is .changes [MOMENT]\n", done.stderr)
        self.assertEqual(done.returncode, 1)

    def test_modes(self):
        script = SHOP + (b"select X.kind, X.price from Shop.bike X;\nsample Shop.bike.price 1;\n"
                         b"select path-of(P), X from Shop.#@P X where X = 900;\n")
        table = self.talk(b".mode table\n" + script).stdout.split(b"\n", 1)[1]
        self.assertEqual(table.split(b"rows")[0], b"X.kind | X.price\n-------+--------\nroad   | 900\ncargo  | 1200\n")
        rows = [json.loads(line) for line in self.talk(b".mode json\n" + script).stdout.splitlines()]
        self.assertEqual(rows, [{"X.kind": "road", "X.price": 900}, {"X.kind": "cargo", "X.price": "1200"},
                                {"Shop.bike.price": 900}, {"path-of(P)": ".bike.price", "X": 900}])
        self.assertEqual(self.talk(b".mode csv\n" + script).stdout.split(b"Shop")[0], b"X.kind,X.price\nroad,900\ncargo,1200\n")
        self.assertEqual(self.talk(b".mode lines\n" + script).stdout.split(b"\n")[1], b'&3 "road" | &4 900')
        past = b"history on;\nunname Shop;\nat 0 select X.price from Shop.bike X;\n"
        self.assertEqual(self.talk(b".mode csv\n" + SHOP + past).stdout, b"X.price\n900\n1200\n")
        kept = b"watch V := select X.kind, X.price from Shop.bike X;\n.mode csv\nshow V;\n"
        self.assertEqual(self.talk(SHOP + kept).stdout.split(b"\n", 2)[2], b"X.kind,X.price\nroad,900\ncargo,1200\n")
        self.assertEqual(self.talk(b".mode xml\n").returncode, 1)

    def test_read_timer_and_stop(self):
        self.write("more.lore", b"\xef\xbb\xbfload A := 1;\n.timer on\nselect B;\nselect A;")
        done = self.talk(b".read more.lore\nselect A;\n")
        self.assertEqual(done.stdout, b"ok objects 1 edges 0 nodes 1\nrefused 7 UnknownName\n&1 1\nrows 1\n&1 1\nrows 1\n")
        self.assertIn(b"more.lore:3:8: refused 7", done.stderr)
        self.assertEqual(len(re.findall(rb"(?m)^[0-9]+\.[0-9]{3} s$", done.stderr)), 3)
        done = self.talk(b".stop on\n.read more.lore\nselect A;\n")
        self.assertEqual((done.returncode, done.stdout), (1, b"ok objects 1 edges 0 nodes 1\nrefused 7 UnknownName\n"))
        self.write("round.lore", b".read round.lore\n")
        self.assertIn(b"deep", self.talk(b".read round.lore\n").stderr)
        for script in (b".read nowhere\n", b".read .\n", b".read\n", b".read a\0b\n"):
            self.assertEqual(self.talk(script).returncode, 1)

    def test_json_and_csv(self):
        self.write("a b.json", b'[{"name": "Kim", "age": 3}]')
        self.write("t.csv", b"name,age\nKim,3\n")
        done = self.talk(b".json 'a b.json' J\nselect J.record.age;\n.csv t.csv C\nselect C.record.age;\n"
                         b".json nowhere J\n.json x\n.csv 'x\n")
        self.assertEqual(done.stdout.count(b" 3\nrows 1\n"), 2)
        self.assertEqual(done.returncode, 1)
        self.write("-more", b'{"name": "Bo", "age": 5}')
        done = self.talk(b".json 'a b.json' J\n.json -more --into J\nselect J.record.age;\n")
        self.assertEqual((done.returncode, done.stdout.endswith(b" 3\n&7 5\nrows 2\n")), (0, True), done)

    def test_statements_are_counted_as_they_are_written(self):
        """Those that commands send aren't counted, and those of a script by themselves."""
        self.write("a.json", b'[{"x": 1}, {"x": 2}]')
        self.write("more.lore", b"guide;\nload Late := { y 1, };\nselect More;\n")
        done = self.talk(b"load A := 1;\n.json a.json J\n.json a.json --into J\n.show J.record\n.values J.record.x\n"
                         b".show Nothing\nselect One;\n.read more.lore\nselect Late; select Two;\n")
        told = re.findall(rb"(?m)^(\S+):? .*refused 7|^(.*):[0-9]+:[0-9]+: refused 7", done.stderr)
        self.assertEqual(re.findall(rb"in statement ([0-9]+)", done.stderr), [b"2", b"2", b"3", b"3", b"4"], told)
        self.assertIn(b".show:1:8: refused 7 UnknownName: `Nothing`", done.stderr)
        self.assertIn(b"statement 2 of more.lore, which was to bind it, was refused", done.stderr)

    def test_files_that_cannot_be_read_are_named(self):
        for script in (b".read nofile\n", b".open nofile\n", b".json nofile J\n", b".csv nofile C\n"):
            done = self.talk(script)
            self.assertEqual((done.returncode, b"nofile" in done.stderr), (1, True), done.stderr)
        self.assertIn(b"lore-talk: nofile: No such file or directory\n", self.talk(b".read nofile\n").stderr)
        os.mkdir(self.path("inner"))
        self.assertEqual(self.talk(b".read inner\n").stderr, b"lore-talk: inner: Is a directory\n")

    def test_help(self):
        done = self.talk(b".help\n.help load\n.help .save\n.help save\n.help 7\n.help unknownname\n.help xyz\n")
        self.assertEqual(done.stdout.count(b"refused 7 UnknownName"), 2)
        self.assertIn(b"load NAME := LITERAL;", done.stdout)
        self.assertEqual(done.stdout.count(b"\n.save [FILE]"), 2)
        self.assertEqual(done.returncode, 1)

    def test_large_script(self):
        members = b",\n".join(b'r { n "x%d", p %d }' % (number, number) for number in range(9000))
        done = self.talk(b"load A := {" + members + b"};\nselect A.r.n;\ndump;\n")
        self.assertEqual((done.returncode, done.stdout.count(b"\n")), (0, 1 + 9001 + 4 + 3 + 1 + 27001 + 27000 + 1))

    def test_input_without_end(self):
        with open("/dev/zero", "rb") as zeros:
            done = subprocess.run([sys.executable, TALK], stdin=zeros, capture_output=True, timeout=30)
        self.assertEqual((done.returncode, done.stdout), (1, b""))
        self.assertIn(b"more than 67,108,864 bytes", done.stderr)

    def test_program_that_ends(self):
        for status in (0, 3):
            self.write("ends", GREETS + b"head -c 5 >/dev/null\nexit %d\n" % status)
            os.chmod(self.path("ends"), 0o755)
            done = self.talk(b"load A := 1;\nselect A;\n", env={**os.environ, "LORE": self.path("ends")})
            self.assertEqual(done.returncode, 4)
            self.assertIn(b"the program ended with status %d" % status, done.stderr)
        self.write("killed", b"#!/bin/sh\nkill -9 $$\n")
        os.chmod(self.path("killed"), 0o755)
        done = self.talk(b"load A := 1;\n" * 20000, env={**os.environ, "LORE": self.path("killed")})
        self.assertEqual(done.returncode, 4)
        self.assertIn(b"SIGKILL", done.stderr)

    def test_closed_pipe_and_interrupt(self):
        done = subprocess.run(["sh", "-c", f"{sys.executable} {TALK} | head -n 1"], input=b"guide;\n" * 20000,
                              capture_output=True, timeout=30)
        self.assertEqual((done.stdout, done.stderr), (b"nodes 0\n", b""))
        waits = subprocess.Popen([sys.executable, TALK], stdin=subprocess.PIPE, stdout=subprocess.PIPE, stderr=subprocess.PIPE)
        waits.stdin.write(b"guide;\n")
        waits.stdin.flush()
        self.assertEqual(waits.stdout.readline(), b"nodes 0\n")
        waits.send_signal(signal.SIGINT)
        self.assertEqual(waits.wait(10), -signal.SIGINT)
        self.assertEqual(waits.stderr.read(), b"")
        for pipe in (waits.stdin, waits.stdout, waits.stderr):
            pipe.close()


class StandIns(Folder):
    """A test with something else in place of the program."""

    def stand_in(self, script, name="stand-in"):
        """The environment in which LORE names this script."""
        self.write(name, script)
        os.chmod(self.path(name), 0o755)
        return {**os.environ, "LORE": self.path(name)}


class Endings(StandIns):
    """Whatever ends a tool, the program that it runs ends with it, though it is at work."""
    AT_WORK = GREETS + b"head -c 3 >/dev/null\necho $$ >begun\nmv begun pid\nexec sleep 60\n"

    def begun(self, tool, **more):
        """The tool, and the number of its program, which is at work."""
        process = subprocess.Popen([sys.executable, os.path.join(TOP, "bin", tool)], stdin=subprocess.PIPE, cwd=self.folder,
                                   stdout=subprocess.PIPE, stderr=subprocess.PIPE, env=self.stand_in(self.AT_WORK), **more)
        process.stdin.write(b"guide;\n")
        process.stdin.close()
        self.wait_until(lambda: os.path.exists(self.path("pid")))
        number = int(self.read("pid"))
        os.remove(self.path("pid"))
        return process, number

    def wait_until(self, holds):
        until = time.monotonic() + SECONDS
        while not holds():
            self.assertLess(time.monotonic(), until)
            time.sleep(0.02)

    def runs(self, number):
        """Whether a process runs; one that only waits for its status to be fetched does not."""
        done = subprocess.run(["ps", "-o", "stat=", "-p", str(number)], capture_output=True, text=True)
        return done.stdout.strip()[:1] not in ("", "Z")

    def ended(self, tool, end):
        process, number = self.begun(tool)
        try:
            end(process)
            status = process.wait(SECONDS)
            self.wait_until(lambda: not self.runs(number))
            self.assertEqual(process.stderr.read(), b"")
            return status
        finally:
            for pipe in (process.stdout, process.stderr):
                pipe.close()
            process.kill()
            process.wait()
            if self.runs(number):
                os.kill(number, signal.SIGKILL)

    def test_signals(self):
        for tool in ("lore-talk", "lore-why"):
            for sent in (signal.SIGINT, signal.SIGTERM, signal.SIGHUP):
                self.assertEqual(self.ended(tool, lambda process: process.send_signal(sent)), -sent, tool)

    @unittest.skipUnless(sys.platform == "linux", "only Linux ends a child with its parent")
    def test_kill(self):
        for tool in ("lore-talk", "lore-why"):
            self.assertEqual(self.ended(tool, lambda process: process.kill()), -signal.SIGKILL, tool)

    def test_closed_pipe(self):
        for tool in ("lore-talk", "lore-why"):
            self.assertEqual(self.ended(tool, lambda process: process.stdout.close()), -signal.SIGPIPE, tool)

    def test_ignored_hangup(self):
        """Under nohup a hangup is ignored."""
        process, number = self.begun("lore-talk", preexec_fn=lambda: signal.signal(signal.SIGHUP, signal.SIG_IGN))
        process.send_signal(signal.SIGHUP)
        time.sleep(0.3)
        self.assertEqual((process.poll(), self.runs(number)), (None, True))
        process.send_signal(signal.SIGTERM)
        process.wait(SECONDS)
        for pipe in (process.stdout, process.stderr):
            pipe.close()


class Programs(StandIns):
    """What LORE names is the program, or is told to be none, by its name."""

    def test_what_is_no_program(self):
        self.write("plain", b"")
        for path, said in (("/bin/cat", b"/bin/cat isn't lore"), ("/bin/echo", b"/bin/echo "),
                           ("/bin/true", b"/bin/true doesn't answer: the program ended with status 0"),
                           ("/nowhere", b"/nowhere"), (self.path("plain"), b"plain")):
            for tool in ("lore-talk", "lore-why"):
                done = subprocess.run([sys.executable, os.path.join(TOP, "bin", tool)], input=b"load A := 1;" * 9999,
                                      capture_output=True, timeout=30, env={**os.environ, "LORE": path})
                self.assertEqual((done.returncode, done.stdout, said in done.stderr, done.stderr.count(b"\n")),
                                 (4, b"", True, 1), (tool, path, done.stderr))

    def test_what_cannot_be_executed(self):
        for script in (b"#!/nowhere/at/all\n", b"\x7fELF and no more"):
            for tool in ("lore-talk", "lore-why"):
                done = subprocess.run([sys.executable, os.path.join(TOP, "bin", tool)], input=b"guide;", capture_output=True,
                                      timeout=30, env=self.stand_in(script))
                self.assertEqual((done.returncode, done.stdout), (4, b""))
                self.assertIn(b"/stand-in can't be run: ", done.stderr)


@NEEDS_PROGRAM
class Files(Folder):
    """A database is opened, changed, saved and opened again."""

    def saved(self):
        self.assertEqual(self.talk(SHOP + b".save shop.oem\n").returncode, 0)
        return self.read("shop.oem")

    def test_open_change_save(self):
        self.saved()
        done = self.talk(b'update Shop.bike.price := 950 where Shop.bike.kind = "road";\n.save\n', "shop.oem")
        self.assertEqual(done.returncode, 0)
        done = self.talk(b".open shop.oem\nselect Shop.bike.price;\ndump;\n")
        self.assertEqual(done.stdout.split(b"\n")[1:4], [b"&4 950", b'&7 "1200"', b"rows 2"])
        self.assertEqual(b"oem 2" + done.stdout.split(b"oem 2")[1], self.read("shop.oem"))
        self.assertEqual(os.listdir(self.folder), ["shop.oem"])

    def test_changes_of_another_session_stay(self):
        self.saved()
        other = b"load Other := 1;\n.save shop.oem\n.save! shop.oem\n"
        self.assertEqual(self.talk(other.replace(b".save! shop.oem\n", b"")).returncode, 1, "it was there and not opened")
        script = b".open shop.oem\nload Mine := 1;\n.read step\n.save\n"
        self.write("step", b"")
        os.remove(self.path("step"))
        os.mkfifo(self.path("step"))
        first = subprocess.Popen([sys.executable, TALK], stdin=subprocess.PIPE, stdout=subprocess.PIPE, stderr=subprocess.PIPE,
                                 cwd=self.folder)
        first.stdin.write(script)
        first.stdin.close()
        with open(self.path("step"), "wb"):
            self.talk(other)
            changed = self.read("shop.oem")
        self.assertEqual(first.wait(20), 1)
        self.assertIn(b"another session changed it", first.stderr.read())
        for pipe in (first.stdout, first.stderr):
            pipe.close()
        self.assertEqual(self.read("shop.oem"), changed)
        self.assertIn(b"name Other", changed)

    def test_full_disk(self):
        before = self.saved()

        def small():
            resource.setrlimit(resource.RLIMIT_FSIZE, (4096, 4096))
        done = self.talk(b".open shop.oem\ngenerate 1 100;\n.save\nselect Shop.bike.kind;\n", preexec_fn=small)
        self.assertEqual(done.returncode, 1)
        self.assertIn(b"stays as it was", done.stderr.replace(b"what stood there stayed", b"stays"))
        self.assertIn(b"rows 2", done.stdout)
        self.assertEqual(self.read("shop.oem"), before)
        self.assertEqual(os.listdir(self.folder), ["shop.oem"])

    def test_small_disk(self):
        """The same with a file system that is full, where one may be mounted."""
        place = self.path("small")
        os.mkdir(place)
        if subprocess.run(["mount", "-t", "tmpfs", "-o", "size=64k", "none", place], capture_output=True).returncode:
            self.skipTest("no file system may be mounted here")
        try:
            self.assertEqual(self.talk(SHOP + b".save small/shop.oem\n").returncode, 0)
            before = self.read("small/shop.oem")
            done = self.talk(b".open small/shop.oem\ngenerate 1 5000;\n.save\n.save small/other.oem\n")
            self.assertEqual((done.returncode, done.stderr.count(b"No space left on device")), (1, 2))
            self.assertEqual(self.read("small/shop.oem"), before)
            self.assertEqual(os.listdir(place), ["shop.oem"])
        finally:
            subprocess.run(["umount", place], check=True)

    def test_ended_before_the_renaming(self):
        """A process is killed when the new content is written aside: the old file is whole."""
        self.write("kept", b"old")
        code = ("import os, signal, sys; sys.path.insert(0, sys.argv[1]); from lore_lib import saving\n"
                "saving.save(sys.argv[2], b'new' * 99999, saving.digest(b'old'), False, "
                "lambda: os.kill(os.getpid(), signal.SIGKILL))")
        done = subprocess.run([sys.executable, "-c", code, os.path.join(TOP, "bin"), self.path("kept")])
        self.assertEqual(done.returncode, -signal.SIGKILL)
        self.assertEqual(self.read("kept"), b"old")
        aside = [name for name in os.listdir(self.folder) if name != "kept"]
        self.assertEqual([self.read(name) for name in aside], [b"new" * 99999])
        self.write("other", b"old")
        saving.save(self.path("other"), b"newer", saving.digest(b"old"))
        self.assertEqual(sorted(os.listdir(self.folder)), sorted([*aside, "kept", "other"]), "that of another file stays")
        saving.save(self.path("kept"), b"newer", saving.digest(b"old"))
        self.assertEqual(self.read("kept"), b"newer")
        self.assertEqual(sorted(os.listdir(self.folder)), ["kept", "other"])

    def test_changed_while_it_is_saved(self):
        """Of two sessions that save at one time one is told that the other one changed the file."""
        self.write("kept", b"old")
        code = ("import sys, time; sys.path.insert(0, sys.argv[1]); from lore_lib import saving\n"
                "print('go', flush=True); sys.stdin.readline()\n"
                "saving.save(sys.argv[2], sys.argv[3].encode(), saving.digest(b'old'), False, lambda: time.sleep(0.3))")
        command = [sys.executable, "-c", code, os.path.join(TOP, "bin"), self.path("kept")]
        both = [subprocess.Popen([*command, word], text=True, stdin=subprocess.PIPE, stdout=subprocess.PIPE,
                                 stderr=subprocess.DEVNULL) for word in ("one", "two")]
        for process in both:
            process.stdout.readline()
        for process in both:
            process.stdin.close()
        statuses = [process.wait(10) for process in both]
        for process in both:
            process.stdout.close()
        self.assertEqual(sorted(statuses), [0, 1])
        self.assertEqual(self.read("kept").decode(), ("one", "two")[statuses.index(0)])

    def test_modes_links_and_other_files(self):
        self.saved()
        os.chmod(self.path("shop.oem"), 0o640)
        os.symlink("shop.oem", self.path("link"))
        self.assertEqual(self.talk(b".open link\nload B := 1;\n.save\n").returncode, 0)
        self.assertTrue(os.path.islink(self.path("link")))
        self.assertIn(b"name B", self.read("shop.oem"))
        self.assertEqual(stat.S_IMODE(os.stat(self.path("shop.oem")).st_mode), 0o640)
        os.mkfifo(self.path("pipe"))
        for script in (b"load A := 1;\n.save pipe\n", b".open pipe\n",
                       b"load A := 1;\n.save .\n", b"load A := 1;\n.save none/a\n", b".save\n", b".open .\n",
                       b".open /dev/null\n", b".save /dev/null\n", b".open\n"):
            done = self.talk(script)
            self.assertEqual((done.returncode, script), (1, script))

    def test_what_is_no_database(self):
        whole = self.saved()
        self.write("cut", whole[:-20])
        self.write("bad", whole.replace(b"object &3", b"object &9"))
        self.write("more", whole + b"; load X := 1")
        self.write("other", b"load X := 1;")
        for name in (b"cut", b"bad", b"more", b"other"):
            done = self.talk(b"load Kept := 1;\n.save kept.oem\n.open " + name + b"\nselect Kept;\n")
            self.assertEqual((done.returncode, done.stdout.endswith(b"&1 1\nrows 1\n")), (1, True), name)
            os.remove(self.path("kept.oem"))
        self.assertIn(b"bad:", self.talk(b".open bad\n").stderr)
        self.write("early", whole.replace(b"next ", b"nexxt "))
        self.write("lost", whole.replace(b"\nend\n", b"\nlabel late\nend\n"))
        self.write("few", whole.replace(b"nodes 4096", b"nodes 1"))
        line = 1 + whole[:whole.index(b"object &3")].count(b"\n")
        for name, place in (("early", b"early:2:1: refused 5"), ("few", b"few:1:1: refused 25"), ("lost", b"refused 5"),
                            ("bad", b"bad:%d:1: refused 25" % line)):
            told = self.talk(b".open " + name.encode() + b"\n").stderr
            self.assertIn(place, told)
            self.assertNotIn(b":0:", told)
            self.assertNotIn(b"line 0", told)
            self.assertNotIn(b"in statement", told)

    def test_unsaved_changes(self):
        self.saved()
        done = self.talk(b"load A := 1;\n.open shop.oem\nselect A;\n")
        self.assertEqual((done.returncode, b"rows 1" in done.stdout), (1, True))
        done = self.talk(b"load A := 1;\n.open! shop.oem\nselect Shop;\n")
        self.assertEqual((done.returncode, b"rows 1" in done.stdout), (0, True))
        self.assertIn(b"weren't saved", self.talk(b"load A := 1;\n", "shop.oem").stderr)
        kept = b"-- none;\n history on;\nchanges 0 0;\nhistory off;\nwatch V := select Shop;\nshow V;\nunwatch V;\n"
        self.assertNotIn(b"weren't saved", self.talk(kept, "shop.oem").stderr)


@NEEDS_PROGRAM
class Manual(Folder):
    """What the chapter on the shell says."""

    def test_talk_at_a_terminal(self):
        """What is typed there is answered so from a script."""
        with open(os.path.join(TOP, "docs", "TOOLS.md"), encoding="utf-8") as opened:
            block = opened.read().split("\n### At a terminal\n")[1].split("```\n")[1]
        prompt = re.compile("^(?:lore| {3}[^ ])> ?", re.M)
        typed = "".join(line[prompt.match(line).end():] + "\n" for line in block.splitlines() if prompt.match(line))
        told = "".join(line + "\n" for line in block.splitlines() if not prompt.match(line))
        begin = typed.index("select")
        self.write("second", typed[begin:].encode())
        done = self.talk(typed[:begin].encode() + b".read second\n")
        self.assertEqual((done.stdout + done.stderr).decode().replace("second:2:1:", "line 2, column 1:")
                         .replace("in statement 1,", "in statement 2,"), told)

    def test_commands_are_told(self):
        with open(os.path.join(TOP, "docs", "TOOLS.md"), encoding="utf-8") as opened:
            chapter = opened.read().split("\n## The shell\n")[1].split("\n## ")[0]
        told = re.findall(r"(?m)^\| `(\..*?)` \|", chapter)
        self.assertEqual([form.replace("\\|", "|") for form in told], [form for form, _ in COMMANDS.values()])


class Saving(Folder):
    """Saving without a program."""

    def test_faults(self):
        self.write("a", b"1")
        for path, known in (("a", None), ("a", saving.digest(b"2")), ("none/a", None), (".", None)):
            with self.assertRaises(Fault):
                saving.save(self.path(path), b"new", known)
        self.assertEqual(self.read("a"), b"1")
        self.assertEqual(saving.save(self.path("a"), b"2", None, True), saving.Saved(saving.digest(b"2"), None, None))
        self.assertEqual(saving.save(self.path("a"), b"3", saving.digest(b"2")).digest, saving.digest(b"3"))
        self.assertEqual(os.listdir(self.folder), ["a"])

    @unittest.skipIf(os.getuid(), "only root can give files away")
    def test_owner(self):
        """Root's `.save` leaves the file to whom it belongs, and others are told where they can't."""
        self.write("a", b"1")
        os.chown(self.path("a"), 12345, 23456)
        os.chmod(self.path("a"), 0o640)
        self.assertIsNone(saving.save(self.path("a"), b"2", saving.digest(b"1")).owner)
        found = os.stat(self.path("a"))
        self.assertEqual((found.st_uid, found.st_gid, stat.S_IMODE(found.st_mode)), (12345, 23456, 0o640))
        with mock.patch("os.fchown", side_effect=PermissionError(1, "Operation not permitted")):
            saved = saving.save(self.path("a"), b"3", saving.digest(b"2"))
        self.assertIn("12345 with group 23456, which couldn't be kept: Operation not permitted", saved.owner)
        self.assertEqual((os.stat(self.path("a")).st_uid, self.read("a")), (0, b"3"))

    def test_pipes_and_folders_are_not_waited_for(self):
        os.mkfifo(self.path("pipe"))
        os.mkdir(self.path("inner"))
        for name in ("pipe", "inner"):
            signal.alarm(10)
            try:
                for work in (lambda path: saving.save(path, b"new", None, True), lambda path: saving.content(path, 100)):
                    with self.assertRaisesRegex(Fault, "this is no file"):
                        work(self.path(name))
            finally:
                signal.alarm(0)
        self.assertEqual(sorted(os.listdir(self.folder)), ["inner", "pipe"])

    def test_a_folder_that_is_not_brought_to_the_disk(self):
        """Then the new content stands there, and nobody says that the old one does."""
        self.write("a", b"1")
        real = os.fsync

        def failing(there):
            if stat.S_ISDIR(os.fstat(there).st_mode):
                raise OSError(5, "Input/output error")
            real(there)
        with mock.patch("os.fsync", failing):
            saved = saving.save(self.path("a"), b"2", saving.digest(b"1"))
        self.assertEqual((self.read("a"), saved.digest), (b"2", saving.digest(b"2")))
        self.assertIn("stands there, but", saved.unsure)
        self.assertIn("Input/output error", saved.unsure)


class Ends(unittest.TestCase):
    """How the program ended, in words."""

    def test_words(self):
        self.assertIn("SIGSEGV", in_words(-signal.SIGSEGV))
        self.assertIn("67,108,864", in_words(5))
        self.assertIn("memory", in_words(6))

    def test_a_statement_too_long(self):
        if not LORE:
            self.skipTest("LORE names no program")
        talk = Session(LORE)
        with self.assertRaises(Ended) as ended:
            talk.ask(b" " * 67108865)
        self.assertEqual(ended.exception.status, 5)
        talk.close()


class Terminal(Folder):
    """A test with lore-talk at a terminal."""

    def setUp(self):
        super().setUp()
        environment = {**os.environ, "LORE_HISTORY": self.path("history"), "TERM": "dumb", "LORE": self.program()}
        self.pid, self.there = pty.fork()
        if self.pid == 0:
            os.chdir(self.folder)
            os.execve(sys.executable, [sys.executable, TALK], environment)
        self.seen = b""
        self.await_text(b"lore> ")

    def program(self):
        return LORE

    def tearDown(self):
        os.close(self.there)
        if self.pid:
            os.kill(self.pid, signal.SIGKILL)
            os.waitpid(self.pid, 0)

    def piece(self, until):
        """What comes next, nothing at the end or when the time is up."""
        ready, _, _ = select.select([self.there], [], [], max(0, until - time.monotonic()))
        try:
            return os.read(self.there, 65536) if ready else b""
        except OSError:
            return b""

    def await_text(self, text):
        """Reads until a text is seen; what was seen up to it."""
        until = time.monotonic() + SECONDS
        while text not in self.seen:
            piece = self.piece(until)
            if not piece:
                self.fail(f"{text!r} isn't among {self.seen!r}")
            self.seen += piece
        before, _, self.seen = self.seen.partition(text)
        return before

    def type(self, text):
        os.write(self.there, text)

    def drop(self):
        """Ctrl-C at a prompt, until the next one is seen: one that comes before a line is waited for is noticed with another."""
        for _ in range(SECONDS):
            self.type(b"\x03")
            if select.select([self.there], [], [], 1)[0]:
                break
        self.await_text(b"lore> ")

    def ended(self):
        """The status, when all that is still told was read."""
        until = time.monotonic() + SECONDS
        while piece := self.piece(until):
            self.seen += piece
        self.assertNotIn(b"Traceback", self.seen)
        while time.monotonic() < until + 1:
            there, status = os.waitpid(self.pid, os.WNOHANG)
            if there:
                self.pid = None
                return os.waitstatus_to_exitcode(status)
            time.sleep(0.02)
        self.fail(f"lore-talk doesn't end; it said {self.seen!r}")


@NEEDS_PROGRAM
class AtTerminal(Terminal):
    """What a person sees."""

    def test_prompts_tell_what_is_open(self):
        self.type(b"load A := {\n")
        self.await_text(b"   {> ")
        self.type(b"x \"one;\n")
        self.await_text(b"   \"> ")
        self.type(b"two\", 'y;\n")
        self.await_text(b"   '> ")
        self.type(b"z' 5 -- }\n")
        self.await_text(b"   {> ")
        self.type(b"}\n")
        self.await_text(b"   ;> ")
        self.type(b";\n")
        self.await_text(b"ok objects 3 edges 2 nodes 3")
        self.type(b"select A(.x\n")
        self.await_text(b"   (> ")
        self.type(b").u;;\n")
        self.assertNotIn(b"refused", self.await_text(b"lore> "))
        self.type(b"\x04")
        self.await_text(b"weren't saved")
        self.await_text(b"lore> ")
        self.type(b"\x04")
        self.assertEqual(self.ended(), 1)

    def test_interrupt_drops_what_is_typed(self):
        self.type(b"load A := \"abc;\n")
        self.await_text(b"   \"> ")
        self.drop()
        self.type(b"guide;\n")
        self.await_text(b"nodes 0")
        self.type(b"exit\n")
        self.assertEqual(self.ended(), 0)
        self.assertIn(b"guide;", self.read("history"))

    def test_control_characters_are_escaped(self):
        self.write("c.lore", b'load A := "\x1b[31mred\xc2\x9b";\nselect A;\n')
        self.type(b".read c.lore\n")
        self.assertIn(rb'"\x1b[31mred\x9b"', self.await_text(b"rows 1"))
        self.type(b"help\n")
        self.await_text(b".quit")
        self.type(b".quit!\n")
        self.assertEqual(self.ended(), 0)

    def test_places_are_those_of_the_statement(self):
        self.type(b"load A := 1;\n")
        self.await_text(b"nodes 1")
        self.type(b"select A\n")
        self.await_text(b";> ")
        self.type(b"  wher A = 1;\n")
        self.await_text(b"line 2, column 3: refused 5 Syntax")
        self.type(b".save a.oem\n")
        self.await_text(b"saved ")
        self.type(b".quit\n")
        self.assertEqual(self.ended(), 1)


class AtWork(Terminal):
    """The program is at work and doesn't answer."""

    def program(self):
        self.write("works", GREETS + b"head -c 3 >/dev/null\nexec sleep 30\n")
        os.chmod(self.path("works"), 0o755)
        return self.path("works")

    def test_second_interrupt_ends_it(self):
        self.type(b"guide;\n")
        time.sleep(0.5)
        self.type(b"\x03")
        self.await_text(b"at work")
        self.type(b"\x03")
        self.assertEqual(self.ended(), 130)
        self.assertIn(b"lost", self.seen)


if __name__ == "__main__":
    unittest.main()
