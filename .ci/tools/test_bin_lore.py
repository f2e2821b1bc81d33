"""Tests of bin/lore with programs that stand in for the real ones: one for the proved program, and one for `rt`.

A checkout is made that has nothing but bin/lore, a source, and the stand-ins, so no test compiles or proves anything.
"""
import os
import pathlib
import pty
import select
import shutil
import signal
import subprocess
import tempfile
import time
import unittest

LONG = 60  # seconds, for a machine that is busy
TOP = pathlib.Path(__file__).resolve().parents[2]
SENTENCES = {3: b"reading failed", 4: b"writing failed", 5: b"67,108,864", 6: b"memory was refused", 7: b"1,073,741,824"}
PROGRAM = """#!/bin/sh
touch "$(dirname "$0")/started"
cat
exit ${ENDS:-0}
"""
RT = """#!/bin/sh
echo "$PWD $*" >"$SEEN"
cat
case $ENDS in
  output) echo 'checked: no-answer: the program wrote more than 1048576 bytes to standard output or ..' >&2; exit 6 ;;
  time) echo 'checked: no-answer: the program did not end within the time limit' >&2; exit 6 ;;
  none) echo 'error: no such crate' >&2; echo 'run=none proved=no' >&2; exit 1 ;;
esac
echo "run=ended status=${ENDS:-0} runners=1 proved=no" >&2
exit ${ENDS:-0}
"""


def heed_interrupts():
    """Undoes that a shell has its background jobs ignore interrupts."""
    signal.signal(signal.SIGINT, signal.SIG_DFL)


class Checkout(unittest.TestCase):
    """A checkout of its own for each test."""

    def setUp(self):
        folder = tempfile.TemporaryDirectory()
        self.addCleanup(folder.cleanup)
        self.top = pathlib.Path(folder.name) / "a checkout"
        self.out = self.top / "crates/lore/out"
        self.seen = self.top / "seen"
        for path in (self.out, self.top / "bin", self.top / "crates/lore/src", self.top / "path"):
            path.mkdir(parents=True)
        shutil.copy(TOP / "bin/lore", self.top / "bin/lore")
        (self.top / "crates.txt").write_text("lore:\n")
        self.source = self.top / "crates/lore/src/main.rt"
        self.source.write_text("")
        self.place(self.top / "path/rt", RT)

    def place(self, path, text):
        path.write_text(text)
        path.chmod(0o755)

    def proved(self, text=PROGRAM):
        self.place(self.out / "lore", text)

    def run_lore(self, *words, script=b"load A := 1;", ends="", **more):
        """How bin/lore ends, with what it wrote."""
        paths = f"{self.top / 'path'}:{os.environ['PATH']}"
        given = {"input": script} if "stdin" not in more else {}
        return subprocess.run([more.pop("command", self.top / "bin/lore"), *words], stderr=subprocess.PIPE, **given,
                              **{"stdout": subprocess.PIPE, **more}, timeout=LONG,
                              env={**os.environ, "PATH": paths, "ENDS": str(ends), "SEEN": str(self.seen)})


class Words(Checkout):
    def test_any_word_is_told_the_usage_and_nothing_runs(self):
        for built in (False, True):
            if built:
                self.proved()
            for word in ("--help", "examples/restaurants.lore", "", b"\xff"):
                ran = self.run_lore(word)
                self.assertEqual((ran.returncode, ran.stdout), (2, b""))
                self.assertIn(b"usage: bin/lore < SCRIPT", ran.stderr)
        self.assertFalse(self.seen.exists() or (self.out / "started").exists())


class Proved(Checkout):
    def setUp(self):
        super().setUp()
        self.proved()

    def test_each_status_comes_through_and_has_its_sentence(self):
        for status in range(8):
            ran = self.run_lore(ends=status)
            self.assertEqual((ran.returncode, ran.stdout), (status, b"load A := 1;"))
            if status in SENTENCES:
                self.assertIn(SENTENCES[status], ran.stderr)
                self.assertEqual(ran.stderr.count(b"\n"), 1)
            elif status != 2:
                self.assertEqual(ran.stderr, b"")

    def test_links_are_followed(self):
        links = self.top / "path"
        (links / "lore").symlink_to(self.top / "bin/lore")
        (links / "again").symlink_to("lore")
        self.assertEqual(self.run_lore(command=links / "again").stdout, b"load A := 1;")
        self.assertEqual(self.run_lore(command="lore", cwd="/").stdout, b"load A := 1;")

    def test_a_newer_source_is_tried(self):
        os.utime(self.source, (time.time() + 60,) * 2)
        self.assertIn(b"not proved", self.run_lore().stderr)
        self.assertTrue(self.seen.exists())

    def test_a_standard_input_that_is_closed_stays_closed(self):
        self.proved("#!/bin/sh\n[ -e /proc/self/fd/0 ] && exit 7\nexit 3\n")
        self.assertEqual(self.run_lore(command="sh", *("-c", 'exec "$0" <&-', str(self.top / "bin/lore"))).returncode, 3)

    def test_a_signal_ends_the_program_too(self):
        self.proved("#!/bin/sh\necho $$\nexec sleep 30\n")
        for number in (signal.SIGTERM, signal.SIGINT, signal.SIGHUP):
            process = subprocess.Popen([self.top / "bin/lore"], stdin=subprocess.PIPE, stdout=subprocess.PIPE,
                                       preexec_fn=heed_interrupts)
            program = int(process.stdout.readline())
            process.send_signal(number)
            self.assertEqual(process.wait(LONG), -number)
            self.assertFalse(os.path.exists(f"/proc/{program}/exe"))
            process.stdin.close()
            process.stdout.close()

    def test_a_terminal_talks_with_the_program_and_interrupts_it(self):
        self.proved("#!/bin/sh\nread line\necho it was $line\nexec sleep 30\n")
        child, terminal = pty.fork()
        if child == 0:
            heed_interrupts()
            os.execv(self.top / "bin/lore", ["lore"])
        heard, until = b"", time.monotonic() + LONG
        os.write(terminal, b"guide;\n")
        while b"it was guide;" not in heard and time.monotonic() < until:
            if select.select([terminal], [], [], 0.1)[0]:
                heard += os.read(terminal, 4096)
        self.assertIn(b"it was guide;", heard)
        os.write(terminal, b"\x03")
        _, status = os.waitpid(child, 0)
        os.close(terminal)
        self.assertEqual(os.waitstatus_to_exitcode(status), -signal.SIGINT)


class Trial(Checkout):
    def test_replies_and_status_are_those_of_the_trial(self):
        for status in range(8):
            ran = self.run_lore(ends=status)
            self.assertEqual((ran.returncode, ran.stdout), (status, b"load A := 1;"))
            self.assertIn(b"not proved", ran.stderr)
            self.assertIn(SENTENCES.get(status, b""), ran.stderr)
        folder, *words = self.seen.read_text().split("/crates/lore ")
        self.assertEqual(folder, str(self.top))
        self.assertIn("--seconds 86400", words[0])

    def test_each_limit_is_told_in_words(self):
        for ends, said in (("output", b"at most 1,048,576 bytes of replies"), ("time", b"a day"), ("none", b"no such crate")):
            ran = self.run_lore(ends=ends)
            self.assertEqual((ran.returncode, ran.stdout), (125, b""))
            self.assertIn(said, ran.stderr)
            self.assertIn(b"gave no answer", ran.stderr)
        ran = self.run_lore(script=bytes(67_108_865))
        self.assertEqual((ran.returncode, ran.stdout), (125, b""))
        self.assertIn(b"at most 67,108,864 bytes of script", ran.stderr)

    def test_what_cannot_be_read_or_written_is_told(self):
        folder = os.open(self.top, os.O_RDONLY)
        ran = self.run_lore(stdin=folder)
        os.close(folder)
        self.assertEqual(ran.returncode, 3)
        self.assertIn(SENTENCES[3], ran.stderr)
        with open("/dev/full", "wb") as full:
            ran = self.run_lore(stdout=full)
        self.assertEqual(ran.returncode, 4)
        self.assertIn(SENTENCES[4], ran.stderr)

    def test_a_signal_ends_the_trial_and_leaves_nothing(self):
        self.place(self.top / "path/rt", "#!/bin/sh\necho $$ >\"$SEEN\"\nexec sleep 30\n")
        rooms = self.top / "rooms"
        rooms.mkdir()
        given = {**os.environ, "PATH": f"{self.top / 'path'}:{os.environ['PATH']}", "SEEN": str(self.seen), "TMPDIR": str(rooms)}
        for number in (signal.SIGTERM, signal.SIGINT):
            process = subprocess.Popen([self.top / "bin/lore"], stdin=subprocess.DEVNULL, stderr=subprocess.DEVNULL, env=given,
                                       preexec_fn=heed_interrupts)
            until = time.monotonic() + LONG
            while not (self.seen.exists() and self.seen.read_text().endswith("\n")) and time.monotonic() < until:
                time.sleep(0.05)
            trial = int(self.seen.read_text())
            process.send_signal(number)
            self.assertEqual(process.wait(LONG), -number)
            self.assertFalse(os.path.exists(f"/proc/{trial}/exe"))
            self.assertEqual(list(rooms.iterdir()), [])
            self.seen.unlink()

    def test_a_terminal_is_told_when_replies_come(self):
        self.assertNotIn(b"replies come at the end", self.run_lore().stderr)
        near, far = pty.openpty()
        os.write(near, b"guide;\n\x04")
        ran = self.run_lore(stdin=far)
        os.close(near)
        os.close(far)
        self.assertEqual(ran.stdout, b"guide;\n")
        self.assertIn(b"replies come at the end", ran.stderr)


if __name__ == "__main__":
    unittest.main()
