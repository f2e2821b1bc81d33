#!/usr/bin/env python3
"""Tests the tokens, the grammar, the recogniser and bin/lore-why.

The program is named by the environment variable LORE; tests that need it are skipped where it is unset.
"""
import os
import random
import re
import shutil
import signal
import subprocess
import sys
import tempfile
import time
import unittest

HERE = os.path.dirname(os.path.abspath(__file__))
TOP = os.path.join(HERE, "..", "..")
sys.path.insert(0, os.path.join(TOP, "bin"))
from lore_lib import grammar, limits  # noqa: E402
from lore_lib.diagnosis import diagnose, verdict  # noqa: E402
from lore_lib.earley import Recogniser  # noqa: E402
from lore_lib.lexer import Chunk, Cutter, chunks, tokens  # noqa: E402
from lore_lib.places import marked, place  # noqa: E402
from lore_lib.refusals import ALL  # noqa: E402
from lore_lib.roles import roles_of  # noqa: E402
from lore_lib.session import Session, refusal_of  # noqa: E402

LORE = os.environ.get("LORE") and os.path.abspath(os.environ["LORE"])
if LORE:
    os.environ["LORE"] = LORE
NEEDS_PROGRAM = unittest.skipUnless(LORE, "LORE names no program")
WHY = os.path.join(TOP, "bin", "lore-why")
MARK = re.compile(rb"\[\[([0-9]+)(?: ([^\]\n]+))?\]\]")
MUTATIONS = 2500


def read(*names):
    with open(os.path.join(TOP, *names), "rb") as opened:
        return opened.read()


def slips():
    """All scripts of slips: the file, the script, and the place, number and word of each mark."""
    folder = os.path.join(HERE, "slips")
    for file in sorted(os.listdir(folder)):
        if file.endswith(".slips"):
            for marked_script in re.split(rb"(?m)^%%\n", read(folder, file)):
                yield (file, *unmarked(marked_script))


def unmarked(data):
    """A script without its marks, and what they say."""
    script, expected, end = b"", [], 0
    for mark in MARK.finditer(data):
        script += data[end:mark.start()]
        end = mark.end()
        begin = script.rfind(b"\n") + 1
        column = len(script[begin:].decode("utf-8", "replace")) + 1
        word = (mark.group(2) or b"").decode()
        expected.append(((script.count(b"\n") + 1, column), int(mark.group(1)), word))
    return script + data[end:], expected


def documents():
    """The chunks of the worked examples: blocks of docs/LANGUAGE.md and the scripts of examples/."""
    blocks = re.findall(rb"(?ms)^```\n(.*?)^```$", read("docs", "LANGUAGE.md"))
    scripts = [block for block in blocks if b";" in block]
    folder = os.path.join(TOP, "examples")
    scripts += [read(folder, file) for file in sorted(os.listdir(folder)) if file.endswith(".lore")]
    return [chunk.data for script in scripts for chunk in chunks(script) if chunk.closed]


def by_text(data):
    """The refusal of a statement by its text alone, 0 where it is a statement."""
    found, _ = verdict(Chunk(data, True, 1, b""))
    return found.number if found else 0


def mutated(rng, spellings, statement):
    """A statement with some words lost, doubled, put in, or taken from another one."""
    pool = [word for other in spellings for word in other]
    words = list(statement)
    for _ in range(rng.choice((1, 1, 2, 3))):
        at = rng.randrange(len(words) + 1)
        way = rng.randrange(4)
        if way == 0:
            del words[at:at + 1]
        elif way == 1:
            words.insert(at, rng.choice(pool))
        elif way == 2:
            words[at:at + 1] = [rng.choice(pool)]
        else:
            words[at:] = rng.choice(spellings)[at:]
    text = rng.choice((b" ", b" ", b"")).join(words)
    if rng.randrange(5) == 0:
        at = rng.randrange(len(text) + 1)
        odd = rng.choice((b".", b"\\", b"--", b"-", b"9" * 30, b"5.5", b"\xff", b"&", b"x" * 256, b"%", b"\f"))
        text = text[:at] + odd + text[at:]
    return text


class Slips(unittest.TestCase):
    """The slips are found where a person would point."""

    def compare(self, file, script, expected, found):
        places = [(place(chunk, diagnosis.start), diagnosis.number) for diagnosis, chunk in found]
        pointed = [(where, number) for where, number, _ in expected]
        self.assertEqual(places, pointed, f"in {file}:\n{script.decode(errors='replace')}")
        for (diagnosis, _), (where, _, word) in zip(found, expected):
            told = diagnosis.matter + " " + diagnosis.cause
            self.assertIn(word, told, f"in {file}, {where}")

    def test_slips_by_text(self):
        for file, script, expected in slips():
            found = [(verdict(chunk)[0], chunk) for chunk in chunks(script)]
            self.compare(file, script, [it for it in expected if it[1] <= 6], [it for it in found if it[0]])

    @NEEDS_PROGRAM
    def test_slips_by_the_program(self):
        count = 0
        for file, script, expected in slips():
            talk, found, lost = Session(LORE), [], {}
            for number, chunk in enumerate(chunks(script), 1):
                reply = talk.ask(chunk.data) if chunk.closed else talk.finish(chunk.data)
                refused = re.match(rb"refused ([0-9]+) ", reply)
                if refused:
                    found.append((diagnose(chunk, int(refused.group(1)), talk.ask if chunk.closed else None, lost), chunk))
                    named = re.match(rb"\s*(?:\xef\xbb\xbf)?load ([A-Za-z]+)", chunk.data)
                    lost.update({named.group(1): number} if named else {})
            talk.close()
            self.compare(file, script, expected, found)
            count += len(expected)
        self.assertGreater(count, 100)


class Verdicts(unittest.TestCase):
    """Whether tokens are a statement is the same here and in the program."""

    def difference(self, statements):
        talk = Session(LORE)
        try:
            for data in statements:
                reply = talk.ask(data)
                refused = re.match(rb"refused ([0-9]+) ", reply)
                number = int(refused.group(1)) if refused else 0
                self.assertEqual(by_text(data), number if number <= 6 else 0, data)
        finally:
            talk.close()

    @NEEDS_PROGRAM
    def test_worked_examples(self):
        statements = documents()
        self.assertGreater(len(statements), 150)
        self.difference(statements)

    @NEEDS_PROGRAM
    def test_slips(self):
        self.difference([chunk.data for _, script, _ in slips() for chunk in chunks(script) if chunk.closed])

    @NEEDS_PROGRAM
    def test_mutations(self):
        rng = random.Random(20)
        spellings = [[token.text for token in tokens(data)[0]] for data in documents() if len(data) < 2000]
        statements = [mutated(rng, spellings, rng.choice(spellings)) for _ in range(MUTATIONS)]
        whole = [data for data in statements if [chunk.data for chunk in chunks(data + b";")] == [data]]
        self.assertGreater(len(whole), MUTATIONS * 9 // 10)
        self.difference(whole)

    @NEEDS_PROGRAM
    def test_nesting(self):
        for inner, opened, closed in ((b"load A := %b1%b", b"{ a ", b" }"), (b"select A%b.x%b", b"(", b")"),
                                      (b"select A where %b1 = 1%b", b"(", b")"), (b"select A where %b1 = 1%b", b"not ", b""),
                                      (b"select A where %b1 = 1%b", b"exists X in A : ", b""),
                                      (b"select A where %b1 = 1%b", b"for all X in A : ", b"")):
            for levels in (limits.LEVELS, limits.LEVELS + 1):
                data = inner % (opened * levels, closed * levels)
                if inner.startswith(b"select A%b"):
                    data = b"select A" + b"(" * (levels - 1) + b"(.x)" + b")" * (levels - 1)
                self.assertEqual(by_text(data), 0 if levels == limits.LEVELS else 5, data)
                self.difference([data])


class Names(unittest.TestCase):
    """Which names and variables are wrong is the same here and in the program."""

    @NEEDS_PROGRAM
    def test_swapped_names(self):
        rng, compared = random.Random(7), 0
        spellings = [[token.text for token in tokens(data)[0]] for data in documents()
                     if re.match(rb"\s*(select|update|explain) ", data) and re.search(rb"from|exists|for all|path-of", data)]
        talk = Session(LORE)
        talk.ask(b"load Market := { stall { name 1 } }")
        for _ in range(1200):
            data = swapped(rng, list(rng.choice(spellings)))
            refused = refusal_of(talk.ask(data))
            if by_text(data) or refused is None:
                continue
            number = self.by_names(data, talk)
            self.assertEqual(number, refused if refused in (7, 8, 9) else None, data)
            if number:
                found = diagnose(Chunk(data, True, 1, b""), number, talk.ask)
                self.assertNotEqual(found.matter, ALL[number - 1].when, data)
                compared += 1
        talk.close()
        self.assertGreater(compared, 300)

    def by_names(self, data, talk):
        roles = roles_of(tokens(data)[0])
        ranged = [token.text for token in roles.ranged]
        lost = [token.text for token, in_scope in roles.starts
                if not in_scope and refusal_of(talk.ask(b"browse " + token.text)) == 7]
        if any(word not in ranged for word in lost):
            return 7
        if lost or any(token.text not in roles.paths for token in roles.words):
            return 8
        return 9 if len(set(ranged)) < len(ranged) else None


def swapped(rng, words):
    """A statement with some names and variables in place of others."""
    places = [at for at, word in enumerate(words) if at and re.fullmatch(rb"[A-Za-z_]\w*", word) and words[at - 1] != b"."
              and word.decode() not in limits.RESERVED]
    pool = [words[at] for at in places] + [b"X", b"Y", b"P", b"Market"]
    for _ in range(rng.choice((1, 2, 3)) if places else 0):
        words[rng.choice(places)] = rng.choice(pool)
    return b" ".join(words)


class Grammar(unittest.TestCase):
    """The grammar of the tools is that of the manual."""

    def test_text_is_that_of_the_manual(self):
        chapter = read("docs", "LANGUAGE.md").decode().split("\n## Grammar\n")[1].split("\n## ")[0]
        blocks = [block for block in re.findall(r"(?ms)^```\n(.*?)^```$", chapter) if re.match(r"[a-z]+ *= ", block)]
        manual = {name: " ".join(text.split()) for block in blocks for name, text in rules(block)}
        self.assertEqual(dict((name, " ".join(text.split())) for name, text in rules(grammar.TEXT)), manual)
        self.assertEqual(len(manual), 23)

    def test_refusals_are_those_of_the_manual(self):
        manual = re.findall(r"(?m)^\| ([0-9]+) \| `([A-Za-z]+)` \|", read("docs", "LANGUAGE.md").decode())
        self.assertEqual([(str(refusal.number), refusal.name) for refusal in ALL], manual)

    def test_reserved_words_are_those_of_the_manual(self):
        manual = read("docs", "LANGUAGE.md").decode()
        listed = manual.split("The reserved words are ")[1].split("No\nname")[0]
        self.assertEqual(set(re.findall("`([a-z]+)`", listed)), set(limits.RESERVED))

    def test_small_grammar(self):
        """What can go on is worked out by hand for a grammar of three rules."""
        small = Recogniser('statement = "a" { part } [ "b" ]\npart = "(" statement ")" | number\n')

        def said(text):
            return small.verdict(tokens(text)[0])
        self.assertIsNone(said(b"a"))
        self.assertIsNone(said(b"a 1 (a b) 2 b"))
        self.assertEqual(said(b"a 1 a"), (2, ['"b"', '"("', "number", "the end"]))
        self.assertEqual(said(b"a (a b b)"), (4, ['")"']))
        self.assertEqual(said(b"a ("), (2, ['"a"']))
        self.assertEqual(said(b""), (0, ['"a"']))


def rules(text):
    """The rules of a text by name."""
    pieces = re.split(r"(?m)^([a-z]+) *= ", text)
    return list(zip(pieces[1::2], pieces[2::2]))


class Cutting(unittest.TestCase):
    """Chunks are the same whether a script comes whole or in lines."""

    def test_by_lines(self):
        odd = [b"a'\\';\n\\\\'; -- ;\n-;--;", b'"\\\n";"']
        for script in [script for _, script, _ in slips()] + [read("docs", "LANGUAGE.md")] + odd:
            cutter = Cutter()
            parts = [chunk for line in re.findall(rb"[^\n]*\n|[^\n]+", script) for chunk in cutter.feed(line)]
            rest = cutter.pending()
            self.assertEqual(parts + ([] if rest.blank() else [rest]), list(chunks(script)))

    def test_by_the_table(self):
        """Cut once more byte by byte, by the table of states as it stands in the manual's words."""
        for script in [script for _, script, _ in slips()] + [read("docs", "LANGUAGE.md"), b"a--;\n;'\\';';\"\\\";\";-;--"]:
            self.assertEqual([chunk.data for chunk in chunks(script) if chunk.closed], list(by_states(script)))


def by_states(script):
    """The chunks of a script, byte by byte."""
    state, begin = "", 0
    for at, byte in enumerate(script):
        sign = chr(byte)
        if state in ("", "-"):
            if sign == ";":
                yield script[begin:at]
                begin, state = at + 1, ""
            else:
                state = sign if sign in "\"'" else "--" if sign == "-" and state == "-" else "-" if sign == "-" else ""
        elif state == "--":
            state = "" if sign == "\n" else state
        elif len(state) == 2:
            state = state[0]
        elif sign == "\\":
            state += sign
        elif sign == state:
            state = ""


class Large(unittest.TestCase):
    """A statement of some 100,000 tokens is looked through in seconds."""

    def test_long_literal(self):
        members = ", ".join(f'r {{ n "x{number}", p {number}, q {{ z &{number + 1} 1 }} }}' for number in range(7000))
        data = f"load A := {{ {members}, r {{ n 1 p 2 }} }}".encode()
        begin = time.monotonic()
        found, there = verdict(Chunk(data, True, 1, b""))
        self.assertLess(time.monotonic() - begin, 10)
        self.assertGreater(len(there), 100000)
        self.assertEqual((found.number, data[found.start:found.start + 3]), (5, b"p 2"))
        self.assertEqual(found.could, ['","', '"}"'])


class Places(unittest.TestCase):
    """Lines, columns and the signs below them."""

    def test_wide_and_hidden_characters(self):
        chunk = Chunk("\n select \u6771\u4eac\u00a0 x".encode(), True, 4, b"load A := 1;")
        at = chunk.data.index(b"x")
        self.assertEqual(place(chunk, at), (5, 13))
        line, signs = marked(chunk, at, at + 1)
        self.assertEqual((line, signs), (" select \u6771\u4eac\u00b7 x;", " " * 14 + "^"))

    def test_long_line(self):
        chunk = Chunk(b"select " + b"A" * 300 + b" ! " + b"B" * 300, True, 1, b"")
        at = chunk.data.index(b"!")
        line, signs = marked(chunk, at, at + 1)
        self.assertLess(len(line), 160)
        self.assertEqual(line[signs.index("^")], "!")


class Tool(unittest.TestCase):
    """bin/lore-why as a program."""

    def run_why(self, words=(), script=b"", program=LORE or ""):
        return subprocess.run([sys.executable, WHY, *words], input=script, capture_output=True, timeout=30,
                              env={**os.environ, "LORE": program})

    @NEEDS_PROGRAM
    def test_statuses_and_places(self):
        done = self.run_why(script=b"load A := { x 1 };\nselect A.x;\n")
        self.assertEqual((done.returncode, done.stdout, done.stderr), (0, b"", b""))
        done = self.run_why(script=b"load A := { x 1 };\nselect A.x wher;\nselect B;\n")
        self.assertEqual(done.returncode, 1)
        self.assertIn(b"script:2:12: refused 5 Syntax", done.stdout)
        self.assertIn(b"script:3:8: refused 7 UnknownName", done.stdout)
        self.assertEqual(len(re.findall(rb"(?m)^script:[0-9:]+ refused", done.stdout)), 2)

    def test_bad_words_and_files(self):
        self.assertEqual(self.run_why(("a", "b")).returncode, 2)
        self.assertEqual(self.run_why(("-x",)).returncode, 2)
        self.assertEqual(self.run_why(("/nowhere",)).returncode, 3)
        self.assertEqual(self.run_why((HERE,)).returncode, 3)
        self.assertEqual(self.run_why(program="/nowhere").returncode, 4)
        done = self.run_why(("--list",))
        self.assertEqual((done.returncode, done.stdout.count(b"Mostly because")), (0, 31))
        self.assertEqual(self.run_why(("--help",)).returncode, 0)

    def test_program_that_ends(self):
        done = self.run_why(script=b"load A := 1;", program="/bin/false")
        self.assertEqual(done.returncode, 4)
        self.assertIn(b"ended with status 1", done.stderr)
        self.assertNotIn(b"Traceback", done.stderr)

    def test_without_a_program(self):
        with tempfile.TemporaryDirectory() as folder:
            shutil.copytree(os.path.join(TOP, "bin"), os.path.join(folder, "bin"))
            done = subprocess.run([sys.executable, os.path.join(folder, "bin", "lore-why")], input=b"select A;\nselect A wher;\nselect",
                                  capture_output=True, timeout=30, env={**os.environ, "LORE": ""})
        self.assertEqual(done.returncode, 1)
        self.assertIn(b"no program is built", done.stderr)
        self.assertEqual(re.findall(rb"(?m)^script:([0-9:]+): refused ([0-9])", done.stdout), [(b"2:10", b"5"), (b"3:7", b"6")])

    def test_where_nothing_is_known_nothing_is_said(self):
        told = self.run_why(script=b"wobble A.x;\n").stdout
        self.assertIn(b"no statement begins with `wobble`\n", told)
        self.assertIn(b"could stand here: `load`", told)
        self.assertNotIn(b"mostly because", told)
        self.assertIn(b"mostly because: a comment begins", self.run_why(script=b"# A.x;\n").stdout)

    @NEEDS_PROGRAM
    def test_mark_and_carriage_returns(self):
        done = self.run_why(script=b"\xef\xbb\xbfload A := 1;")
        self.assertIn(b"mark of UTF-8", done.stderr)
        done = self.run_why(script=b"load A := { x 1 };\r-- one\rselect A.x;\r")
        self.assertEqual(done.returncode, 0)
        self.assertIn(b"line 1, column 20", done.stdout)

    @NEEDS_PROGRAM
    def test_closed_pipe_and_interrupt(self):
        script = b"select;\n" * 20000
        with tempfile.TemporaryFile() as errors:
            why = subprocess.Popen([sys.executable, WHY], stdin=subprocess.PIPE, stdout=subprocess.PIPE, stderr=errors)
            try:
                why.stdout.close()
                why.stdin.write(script)
                why.stdin.close()
            except BrokenPipeError:
                pass
            self.assertIn(why.wait(30), (-signal.SIGPIPE, 0, 1))
            errors.seek(0)
            self.assertEqual(errors.read(), b"")
        waits = subprocess.Popen([sys.executable, WHY], stdin=subprocess.PIPE, stdout=subprocess.PIPE, stderr=subprocess.PIPE)
        time.sleep(0.5)
        waits.send_signal(signal.SIGINT)
        self.assertEqual(waits.wait(10), -signal.SIGINT)
        self.assertEqual(waits.stderr.read(), b"")
        for pipe in (waits.stdin, waits.stdout, waits.stderr):
            pipe.close()


if __name__ == "__main__":
    unittest.main()
