#!/usr/bin/env python3
"""Tests the manual: its links, its tables, and every script and command in it; and links and commands of other pages.

    LORE=PROGRAM python3 .ci/tools/test_manual.py

The scripts and commands are run with the program that the environment variable LORE names; without it, those tests are
skipped and say so.
"""
import math
import os
import pathlib
import re
import shutil
import subprocess
import sys
import tempfile
import unittest

import manual_scripts as manual

ROOT = pathlib.Path(__file__).resolve().parents[2]
sys.path.insert(0, str(ROOT / "bin"))
from lore_lib import limits, refusals  # noqa: E402

TOOLS = ROOT / "docs" / "TOOLS.md"
PAGES = [*ROOT.glob("*.md"), *ROOT.glob("docs/*.md"), *ROOT.glob("examples/**/*.md"), *ROOT.glob("editors/*.md")]
PROGRAM = os.environ.get("LORE")
SECONDS = 60
LOAD = 'load A := { r { t "x" } };'
ONE_SCREEN = "On one screen"
# Statements of the page for one screen that leave the database as it is.
LEAVES_ALL = re.compile(r"(select|explain|guide|browse|sample|dump|set plan auto|restore|history|at|changes|blocks|watch|unwatch|show)\b")

# What the constants of the sources, and those of the tools, stand for among the limits of the manual.
LIMITS = {
    "TEXT_BYTES": "bytes of a text", "WORD_BYTES": "bytes of a label", "LABELS": "different labels", "NAMES": "names",
    "OBJECTS": "objects of a database", "EDGES": "edges", "NODES": "the number of `set nodes`", "ROWS": "rows of an answer",
    "START_NODES": "nodes of the guide", "CELLS": "members of all sets of the guide together",
    "LEAVES": "leaves of all paths of a select", "RANGES": "ranges of a select [that count](#what-is-limited)",
    "ITEMS": "items of a select", "PATH_LABELS": "labels of all words in an answer", "CHUNK_BYTES": "bytes of a statement",
    "SCRIPT_BYTES": "bytes of a script", "NESTING": "levels of braces", "SAMPLE": "the number of `sample`",
    "SEED": "the seed of `generate`", "MOST_PERSONS": "the persons of `generate`", "FEWEST_PERSONS": "the persons of `generate`",
    "MOMENTS": "the number of a moment", "HISTORY_WEIGHT": "what a history [weighs](#what-a-history-holds)", "VIEWS": "views",
}
TOOL_LIMITS = {
    "OBJECTS": "objects of a database", "EDGES": "edges", "LABELS": "different labels", "NAMES": "names",
    "NODES": "the number of `set nodes`", "START_NODES": "nodes of the guide", "TEXT_BYTES": "bytes of a text",
    "CELLS": "members of all sets of the guide together", "LABEL_BYTES": "bytes of a label", "LEVELS": "levels of braces",
    "STATEMENT_BYTES": "bytes of a statement", "SCRIPT_BYTES": "bytes of a script", "ROWS": "rows of an answer",
    "LEAVES": "leaves of all paths of a select", "ITEMS": "items of a select", "SAMPLE": "the number of `sample`",
    "WORD_LABELS": "labels of all words in an answer", "OIDS": "the number of an object",
    "MOMENTS": "the number of a moment", "HISTORY_WEIGHT": "what a history [weighs](#what-a-history-holds)", "VIEWS": "views",
    "PERSONS_LEAST": "the persons of `generate`", "PERSONS_MOST": "the persons of `generate`", "SEEDS": "the seed of `generate`",
}
# Those of what the sources begin and the manual doesn't have yet.
NOT_YET = ()
ONE_MORE = ("NEXT_NUMBER", "NEXT_OID")


def run(script):
    """The replies of the program to a script."""
    done = subprocess.run([PROGRAM], input=script.encode(), stdout=subprocess.PIPE, timeout=SECONDS)
    return done.stdout.decode()


def shell_folder(folder):
    """A folder like that of the repository, in which bin/lore is the program that LORE names."""
    folder = pathlib.Path(folder)
    (folder / "bin").mkdir()
    for tool in (ROOT / "bin").iterdir():
        if tool.name != "lore":
            (folder / "bin" / tool.name).symlink_to(tool)
    (folder / "bin" / "lore").symlink_to(os.path.abspath(PROGRAM))
    (folder / "examples").symlink_to(ROOT / "examples")
    return folder


def chapter_text(text, title):
    """The text of a chapter."""
    return text.split(f"\n## {title}\n", 1)[1].split("\n## ", 1)[0]


def table_rows(text, title):
    """The rows of the first table of a chapter, as lists of cells; a `\\|` is no end of a cell."""
    lines = [line for line in chapter_text(text, title).split("\n") if line.startswith("|")]
    return [[cell.strip() for cell in re.split(r"(?<!\\)\|", line)[1:-1]] for line in lines[2:]]


def slips(most):
    """Slips of which the table of refusals says that they mostly are the cause, by the number of the refusal; each stands behind
    the load of one record. What there is at most is that of the table of limits, by what it limits."""
    many = ", ".join(["a { a 1, b 2, c 3, d 4, e 5, f 6, g 7 }"] * (most["objects of a database"] // 8 + 1))
    labels = ", ".join(f"'{number}' 1" for number in range(most["different labels"] + 1))
    length = math.isqrt(2 * most["members of all sets of the guide together"]) + 1
    chain = ", ".join(f"m &{number} {{ n &{number + 1} }}" for number in range(1, length)) + f", m &{length} 0"
    leaves = "|".join(f".l{number}" for number in range(most["leaves of all paths of a select"] + 1))
    return {
        1: ["select A.r where A.r.t = 1 && A.r.t = 2;", "/* all */ select A;", "// all\nselect A;", "select A.r-t;",
            "select\u00a0A;", "\ufeffselect A;", "\x1b[Aselect A;", "select A;".encode("utf-16").decode("latin-1")],
        2: ["load B := { price 4.50 };"],
        3: ["load B := { code 9558606227123456789 };"],
        4: ['load B := { a "' + "x" * (most["bytes of a text"] + 1) + '" };'],
        5: ['load B := { name: "x" };', "load B := { a 1, };", "load B := { a 'x' };", "load B := { a True };",
            "load B := null;", "SELECT A;", "delete A.r;", "select A select A;", "select A;;", "# all\nselect A;"],
        6: ["select A", 'load B := "x; select A;'],
        7: ["select X from A.r X where X.t = Leiden;", "load B := { a 1, }; select B;", "select a.r;"],
        8: ["select Y from X.t Y, A.r X;", "select Y from A.r X where exists Y in X.t : Y = 1;",
            "select path-of(X) from A.r@P X;"],
        9: ["select X from A.r X where exists X in A.r : X.t = 1;"],
        10: ["select " + ", ".join(f"A.{label}" for label in "abcdefghi") + ";", f"select A({leaves});"],
        11: ["load B := { a &1 1, b &1 1 };"],
        12: ["update A.s += &3;", "load B := { a &3 };"],
        13: ["generate 1 400; select X, Y from People.person X, People.person Y;"],
        14: ["load B := { a 1, a 2 }; name C := B.a;", "name C := A.r.s;"],
        15: ["update A.r.t.u += 1;"],
        16: ["update A.r := 1;"],
        18: [f"load B := {{ {labels} }};"],
        19: ["".join(f"load N{number} := 1;" for number in range(most["names"]))],
        20: [f"load B := {{ {many} }};"],
        22: ["set nodes 3; load B := { a 1, b 2 };"],
        23: ["sample A.r 0;", "set nodes 1000000000;", "generate 1 1;"],
        24: ["restore oem 1 next 1 nodes 1 plan auto end;"],
        26: [f"set nodes {limits.NODES}; load B := {{ {chain} }};"],
        27: ["history on;" + "update A.r.t := 1;" * (most["the number of a moment"] + 1)],
        28: ["at 0 select A;", "changes 0 1;"],
        29: ["history on; update A.r := 1; at 1 select A;", "history on; update A.r.t := 1; changes 1 0;"],
        30: ["".join(f"watch v{number} := select A;" for number in range(most["views"] + 1))],
        31: ["show V;", "unwatch A;", "watch V := select A; unwatch V; show V;"],
    }


class Pages(unittest.TestCase):
    """What can be read off the text."""

    @classmethod
    def setUpClass(cls):
        cls.text = manual.MANUAL.read_text("utf-8")
        cls.chapters = manual.read_chapters(cls.text)

    def test_links_lead_somewhere(self):
        count = 0
        for page in PAGES:
            text = re.sub(r"(?ms)^```.*?^```$|`[^`\n]*`", "", page.read_text("utf-8"))
            for link in re.findall(r"\]\(([^)\s]*)\)", text):
                target, _, anchor = link.partition("#")
                found = page.parent / target if target else page
                with self.subTest(page=page.name, link=link):
                    self.assertTrue("//" in target or found.exists())
                    if anchor:
                        self.assertIn(anchor, manual.anchors(found.read_text("utf-8")))
                count += 1
        self.assertGreater(count, 200)

    def test_each_heading_has_its_own_anchor(self):
        found = manual.anchors(self.text)
        self.assertEqual(sorted({one for one in found if found.count(one) > 1}), [])

    def test_the_contents_name_each_chapter(self):
        links = set(re.findall(r"\(#([^)]*)\)", chapter_text(self.text, "Contents")))
        for chapter in self.chapters:
            if chapter.title != "Contents":
                self.assertIn(manual.anchors("## " + chapter.title)[0], links)

    def test_the_index_has_what_people_look_for(self):
        index = chapter_text(self.text, "Index").lower()
        for word in ("delete", "insert", "remove", "distinct", "count", "join", "boolean", "file", "sort", "order by",
                     "limit", "import", "export", "error", "prompt", "undo", "transaction", "group by", "null", "decimal",
                     "regular expression"):
            with self.subTest(word=word):
                self.assertTrue(re.search(rf"\[`?{word}\b", index))

    def test_the_index_has_each_statement_and_refusal(self):
        index = chapter_text(self.text, "Index")
        for word in re.findall(r'(?m)^ +[|] "([a-z]+)"', chapter_text(self.text, "Grammar").split("mode")[0]):
            with self.subTest(word=word):
                self.assertTrue(re.search(rf"\[`{word}\b", index))
        for row in table_rows(self.text, "Refusals"):
            with self.subTest(name=row[1]):
                self.assertTrue(re.search(rf"\b{row[1].strip('`')}\b", index))

    def test_blocks_and_replies_stand_in_pairs(self):
        for chapter in self.chapters:
            for block in chapter.blocks:
                with self.subTest(line=block.line):
                    self.assertNotEqual(block.mark, "text", "these replies stand behind no script")
                    self.assertIn(block.mark, ("", "lore", "lore new", "sh"))
                    if block.mark.startswith("lore") and chapter.title != ONE_SCREEN:
                        self.assertTrue(block.replies)

    def test_a_new_database_is_told(self):
        for chapter in self.chapters:
            for block in chapter.blocks:
                if block.mark == "lore new" and chapter.title != ONE_SCREEN:
                    with self.subTest(line=block.line):
                        self.assertRegex(block.before.split("\n\n")[-1], r"(?i)\bnew\s+database\b")

    def test_refusals_are_numbered_and_whole(self):
        rows = table_rows(self.text, "Refusals")
        self.assertEqual([row[0] for row in rows], [str(number) for number in range(1, 32)])
        for row in rows:
            self.assertEqual(len(row), 5)
            self.assertTrue(all(row))

    def test_limits_stand_once(self):
        told = set(re.findall(r"\d+(?:,\d{3})+", chapter_text(self.text, "Limits")))
        self.assertGreater(len(told), 8)
        for chapter in self.chapters:
            if chapter.title != "Limits":
                prose = re.sub(r"(?ms)^```.*?^```$", "", chapter_text(self.text, chapter.title))
                self.assertEqual(sorted(told & set(re.findall(r"\d+(?:,\d{3})+", prose))), [], chapter.title)
        prose = re.sub(r"(?ms)^```.*?^```$", "", TOOLS.read_text("utf-8"))
        self.assertEqual(sorted(told & set(re.findall(r"\d+(?:,\d{3})+", prose))), [])

    def test_limits_are_those_of_the_sources(self):
        table = {re.split("[,:]", what)[0]: most for what, most, _ in table_rows(self.text, "Limits")}
        sources = (ROOT / "crates" / "lore_base" / "src" / "limits.rt").read_text("utf-8")
        found = re.findall(r"pub const (\w+): \w+ = ([\d_]+);", sources)
        self.assertGreater(len(found), 12)
        for name, number in found:
            if name in NOT_YET:
                continue
            most_told = int(number) - (name in ONE_MORE)
            with self.subTest(limit=name):
                rows = [most for what, most in table.items() if what == LIMITS[name]] if name in LIMITS else list(table.values())
                self.assertTrue(any(re.search(rf"\b{most_told:,}\b", most) for most in rows), f"{most_told:,}")

    def test_limits_are_those_of_the_tools(self):
        table = {re.split("[,:]", what)[0]: most for what, most, _ in table_rows(self.text, "Limits")}
        for name, what in TOOL_LIMITS.items():
            if hasattr(limits, name):
                with self.subTest(limit=name):
                    self.assertIn(f"{getattr(limits, name):,}", table[what])

    def test_refusals_are_those_of_the_tools(self):
        told = [(row[0], row[1].strip("`"), row[3]) for row in table_rows(self.text, "Refusals")]
        self.assertEqual([(str(one.number), one.name, one.because) for one in refusals.ALL], told)

    def test_the_grammar_is_one_block(self):
        blocks = next(chapter.blocks for chapter in self.chapters if chapter.title == "Grammar")
        self.assertEqual([block.mark for block in blocks], [""])
        rules = re.findall(r"(?m)^([a-z]+) +=", blocks[0].text)
        self.assertEqual(len(rules), len(set(rules)))
        words = set(re.findall(r"\b[a-z]+\b", re.sub(r'"[^"]*"', "", blocks[0].text)))
        self.assertEqual(words - set(rules), set("identifier that isn t reserved quoted pattern number text local".split()))

    def test_one_screen_has_every_form(self):
        screen = "\n".join(block.text for chapter in self.chapters if chapter.title == ONE_SCREEN for block in chapter.blocks)
        grammar = chapter_text(self.text, "Grammar").split("```")[1]
        for word in set(re.findall(r'"([^" ]+)"', grammar)) - {"bottom", "top", "edge"}:
            with self.subTest(word=word):
                self.assertTrue(re.search(rf"\b{word}\b" if word.isalpha() else re.escape(word), screen))


class Scripts(unittest.TestCase):
    """The scripts as they are taken out of the manual."""

    def printed(self, *words):
        done = subprocess.run([sys.executable, manual.__file__, *words], capture_output=True, text=True, timeout=SECONDS)
        self.assertNotIn("Traceback", done.stderr)
        return done

    def test_where_a_new_database_begins_it_is_said(self):
        for chapter in manual.read_chapters(manual.MANUAL.read_text("utf-8")):
            for session in chapter.sessions()[1:]:
                with self.subTest(chapter=chapter.title, line=session[0].line):
                    self.assertIn("new database", " ".join(session[0].before.rpartition("\n\n")[2].split()))

    def test_one_session_alone(self):
        whole = self.printed(ONE_SCREEN)
        self.assertIn("2 scripts", whole.stderr)
        one, two = self.printed(ONE_SCREEN, "1"), self.printed(ONE_SCREEN, "2")
        self.assertEqual((one.stderr, two.stderr, two.stdout.startswith("restore ")), ("", "", True))
        self.assertEqual(whole.stdout, one.stdout + "-- in a new database:\n" + two.stdout)
        if PROGRAM:
            for script in (one.stdout, two.stdout):
                self.assertNotIn("refused", run(script))
        for words, status in (([ONE_SCREEN, "3"], 1), ([ONE_SCREEN, "0"], 1), (["No such"], 1), (["a", "b", "c"], 2)):
            self.assertEqual(self.printed(*words).returncode, status)


@unittest.skipUnless(PROGRAM, "LORE names no program, so the scripts of the manual aren't run")
class Runs(unittest.TestCase):
    """What the program answers."""

    @classmethod
    def setUpClass(cls):
        cls.chapters = manual.read_chapters(manual.MANUAL.read_text("utf-8"))

    def test_scripts_are_answered_as_told(self):
        ran = 0
        for chapter in self.chapters:
            if chapter.title == ONE_SCREEN:
                continue
            for session in chapter.sessions():
                with self.subTest(chapter=chapter.title, line=session[0].line):
                    told = "".join(block.replies or "" for block in session)
                    self.assertEqual(run("".join(block.text for block in session)), told)
                    ran += 1
        self.assertGreater(ran, 15)

    def test_slips_are_refused_as_told(self):
        told = {}
        for what, most, _ in table_rows(manual.MANUAL.read_text("utf-8"), "Limits"):
            numbers = re.findall(r"\d[\d,]*", most)
            told[re.split("[,:]", what)[0]] = int(numbers[0].replace(",", ""))
        for number, given in slips(told).items():
            for slip in given:
                with self.subTest(number=number, slip=slip[:60]):
                    refused = [line.split(" ")[1] for line in run(LOAD + slip).splitlines() if line.startswith("refused")]
                    self.assertTrue(str(number) in refused, refused)

    def test_statements_for_those_who_know_others_run(self):
        text, ran = manual.MANUAL.read_text("utf-8"), 0
        recipes = next(chapter for chapter in self.chapters if chapter.title == "How do I ..")
        for title in ("For those who know SQL", "For those who know jq"):
            for row in table_rows(text, title):
                for statement in re.findall(r"`([^`]*;)`", row[1].replace("\\|", "|")):
                    if ".." not in statement:
                        with self.subTest(statement=statement):
                            replies = manual.split_replies(run(recipes.blocks[0].text + statement))
                            self.assertEqual(len(replies), 2)
                            self.assertFalse(replies[1][0].startswith("refused"), replies[1])
                            self.assertNotEqual(replies[1][-1], "rows 0")
                            ran += 1
        self.assertGreater(ran, 9)

    def one_screen(self):
        """The statements of the page for one screen, each with those before it in its session."""
        for chapter in self.chapters:
            if chapter.title == ONE_SCREEN:
                for block in chapter.blocks:
                    said = [statement + ";\n" for statement in manual.statements(block.text)]
                    for place, statement in enumerate(said):
                        yield said[:place], statement

    def test_each_statement_of_one_screen_does_something(self):
        for before, statement in self.one_screen():
            with self.subTest(statement=statement.strip()):
                replies = manual.split_replies(run("".join(before) + statement + "dump;\n"))
                self.assertEqual(len(replies), len(before) + 2)
                self.assertFalse(replies[-2][0].startswith("refused"), replies[-2])
                if statement.startswith("select"):
                    self.assertNotEqual(replies[-2][-1], "rows 0")
                dump_before = manual.split_replies(run("".join(before) + "dump;\n"))[-1]
                if LEAVES_ALL.match(statement):
                    self.assertTrue(statement.startswith("restore") or replies[-1] == dump_before)
                else:
                    self.assertNotEqual(replies[-1], dump_before)

    def test_commands_print_what_is_told(self):
        ran = 0
        for page in (manual.MANUAL, TOOLS):
            for chapter in manual.read_chapters(page.read_text("utf-8")):
                with tempfile.TemporaryDirectory() as folder:
                    shell_folder(folder)
                    for block in chapter.blocks:
                        if block.mark == "sh" and (" -T " not in block.text or shutil.which("dot")):
                            with self.subTest(page=page.name, chapter=chapter.title, line=block.line):
                                self.command(block, folder)
                            ran += 1
        self.assertGreater(ran, 10)

    def command(self, block, folder):
        """Runs the commands of a block."""
        done = subprocess.run(["bash", "-euo", "pipefail", "-c", block.text], cwd=folder, timeout=SECONDS,
                              stdout=subprocess.PIPE, stderr=subprocess.PIPE)
        self.assertEqual(done.stdout.decode(), block.replies or "")
        self.assertEqual(done.returncode, 0, done.stderr.decode())


if __name__ == "__main__":
    unittest.main()
