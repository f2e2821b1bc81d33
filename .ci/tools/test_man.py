#!/usr/bin/env python3
"""Tests the pages for man: there is one for each tool, it has its parts, and it tells the options and statuses of the tool.

    python3 .ci/tools/test_man.py

What a tool has is taken from its help. Where groff is installed, each page is formatted, which mustn't warn of anything.
"""
import os
import pathlib
import re
import shutil
import subprocess
import unittest

ROOT = pathlib.Path(__file__).resolve().parents[2]
FOLDER = ROOT / "docs" / "man"
PARTS = ("NAME", "SYNOPSIS", "DESCRIPTION", "EXIT STATUS", "EXAMPLES", "SEE ALSO")
OPTION = re.compile(r"(?<![\w-])--[a-z][a-z-]*")
SIGNS = {"\\-": "-", "\\(dq": '"', "\\(aq": "'", "\\(bu": "*", "\\e": "\\"}


def plain(page):
    """The text of a page without its requests for fonts and its signs."""
    text = page.read_text("utf-8")
    for sign, shown in SIGNS.items():
        text = text.replace(sign, shown)
    return re.sub(r"\\f[BIPR]", "", text)


def part(page, title):
    """The lines below a heading."""
    return re.split(r"(?m)^\.SH ", plain(page).split(f"\n.SH {title}\n", 1)[1])[0]


def statuses(page):
    """The statuses that a page tells of."""
    return re.findall(r"(?m)^\.B ?R? (\d+)$", part(page, "EXIT STATUS"))


def tools():
    """The tools of the folder bin."""
    return sorted(path for path in (ROOT / "bin").iterdir() if path.is_file() and os.access(path, os.X_OK))


def help_of(tool):
    """What a tool tells of itself when it is asked."""
    done = subprocess.run([tool, "--help"], stdin=subprocess.DEVNULL, stdout=subprocess.PIPE, stderr=subprocess.STDOUT,
                          timeout=60)
    return done.stdout.decode()


def told_statuses(tool):
    """The statuses in the last paragraph of a tool's help, as in `Status 0: done. 1: refused.`"""
    last = help_of(tool).split("\nStatus ")[-1]
    return re.findall(r"(?:\. |^)(\d+)(?:, \d)*:", " ".join(last.split()))


class Pages(unittest.TestCase):
    """Each page by itself, and beside its tool."""

    def test_each_tool_has_its_page(self):
        self.assertEqual(sorted(path.stem for path in FOLDER.glob("*.1")), [tool.name for tool in tools()])

    def test_pages_have_their_parts(self):
        for page in FOLDER.glob("*.1"):
            with self.subTest(page=page.name):
                lines = plain(page).split("\n")
                self.assertTrue(lines[0].startswith(f".TH {page.stem.upper()} 1 "))
                found = [line[4:] for line in lines if line.startswith(".SH ")]
                self.assertEqual([title for title in found if title in PARTS], list(PARTS))
                self.assertTrue(re.match(rf"{page.stem} - [a-z]", part(page, "NAME")))

    def test_pages_refer_to_each_other(self):
        for page in FOLDER.glob("*.1"):
            for name in re.findall(r"([\w-]+) \(1\)", part(page, "SEE ALSO")):
                with self.subTest(page=page.name, name=name):
                    self.assertTrue((FOLDER / f"{name}.1").exists())
                    self.assertNotEqual(name, page.stem)

    def test_options_are_those_of_the_tool(self):
        for tool in tools():
            if tool.name != "lore":
                told, page = set(OPTION.findall(help_of(tool))), FOLDER / f"{tool.name}.1"
                with self.subTest(tool=tool.name):
                    self.assertEqual(set(OPTION.findall(plain(page))) - told - {"--help"}, set(), "no options of the tool")
                    self.assertEqual(told - set(OPTION.findall(plain(page))), set(), "options that the page lacks")

    def test_commands_are_those_of_the_shell(self):
        told = re.findall(r"(?m)^    (\.[a-z]+)", help_of(ROOT / "bin" / "lore-talk"))
        self.assertGreater(len(told), 5)
        self.assertEqual(re.findall(r"(?m)^\.B[IR]? \"?\\&(\.[a-z]+)(?![a-z!])", part(FOLDER / "lore-talk.1", "COMMANDS")), told)

    def test_statuses_are_those_of_the_tool(self):
        for tool in tools():
            if tool.name != "lore":
                told = told_statuses(tool)
                with self.subTest(tool=tool.name):
                    self.assertTrue(told)
                    self.assertEqual(statuses(FOLDER / f"{tool.name}.1")[:len(told)], told)

    def test_statuses_of_lore_are_those_of_the_manual(self):
        manual = (ROOT / "docs" / "LANGUAGE.md").read_text("utf-8").split("\n## How a run ends\n", 1)[1].split("\n## ")[0]
        self.assertEqual(statuses(FOLDER / "lore.1"), re.findall(r"(?m)^\| (\d+) \|", manual) + ["125"])

    @unittest.skipUnless(shutil.which("groff"), "groff isn't installed, so the pages aren't formatted")
    def test_pages_are_formatted_without_a_warning(self):
        for page in FOLDER.glob("*.1"):
            done = subprocess.run(["groff", "-man", "-Tutf8", "-ww", "-Kutf8", page], timeout=60,
                                  stdout=subprocess.PIPE, stderr=subprocess.PIPE)
            with self.subTest(page=page.name):
                self.assertEqual(done.stderr.decode(), "")
                self.assertGreater(len(done.stdout), 1000)


if __name__ == "__main__":
    unittest.main()
