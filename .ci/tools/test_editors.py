#!/usr/bin/env python3
"""Tests the colours of editors: each token of all examples and of all scripts of the manual has the scope of its kind.

    python3 .ci/tools/test_editors.py

The kinds are found by the rules for tokens that the manual tells. Beside them stand the scopes that the grammar for VS Code
gives, whose patterns are interpreted here (match, begin and end, captures and include), and the groups that vim finds, where
vim is installed.
"""
import json
import pathlib
import re
import shutil
import subprocess
import tempfile
import unittest
from dataclasses import dataclass

import manual_scripts as manual

ROOT = pathlib.Path(__file__).resolve().parents[2]
EDITORS = ROOT / "editors"
TOKEN = re.compile(r"""
    (?P<comment>--[^\n]*) | (?P<text>"(?:[^"\\]|\\.)*") | (?P<quoted>'(?:[^'\\]|\\.)*') | (?P<pathof>path-of(?![A-Za-z0-9_%]))
  | (?P<number>-?[0-9]+(?![A-Za-z0-9_%])) | (?P<local>&[0-9]+) | (?P<word>[A-Za-z0-9_%]+)
  | (?P<sign>:=|\+=|-=|==|!=|<=|>=|[=<>?*+|@,():.\#{};])""", re.VERBOSE | re.DOTALL)
STATEMENT_WORDS = ("load name unname update select explain guide browse sample set dump restore generate history at changes blocks"
                   " watch unwatch show nodes plan auto top bottom on off").split()
RESERVED = "select from where and or not exists for all in like true false".split()
FLAGS = ("true", "false")
# The scopes of VS Code and the groups of vim of each kind of token.
SCOPES = {"comment": {"comment.line.double-dash.lore"}, "text": {"string.quoted.double.lore"}, "label": {"entity.name.tag.lore"},
          "number": {"constant.numeric.lore"}, "local": {"variable.language.lore"}, "flag": {"constant.language.lore"},
          "name": {"variable.other.lore"},
          "keyword": {"keyword.control.lore", "keyword.other.lore", "keyword.operator.word.lore", "support.function.lore"},
          "sign": {"keyword.operator.lore", "punctuation.section.braces.lore", "punctuation.separator.lore",
                   "punctuation.terminator.lore"}, "stray": {"invalid.illegal.lore"}}
GROUPS = {"comment": {"loreComment"}, "text": {"loreText"}, "number": {"loreNumber"}, "local": {"loreLocal"},
          "flag": {"loreFlag", "loreTruth"},
          "label": {"loreLabel", "loreMember", "loreQuoted", "loreHeld", "loreEdge"}, "name": {"loreWord", "loreNamed"},
          "keyword": {"loreStatement", "loreReserved", "loreLogic", "lorePathOf", "loreMode", "loreKept", "loreDump", "loreLead"},
          "stray": {"loreStray"}}
# What the examples have none of: comments everywhere, signs of one kind inside what is of another, words as labels and names.
MORE = r"""
load load := { -- a comment; in braces
  'it\'s -- no comment' "a ; \"b\" -- c", from &7 -3, select &7, 'x"y' "z'", a {}, b {} };
update A . 'not ; the "end' += 3--2;
;-- more in between
select path-of ( P ) , A . from, A.%a_%(.or|.'it\'s'*)? from A.#@P X where X.like like "a%" -- and a comment
  and not X.in<=-3 or for all Y in X.%: (Y==X);
update A.true := false; load A := { true true, false &9 false, 'true' true, x
  true, false { true 1, a&3 true }, truer 1, b &4
  false }; select A.false where true != A.true and A.x = false;
update A.x-=B.y; set -- how many
  nodes 7; set plan bottom; history -- kept
  on; at 0 select at.on from changes.history at where at.off = history; changes 0 1; history off; blocks; blocks select A.blocks where blocks = 1;
watch watch := select A.on; show -- it
  show; unwatch at;
restore oem 2 next 4 nodes 7 plan top label 'a b' label select label true name Menu &1 -- a name
object &1 {} object &2 "x -- y" object &3 true edge &1 'a b' &2 edge &1 select &2 edge &1 true &3 end;
"""


@dataclass
class Token:
    """A token: its kind, and where it begins and ends."""
    kind: str
    start: int
    end: int


def kind_of_word(word, before, first, depth):
    """The kind of a word by what stands before it, the first word of its statement, and how many braces are open."""
    if depth and word in FLAGS and before[-1] not in "{,":
        return "flag"
    if depth or before[-1:] == ["."]:
        return "label"
    if first in (None, "set", "history"):
        return "keyword" if word in STATEMENT_WORDS else "stray"
    if first == "restore":
        if before[-1:] == ["label"] or before[-2:-1] == ["edge"]:
            return "label"
        return "name" if before[-1:] == ["name"] else "flag" if word in FLAGS else "keyword"
    return "flag" if word in FLAGS else "keyword" if word in RESERVED else "name"


def tokens(script):
    """The tokens of a script with their kinds."""
    found, place, first, depth, before = [], 0, None, 0, []
    while place < len(script):
        match = TOKEN.match(script, place)
        if not match:
            if not script[place].isspace():
                raise ValueError(f"no token starts at {script[place:place + 20]!r}")
            place += 1
            continue
        kind, word = match.lastgroup, match.group()
        if kind == "word":
            kind = kind_of_word(word, before, first, depth)
            first = first or word
        elif kind in ("quoted", "pathof"):
            kind = "label" if kind == "quoted" else "keyword"
        elif word == "#":
            kind = "label"
        found.append(Token(kind, match.start(), match.end()))
        if kind != "comment":
            before.append(word)
        depth += (word == "{") - (word == "}")
        if word == ";":
            first, before = None, []
        place = match.end()
    return found


def stray_bytes(script):
    """How many bytes of a script are out of place."""
    return sum(token.end - token.start for token in tokens(script) if token.kind == "stray")


class Grammar:
    """The grammar for VS Code, as far as its patterns go: each character of a text gets a list of scopes."""

    def __init__(self, path):
        self.grammar = json.loads(path.read_text("utf-8"))

    def rules(self, patterns):
        """The patterns with their includes put in place."""
        for pattern in patterns:
            if "include" in pattern:
                named = self.grammar["repository"][pattern["include"][1:]]
                yield from self.rules(named["patterns"] if set(named) == {"patterns"} else [named])
            else:
                yield pattern

    def scopes(self, text):
        """The innermost scope of each character, None where there is none."""
        found, stack = [], []
        for line in text.splitlines(keepends=True):
            found += self.line_scopes(line, stack)
        return found

    def line_scopes(self, line, stack):
        """The same of one line; what is open behind it stays on the stack."""
        found, place = [None] * len(line), 0
        while place < len(line):
            match, rule, ends = self.first_match(line, place, stack)
            inside = next((it["name"] for it in reversed(stack) if "name" in it), None)
            until = match.start() if match else len(line)
            found[place:until] = [inside] * (until - place)
            if not match:
                break
            found[match.start():match.end()] = self.matched_scopes(match, rule, ends, inside)
            if ends:
                stack.pop()
            elif "begin" in rule:
                stack.append(rule)
            place = match.end()
            if match.end() == match.start():
                raise ValueError(f"an empty match of {rule}")
        return found

    def first_match(self, line, place, stack):
        """The earliest match: that of the end that is open before those of patterns, and these in their order."""
        best = (None, None, False)
        if stack:
            best = (re.compile(stack[-1]["end"]).search(line, place), stack[-1], True)
        for rule in self.rules(stack[-1].get("patterns", []) if stack else self.grammar["patterns"]):
            match = re.compile(rule.get("match") or rule["begin"]).search(line, place)
            if match and (best[0] is None or match.start() < best[0].start()):
                best = (match, rule, False)
        return best

    @staticmethod
    def matched_scopes(match, rule, ends, inside):
        """The scopes of what a rule matched, with its captures."""
        names = [rule.get("name", inside)] * len(match.group())
        captures = rule.get("endCaptures" if ends else "beginCaptures" if "begin" in rule else "captures", {})
        for number, capture in captures.items():
            start, end = match.span(int(number))
            names[start - match.start():end - match.start()] = [capture["name"]] * (end - start)
        return names


def scripts():
    """All examples, and all scripts of the manual, with what each is called."""
    for path in sorted(ROOT.glob("examples/**/*.lore")):
        yield str(path.relative_to(ROOT)), path.read_text("utf-8")
    yield "more", MORE
    for chapter in manual.read_chapters(manual.MANUAL.read_text("utf-8")):
        script = "".join(block.text for session in chapter.sessions() for block in session)
        if script:
            yield f"the chapter {chapter.title}", script


def vim_groups(texts, folder):
    """The groups that vim finds in texts: for each text its lines, for each line the group of each byte."""
    folder = pathlib.Path(folder)
    for number, text in enumerate(texts):
        (folder / f"{number}.lore").write_text(text, "utf-8")
    commands = folder / "commands.vim"
    commands.write_text(f"""set encoding=utf-8 nomodeline
syntax on
for number in range({len(texts)})
  execute "edit {folder}/" . number . ".lore"
  source {EDITORS / "lore.vim"}
  let found = []
  for line in range(1, line("$"))
    call add(found, join(map(range(1, len(getline(line))), 'synIDattr(synID(line, v:val, 1), "name")'), " "))
  endfor
  call writefile(found, "{folder}/" . number . ".groups")
endfor
qall!
""", "utf-8")
    subprocess.run(["vim", "-N", "-u", "NONE", "-i", "NONE", "-n", "-es", "-S", str(commands)], timeout=120, check=False,
                   stdin=subprocess.DEVNULL, stdout=subprocess.DEVNULL, stderr=subprocess.DEVNULL)
    for number in range(len(texts)):
        lines = (folder / f"{number}.groups").read_text("utf-8").split("\n")
        yield [line.split(" ") for line in lines]


class Colours(unittest.TestCase):
    """Each token against what the editors say of it."""

    def test_the_grammar_for_vs_code(self):
        grammar, seen = Grammar(EDITORS / "lore.tmLanguage.json"), set()
        for title, script in scripts():
            scopes = grammar.scopes(script)
            self.assertEqual(len(scopes), len(script))
            for token in tokens(script):
                word = script[token.start:token.end]
                with self.subTest(script=title, word=word, place=token.start):
                    got = set(scopes[token.start:token.end]) - {"constant.character.escape.lore"}
                    self.assertTrue(got and got <= SCOPES[token.kind], (token.kind, got))
                seen.add(token.kind)
            self.assertEqual(scopes.count("invalid.illegal.lore"), stray_bytes(script), title)
        self.assertEqual(seen, set(SCOPES))

    def test_what_is_out_of_place_is_invalid(self):
        grammar = Grammar(EDITORS / "lore.tmLanguage.json")
        for script in ("SELECT A;", "load A := { b: 1 };", "load A := 'text';", "select A && B;", "set size 3;", "guide; help",
                       "restore oem 1 what;"):
            with self.subTest(script=script):
                self.assertIn("invalid.illegal.lore", grammar.scopes(script))

    def test_the_package_for_vs_code(self):
        package = json.loads((EDITORS / "package.json").read_text("utf-8"))
        for entry in package["contributes"]["grammars"]:
            self.assertEqual(json.loads((EDITORS / entry["path"]).read_text("utf-8"))["scopeName"], entry["scopeName"])
        for entry in package["contributes"]["languages"]:
            json.loads((EDITORS / entry["configuration"]).read_text("utf-8"))

    def test_the_words_of_the_grammar_are_known_to_both(self):
        text = manual.MANUAL.read_text("utf-8").split("\n## Grammar\n", 1)[1].split("```")[1]
        words = set(re.findall(r'"([a-z-]+)"', text)) | set(RESERVED)
        for name in ("lore.tmLanguage.json", "lore.vim"):
            held = (EDITORS / name).read_text("utf-8")
            for word in words:
                with self.subTest(editor=name, word=word):
                    self.assertTrue(re.search(rf"(?<![A-Za-z-]){word}(?![A-Za-z-])", held))

    @unittest.skipUnless(shutil.which("vim"), "vim isn't installed, so its colours aren't looked at")
    def test_vim(self):
        titles, texts = zip(*scripts())
        with tempfile.TemporaryDirectory() as folder:
            found = list(vim_groups(texts, folder))
        for title, script, lines in zip(titles, texts, found):
            groups = []
            for line, held in zip(script.split("\n"), lines):
                groups += [held[len(line[:place].encode())] for place in range(len(line))] + [None]
            for token in tokens(script):
                if token.kind in GROUPS:
                    with self.subTest(script=title, word=script[token.start:token.end], place=token.start):
                        got = set(groups[token.start:token.end]) - {"loreEscape", None}
                        self.assertTrue(got and got <= GROUPS[token.kind], (token.kind, got))
            self.assertEqual(groups.count("loreStray"), stray_bytes(script), title)


if __name__ == "__main__":
    unittest.main()
