#!/usr/bin/env python3
"""Tests the examples on real data: what they answer is worked out here from the JSON files, by plain Python.

    LORE=PROGRAM python3 .ci/tools/test_real.py

Each select and each guide of a script has an answer here, in the order of the script; a row is compared by its values and words,
without the numbers of objects. The load of a script is what bin/json-lore writes, and a picture what bin/guide-dot writes. With
the program that the environment variable LORE names, all replies are compared too; without it, that is skipped and says so.
"""
import collections
import json
import os
import pathlib
import re
import subprocess
import sys
import unittest

import manual_scripts as manual

ROOT = pathlib.Path(__file__).resolve().parents[2]
FOLDER = ROOT / "examples" / "real"
PROGRAM = os.environ.get("LORE")
CELL = re.compile(r'&\d+ (\{\}|-?\d+|"(?:[^"\\]|\\.)*")|(\.(?:[\w%]+|\'[^\']*\')?(?:\.(?:\w+|\'[^\']*\'))*)')
MOST_BYTES = 60000


def many(value):
    """The values of a key of JSON: those of an array, or the one, or none."""
    return value if isinstance(value, list) else [] if value is None else [value]


def label_paths(value, path, counts):
    """Counts each path of labels of a value that is a tree."""
    counts[path] += 1
    for key, held in value.items() if isinstance(value, dict) else []:
        label = key if re.fullmatch(r"[A-Za-z_]\w*", key) else f"'{key}'"
        for one in many(held):
            label_paths(one, f"{path}.{label}", counts)


def tree_guide(name, value):
    """What a guide shows of a tree: each path of labels with the number of its objects."""
    counts = collections.Counter()
    label_paths(value, name, counts)
    return dict(counts)


def atoms(value, path=""):
    """The texts and numbers in a value, each with its path, in the order of the document."""
    for key, held in value.items() if isinstance(value, dict) else []:
        for one in many(held):
            if isinstance(one, dict):
                yield from atoms(one, f"{path}.{key}")
            else:
                yield f"{path}.{key}", one


def closure(edges, start):
    """All that edges lead to from a start, in one step or more."""
    found, left = set(), list(edges[start])
    while left:
        one = left.pop()
        if one not in found:
            found.add(one)
            left += edges[one]
    return found


def distance(edges, start, end):
    """How many edges the shortest way has from a start to an end, one at the least."""
    reached, steps = set(edges[start]), 1
    while end not in reached:
        reached = {further for one in reached for further in edges[one]}
        steps += 1
    return steps


def packages(records):
    """The answers of packages.lore."""
    def needs(record):
        for one in record.get("needs_first", []) + record.get("needs", []):
            yield from one["any"] if isinstance(one, dict) else [one]

    names = [record["name"] for record in records]
    sizes = [record["size"] for record in records]
    uses = {record["name"]: sorted(set(needs(record)) & set(names)) for record in records}
    behind = {name: closure(uses, name) for name in names}

    yield tree_guide("Debian", {"record": records})
    yield [(record["name"],) for record in records if "essential" in record]
    yield [(record["name"],) for record in records if "needs" not in record and "needs_first" not in record]
    yield [(record["name"], record["size"]) for record in records if record["size"] > 5000]
    yield [(record["name"], record["size"]) for record in records if record["size"] == max(sizes)]
    yield [(record["name"], f".{label}.any", one) for record in records for label in ("needs_first", "needs", "recommends")
           for choice in record.get(label, []) if isinstance(choice, dict) for one in choice["any"]]
    yield [(record["name"], one) for record in records for choice in record.get("recommends", [])
           for one in (choice["any"] if isinstance(choice, dict) else [choice]) if one not in names]
    yield [(name, used) for name in names for used in uses[name] if used in ("gnupg-l10n", "dirmngr")]
    yield [(name,) for name in names if name in uses["dirmngr"]]
    yield [(name,) for name in names if name in behind["dirmngr"]]
    yield [(name,) for name in names if "zlib1g" in behind[name]]
    yield [(name,) for name in names if "libc6" not in behind[name] | {name}]
    yield [(name, ".uses" * distance(uses, name, name)) for name in names if name in behind[name]]
    ends = [(distance(uses, "gnupg", name), names.index(name), name) for name in ("zlib1g", "tar", "dpkg")]
    yield [(".uses" * steps, name) for steps, _, name in sorted(ends)]
    yield [(name,) for name in names if name in behind["gnupg"] and "libsqlite3-0" in behind[name]]
    yield [(record["name"], 5100 if record["name"] == "dirmngr" else record["size"], one)
           for record in records if record["name"] in ("dirmngr", "readline-common")
           for one in (record["needs"] if record["name"] == "dirmngr" else ["dpkg"])]


def references(records):
    """The answers of references.lore."""
    def chosen(test, *keys):
        return [tuple(record[key] for key in keys) for record in records if test(record)]

    def language(record):
        return record.get("language", "")

    places = ("school", "booktitle", "journal", "institution")
    oldest = min(int(record["year"]) for record in records)

    yield tree_guide("Works", {"record": records})
    yield chosen(lambda record: int(record["year"]) >= 2019, "key", "year")
    yield [(record["key"], f".{place}", record[place]) for record in records if int(record["year"]) <= 2003
           for place in places if place in record]
    yield chosen(lambda record: record["kind"] == "Article" and "number" not in record and "journal" in record, "key", "journal")
    yield chosen(lambda record: "language" not in record, "key")
    yield chosen(lambda record: int(record["year"]) <= 2003 and set(record["author"]) == {"Thomas Dreibholz"}, "key")
    yield chosen(lambda record: {"Michael Tüxen", "Irene Rüngeler"} <= set(record["author"]), "key")
    yield [(record["key"], author) for record in records if "Thomas Dreibholz" not in record["author"]
           for author in record["author"]]
    yield [(record["key"], word) for record in records if {"Fairness", "Evaluation"} <= set(record.get("keyword", []))
           for word in record["keyword"]]
    found = [(f".record{path}", text) for record in records for path, text in atoms(record) if "Future Internet" in str(text)]
    first = list(dict.fromkeys(key for record in records for key in record))
    yield sorted(found, key=lambda row: first.index(row[0].split(".")[2]))
    yield [(one["key"], other["key"]) for one in records for other in records
           if one["title"] == other["title"] and one["key"] < other["key"]]
    yield chosen(lambda record: int(record["year"]) == oldest, "key", "year")
    yield chosen(lambda record: language(record).endswith("german"), "key", "language")
    yield [(record["key"], "german") for record in records if language(record).endswith("german")]
    yield chosen(lambda record: record["kind"].endswith("Thesis") and "school" in record, "kind", "school")


def bill(document):
    """The answers of bill.lore."""
    parts = document["components"]
    top = document["metadata"]["component"]
    name = {part["bom-ref"]: part["name"] for part in parts + [top]}
    uses = {name[entry["ref"]]: [name[one] for one in entry.get("dependsOn", [])] for entry in document["dependencies"]}
    behind = {part: closure(uses, part) for part in uses}
    excluded = [part["name"] for part in parts if part["scope"] == "excluded"]

    def licences(part):
        return [licence["expression"] for licence in part["licenses"]]

    def chosen(test):
        return [(part["name"],) for part in parts if test(part)]

    yield tree_guide("Bill", document)
    yield [(part["name"], licence) for part in parts for licence in licences(part)
           if licence not in ("MIT OR Apache-2.0", "Apache-2.0 OR BSD-3-Clause")]
    yield chosen(lambda part: not any(word in licence for licence in licences(part) for word in ("MIT", "Apache", "BSD")))
    yield [(part["name"], part["version"]) for part in parts if part["scope"] == "excluded"]
    yield chosen(lambda part: "hashes" not in part)
    yield chosen(lambda part: "author" not in part)
    found = [(path, text) for path, text in atoms(document) if "GPL" in str(text) or "Gaynor <" in str(text)]
    yield sorted(found, key=lambda row: row[0].count("."))
    yield chosen(lambda part: part["name"] in uses[top["name"]])
    yield chosen(lambda part: part["name"] in behind[top["name"]])
    yield chosen(lambda part: not uses[part["name"]])
    yield [(part["name"], other) for part in parts if part["scope"] == "required" for other in excluded
           if other in behind[part["name"]]]
    yield chosen(lambda part: "libc" in behind[part["name"]])
    ends = [(distance(uses, top["name"], part), part) for part in ("shlex", "unicode-ident", "vcpkg")]
    yield [(".uses" * steps, part) for steps, part in sorted(ends)]
    yield [(part["name"], licence) for part in parts if "unicode-ident" in behind[part["name"]] for licence in licences(part)]


SETS = {"packages": ("Debian", packages), "references": ("Works", references), "bill": ("Bill", bill)}


def told_row(line):
    """The values and words of a row."""
    cells = [match.groups() for match in CELL.finditer(line)]
    return tuple(word or (None if value == "{}" else json.loads(value)) for value, word in cells)


def told(title):
    """The guides and the rows of selects in the replies to a script, in their order."""
    said = manual.statements((FOLDER / f"{title}.lore").read_text("utf-8"))
    replies = manual.split_replies((FOLDER / f"{title}.out").read_text("utf-8"))
    assert len(said) == len(replies), title
    for statement, reply in zip(said, replies):
        if statement == "guide":
            yield {line.rsplit(" ", 1)[0]: int(line.rsplit(" ", 1)[1]) for line in reply[:-1]}
        elif statement.startswith("select"):
            assert reply[-1] == f"rows {len(reply) - 1}", reply[-1]
            yield [told_row(line) for line in reply[:-1]]


class RealData(unittest.TestCase):
    """Scripts, replies and pictures of the folder examples/real."""

    def test_answers_are_those_of_the_data(self):
        for title, (_, answers) in SETS.items():
            data = json.loads((FOLDER / f"{title}.json").read_text("utf-8"))
            worked_out, got = list(answers(data)), list(told(title))
            self.assertEqual(len(worked_out), len(got), title)
            for number, (expected, answer) in enumerate(zip(worked_out, got)):
                with self.subTest(script=title, answer=number):
                    self.assertEqual(answer, expected)

    def test_scripts_begin_with_the_load_of_their_data(self):
        for title, (name, _) in SETS.items():
            load = subprocess.run([sys.executable, ROOT / "bin" / "json-lore", name, FOLDER / f"{title}.json"],
                                  stdout=subprocess.PIPE, check=True).stdout.decode()
            with self.subTest(script=title):
                self.assertTrue(load in (FOLDER / f"{title}.lore").read_text("utf-8"))

    def test_pictures_are_those_of_the_guides(self):
        for title in SETS:
            with open(FOLDER / f"{title}.out", "rb") as replies:
                done = subprocess.run([sys.executable, ROOT / "bin" / "guide-dot"], stdin=replies, check=True,
                                      stdout=subprocess.PIPE)
            with self.subTest(script=title):
                self.assertEqual(done.stdout.decode(), (FOLDER / f"{title}.dot").read_text("utf-8"))

    def test_files_are_small_and_told_of(self):
        told_of = (FOLDER / "README.md").read_text("utf-8")
        for path in FOLDER.iterdir():
            with self.subTest(file=path.name):
                self.assertLess(path.stat().st_size, MOST_BYTES)
                self.assertTrue(path.stem in told_of or path.name == "README.md")
        self.assertEqual({path.stem for path in FOLDER.glob("*.lore")}, set(SETS))

    def test_the_data_are_made_as_told(self):
        made = subprocess.run([sys.executable, FOLDER / "make-data", "packages", "a"], stdout=subprocess.PIPE, check=True, input=(
            b"Package: a\nStatus: install ok installed\nVersion: 1\nSection: x\nInstalled-Size: 7\nDepends: b (>= 1), c | d\n\n"
            b"Package: d\nStatus: install ok installed\nEssential: yes\nVersion: 2\n\n"
            b"Package: e\nStatus: install ok installed\nVersion: 3\n"))
        self.assertEqual(json.loads(made.stdout), [
            {"name": "a", "version": "1", "section": "x", "size": 7, "needs": ["b", {"any": ["c", "d"]}]},
            {"name": "d", "version": "2", "section": "", "essential": "yes", "size": 0}])

    @unittest.skipUnless(PROGRAM, "LORE names no program, so the scripts aren't run")
    def test_replies_are_those_of_the_program(self):
        for title in SETS:
            with open(FOLDER / f"{title}.lore", "rb") as script:
                done = subprocess.run([PROGRAM], stdin=script, stdout=subprocess.PIPE, timeout=120)
            with self.subTest(script=title):
                self.assertEqual(done.stdout.decode(), (FOLDER / f"{title}.out").read_text("utf-8"))


if __name__ == "__main__":
    unittest.main()
