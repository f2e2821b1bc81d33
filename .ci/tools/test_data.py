#!/usr/bin/env python3
"""Tests of the tools that bring data into lore and out of it: json-lore, csv-lore, lore-json, lore-sql and what they share.

    python3 .ci/tools/test_data.py              all but the round trips
    LORE=PROGRAM python3 .ci/tools/test_data.py these too, through the program

Expectations are worked out by hand or here, and none is what a tool once wrote. Status 0: all passed.
"""
import csv
import io
import json
import os
import random
import re
import shutil
import signal
import sqlite3
import subprocess
import sys
import tempfile
import unittest
from pathlib import Path

HERE = Path(__file__).resolve().parent
BIN = HERE.parent.parent / "bin"
DATA = HERE / "data"
LORE = os.environ.get("LORE")
sys.dont_write_bytecode = True
sys.path.insert(0, str(BIN))

from lore_lib import limits                                                             # noqa: E402
from lore_lib.dump import Dump, read_dump                                               # noqa: E402
from lore_lib.literals import literal, load_text                                        # noqa: E402
from lore_lib.replies import Cell, Word, read_rows                                      # noqa: E402
from lore_lib.texts import label_text, quoted, TEXT                                     # noqa: E402
from lore_lib.tool import Fault                                                         # noqa: E402

TOOLS = {"json-lore": ["A"], "csv-lore": ["A"], "lore-json": [], "lore-sql": ["--for", "sqlite3"]}
HEAD = "oem 2\nnext {}\nnodes 4096\nplan auto\n"


def ran(tool, *words, data=b""):
    """A tool's run on bytes or a text."""
    data = data.encode() if isinstance(data, str) else data
    return subprocess.run([BIN / tool, *words], input=data, capture_output=True, timeout=120)


def output(tool, *words, data=b""):
    """What a tool writes, where it ends with status 0."""
    run = ran(tool, *words, data=data)
    if run.returncode:
        raise AssertionError(f"{tool} ended with {run.returncode}: {run.stderr.decode()}")
    return run.stdout.decode()


def replies(script):
    """The replies of the program to a script, all of whose statements are accepted."""
    run = subprocess.run([LORE], input=script.encode(), capture_output=True, timeout=120)
    if run.returncode:
        raise AssertionError(f"the program ended with {run.returncode}: {run.stdout.decode()[:300]}")
    return run.stdout


def needs_lore(test):
    return unittest.skipUnless(LORE, "LORE names no program")(test)


def shown_value(value):
    """A value as a dump shows it."""
    if value is None or isinstance(value, bool):
        return {None: "{}", True: "true", False: "false"}[value]
    return str(value) if isinstance(value, int) else quoted(value, *TEXT)


def dump_text(dump):
    """A dump as its text."""
    lines = [f"oem {dump.version}", f"next {dump.next}", f"nodes {dump.nodes}", f"plan {dump.plan}"]
    lines += [f"label {label_text(label)}" for label in dump.labels] + [f"name {name} &{to}" for name, to in dump.names]
    for number, value in dump.objects.items():
        lines.append(f"object &{number} {shown_value(value)}")
    lines += [f"edge &{parent} {label_text(label)} &{child}" for parent, label, child in dump.edges]
    return "\n".join(lines + ["end", ""])


def random_dump(seed, size=60, labels=("a", "b", "name", "it's")):
    """A dump whose objects all are reached from G. A label stands at most once in an object, so that paths tell all."""
    draw = random.Random(seed)
    objects = {number: None if number == 1 or draw.random() < 0.7 else draw.choice([number, number % 2 == 0, "t\n\"%d" % number])
               for number in range(1, size + 1)}
    parents = [number for number, value in objects.items() if value is None]
    taken = {}
    for child in range(2, size + 1):
        free = [(parent, label) for parent in parents if parent < child for label in labels if (parent, label) not in taken]
        taken[draw.choice(free)] = child
    for parent in parents:
        for label in labels:
            if draw.random() < 0.3:
                taken.setdefault((parent, label), draw.randint(1, size))
    edges = sorted(((parent, label, child) for (parent, label), child in taken.items()),
                   key=lambda edge: (edge[0], labels.index(edge[1]), edge[2]))
    return Dump(2, size + 1, 4096, "auto", list(labels), [("G", 1)], objects, edges)


def same_graph(one, other):
    """Whether two dumps, in which a label stands at most once in an object, have one graph behind the name G."""
    members = [{}, {}]
    for held, dump in zip(members, (one, other)):
        for parent, label, child in dump.edges:
            held.setdefault(parent, {})[label] = child
    pairs = {dict(one.names)["G"]: dict(other.names)["G"]}
    left = list(pairs.items())
    for here, there in left:
        mine, theirs = members[0].get(here, {}), members[1].get(there, {})
        if shown_value(one.objects[here]) != shown_value(other.objects[there]) or mine.keys() != theirs.keys():
            return False
        for label, child in mine.items():
            if child not in pairs:
                left.append((child, theirs[label]))
            if pairs.setdefault(child, theirs[label]) != theirs[label]:
                return False
    return len(set(pairs.values())) == len(pairs) == len(other.objects)


class Loader:
    """What one `load` makes in a new database, as LANGUAGE.md has it: a dump."""
    TOKEN = re.compile(r"""[ \n]*(?:(&[0-9]+)|(-?[0-9]+)|("(?:[^"\\]|\\.)*")|('(?:[^'\\]|\\.)*')|(:=|[{},;])|(\w+))""", re.DOTALL)
    ESCAPES = {"n": "\n", "r": "\r", "t": "\t"}

    def __init__(self, text):
        self.tokens = [found.groups() for found in self.TOKEN.finditer(text)]
        self.dump = Dump()
        self.locals, self.edges = {}, []

    def taken(self):
        return next(shown for shown in self.tokens.pop(0) if shown)

    def plain(self, shown):
        return re.sub(r"\\(.)", lambda it: self.ESCAPES.get(it.group(1), it.group(1)), shown[1:-1])

    def label(self):
        shown = self.taken()
        label = self.plain(shown) if shown[0] == "'" else shown
        if label not in self.dump.labels:
            self.dump.labels.append(label)
        return label

    def literal(self, deep=1):
        """A literal: its object's number, or the text of a local that stands alone."""
        local = self.taken() if self.tokens[0][0] else None
        if local and self.tokens[0][4] in (",", "}", ";"):
            return local
        number = len(self.dump.objects) + 1
        self.locals[local] = number
        shown = self.taken()
        if shown != "{":
            self.dump.objects[number] = (self.plain(shown) if shown[0] == '"' else shown == "true" if shown in ("true", "false")
                                         else int(shown))
            return number
        assert deep <= limits.LEVELS
        self.dump.objects[number] = None
        while shown != "}":
            if self.tokens[0][4] != "}":
                self.edges.append((number, self.label(), self.literal(deep + 1)))
            shown = self.taken()
        return number

    def load(self):
        _, name, _ = self.taken(), self.taken(), self.taken()
        self.dump.names.append((name, self.literal()))
        edges = {(parent, label, self.locals.get(child, child)) for parent, label, child in self.edges}
        self.dump.edges = sorted(edges, key=lambda edge: (edge[0], self.dump.labels.index(edge[1]), edge[2]))
        self.dump.next = len(self.dump.objects) + 1
        return dump_text(self.dump)


def loaded(script):
    """The dump after a load: by the program where there is one, which has to agree with what is worked out here."""
    worked_out = Loader(script).load()
    if LORE:
        said = replies(script + "dump;").decode()
        assert said[said.index("oem 2\n"):] == worked_out, script
    return worked_out


def exactly(text):
    """JSON as what tells all of it: pairs in order, numbers by their spelling."""
    def number(spelling):
        return "number", spelling
    return json.loads(text, object_pairs_hook=tuple, parse_int=number, parse_float=number)


class Dumps(unittest.TestCase):
    def test_all_of_a_dump(self):
        text = HEAD.format(9) + ("label a\nlabel 'it\\'s'\nname G &1\nobject &1 {}\nobject &3 -5\nobject &5 true\n"
                                 "object &6 false\n"
                                 "object &8 \"a\\n\\\"b\\\\\"\nedge &1 a &5\nedge &1 a &6\nedge &1 a &8\n"
                                 "edge &1 'it\\'s' &3\nend\n")
        read = read_dump(("ok objects 1\n&1 \"oem 1\"\noem 1\n" + text + "rows 0\n").encode())
        self.assertEqual(read, Dump(2, 9, 4096, "auto", ["a", "it's"], [("G", 1)],
                                    {1: None, 3: -5, 5: True, 6: False, 8: 'a\n"b\\'},
                                    [(1, "a", 5), (1, "a", 6), (1, "a", 8), (1, "it's", 3)]))
        self.assertEqual([read.objects[number] is held for number, held in ((5, True), (6, False))], [True, True])

    def test_dumps_of_version_1(self):
        """They are read where they have no flag."""
        for text, value in (('"true"', "true"), ("5", 5), ("{}", None), ("true", Fault), ("false", Fault)):
            dump = HEAD.format(2).replace("oem 2", "oem 1") + f"name A &1\nobject &1 {text}\nend\n"
            if value is Fault:
                with self.assertRaisesRegex(Fault, "^line 6: a dump of version 1 has no flags"):
                    read_dump(dump.encode())
                value = text == "true"
                dump = dump.replace("oem 1", "oem 2")
            self.assertEqual(shown_value(read_dump(dump.encode()).objects[1]), shown_value(value))

    def test_the_last_dump(self):
        one, two = (HEAD.format(2) + f"name {name} &1\nobject &1 5\nend\n" for name in "AB")
        self.assertEqual(read_dump((one + two).encode()).names, [("B", 1)])

    def test_random_dumps(self):
        for seed in range(20):
            dump = random_dump(seed)
            self.assertEqual(read_dump(dump_text(dump).encode()), dump)

    def test_faults_tell_their_line(self):
        good = HEAD.format(3) + "label a\nname G &1\nobject &1 {}\nobject &2 5\nedge &1 a &2\nend\n"
        read_dump(good.encode())
        slips = [("oem 2", "oem 3", 1), ("oem 2", "oem 0", 1), ("next 3", "next 2", 8), ("next 3", "next 0", 2),
                 ("nodes 4096", "nodes 16385", 3),
                 ("nodes 4096", "nodes 0", 3), ("object &2 5", "object &2 True", 8), ("object &2 5", "object &2 truer", 8),
                 ("auto", "best", 4), ("label a\n", "label a\nlabel a\n", 6), ("label a\n", "label a b\n", 5),
                 ("name G", "name not", 6), ("G &1", "G &1" + "0" * 5000, 10), ("&1\nobject", "&3\nobject", 10),
                 ("object &2 5", "object &1 5", 8), ("object &2 5", "object &2 05", 8),
                 ("object &2 5", "object &2 9223372036854775808", 8),
                 ("object &2 5", 'object &2 "a\\q"', 8), ("edge &1 a &2\n", "", 9), ("edge &1 a", "edge &1 b", 9),
                 ("edge &1", "edge &2", 9), ("&2\nend", "&4\nend", 9), ("edge &1 a &2\n", "edge &1 a &2\n" * 2, 10),
                 ("end\n", "", 9), ("end\n", "stop\n", 10)]
        for old, new, line in slips:
            with self.assertRaisesRegex(Fault, f"^line {line + 1}: ", msg=new):
                read_dump(("ok\n" + good.replace(old, new, 1)).encode())
        with self.assertRaisesRegex(Fault, "^line 8: "):
            read_dump(good.replace("2 5", '2 "\udcff"').encode("utf-8", "surrogateescape"))
        with self.assertRaisesRegex(Fault, "no dump"):
            read_dump(b"oem 1\nrows 0\n")


class Literals(unittest.TestCase):
    def test_shape(self):
        dump = read_dump(loaded("load G := &1 { a &1, b { c &7 \"x\", d 5 }, e &7 };").encode())
        self.assertEqual(load_text(dump, "G"), 'load G := &1 { a &1, b { c &3, d 5 }, e &3 "x" };\n')

    def test_random_graphs_come_back(self):
        for seed in range(30):
            dump = random_dump(seed)
            self.assertTrue(same_graph(dump, read_dump(loaded(load_text(dump, "G")).encode())), seed)

    def test_parts_lie_where_braces_are_few(self):
        def chain(length, *more):
            objects = {number: None for number in range(1, length + 1)}
            edges = sorted([(number, "a", number + 1) for number in range(1, length)] + list(more))
            return Dump(2, length + 1, 4096, "auto", ["a", "b"], [("G", 1)], objects, edges)
        self.assertEqual(literal(chain(64), 1).count("{"), 64)
        with self.assertRaisesRegex(Fault, "more than 64 levels"):
            literal(chain(65), 1)
        long = chain(120, (1, "b", 60))
        self.assertTrue(same_graph(long, read_dump(loaded(load_text(long, "G")).encode())))


class JsonIn(unittest.TestCase):
    def test_long_texts(self):
        text = "a" + "ä" * 2100
        data = json.dumps({"d": text, "e": [text, "k"]})
        size = len(text.encode())
        read = {}
        for way, told in (("cut", "cut to 4096"), ("skip", "skipped"), ("parts", "laid into parts")):
            run = ran("json-lore", "--long", way, "A", data=data)
            self.assertEqual([line.split(", ", 1)[1] for line in run.stderr.decode().splitlines()],
                             [f"document 1, $.{place}: a text of {size} bytes, {told}" for place in ("d", "e[0]")])
            read[way] = json.loads(output("lore-json", "--name", "A", data=loaded(run.stdout.decode())))
        half = text[:2048]
        self.assertEqual(len(half.encode()), 4095)
        self.assertEqual(read["cut"], {"d": half, "e": [half, "k"]})
        self.assertEqual(read["skip"], {"e": "k"})
        self.assertEqual(read["parts"]["e"], [{"part": [half, text[2048:]]}, "k"])
        self.assertEqual(ran("json-lore", "A", data=data).returncode, 1)

    def test_what_became_text_is_told(self):
        run = ran("json-lore", "A", data='[1, -0, "true", 1.5, 99999999999999999999, true, false, null]')
        self.assertEqual(run.stderr, b"json-lore: became texts: 2 decimal or large numbers, 1 null\n")
        self.assertEqual(run.stdout.split(b"record ")[3:], [
            b'"true",\n  ', b'"1.5",\n  ', b'"99999999999999999999",\n  ', b"true,\n  ", b"false,\n  ", b'"null"\n};\n'])
        self.assertEqual(ran("json-lore", "A", data='{"a": [1, "null"]}').stderr, b"")

    def test_more_paths_than_a_new_database_takes(self):
        def wide(outer, inner):
            return json.dumps({f"a{i}": {f"b{j}": 1 for j in range(inner)} for i in range(outer)})
        for outer, inner, told in ((1, 4094, b""), (64, 63, b"4097 paths of labels"), (70, 70, b"4971 paths of labels"),
                                   (127, 128, b"16384 paths of labels")):
            run = ran("json-lore", "A", data=wide(outer, inner))
            self.assertEqual((run.returncode, told in run.stderr, bool(run.stderr)), (0, True, bool(told)), outer)
            if told:
                self.assertIn(b"`set nodes %d;`" % (1 + outer + outer * inner), run.stderr)
        for outer, inner, told in ((128, 128, b"16384 paths"), (1, 4096, b"4096 different labels")):
            run = ran("json-lore", "A", data=wide(outer, inner))
            self.assertEqual((run.returncode, run.stdout, told in run.stderr), (1, b"", True), outer)

    def test_flags_are_no_ids(self):
        run = ran("json-lore", "A", "--id", "id", "--ref", "to", data='[{"id": true}, {"id": 1}, {"to": true}, {"to": [1, "true"]}]')
        self.assertEqual(run.stdout, b'load A := { record { id true }, record &1 { id 1 }, record { to true }, '
                                     b'record { to &1, to "true" } };\n')

    def test_empty_key(self):
        self.assertEqual(output("json-lore", "A", "--empty-key", "no key", data='{"": 1}'), "load A := { 'no key' 1 };\n")
        self.assertEqual(ran("json-lore", "A", "--empty-key", "b", data='{"": 1, "b": 2}').returncode, 1)

    def test_files_and_updates(self):
        with tempfile.TemporaryDirectory() as folder:
            for name, data in (("one", '{"a": 1}'), ("two", '[{"a": 2}, {}]')):
                (Path(folder) / name).write_text(data)
            run = subprocess.run([BIN / "json-lore", "--file", "from", "--into", "B.'x y'", "one", "two"], cwd=folder,
                                 capture_output=True, text=True)
        self.assertEqual(run.stdout, "".join(f"update B.'x y'.record += {{ {held} }};\n" for held in
                                             ('from "one", a 1', 'from "two", a 2', 'from "two"')))
        self.assertEqual(ran("json-lore", "A", "--file", "f", data="[5]").returncode, 1)
        for path in ("", "1a", "select.x", "A; dump", "A.", "A.'", 'A."x"'):
            self.assertEqual(ran("json-lore", "--into", path, data="[5]").returncode, 1, path)

    DEPENDENCIES = '''{"part": [
        {"id": "a", "needs": ["b", "c", "gone"]}, {"id": "b", "needs": "a"},
        {"id": "c", "needs": [5, {"id": 5}]}, {"id": "twin", "needs": []}, {"id": "twin", "needs": "twin"}, {"needs": "5"}]}'''

    def test_references(self):
        run = ran("json-lore", "A", "--id", "id", "--ref", "needs", "--ref", "other", data=self.DEPENDENCIES)
        dump = read_dump(loaded(run.stdout.decode()).encode())
        ids = {parent: dump.objects[child] for parent, label, child in dump.edges if label == "id"}
        self.assertEqual({(ids[parent], ids[child]) for parent, label, child in dump.edges if label == "needs" and child in ids
                          and parent in ids}, {("a", "b"), ("a", "c"), ("b", "a"), ("c", 5)})
        self.assertEqual(sorted(dump.objects[child] for _, label, child in dump.edges if label == "needs" and child not in ids),
                         ["5", "gone", "twin"])
        self.assertEqual(run.stderr.decode().splitlines(), [
            "json-lore: ids that stand at several records, and refer to none: 1",
            "json-lore: references that lead to no record, and stay values: 3"])

    def test_a_record_with_two_ids(self):
        text = output("json-lore", "A", "--id", "id", "--ref", "to", data='[{"id": 1, "id": 2}, {"to": [1, 2]}, {"to": 2}]')
        dump = read_dump(loaded(text).encode())
        self.assertEqual([child for _, label, child in dump.edges if label == "to"], [2, 2])

    @needs_lore
    def test_references_among_records_that_are_added(self):
        data = '[{"id": 7, "to": 8}, {"id": 8, "to": [7, 9]}]'
        script = "load B := { x { record 5 } };\n" + output("json-lore", "--into", "B.x", "--id", "id", "--ref", "to", data=data)
        script += "select R.id, T.id from B.x.record R, R.to T; select R.to from B.x.record R where R.to = 9; dump;"
        said = replies(script)
        rows, nine = read_rows(said)
        self.assertEqual([[cell.value for cell in row] for row in rows], [[7, 8], [8, 7]])
        self.assertEqual([cell.value for cell in nine[-1]], [9])
        self.assertEqual([name for name, _ in read_dump(said).names], ["B"])

    def test_bounds(self):
        run = ran("json-lore", "A", "--input-bytes", "10", data="[1, 2, 3, 4]")
        self.assertEqual((run.returncode, run.stdout), (1, b""))
        self.assertIn(b"more than 10 bytes", run.stderr)
        with open("/dev/zero", "rb") as zeros:
            run = subprocess.run([BIN / "json-lore", "A"], stdin=zeros, capture_output=True, timeout=60)
        self.assertEqual((run.returncode, run.stdout), (1, b""))
        self.assertIn(str(limits.INPUT_BYTES).encode(), run.stderr)


class Back(unittest.TestCase):
    """JSON, loaded, dumped and written again."""

    def back(self, text, *words):
        dump = loaded(output("json-lore", "A", *words, data=text))
        empty = [word for word in words if word not in ("--arrays", "--positions", "--long", "parts")]
        return output("lore-json", "--name", "A", "--arrays", *empty, data=dump)

    def lines_back(self, lines, *words):
        """What stands in several documents comes back line by line."""
        dump = loaded(output("json-lore", "A", *words, "--empty-key", "no key", data="\n".join(lines)))
        back = output("lore-json", "--lines", "--arrays", "--empty-key", "no key", data=dump).split("\n")[:-1]
        self.assertEqual(len(back), len(lines))
        for line, was in zip(back, lines):
            self.assertEqual(exactly(line), exactly(was))

    def test_files_come_back_as_they_were(self):
        files = sorted(DATA.glob("*.json"))
        self.assertGreater(len(files), 20)
        for words in (["--arrays"], ["--positions"]):
            self.lines_back([file.read_text() for file in files], *words)

    def test_documents_of_each_kind(self):
        documents = ["5", '"a"', "true", "null", "2.50", "[]", "[[]]", '[{"a": [1]}]', "{}", '{"_value": {"__at": [null]}}']
        for words in (["--arrays"], ["--positions"]):
            self.lines_back(documents, *words)
            for text in documents[-3:]:
                self.assertEqual(exactly(self.back(text, *words)), exactly(text), text)

    def test_long_texts_in_parts(self):
        text = json.dumps({"t": ["ä" * 5000, "x" * 4097], "n": int("9" * 4000)}).replace("999", "9999")
        self.assertGreater(len(text), limits.TEXT_BYTES * 2)
        self.assertEqual(exactly(self.back(text, "--arrays", "--long", "parts")), exactly(text))

    def test_without_arrays(self):
        text = '{"a": [1, 2], "b": {"c": "x", "d": [["y"]]}, "one": [3], "none": []}'
        dump = loaded(output("json-lore", "A", data=text))
        self.assertEqual(json.loads(output("lore-json", data=dump)),
                         {"A": {"a": [1, 2], "b": {"c": "x", "d": {"item": "y"}}, "one": 3}})

    def test_lines(self):
        text = '{"a": 1}\n{"b": ["x", true]}\n[4]\n'
        dump = loaded(output("json-lore", "A", "--arrays", data=text))
        self.assertEqual([json.loads(line) for line in output("lore-json", "--arrays", "--lines", data=dump).splitlines()],
                         [json.loads(line) for line in text.splitlines()])
        array = loaded(output("json-lore", "A", "--positions", data="[[4], 5, {}]"))
        self.assertEqual(output("lore-json", "--arrays", "--lines", data=array), "[4]\n5\n{}\n")

    def test_elements_stand_by_their_positions(self):
        dump = loaded("load A := { _array 9, item { _at 1, _value 5 }, item { _at 0, k 4 } };")
        self.assertEqual(json.loads(output("lore-json", "--arrays", "--name", "A", data=dump)), [{"k": 4}, 5])

    def test_references_come_back_as_what_they_lead_to(self):
        """Positions alone keep their order: elements without stand in the order of their objects' numbers."""
        text = '[{"id": 1, "to": [2, 9]}, {"id": 2, "to": []}]'
        second = {"id": 2, "to": []}
        for word, to in (("--arrays", [9, second]), ("--positions", [second, 9])):
            dump = loaded(output("json-lore", "A", word, "--id", "id", "--ref", "to", data=text))
            self.assertEqual(json.loads(output("lore-json", "--arrays", "--name", "A", data=dump)), [{"id": 1, "to": to}, second])

    def test_marks_that_json_lore_never_makes(self):
        for held in ("_number true", "_null true, b 1", '_number "1.5x"', '_number "01"', '_number "1", a 2', "_array 1, b 2",
                     '_parts 1, part 2', "_at 0, _value 1, _value 2", "x &1 { _at 0, _value &1 }", '_null 1, b 1',
                     "_at 0, _array 0", "_at 0, _value 1, b 1", "_value 1"):
            run = ran("lore-json", "--arrays", data=Loader(f"load A := {{ {held} }};").load())
            self.assertEqual((run.returncode, run.stdout), (1, b""), held)
            self.assertNotIn(b"Traceback", run.stderr)

    def test_shared_parts_and_rings(self):
        dump = loaded('load G := { x &7 { v 1 }, y &7, z &7 };')
        self.assertEqual(json.loads(output("lore-json", "--name", "G", data=dump)), {"x": {"v": 1}, "y": {"v": 1}, "z": {"v": 1}})
        first, later = {"$id": 2, "v": 1}, {"$ref": 2}
        self.assertEqual(json.loads(output("lore-json", "--name", "G", "--shared", "ref", data=dump)),
                         {"x": first, "y": later, "z": later})
        ring = loaded("load G := &1 { next &2 { next &1, v 5 } };")
        self.assertIn(b"a ring", ran("lore-json", data=ring).stderr)
        self.assertIn(b"a ring", ran("lore-json", data=loaded("load G := { x &1 { v 5, y { z { x &1 } } } };")).stderr)
        self.assertEqual(json.loads(output("lore-json", "--shared", "ref", data=ring)),
                         {"G": {"$id": 1, "next": {"next": {"$ref": 1}, "v": 5}}})

    def test_depth_and_doubling(self):
        deep = Dump(2, 20001, 4096, "auto", ["a"], [("G", 1)], {number: None for number in range(1, 20001)},
                    [(number, "a", number + 1) for number in range(1, 20000)])
        self.assertEqual(output("lore-json", "--name", "G", data=dump_text(deep)), '{"a": ' * 19999 + "{}" + "}" * 19999 + "\n")
        edges = [(number, label, number + 1) for number in range(1, 60) for label in "ab"]
        wide = dump_text(Dump(2, 61, 4096, "auto", ["a", "b"], [("G", 1)], dict.fromkeys(range(1, 61)), edges))
        run = ran("lore-json", data=wide)
        self.assertEqual((run.returncode, run.stdout), (1, b""))
        self.assertIn(b"--shared ref", run.stderr)
        self.assertEqual(output("lore-json", "--shared", "ref", data=wide).count('"$ref"'), 59)


class Tables(unittest.TestCase):
    TABLE = 'id,name,boss,zip\n1,Kim,,007\n2,"a, ""b""\nc",1,94022\n\n3,-0,9,4.5\n'

    def test_fields(self):
        run = ran("csv-lore", "A", data=self.TABLE)
        self.assertEqual(json.loads(output("lore-json", "--name", "A", data=loaded(run.stdout.decode())))["record"], [
            {"id": 1, "name": "Kim", "zip": "007"}, {"id": 2, "name": 'a, "b"\nc', "boss": 1, "zip": 94022},
            {"id": 3, "name": "-0", "boss": 9, "zip": "4.5"}])
        self.assertEqual(run.stderr, b"csv-lore: became texts: 2 decimal or large numbers\n")

    def test_options(self):
        self.assertEqual(output("csv-lore", "A", "--text", "n", "--empty", "--delimiter", "tab", data="n\tm\n1\t\n"),
                         'load A := { record { n "1", m "" } };\n')
        self.assertEqual(output("csv-lore", "A", "--no-header", "--delimiter", ";", data="\ufeffx;2\n"),
                         'load A := { record { column1 "x", column2 2 } };\n')
        self.assertEqual(output("csv-lore", "--into", "B.t", "--id", "id", "--ref", "boss", data=self.TABLE),
                         "load json_lore_batch := {\n  record &1 { id 1, name \"Kim\", zip \"007\" },\n"
                         "  record { id 2, name \"a, \\\"b\\\"\\nc\", boss &1, zip 94022 },\n"
                         "  record { id 3, name \"-0\", boss 9, zip \"4.5\" }\n};\n"
                         "update B.t.record += json_lore_batch.record;\nunname json_lore_batch;\n")

    def test_faults(self):
        for table in ("a,b\n1\n", "a\n1,2\n", 'a\n"1"x\n', 'a\n"1', "", "a\n", ",b\n1,2\n"):
            run = ran("csv-lore", "A", data=table)
            self.assertEqual((run.returncode, run.stdout), (1, b""), table)
        self.assertEqual(ran("csv-lore", "A", "--text", "c", data="a\n1\n").returncode, 1)

    def test_back_as_a_table(self):
        table = 'id,name,note\n1,Kim,"x, ""y""\nz"\n2,Ann,\n'
        self.assertEqual(output("lore-json", "--csv", data=loaded(output("csv-lore", "A", data=table))), table)

    def test_cells_with_more_in_them(self):
        dump = loaded('load A := { r { a 1, a 2 }, r { b { c "x" } }, s 7 };')
        self.assertEqual(list(csv.reader(io.StringIO(output("lore-json", "--csv", data=dump)))),
                         [["a", "b", "value"], ["[1, 2]", "", ""], ["", '{"c": "x"}', ""], ["", "", "7"]])
        self.assertEqual(output("lore-json", "--csv", "--of", "s", data=dump), "value\n7\n")


class Rows(unittest.TestCase):
    REPLIES = ('ok objects 9 edges 8 nodes 7\n&3 "a | \\"b" | .x.\'q | r\' | &5 {}\n. | &7 -5 | &8 "\\n"\nrows 2\n'
               "G 1\nrows 1\nG.a 1\nnodes 3\nat G 1\n.a 1\nlabels 1\n&3 5\nsample 1 of 1\nrows 0\n.x\nrows 1\nrefused 5 Syntax\n")

    def test_rows(self):
        self.assertEqual(read_rows(self.REPLIES.encode()), [
            [[Cell(3, 'a | "b'), Word(("x", "q | r")), Cell(5, None)], [Word(()), Cell(7, -5), Cell(8, "\n")]],
            [], [[Word(("x",))]]])
        with self.assertRaisesRegex(Fault, "line 2"):
            read_rows(b"&3 5\nrows 2\n")

    def test_json_and_tables(self):
        self.assertEqual([json.loads(line) for line in output("lore-json", "--rows", data=self.REPLIES).splitlines()],
                         [['a | "b', ".x.'q | r'", {}], [".", -5, "\n"], [".x"]])
        first = output("lore-json", "--rows", "--select", "1", "--csv", "--columns", "p,q,r", data=self.REPLIES)
        self.assertEqual(list(csv.reader(io.StringIO(first))),
                         [["p", "q", "r"], ['a | "b', ".x.'q | r'", "{}"], [".", "-5", "\n"]])
        self.assertEqual(output("lore-json", "--rows", "--select", "3", "--columns", "w", data=self.REPLIES), '{"w": ".x"}\n')
        for words in (["--select", "4"], ["--columns", "a"]):
            self.assertEqual(ran("lore-json", "--rows", *words, data=self.REPLIES).returncode, 1)


class Sql(unittest.TestCase):
    """A dump as tables. The recursive queries are those of the tool's help."""

    def database(self, dump):
        database = sqlite3.connect(":memory:")
        database.executescript(output("lore-sql", "--for", "sqlite3", data=dump_text(dump)))
        return database

    def queries(self):
        """The two queries that the help gives, for the paths G.a.b* and G.#.name."""
        text = output("lore-sql", "--help")
        return [part[:part.index(";") + 1] for part in text.split("with recursive ")[1:]]

    def test_tables(self):
        texts = ["it's", "a\\b", "\r\n\t", "\0\x01\x7f", "ä😀", "", "x" * 4096, "null"]
        values = dict(enumerate([None, *texts, limits.WHOLE_LEAST, limits.WHOLE_MOST, 0, True, False], 1))
        dump = Dump(2, 99, 4096, "auto", ["b", "it's\n"], [("G", 1)], values, [(1, "it's\n", number) for number in values])
        database = self.database(dump)
        self.assertEqual(database.execute("select number, kind, whole, text from objects order by number").fetchall(), [
            (number, "complex", None, None) if value is None
            else (number, "flag", None, shown_value(value)) if isinstance(value, bool)
            else (number, "number", value, None) if isinstance(value, int) else (number, "text", None, value)
            for number, value in values.items()])
        self.assertEqual(database.execute("select * from labels order by number").fetchall(), [(1, "b"), (2, "it's\n")])
        self.assertEqual(database.execute("select * from edges order by child").fetchall(), dump.edges)
        self.assertEqual(database.execute("select * from names").fetchall(), [("G", 1)])

    def test_recursive_queries(self):
        again, anywhere = ("with recursive " + query for query in self.queries())
        found = [0, 0]
        for seed in range(30):
            dump = random_dump(seed, labels=("a", "b", "name"))
            database = self.database(dump)
            walks = self.walk(dump, {child for _, label, child in dump.edges if _ == 1 and label == "a"}, ("b",))
            everywhere = self.walk(dump, {1}, dump.labels)
            names = {child for parent, label, child in dump.edges if label == "name" and parent in everywhere}
            for place, (query, expected) in enumerate(((again, walks), (anywhere, names))):
                self.assertEqual([row[0] for row in database.execute(query)], sorted(expected), seed)
                found[place] += len(expected)
            if LORE and seed < 5:
                self.by_lore(dump, walks, names)
        self.assertGreater(min(found), 30)

    def walk(self, dump, seen, labels):
        """What is reached over edges of these labels."""
        while True:
            more = seen | {child for parent, label, child in dump.edges if parent in seen and label in labels}
            if more == seen:
                return seen
            seen = more

    def by_lore(self, dump, *expected):
        """The program's answers to both paths."""
        answers = read_rows(replies("restore\n" + dump_text(dump) + ";\nselect G.a.b*;\nselect G.#.name;\n"))
        self.assertEqual([[row[0].number for row in answer] for answer in answers], [sorted(held) for held in expected])

    def test_postgresql(self):
        values = {1: None, 2: "a\\'\n", 3: "it's \\ :x", 4: 5}
        dump = Dump(2, 9, 4096, "auto", ["a"], [("G", 1)], values, [(1, "a", number) for number in (2, 3, 4)])
        text = output("lore-sql", "--for", "postgresql", data=dump_text(dump))
        self.assertIn("(2, 'text', null, E'a\\\\''\\x0a'),\n(3, 'text', null, 'it''s \\ :x'),\n(4, 'number', 5, null);", text)
        dump.objects[2] = "\0"
        self.assertEqual(ran("lore-sql", "--for", "postgresql", data=dump_text(dump)).returncode, 1)


class Manners(unittest.TestCase):
    """No tool shows a traceback."""

    def test_help_and_words(self):
        for tool in TOOLS:
            self.assertIn(tool, output(tool, "--help"))
            for words in (["--no-such"], ["--shared", "x"]):
                run = ran(tool, *words)
                self.assertEqual((run.returncode, run.stdout), (2, b""), (tool, words))
                self.assertIn(b"usage: ", run.stderr)
                self.assertNotIn(b"Traceback", run.stderr)

    def test_bad_input(self):
        draw = random.Random(7)
        good = dump_text(random_dump(3)).encode()
        inputs = [b"", b"\xff", b"[" * 100000, b'{"a":' * 100000, b'"\\ud800"', b"1" * 5000, b'"' + b"x" * 200000, b"NaN",
                  b"oem 2\nnext 99999999999999999999999999\n", b"rows 99999999999999999999999\n", good[:-1]]
        for _ in range(3):
            spoilt = bytearray(good)
            spoilt[draw.randrange(len(good))] = draw.randrange(256)
            inputs.append(bytes(spoilt))
        for tool, words in TOOLS.items():
            for data in inputs:
                run = ran(tool, *words, data=data)
                self.assertIn(run.returncode, (0, 1), (tool, data[:60]))
                self.assertEqual(run.returncode == 1, run.stdout == b"", (tool, data[:60]))
                self.assertNotIn(b"Traceback", run.stderr, (tool, data[:60]))
            self.assertEqual(ran(tool, *words, data=b"\xff").returncode, 1)

    def test_words_that_are_no_text(self):
        for tool, words in (("json-lore", ["--into", "A.'\udcff'"]), ("json-lore", ["A", "\udcff"]), ("csv-lore", ["A\udcff"]),
                            ("json-lore", ["A", "--file", "\udcff"]), ("lore-json", ["--rows", "--columns", "\udcff"])):
            run = ran(tool, *words, data='{"a": 1}' if tool == "json-lore" else "&1 5\nrows 1\n")
            self.assertEqual((run.returncode, run.stdout), (1, b""), words)
            self.assertNotIn(b"Traceback", run.stderr)

    def test_interrupt(self):
        for tool, words in [*TOOLS.items(), ("guide-dot", []), ("blocks-dot", [])]:
            run = subprocess.Popen([BIN / tool, *words], stdin=subprocess.PIPE, stdout=subprocess.PIPE, stderr=subprocess.PIPE)
            run.stdin.write(b" " * 200000)      # more than a pipe holds: so the tool reads already
            run.stdin.flush()
            run.send_signal(signal.SIGINT)
            said = run.communicate(timeout=60)
            self.assertEqual((run.returncode, *said), (-signal.SIGINT, b"", b""), tool)

    def test_closed_pipe_and_full_disk(self):
        table = b"a,b\n" + b"1,xxxxxxxxxx\n" * 9000
        large = dump_text(Dump(2, 9001, 4096, "auto", ["a"], [("G", 1)], {1: None} | {at: at for at in range(2, 9001)},
                               [(1, "a", at) for at in range(2, 9001)])).encode()
        for tool, words in TOOLS.items():
            data = large if tool.startswith("lore") else table if tool == "csv-lore" else b'"%s"\n' % (b"x" * 4000) * 50
            reader, writer = os.pipe()
            os.close(reader)
            run = subprocess.run([BIN / tool, *words], input=data, stdout=writer, stderr=subprocess.PIPE, timeout=60)
            os.close(writer)
            self.assertEqual((run.returncode, run.stderr), (-signal.SIGPIPE, b""), tool)
            with open("/dev/full", "wb") as full:
                run = subprocess.run([BIN / tool, *words], input=data, stdout=full, stderr=subprocess.PIPE, timeout=60)
            self.assertEqual((run.returncode, run.stderr), (1, f"{tool}: No space left on device\n".encode()))


class Manual(unittest.TestCase):
    """The examples of docs/TOOLS.md: each command that stands behind a `$`, with what it shows."""
    CHAPTER = re.compile(r"^## Data in and out\n.*?(?=^## |\Z)", re.MULTILINE | re.DOTALL)
    BLOCK = re.compile(r"^```\n(\$ .*?)^```$", re.MULTILINE | re.DOTALL)

    def examples(self):
        """Each command with the lines behind it."""
        chapter = self.CHAPTER.search((BIN.parent / "docs" / "TOOLS.md").read_text()).group()
        for block in self.BLOCK.findall(chapter):
            for part in re.split(r"^\$ ", block, flags=re.MULTILINE)[1:]:
                yield part.split("\n", 1)

    @needs_lore
    def test_examples(self):
        shown = 0
        with tempfile.TemporaryDirectory() as folder:
            (Path(folder) / "bin").symlink_to(BIN)
            for command, said in self.examples():
                if command.startswith("cat "):
                    (Path(folder) / command[4:]).write_text(said)
                    continue
                if "sqlite3" in command and not shutil.which("sqlite3"):
                    continue
                command = re.sub(r"bin/lore(?![\w-])", os.path.abspath(LORE), command)
                run = subprocess.run(["bash", "-c", command], cwd=folder, stdout=subprocess.PIPE, stderr=subprocess.STDOUT,
                                     text=True)
                with self.subTest(command):
                    self.assertEqual(run.stdout, said)
                shown += 1
        self.assertGreater(shown, 10)


if __name__ == "__main__":
    if not LORE:
        print("LORE names no program: what goes through it is left out", file=sys.stderr)
    unittest.main()
