"""Runs of the program with what each has to write and how it has to end: examples, statuses and the cases of `script_cases`.

A case is data: crates/script_cases/stdin has the scripts, and crates/script_cases/stdout what each writes and how it ends.
The program `script_cases` reads and writes them in sixteen ways, which `rt ci` runs; here each is a run of `lore`.
"""
import pathlib
import re
from dataclasses import dataclass

MODES = ("auto", "top", "bottom", "guide")
PART = re.compile(rb"\+\+\+ (\d+) \[(.*)\]")
END = re.compile(rb"status (\d+), done \d+, refused \d+\n\Z")


@dataclass(frozen=True)
class Run:
    """What the program is given, what has to come of it, and how often the script repeats a text."""

    name: str
    script: bytes
    replies: bytes
    status: int
    words: tuple = ()
    repeats: int = 0


def sections(text):
    """The title of each section of a file of cases, with the lines behind it."""
    found = []
    for line in text.removesuffix(b"\n").split(b"\n"):
        if line.startswith(b"=== "):
            found.append((line[4:].decode(), []))
        elif found:
            found[-1][1].append(line)
    return found


def joined(parts):
    """The text of a file of cases with these sections."""
    return b"".join(line + b"\n" for title, lines in parts for line in (b"=== " + title.encode(), *lines))


def script_of(lines):
    """The script that the lines of a case stand for: a line `+++ COUNT [TEXT]` is the text so many times, with no line end."""
    parts = []
    for line in lines:
        part = PART.fullmatch(line)
        parts.append(part[2] * int(part[1]) if part else line + b"\n")
    return b"".join(parts).removesuffix(b"\n")


def repeats(lines):
    """The most times that a line of a case stands for its text: many where the case is at a limit."""
    parts = filter(None, map(PART.fullmatch, lines))
    return max((int(part[1]) for part in parts), default=0)


def paired(folder):
    """The cases of a crate: of each the title, the lines that it is given, and those that it has to print."""
    given, wanted = (sections(pathlib.Path(folder, name).read_bytes()) for name in ("stdin", "stdout"))
    if [title for title, _ in given] != [title for title, _ in wanted]:
        raise ValueError(f"{folder}: stdin and stdout have other titles, or in another order")
    return [(title, lines, printed) for (title, lines), (_, printed) in zip(given, wanted)]


def script_cases(folder):
    """The runs of the cases of scripts: one for each, and four, one for each mode of plans, where the title says so."""
    runs = []
    for title, lines, printed in paired(folder):
        script, text = script_of(lines), b"".join(line + b"\n" for line in printed)
        end = END.search(text)
        if not end:
            raise ValueError(f"{folder}/stdout: the case '{title}' has no line that tells how it ends")
        replies, status = text[:end.start()], int(end[1])
        if title.startswith("modes: "):
            scripts = {f"{title}, mode {mode}": b"set plan %s;\n" % mode.encode() + script for mode in MODES}
        else:
            scripts = {title: script}
        runs += [Run(name, script, replies, status, repeats=repeats(lines)) for name, script in scripts.items()]
    return runs


def example_runs(folder):
    """The runs of the examples; each that says so in its replies was refused a statement."""
    runs = []
    for script in sorted(pathlib.Path(folder).rglob("*.lore")):
        replies = script.with_suffix(".out").read_bytes()
        refused = any(line.startswith(b"refused ") for line in replies.split(b"\n"))
        runs.append(Run(f"examples/{script.relative_to(folder)}", script.read_bytes(), replies, int(refused)))
    return runs


def dump_run(folder):
    """The dump among the replies of examples/backup.lore, restored and dumped again."""
    replies = (pathlib.Path(folder) / "backup.out").read_bytes()
    dump = re.search(rb"^oem 2\n.*^end\n", replies, re.M | re.S)[0]
    counts = re.findall(rb"^ok .*\n", replies, re.M)[-1]
    return Run("a dump restored and dumped again", b"restore\n" + dump + b";\ndump;", counts + dump, 0)


def status_runs():
    """How runs end that have a refusal, an unfinished rest, nothing, or an argument."""
    loaded = b"ok objects 1 edges 0 nodes 1\n"
    return [
        Run("a script with a refusal", b"load A := 1; select B;", loaded + b"refused 7 UnknownName\n", 1),
        Run("a script with an unfinished rest", b"load A := 1; select A", loaded + b"refused 6 Unfinished\n", 1),
        Run("no script", b"", b"", 0),
        Run("an argument", b"load A := 1;", b"", 2, (b"x",)),
    ]


def odd_argument_runs():
    """How runs end that have an argument which no file with one in each line can hold."""
    odd = (("an empty argument", b""), ("an argument that is no text", b"\xff"))
    return [Run(name, b"load A := 1;", b"", 2, (argument,)) for name, argument in odd]
