"""Looks for files that make a counter of reads.

A read is counted on the counter that a call is handed. One that is counted on a counter which the call made itself would be
counted nowhere, and no contract would tell. So the program, the crates of tests and modules `tests`, which no built crate has,
alone make counters. A counter is made of a `Blank` of std's module `ledger`; whoever can't name that module can't make one. So
the word `ledger` stands elsewhere only where the trait `Ledger` is brought in; and what could make a counter otherwise is looked
for as well: `Steps` and `Blank` with something behind `::`, also in angle brackets, renamed, or as an alias. The file that
declares `Steps` has the two lines that it needs.
"""
import pathlib
import re

MAKERS = re.compile(r"crates/(lore|[a-z_]+_(tests|cases))/")
COMMENT = re.compile(r"//.*")
DECLARED = {
    "crates/lore_base/src/step_counter.rt": ("use std::sync::ledger::{Blank, Book, Ledger, Share};", "Steps { book, share }"),
}
WAY = re.compile(
    r"\bledger\b(?!::Ledger;)"
    r"|(?<!Rest::)\b(Steps|Blank)\s*(<[^;{}()]*>)?\s*::"
    r"|<\s*(Steps|Blank)\b[^;{}()]*>\s*::"
    r"|\b(Steps|Blank)\s+as\b"
    r"|=\s*(\w+::)*(Steps|Blank)\b"
    r"|\bSteps\s*\{"
)


def ways(text, declared=()):
    """The lines of a file that make a counter, or that name what one is made of."""
    text = COMMENT.sub("", text)
    for line in declared:
        text = text.replace(line, "", 1)
    found = (way.start() for way in WAY.finditer(text))
    return [text[text.rfind("\n", 0, place) + 1:].partition("\n")[0].strip() for place in found]


def is_of_tests(path):
    """Whether the file is a module `tests` that is compiled with tests alone."""
    above = path.parent / "lib.rt" if path.parent.name == "src" else path.parent.with_suffix(".rt")
    if path.name != "tests.rt" or not above.exists():
        return False
    text = COMMENT.sub("", above.read_text(encoding="utf-8"))
    return re.findall(r"(.*)\n.*\bmod\s+tests\b", text) == ["#[cfg(test)]"]


def fault(top):
    """The files that make a counter, or None."""
    found = []
    for path in sorted(pathlib.Path(top).glob("crates/*/src/**/*.rt")):
        name = path.relative_to(top).as_posix()
        if not MAKERS.match(name) and not is_of_tests(path):
            found += [f"{name}: {line}" for line in ways(path.read_text(encoding="utf-8"), DECLARED.get(name, ()))]
    return "reads could go uncounted by these lines:\n  " + "\n  ".join(found) if found else None
