"""The worked scripts of the repository, with the place where each statement ends, and where its reply does."""
import os
import re
import sys
from dataclasses import dataclass

TOP = os.path.join(os.path.dirname(os.path.abspath(__file__)), "..", "..")
sys.path.insert(0, os.path.join(TOP, ".ci", "checks"))

import cases  # noqa: E402

PART = re.compile(rb"""[^;"'-]+|--[^\n]*|-|"[^"\\]*(?:\\.[^"\\]*)*"?|'[^'\\]*(?:\\.[^'\\]*)*'?|;""", re.S)
# Statements that are refused whatever the database is, and their replies, which no script has in this order.
MARK = b"!; 1.5; 99999999999999999999; menu;"
MARKED = b"refused 1 BadToken\nrefused 2 RealRefused\nrefused 3 NumberRange\nrefused 5 Syntax\n"


@dataclass(frozen=True)
class Script:
    """A worked script with its replies and status. `ends` are the places behind each `;`, and `replied` how many bytes of
    replies stand behind no, one, two and more statements, the rest behind the last `;` among them."""

    name: str
    text: bytes
    replies: bytes
    status: int
    ends: tuple
    replied: tuple

    def fronts(self):
        return frozenset(self.replied)


def ends_of(text):
    """The places behind each `;` that ends a statement."""
    return tuple(part.end() for part in PART.finditer(text) if part.group() == b";")


def marked(text, ends):
    """The script with the mark behind each statement."""
    starts = (0, *ends)
    return b"".join(text[start:end] + MARK for start, end in zip(starts, ends)) + text[starts[-1]:]


def replied_of(library, text, ends, replies):
    """How many bytes of replies stand behind no, one, two and more statements, told by a run with marks between them; None where
    that run has other replies."""
    parts = library.run(marked(text, ends)).written.split(MARKED)
    if b"".join(parts) != replies:
        return None
    places = [0]
    for part in parts:
        places.append(places[-1] + len(part))
    return tuple(places)


def scripts(library, longest, only=""):
    """The worked scripts of at most so many bytes whose name has the word, and what is wrong with those that run otherwise
    than they have to."""
    runs = [*cases.example_runs(os.path.join(TOP, "examples")), *cases.status_runs(),
            *cases.script_cases(os.path.join(TOP, "crates", "script_cases"))]
    found, faults, left = [], [], 0
    for run in runs:
        if run.words or only not in run.name:
            continue
        if len(run.script) > longest:
            left += 1
            continue
        ran = library.run(run.script)
        ends = ends_of(run.script)
        replied = replied_of(library, run.script, ends, run.replies)
        if (ran.status, ran.written) != (run.status, run.replies) or replied is None:
            faults.append(f"{run.name}: without any fault it ends or replies otherwise than it has to")
            continue
        found.append(Script(run.name, run.script, run.replies, run.status, ends, replied))
    return found, faults, left
