#!/usr/bin/env python3
"""Takes the runnable blocks out of the manual.

    python3 .ci/tools/manual_scripts.py            the chapters that have scripts
    python3 .ci/tools/manual_scripts.py CHAPTER    the script of a chapter, its sessions parted by a line
    python3 .ci/tools/manual_scripts.py CHAPTER N  the script of its N-th session alone, for a run of its own

A block that is marked `lore` is a script; the block marked `text` behind it has its replies. The scripts of a chapter are one
session, and one that is marked `lore new` begins another, in a new database. A block that is marked `sh` has commands, and
the `text` behind it what they print.

Where a chapter has several sessions, how many is told on standard error, as a run of the program is one of them.

Status 0: done. 1: the manual can't be read, or there is no such chapter or session. 2: more than two words.
"""
import pathlib
import re
import signal
import sys
from dataclasses import dataclass, field

MANUAL = pathlib.Path(__file__).resolve().parents[2] / "docs" / "LANGUAGE.md"
FENCE = "```"
LAST_LINE = re.compile(r"(ok objects|rows|nodes|labels|sample|plan|changes|blocks|refused) .*")


@dataclass
class Block:
    """A fenced block: its mark, its lines, the number of its first line, and the text before it."""
    mark: str
    text: str
    line: int
    before: str
    replies: str = None


@dataclass
class Chapter:
    """A chapter of the manual: all below a heading of the second level."""
    title: str
    blocks: list = field(default_factory=list)

    def sessions(self):
        """The scripts of the chapter, as lists of blocks: each list is for a new database."""
        sessions = []
        for block in self.blocks:
            if block.mark == "lore new" or block.mark == "lore" and not sessions:
                sessions.append([])
            if block.mark.startswith("lore"):
                sessions[-1].append(block)
        return sessions


def read_chapters(text):
    """The chapters of a manual, with their blocks; a `text` block joins the block right before it."""
    chapters, block, before = [], None, []
    for number, line in enumerate(text.split("\n"), 1):
        if block is not None:
            if line == FENCE:
                place_block(chapters[-1].blocks, block)
                block, before = None, []
            else:
                block.text += line + "\n"
        elif line.startswith(FENCE):
            block = Block(line[len(FENCE):], "", number + 1, "\n".join(before).strip())
        elif line.startswith("## "):
            chapters.append(Chapter(line[3:]))
            before = []
        elif chapters:
            before.append(line)
    if block is not None:
        raise ValueError(f"the block from line {block.line} on has no end")
    return chapters


def place_block(blocks, block):
    """Appends a block, or gives it as replies to the one before, where nothing stands between."""
    if block.mark == "text" and not block.before and blocks and blocks[-1].replies is None:
        blocks[-1].replies = block.text
    else:
        blocks.append(block)


def statements(script):
    """The statements of a script, each without its `;`, without comments and with single blanks between its lines."""
    pieces, now, place = [], "", 0
    token = re.compile(r"""--[^\n]*|"(?:[^"\\]|\\.)*"|'(?:[^'\\]|\\.)*'|.""", re.DOTALL)
    for found in token.finditer(script):
        piece = found.group()
        if piece == ";":
            pieces.append(" ".join(now.split()))
            now = ""
        elif not piece.startswith("--"):
            now += piece
    return pieces


def split_replies(text):
    """The replies one by one, each a list of lines. A dump ends with `end`, and any other reply by its last line's form."""
    replies, now = [], []
    for line in text.splitlines():
        now.append(line)
        if line == "end" if now[0] == "oem 2" else LAST_LINE.fullmatch(line):
            replies.append(now)
            now = []
    return replies + ([now] if now else [])


def headings(text):
    """The headings of a page, from the second level on, outside its blocks."""
    inside, found = False, []
    for line in text.split("\n"):
        if line.startswith(FENCE):
            inside = not inside
        elif not inside and re.match("#+ ", line):
            found.append(line.lstrip("#")[1:])
    return found


def anchors(text):
    """The anchors of the headings of a page, as a page of Markdown gets them: small letters, digits, `-` and `_` stay."""
    seen, found = {}, []
    for heading in headings(text):
        anchor = re.sub(r"[^\w\- ]", "", heading.lower()).replace(" ", "-")
        count = seen.get(anchor, 0)
        seen[anchor] = count + 1
        found.append(f"{anchor}-{count}" if count else anchor)
    return found


def scripts(chapters, title):
    """The scripts of a chapter's sessions."""
    for chapter in chapters:
        if chapter.title == title:
            return ["".join(block.text for block in part) for part in chapter.sessions()]
    raise ValueError(f"there is no chapter {title}")


def asked(chapters, title, number=None):
    """What a chapter's title, and the number of a session, ask for."""
    found = scripts(chapters, title)
    if number is None:
        if len(found) > 1:
            print(f"manual_scripts: {len(found)} scripts, each for a new database; a number prints one alone", file=sys.stderr)
        return "-- in a new database:\n".join(found)
    if number not in map(str, range(1, len(found) + 1)):
        raise ValueError(f"the chapter {title} has {len(found)} scripts")
    return found[int(number) - 1]


def main(words):
    signal.signal(signal.SIGINT, signal.SIG_DFL)
    signal.signal(signal.SIGPIPE, signal.SIG_DFL)
    if len(words) > 2:
        print(__doc__.strip(), file=sys.stderr)
        return 2
    try:
        chapters = read_chapters(MANUAL.read_text("utf-8"))
        if words:
            print(asked(chapters, *words), end="")
        else:
            print("\n".join(chapter.title for chapter in chapters if chapter.sessions()))
    except (OSError, ValueError) as error:
        print(f"manual_scripts: {error}", file=sys.stderr)
        return 1
    return 0


if __name__ == "__main__":
    sys.exit(main(sys.argv[1:]))
