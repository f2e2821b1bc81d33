"""The tools, and how a user starts each of them with a question.

`start(work, one, times, answer)` makes what a run needs and gives its words, the file that it reads, and that for its answer. A
question that is said no times leaves what a tool does before it has any: it starts, and has the data.
"""
import os
import platform
import re
import shutil
import subprocess
import sys

HERE = os.path.dirname(os.path.abspath(__file__))
AGES = ("31", "32")


def write(path, *parts):
    """Writes the parts, texts and what is left of open files, whose text this process never holds as a whole."""
    with open(path, "wb") as sink:
        for part in parts:
            if isinstance(part, str):
                sink.write(part.encode())
            else:
                shutil.copyfileobj(part, sink, 65_536)


def turns(question, one, times):
    """The question so many times, with another age at every second turn."""
    return "".join(question.replace("ONE", str(one)).replace("NEW", AGES[turn % 2]) for turn in range(times))


def document(work):
    return "shop.json" if work.shop else "people.json"


def first_line(words):
    return subprocess.run(words, stdout=subprocess.PIPE, stderr=subprocess.DEVNULL).stdout.decode().partition("\n")[0]


class Lore:
    """A script on standard input: the load, or the dump behind `restore`, and the question."""

    name = "lore"

    def __init__(self, program):
        self.path = program if os.access(program, os.X_OK) else None

    def version(self):
        """The commit of the checkout in which the program lies."""
        git = shutil.which("git")
        words = [git, "-C", os.path.dirname(self.path), "rev-parse", "--short", "HEAD"]
        return "lore " + (git and first_line(words) or "of no commit")

    def asks(self, work):
        return work.lore

    def start(self, work, one, times, answer):
        asked = turns(work.lore, one, times)
        if work.name == "restore":
            with open("dump-lore", "rb") as dump:
                dump.readline()  # the reply to the load
                write("script.lore", "restore\n", dump, ";\n", asked)
        else:
            with open("people.lore", "rb") as load, open("shop.lore" if work.shop else os.devnull, "rb") as shop:
                write("script.lore", load, shop, asked)
        return [self.path], "script.lore", answer

    def rows(self, work, text):
        """The rows among the replies, without the numbers of objects, or how many there are."""
        for line in text.splitlines():
            if work.counted and line.startswith("rows "):
                yield line.removeprefix("rows ")
            elif not work.counted and line.startswith("&"):
                yield "\t".join(self.plain(cell) for cell in line.split(" | "))

    def plain(self, cell):
        return re.sub(r'^&\d+ "?|"$', "", cell)


class Jq:
    """A filter over the document, which it reads anew; an index by id is a part of the filter."""

    def __init__(self, name):
        self.name = name
        self.path = shutil.which(name)

    def version(self):
        return f"{self.name} " + re.search(r"\d[\d.]*", first_line([self.path, "--version"]))[0]

    def asks(self, work):
        return work.jq

    def start(self, work, one, times, answer):
        question = work.jq.replace("ONE", str(one)).replace("NEW", f"({AGES[0]} + $turn % 2)")
        data = f"dump-{self.name}" if work.name == "restore" else document(work)
        return [self.path, "-rc", f"range({times}) as $turn | {question}", data], "/dev/null", answer

    def rows(self, work, text):
        return text.splitlines()


class Sqlite:
    """SQL on standard input over a database in a file, which `load` or `shop` made before; each run gets a file of its own."""

    name = "sqlite3"

    def __init__(self):
        self.path = shutil.which("sqlite3")

    def version(self):
        return "sqlite3 " + first_line([self.path, "--version"]).partition(" ")[0]

    def asks(self, work):
        return work.sqlite3

    def start(self, work, one, times, answer):
        loaded = "loaded-shop.db" if work.shop else "loaded.db"
        is_load = work.name in ("load", "shop")
        database = loaded if is_load else "run.db"
        if os.path.exists(database):
            os.unlink(database)
        if not is_load and work.name != "restore":
            shutil.copyfile(loaded, database)
        with open("dump-sqlite3" if work.name == "restore" else os.devnull, "rb") as dump:
            write("script.sql", dump, turns(work.sqlite3, one, times))
        return [self.path, "-bail", "-batch", "-tabs", database], "script.sql", answer

    def rows(self, work, text):
        return text.splitlines()


class Python:
    """dictionaries.py over the document, by the Python that runs this bench, without a look for packages (-S)."""

    name = "python3"
    path = sys.executable

    def version(self):
        return f"python3 {platform.python_version()}"

    def asks(self, work):
        return "" if work.python else None

    def start(self, work, one, times, answer):
        data = "dump-python3" if work.name == "restore" else document(work)
        program = os.path.join(HERE, "dictionaries.py")
        return [self.path, "-S", program, data, work.name, str(one), str(times)], "/dev/null", answer

    def rows(self, work, text):
        return text.splitlines()
