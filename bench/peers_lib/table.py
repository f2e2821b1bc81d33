"""One table for each size: what each question costs with each tool, once their answers have been compared."""
import os
import platform
import sys
import time

from peers_lib.data import make
from peers_lib.measure import LIMIT, PASSES, RUNS, Tally, apart, own_peak
from peers_lib.questions import BEGUN, DUMP, IDLE, LOAD, SHOP

# The milliseconds that a question has to cost at least, so that its time can be told.
ENOUGH = 50
STOPPED = f"> {LIMIT} s"
LEGEND = """
A cell has the milliseconds of the whole process, from its start to its end; those of the question alone; and the peak memory in MiB.
Milliseconds are processor time, the system's work for the process included, and each number is that of the least of {runs} runs, the one
that other work on the machine disturbed least. To tell the question alone it is said 1, 10 or 100 times in one process; from that is
taken what a process without any question costs, and the rest is divided. Without any question lore and the Python program have read
their text and built what they look into, and jq and gojq have parsed theirs; an index that jq makes is a part of the question. sqlite3
has only started then: its data are in a file with indexes, which `load` made, so there is no load in its whole process. `<` stands where
less is left than the runs in the middle took more, and `≤` where the peak isn't above that of the process which starts the others. For
"what is there" lore shows its guide, two steps of it and a sample, and sqlite3 its schema. Except there, and where a row only loads or
dumps, the answers were compared and are alike.
"""


def machine():
    model = platform.processor() or platform.machine()
    if os.path.exists("/proc/cpuinfo"):
        with open("/proc/cpuinfo", encoding="utf-8") as source:
            model = next((line.partition(":")[2].strip() for line in source if line.startswith("model name")), model)
    return f"{model}, {os.cpu_count()} cores"


def person_of(size):
    """The id of the one person who is asked for: one whose age is a number."""
    person = 3 * size // 4
    return person if person % 7 else person + 1


def plain_rows(tool, work):
    """The lines of an answer, sorted. A last part that is missing may leave an empty cell or none."""
    with open(f"{work.name}-{tool.name}", encoding="utf-8") as source:
        return sorted(row.rstrip("\t") for row in tool.rows(work, source.read()))


def compare(tools, work, size):
    """Ends the process where two answers differ, so it is called in one apart."""
    first = plain_rows(tools[0], work) if tools else []
    for other in tools[1:]:
        rows = plain_rows(other, work)
        if rows != first:
            sys.exit(
                f"peers: {work.name} of {size} persons: the answers differ\n"
                f"  {tools[0].name}, {len(first)} rows: {first[:5]}, and alone {sorted(set(first) - set(rows))[:5]}\n"
                f"  {other.name}, {len(rows)} rows: {rows[:5]}, and alone {sorted(set(rows) - set(first))[:5]}"
            )


def answer(tally, tool, work, person, runs=RUNS):
    """Says the question once a run, with its answer in a file of its own."""
    tally.add(lambda: tool.start(work, person, 1, f"{work.name}-{tool.name}"), runs)


def is_answered(tool, work, person):
    """Whether the question is answered within the limit."""
    tally = Tally()
    answer(tally, tool, work, person, 1)
    return tally.cost() is not None


def prepare(tools, size):
    """Makes the data, and of each tool what its other questions need: gives the tools that keep the limit there."""
    apart(make, size)
    return [tool for tool in tools if all(is_answered(tool, work, person_of(size)) for work in (LOAD, SHOP, DUMP))]


def shown(milliseconds):
    digits = 0 if milliseconds >= 100 else 1 if milliseconds >= 10 else 2
    return f"{milliseconds:.{digits}f}"


def repeats(left, idle):
    """How often a question of so many milliseconds is said: enough of it, and a quarter of what its process costs anyway."""
    enough = max(ENOUGH, idle / 4)
    return 100 if left < enough / 10 else 10 if left < enough else 1


def askers(tools, work):
    return [tool for tool in tools if tool.asks(work) is not None]


class Measuring:
    """The runs of each tool with no question, with each question, and with it said often enough."""

    def __init__(self, size):
        self.size = size
        self.person = person_of(size)
        self.idle, self.whole, self.again, self.times = {}, {}, {}, {}

    def go_through(self, tools, works):
        """One pass over all. Answers are compared in the first."""
        is_first = not self.idle
        for tool in tools:
            for shop, work in IDLE.items():
                self.idle.setdefault((tool, shop), Tally()).add(lambda: tool.start(work, 1, 0, "nothing"))
        for work in works:
            for tool in askers(tools, work):
                answer(self.whole.setdefault((tool, work), Tally()), tool, work, self.person)
            if is_first and work.compared:
                apart(compare, [tool for tool in askers(tools, work) if self.whole[tool, work].cost()], work, self.size)
            for tool in askers(tools, work):
                self.repeat(tool, work)

    def repeat(self, tool, work):
        """Says the question so often in a process that its time can be told from that of the process."""
        idle, whole = self.idle[tool, work.shop].cost(), self.whole[tool, work].cost()
        if whole is None or work in BEGUN:
            return
        times = self.times.setdefault((tool, work), repeats(whole.time - idle.time, idle.time))
        if times > 1:
            self.again.setdefault((tool, work), Tally()).add(lambda: tool.start(work, self.person, times, "again"))

    def alone(self, tool, work):
        """The milliseconds of the question without what its process costs anyway."""
        times, idle = self.times[tool, work], self.idle[tool, work.shop].cost()
        cost = (self.whole if times == 1 else self.again)[tool, work].cost()
        if cost is None:
            return STOPPED
        left, spread = cost.time - idle.time, cost.spread + idle.spread
        return f"< {shown(spread / times)}" if left < spread else shown(left / times)

    def cell(self, tool, work):
        whole = self.whole[tool, work].cost() if (tool, work) in self.whole else None
        if whole is None:
            return STOPPED
        own = "-" if work in BEGUN else self.alone(tool, work)
        floor = own_peak()
        peak = f"{whole.peak:.0f}" if whole.peak > floor else f"≤ {floor:.0f}"
        return f"{shown(whole.time)} / {own} / {peak}"


def line(cells):
    print("| " + " | ".join(cells) + " |", flush=True)


def show(tools, works, size):
    there = [tool for tool in tools if tool.path]
    measuring, able = Measuring(size), prepare(there, size)
    for _ in range(PASSES):
        measuring.go_through(able, works)
    print()
    line([f"{size:,} persons: whole ms / question ms / peak MiB"] + [tool.name for tool in tools])
    line(["---"] * (len(tools) + 1))
    for work in works:
        cells = {tool: measuring.cell(tool, work) for tool in askers(there, work)}
        line([work.title] + [cells.get(tool, "-" if tool.path else "not installed") for tool in tools])


def tables(tools, works, sizes):
    versions = ", ".join(tool.version() for tool in tools if tool.path)
    print(f"{time.strftime('%Y-%m-%d')}, {machine()}: {versions}")
    for size in sizes:
        show(tools, works, size)
    print(LEGEND.format(runs=PASSES * RUNS), end="")


def check(tools, works, size):
    """Compares the answers alone, and counts the questions."""
    prepare(tools, size)
    compared = [work for work in works if work.compared]
    for work in compared:
        for tool in tools:
            if not is_answered(tool, work, person_of(size)):
                sys.exit(f"peers: {work.name} of {size} persons: {tool.name} needs {STOPPED}")
        apart(compare, tools, work, size)
    print(f"peers: {size} persons: {len(compared)} answers of {' and '.join(tool.name for tool in tools)} are alike")
