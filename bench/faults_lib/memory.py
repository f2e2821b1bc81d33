"""Each allocation of each worked script refused in turn: alone, and with all behind it."""
from dataclasses import dataclass, field

from faults_lib.library import Library

NO_MEMORY = 6
MODES = ("", "+")
UNNEEDED = ("", 1)  # the first allocation alone, which a run goes on without
SHARE = 64  # points of a share of the work


@dataclass
class Tally:
    """How many points there were, how they ended, and what was wrong."""

    points: int = 0
    ended: int = 0  # with status 6
    alike: int = 0  # with the status and the replies of a run without a fault
    spared: list = field(default_factory=list)  # which of these aren't the first allocation alone
    faults: list = field(default_factory=list)

    def add(self, other):
        self.points += other.points
        self.ended += other.ended
        self.alike += other.alike
        self.spared += other.spared
        self.faults += other.faults


def numbers(count, most):
    """Which allocations of so many are refused: all of them, or as many as there may be, spread from the first to the last."""
    if count <= most:
        return list(range(1, count + 1))
    return sorted({1 + place * (count - 1) // (most - 1) for place in range(most)})


def fault_of(script, ran):
    """What is wrong with a run in which an allocation was refused, or None."""
    if (ran.status, ran.written) == (script.status, script.replies):
        return None
    if ran.status != NO_MEMORY:
        return f"status {ran.status} in place of {NO_MEMORY}"
    if not script.replies.startswith(ran.written):
        return "status 6, and what is written is no front of the replies"
    if len(ran.written) not in script.fronts():
        return f"status 6, and the replies break off within one, behind {len(ran.written)} bytes"
    return None


def tried(library, script, points):
    """The tally of these points: pairs of a mode and a number."""
    tally = Tally()
    for mode, number in points:
        ran = library.run(script.text, alloc=f"{number}{mode}")
        fault = fault_of(script, ran)
        tally.points += 1
        tally.ended += not fault and ran.status == NO_MEMORY
        if not fault and ran.status != NO_MEMORY:
            tally.alike += 1
            if (mode, number) != UNNEEDED:
                tally.spared.append(f"{script.name}: FAULTY_ALLOC={number}{mode}, of {ran.allocations}")
        if fault:
            tally.faults.append(f"{script.name}: FAULTY_ALLOC={number}{mode}: {fault}")
    return tally


def shares(program, file, found, most):
    """The work in shares, and how many allocations each script makes."""
    library = Library(file, program)
    work, counts = [], []
    for place, script in enumerate(found):
        count = library.run(script.text).allocations
        counts.append(count)
        points = [(mode, number) for mode in MODES for number in numbers(count, most)]
        work += [(place, points[start:start + SHARE]) for start in range(0, len(points), SHARE)]
    return work, counts
