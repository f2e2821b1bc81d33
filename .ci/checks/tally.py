"""How many checks passed and failed, and how many were not made, and why."""
import sys
from dataclasses import dataclass, field


@dataclass
class Tally:
    passed: int = 0
    failed: int = 0
    left: dict = field(default_factory=dict)

    def check(self, name, fault):
        """A check that passed where there is no fault. A fault is told at once."""
        if fault:
            self.failed += 1
            print(f"{name}: {fault}", flush=True)
        else:
            self.passed += 1

    def leave(self, count, what, why="left to the proved program"):
        """So many checks that were not made."""
        if count:
            self.left.setdefault(why, []).append(f"{count} {what}")

    def tell(self, word):
        """Says what was left, and last of all the counts."""
        for why, what in self.left.items():
            print(f"{why}: {', '.join(what)}")
        print(f"{word}: {self.passed} passed, {self.failed} failed")
        sys.stdout.flush()
        return 1 if self.failed else 0


def differing(got, wanted, what="written"):
    """Where two texts of bytes differ first, or None."""
    if got == wanted:
        return None
    got, wanted = got.split(b"\n"), wanted.split(b"\n")
    place = next((at for at, (one, other) in enumerate(zip(got, wanted)) if one != other), min(len(got), len(wanted)))
    one, other = (shown(lines[place]) if place < len(lines) else "no more" for lines in (got, wanted))
    return f"line {place + 1} {what} is {one} in place of {other}"


def shown(line):
    text = line.decode("utf-8", "replace")
    return repr(text if len(text) <= 120 else text[:120] + " ..")
