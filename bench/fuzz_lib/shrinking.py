"""Makes a script smaller for as long as something is wrong with it: without statements, and without tokens of a statement."""
import time

from fuzz_lib.grammar import Statement
from fuzz_lib.properties import Slow

SECONDS = 60


def without(items, start, count):
    return items[:start] + items[start + count:]


def smaller(items, still, until):
    """The items with as many left out as may be, in runs that get shorter."""
    count = max(1, len(items) // 2)
    while time.monotonic() < until:
        place, found = 0, False
        while place < len(items) and time.monotonic() < until:
            rest = without(items, place, count)
            if still(rest):
                items, found = rest, True
            else:
                place += count
        if count == 1 and not found:
            break
        count = max(1, count // 2)
    return items


def reset(tokens):
    """The statement that has these tokens."""
    return Statement(tokens[0] if tokens else "", tokens, tokens.index("where") if tokens.count("where") == 1 else -1)


def shrunk(statements, wrong):
    """A script of which the same is wrong. `wrong` tells what is wrong with statements, or None."""
    def still(kept):
        try:
            return bool(kept) and wrong(kept) is not None
        except Slow:
            return False

    until = time.monotonic() + SECONDS
    statements = smaller(statements, still, until)
    for place in range(len(statements)):
        def still_here(tokens, place=place):
            return bool(tokens) and still(statements[:place] + [reset(tokens)] + statements[place + 1:])

        statements = statements[:place] + [reset(smaller(statements[place].tokens, still_here, until))] + statements[place + 1:]
    return statements
