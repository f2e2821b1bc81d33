"""What has to hold of each script, none of which needs a second reading of the language.

Each property takes the runner, the printer of statements and the statements of a script, and gives None, or in a line what is
wrong."""
import os
import random
import re
import sys

sys.path.insert(0, os.path.join(os.path.dirname(os.path.abspath(__file__)), ".."))

from faults_lib.scripts import MARK, MARKED, ends_of, replied_of  # noqa: E402
from fuzz_lib.grammar import MODES, Statement, spread  # noqa: E402

PLAN_LINE = re.compile(rb"^plan (auto|top|bottom|guide)$", re.M)
DUMP_BEGINS = b"oem 2\n"
GUIDE_LINE = re.compile(rb"^(.*) (\d+)$")
ASKING = ("select", "explain", "guide", "browse", "sample", "dump", "at", "changes", "blocks", "show")
CHANGING = ("load", "name", "unname", "update", "generate")
ASKED = 30  # paths of a guide that are asked
LEAVES = 60  # a path of a guide with more labels isn't asked


class Slow(Exception):
    """A script took too long, or too much memory: nothing is told of it."""


def text_of(statements):
    return "".join(f"{statement.text()};\n" for statement in statements).encode()


def differing(got, wanted, what):
    """In a line where two texts differ, or None."""
    if got == wanted:
        return None
    got, wanted = got.split(b"\n"), wanted.split(b"\n")
    place = next((at for at, (one, other) in enumerate(zip(got, wanted)) if one != other), min(len(got), len(wanted)))
    one, other = (repr(lines[place])[2:-1][:120] if place < len(lines) else "no more" for lines in (got, wanted))
    return f"{what}: line {place + 1} is {one} in place of {other}"


def ends_well(runner, _printer, statements):
    """A run is done, and its status tells whether something was refused."""
    ran = runner.run(text_of(statements))
    wanted = int(bool(re.search(rb"^refused \d", ran.written, re.M)))
    return None if ran.status == wanted else f"status {ran.status} in place of {wanted}"


def in_pieces(runner, _printer, statements):
    """A run whose reads and writes move one byte each writes the same."""
    text = text_of(statements)
    whole, parts = runner.run(text), runner.run(text, piece=1)
    return differing(parts.written, whole.written, "in pieces of a byte") or (
        None if parts.status == whole.status else f"in pieces of a byte the status is {parts.status}")


def plain(statements):
    """The statements that say the same in each mode of plans: a `restore` sets one, and is left where it comes first."""
    kept = [each for each in statements if each.kind != "explain" and each.tokens[:2] != ["set", "plan"]]
    return kept[:1] + [each for each in kept[1:] if each.kind != "restore"]


def in_modes(runner, _printer, statements):
    """Each mode of plans gives the same replies."""
    kept = plain(statements)
    place = int(bool(kept) and kept[0].kind == "restore")
    found = {}
    for mode in MODES:
        setting = Statement("set", ["set", "plan", mode])
        ran = runner.run(text_of(kept[:place] + [setting] + kept[place:]))
        found[mode] = PLAN_LINE.sub(b"plan", ran.written)
    return next(filter(None, (differing(found[mode], found["top"], f"plan {mode} and plan top") for mode in MODES)), None)


def dumped(runner, text):
    """The dump behind a script."""
    _, begin, rest = runner.run(text + b"dump;").written.rpartition(DUMP_BEGINS)
    return begin + rest if rest.endswith(b"\nend\n") else None


def through_dump(runner, _printer, statements):
    """A dump that is restored is the same dump, and has the same guide."""
    text = text_of(statements)
    dump = dumped(runner, text)
    if dump is None:
        return "there is no dump"
    again = dumped(runner, b"restore " + dump + b";")
    if again != dump:
        return differing(again or b"", dump, "a dump that was restored")
    shown, behind = (runner.run(each + b"dump; guide;").written.rpartition(b"\nend\n")[2] for each in (text, b"restore " + dump + b";"))
    return differing(behind, shown, "the guide of a dump that was restored")


def printed(runner, printer, statements):
    """Statements as they are printed have the same replies, and are printed the same."""
    if printer is None:
        return None
    lines = printer.lines([statement.text() for statement in statements])
    there = [Statement(statement.kind, [line or statement.text()]) for statement, line in zip(statements, lines)]
    if printer.lines([each.text() for each in there]) != lines:
        return "a statement as it is printed is printed otherwise"
    return differing(runner.run(text_of(there)).written, runner.run(text_of(statements)).written, "statements as they are printed")


def guide_of(runner, text):
    """The paths of the guide behind a script, each with its count."""
    written = runner.run(text + MARK + b"guide;").written
    lines = written.rpartition(MARKED)[2].splitlines()[:-1]
    return [(found[1], int(found[2])) for found in map(GUIDE_LINE.match, lines) if found]


def as_guided(runner, _printer, statements):
    """The counts of the guide are those of the rows of selects, of `browse` and of `sample`."""
    text = text_of(statements)
    paths = [(path, count) for path, count in guide_of(runner, text) if path.count(b".") < LEAVES][:ASKED]
    asked = b"".join(b"%s select %s; %s browse %s; sample %s 1;" % (MARK, path, MARK, path, path) for path, _ in paths)
    parts = runner.run(text + asked).written.split(MARKED)[1:]
    for place, (path, count) in enumerate(paths):
        rows, others = parts[2 * place], parts[2 * place + 1]
        if not rows.endswith(b"rows %d\n" % count):
            return f"the guide has {count} for {path.decode()}, and a select of it ends {rows[-30:]!r}"
        if not others.startswith(b"at %s %d\n" % (path, count)) or not others.endswith(b"sample 1 of %d\n" % count):
            return f"the guide has {count} for {path.decode()}, and browse and sample say {others!r}"
    return None


def with_blanks(runner, _printer, statements):
    """Comments and other blanks between tokens change nothing."""
    rng = random.Random(len(statements))
    apart = "".join(spread(rng, each.tokens) + ";" for each in statements).encode()
    return differing(runner.run(apart).written, runner.run(text_of(statements)).written, "with other blanks and comments")


def replies_of(runner, statements):
    """The reply to each statement, or None where they can't be told apart."""
    text = text_of(statements)
    written = runner.run(text).written
    places = replied_of(runner, text, ends_of(text), written)
    if places is None:
        return None
    return [written[start:end] for start, end in zip(places, places[1:])][:len(statements)]


def without(runner, statements, is_left, what):
    """Without some of the statements the others have the same replies."""
    replies = replies_of(runner, statements)
    if replies is None:
        return "replies with statements between them that are refused are others"
    kept = [(each, reply) for each, reply in zip(statements, replies) if not is_left(each, reply)]
    wanted = b"".join(reply for _, reply in kept)
    return differing(runner.run(text_of([each for each, _ in kept])).written, wanted, what)


def without_refused(runner, _printer, statements):
    """Refused statements change nothing."""
    return without(runner, statements, lambda _, reply: reply.startswith(b"refused "), "without what was refused")


def without_asked(runner, _printer, statements):
    """Statements that ask change nothing."""
    return without(runner, statements, lambda each, _: each.kind in ASKING, "without what only asks")


def rows_in(reply):
    """The rows of a reply to a select, or None."""
    lines = reply.splitlines()
    return lines[:-1] if lines and lines[-1].startswith(b"rows ") else None


def in_halves(runner, _printer, statements):
    """What a select finds with a condition and what with its negation are together what it finds without; twice negated is
    the condition itself."""
    for place, each in enumerate(statements):
        if each.kind != "select" or each.where < 0:
            continue
        front, cond = each.tokens[:each.where], each.tokens[each.where + 1:]
        asked = [each.tokens, [*front, "where", "not", "(", *cond, ")"], front,
                 [*front, "where", "not", "(", "not", "(", *cond, ")", ")"]]
        replies = replies_of(runner, statements[:place] + [Statement("select", tokens) for tokens in asked])
        found = [rows_in(reply) for reply in (replies or [])[place:]]
        if len(found) != 4 or None in found:
            continue
        if found[0] != found[3]:
            return f"`{each.text()}` has other rows where its condition is negated twice"
        if not {*found[0], *found[1]} == {*found[2]}:
            return f"`{each.text()}` and its negation don't have the rows that it has without a condition"
    return None


def as_it_was(runner, _printer, statements):
    """What a select answers is what it answers about that moment later on, whatever changes behind it."""
    for place, each in enumerate(statements):
        if each.kind != "select":
            continue
        later = [other for other in statements[place + 1:] if other.kind != "history"]
        asked = [*statements[:place], Statement("history", ["history", "on"]), each, *later,
                 Statement("at", ["at", "0", *each.tokens])]
        replies = replies_of(runner, asked)
        if replies and replies[place + 1] != replies[-1]:
            return f"`{each.text()}` has another answer when it is asked later of that moment"
    return None


def facts_of(dump):
    """The names, objects and edges of a dump, and the numbers of its labels."""
    lines = dump.split(b"\n")
    labels = [line[6:] for line in lines if line.startswith(b"label ")]
    return ({line for line in lines if line.startswith((b"name ", b"object ", b"edge "))},
            {label: number for number, label in enumerate(labels)})


def place_of(fact, labels):
    """Where a fact stands in a dump."""
    kind, _, rest = fact.partition(b" ")
    first, _, rest = rest.partition(b" ")
    if kind == b"name":
        return 0, first
    if kind == b"object":
        return 1, int(first[1:])
    label, _, child = rest.rpartition(b" ")
    return 2, int(first[1:]), labels[label], int(child[1:])


def between(before, after):
    """What `changes` has to say of two moments with these dumps, told by the dumps alone."""
    (old, _), (new, labels) = facts_of(before), facts_of(after)
    signed = [(b"-", fact) for fact in old - new] + [(b"+", fact) for fact in new - old]
    signed.sort(key=lambda each: (*place_of(each[1], labels), each[0] == b"+"))
    return b"".join(b"%s %s\n" % each for each in signed) + b"changes %d\n" % len(signed)


def with_history(statements):
    """The statements with a history that begins behind the first of them, and the place where it does."""
    kept = [each for each in statements if each.kind != "history"]
    place = len(kept) // 3
    return kept[:place] + [Statement("history", ["history", "on"])] + kept[place:], place


def moments_of(runner, statements, place):
    """The dumps of the moments of a history that begins at this place, or None where replies can't be told apart."""
    asked = [each for one in statements for each in (one, Statement("dump", ["dump"]))]
    replies = replies_of(runner, asked)
    if replies is None or not replies[2 * place].startswith(b"ok "):
        return None
    dumps = [replies[2 * place + 1]]
    for at in range(place + 1, len(statements)):
        if statements[at].kind in CHANGING and replies[2 * at].startswith(b"ok "):
            dumps.append(replies[2 * at + 1])
    return dumps


def as_dumped(runner, _printer, statements):
    """What `changes` tells of two moments is what their dumps differ in: each and the next, and each and the last."""
    kept, place = with_history(statements)
    dumps = moments_of(runner, kept, place)
    if dumps is None:
        return None
    last = len(dumps) - 1
    pairs = sorted({(i, j) for i in range(last + 1) for j in (i, min(i + 1, last), last)})
    asked = b"".join(b"%s changes %d %d;" % (MARK, *pair) for pair in pairs)
    told = runner.run(text_of(kept) + asked).written.split(MARKED)[1:]
    for (i, j), reply in zip(pairs, told):
        if reply != between(dumps[i], dumps[j]):
            return differing(reply, between(dumps[i], dumps[j]), f"changes {i} {j} and the dumps of these moments")
    return None if len(told) == len(pairs) else "not all questions about moments are replied to"


def by_blocks(runner, _printer, statements):
    """Selects answer the same by blocks, and selects by blocks the same without them."""
    turned = {"select": lambda each: Statement("blocks", ["blocks", *each.tokens]),
              "blocks": lambda each: Statement("select", each.tokens[1:]) if each.tokens[1:2] == ["select"] else each}
    others = [turned.get(each.kind, lambda it: it)(each) for each in statements]
    return differing(runner.run(text_of(others)).written, runner.run(text_of(statements)).written, "selects by blocks and without")


def as_selected(runner, _printer, statements):
    """Behind each statement a view that is shown answers what its select answers."""
    replies = replies_of(runner, statements)
    if replies is None:
        return "replies with statements between them that are refused are others"
    views, shown, asked = {}, [], []
    for each, reply in zip(statements, replies):
        if each.kind == "watch" and reply.startswith(b"ok "):
            views[each.tokens[1]] = each.tokens[3:]
        elif each.kind == "unwatch" and reply.startswith(b"ok "):
            views.pop(each.tokens[1])
        shown += [each, *(Statement("show", ["show", name]) for name in views)]
        asked += [each, *(Statement("select", tokens) for tokens in views.values())]
    return differing(runner.run(text_of(shown)).written, runner.run(text_of(asked)).written, "views that are shown and their selects")


PROPERTIES = (ends_well, in_pieces, in_modes, through_dump, printed, as_guided, with_blanks, without_refused, without_asked,
              in_halves, as_it_was, as_dumped, by_blocks, as_selected)
