"""Reads and writes that fail or fall short, over all worked scripts: each of the first eight, and the last."""
import errno

from faults_lib.memory import Tally

READ_FAULT, WRITE_FAULT = 3, 4
READ_ERRORS = (errno.EIO, errno.EINTR, errno.EAGAIN)
WRITE_ERRORS = (errno.ENOSPC, errno.EPIPE, errno.EIO, errno.EINTR, errno.EAGAIN, 0)
FIRST = 8
PIECES = (1, 13, 4_096)


def numbers(count):
    """Which of so many calls fail."""
    return sorted({*range(1, min(FIRST, count) + 1), count} - {0})


def replied_behind(script, taken):
    """The replies to the statements that end within so many bytes."""
    return script.replies[:script.replied[sum(end <= taken for end in script.ends)]]


def read_fault(script, ran, number, piece):
    """What is wrong with a run whose read of this number failed, or None."""
    if ran.status != READ_FAULT:
        return f"status {ran.status} in place of {READ_FAULT}"
    if ran.written != replied_behind(script, piece * (number - 1)):
        return "the replies aren't those to the statements that were read"
    return None


def write_fault(script, ran):
    """What is wrong with a run in which a write failed, or None: in front of it all that was written has to stand."""
    if ran.status != WRITE_FAULT:
        return f"status {ran.status} in place of {WRITE_FAULT}"
    if not script.replies.startswith(ran.written) or ran.written == script.replies:
        return "what is written is no front of the replies"
    return None


def points_of(library, script):
    """The faults of a script that are tried: the settings of the library, and what tells whether a run is right."""
    for piece in PIECES:
        sound = library.run(script.text, piece=piece)
        yield {"piece": piece}, lambda ran: None if (ran.status, ran.written) == (script.status, script.replies) else "it differs"
        for place, number in enumerate(numbers(sound.reads)):
            error = READ_ERRORS[place % len(READ_ERRORS)]
            yield ({"piece": piece, "read": f"{number}:{error}"},
                   lambda ran, number=number, piece=piece: read_fault(script, ran, number, piece))
        for place, number in enumerate(numbers(sound.writes)):
            error = WRITE_ERRORS[place % len(WRITE_ERRORS)]
            yield {"piece": piece, "write": f"{number}:{error}"}, lambda ran: write_fault(script, ran)


def tried(library, script):
    """The tally of all faults of a script."""
    tally = Tally()
    for settings, told in points_of(library, script):
        ran = library.run(script.text, **settings)
        fault = told(ran)
        tally.points += 1
        tally.ended += not fault and ran.status in (READ_FAULT, WRITE_FAULT)
        tally.alike += not fault and ran.status not in (READ_FAULT, WRITE_FAULT)
        if fault:
            told_by = " ".join(f"FAULTY_{name.upper()}={value}" for name, value in settings.items())
            tally.faults.append(f"{script.name}: {told_by}: {fault}")
    return tally
