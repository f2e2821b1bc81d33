"""A session that goes on where memory was refused: a test of the crate session_tests, with each allocation refused in turn.

The test executes statements and keeps the dump before each. Where memory is refused to one it compares the dump with that before,
executes the statement again, and looks at the last dump whether all was right."""
import os

from faults_lib.library import UNSEEN, Library, Trouble
from faults_lib.memory import Tally

TEST = "kept::a_session_goes_on_where_memory_was_refused"
PASSED = b"test result: ok\n"


def passes(ran):
    return ran.status == 0 and ran.written.endswith(PASSED)


def tried(tests, file):
    """The tally of all points. What is allocated before the test begins isn't refused."""
    if not os.access(tests, os.X_OK):
        raise Trouble(f"{tests} is no program: 'rt test' in crates/session_tests proves and builds it")
    library = Library(file, tests)
    sound = library.run(b"", (TEST,))
    if not sound.allocations:
        raise Trouble(f"{tests} {UNSEEN}")
    before = library.run(b"", ("no_test_has_this_name",)).allocations
    if not passes(sound):
        raise Trouble(f"{tests} doesn't pass {TEST} where nothing is refused")
    tally = Tally()
    for number in range(before + 1, sound.allocations + 1):
        ran = library.run(b"", (TEST,), alloc=number)
        tally.points += 1
        tally.alike += passes(ran)
        if not passes(ran):
            tally.faults.append(f"FAULTY_ALLOC={number}: the test ends with status {ran.status}")
    return tally
