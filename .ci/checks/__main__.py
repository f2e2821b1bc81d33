"""Checks lore without proving anything; .ci/test starts it.

    bash .ci/test            compiles the sources without proof, and checks them and the tools
    bash .ci/test PROGRAM    checks this program, which `bash .ci/run` proves and builds, and the tools

Without a program what needs one that answers at once is left out, and the last lines say how much. The last line counts what
passed and what failed. Status 0: nothing failed. 1: something did. 2: a wrong argument. 3: there is no such program, or no trial.
"""
import os
import pathlib
import shutil
import subprocess
import sys
from concurrent.futures import ThreadPoolExecutor

sys.dont_write_bytecode = True

import tools  # noqa: E402
from cases import dump_run, example_runs, odd_argument_runs, script_cases, status_runs  # noqa: E402
from programs import Built, Trial  # noqa: E402
from tally import Tally, differing  # noqa: E402

TOP = pathlib.Path(__file__).resolve().parents[2]
CRATES = TOP / "crates"
OURS = CRATES / "lore" / "out" / "lore"
MOST = 256  # times that a text may be repeated in a script of a trial, which is slow: more often it is in cases at limits
PRINTED = 4_097  # the same in print_cases, whose statements are answered one by one


def small_runs():
    return [*example_runs(TOP / "examples"), dump_run(TOP / "examples"), *status_runs()]


def check_runs(tally, faults):
    for run, fault in faults:
        tally.check(run.name, fault)


def check_trial(tally):
    """The sources, compiled without proof: `lore` once, and beside it the program whose cases are no scripts."""
    print("compiling lore and print_cases, without proof, while the tools are checked: a few minutes", flush=True)
    scripts = script_cases(CRATES / "script_cases")
    runs = [*small_runs(), *(run for run in scripts if run.repeats <= MOST)]
    with ThreadPoolExecutor() as pool:
        lore = pool.submit(lambda: list(Trial(CRATES / "lore").faults(runs)))
        printed = pool.submit(Trial(CRATES / "print_cases").whole, PRINTED)
        tools.all_of_them(tally, TOP, None)
        check_runs(tally, lore.result())
        tally.leave(sum(run.repeats > MOST for run in scripts), "runs of script_cases at limits")
        count, left, fault = printed.result()
        tally.check("print_cases", fault)
        tally.passed += 0 if fault else count - 1
        tally.leave(left, "case of print_cases at a limit" if left == 1 else "cases of print_cases at limits")
    # The one more is bin/lore with a program.
    tally.leave(len(odd_argument_runs()) + len(OUTSIDE) + 1, "checks of arguments and pipes that a trial can't make")
    tally.leave(2, "programs of large scripts (.ci/large.py, .ci/large_counts.py)")


def said(ran):
    return ran.stdout.decode("utf-8", "replace").strip()


def status_of(program, **streams):
    ran = subprocess.run([program], stderr=subprocess.DEVNULL, **streams)
    return ran.returncode


def failing_write(program):
    """What is wrong with the status where nothing can be written."""
    with open("/dev/full", "wb") as full, open(TOP / "examples" / "restaurants.lore", "rb") as script:
        got = status_of(program, stdin=script, stdout=full)
    return None if got == 4 else f"{got} in place of 4"


def failing_read(program):
    """What is wrong with the status where nothing can be read."""
    folder = os.open(TOP, os.O_RDONLY)
    got = status_of(program, stdin=folder, stdout=subprocess.DEVNULL)
    os.close(folder)
    return None if got == 3 else f"{got} in place of 3"


def fault_of(*words):
    """What a command says that fails."""
    ran = subprocess.run(words, stdout=subprocess.PIPE, stderr=subprocess.STDOUT)
    return said(ran) if ran.returncode else None


# What only a program that answers at once can show.
OUTSIDE = (
    ("the status where nothing can be written", failing_write),
    ("the status where nothing can be read", failing_read),
    ("the talk through pipes", lambda program: fault_of(sys.executable, TOP / ".ci" / "talk.py", program)),
    ("the answers of lore and of plain Python to the questions of bench/peers",
     lambda program: fault_of(TOP / "bench" / "peers", "--sizes", "50", "--check", "--program", program)),
    ("a thousand random changes, against plain lists of edges",
     lambda program: fault_of(TOP / "bench" / "edges", "run", program, "1", "20", "50")),
    ("a thousand random changes and questions about moments, against whole copies",
     lambda program: fault_of(TOP / "bench" / "histories", "run", program, "1", "20", "50")),
)


def counted(tally):
    """What questions take with some members and with twice as many, in instructions."""
    if not shutil.which("valgrind"):
        tally.leave(1, "check of counted instructions (.ci/large_counts.py)", "left since valgrind isn't on this machine")
        return []
    return [("counted instructions", lambda program: fault_of(sys.executable, TOP / ".ci" / "large_counts.py", program))]


def started(program):
    """What is wrong with the replies of bin/lore."""
    with open(TOP / "examples" / "restaurants.lore", "rb") as script:
        ran = subprocess.run([TOP / "bin" / "lore"], stdin=script, stdout=subprocess.PIPE, stderr=subprocess.STDOUT)
    return differing(ran.stdout, (TOP / "examples" / "restaurants.out").read_bytes())


def ours(tally, program):
    """What runs the program that stands in this checkout: bin/lore, and the large scripts."""
    if not OURS.exists() or not os.path.samefile(program, OURS):
        tally.leave(2, "checks of bin/lore and of large scripts", "left to the program that this checkout builds")
        return []
    return [("large scripts, and scripts at a limit", lambda program: fault_of(sys.executable, TOP / ".ci" / "large.py", program)),
            ("bin/lore", started)]


def check_program(tally, program):
    """All that is checked with a program. What takes long runs side by side; tests of the tools change what programs are found
    by, so they come when all of that is done."""
    runs = [*small_runs(), *odd_argument_runs(), *script_cases(CRATES / "script_cases")]
    with ThreadPoolExecutor() as pool:
        long = [(name, pool.submit(fault, program)) for name, fault in [*counted(tally), *ours(tally, program), *OUTSIDE]]
        check_runs(tally, Built(program).faults(runs))
        for name, fault in long:
            tally.check(name, fault.result())
    tools.all_of_them(tally, TOP, program)


def main(words):
    if len(words) > 1 or words and words[0].startswith("-"):
        print(__doc__.strip(), file=sys.stderr)
        return 2
    program = os.path.abspath(words[0]) if words else None
    if program and not os.access(program, os.X_OK):
        print(f"test: {words[0]} is no program: 'bash .ci/run' proves lore and leaves crates/lore/out/lore", file=sys.stderr)
        return 3
    os.chdir(TOP)
    tally = Tally()
    try:
        if program:
            check_program(tally, program)
        else:
            check_trial(tally)
    except BrokenPipeError:     # whoever reads what is told went: below that ends it, quietly
        raise
    except (OSError, RuntimeError, ValueError) as error:
        print(f"test: {error}", file=sys.stderr)
        return 3
    if not program:
        print("nothing was proved: this was a trial of the sources; 'bash .ci/run' proves them")
    return tally.tell("checks")


if __name__ == "__main__":
    try:
        sys.exit(main(sys.argv[1:]))
    except KeyboardInterrupt:
        sys.exit(130)
    except BrokenPipeError:
        os.dup2(os.open(os.devnull, os.O_WRONLY), 1)
        sys.exit(1)
