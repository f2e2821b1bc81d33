"""Where the program is: named by the environment variable LORE, else what the gate leaves built beside the tools."""
import os

BUILT = os.path.join(os.path.dirname(os.path.realpath(__file__)), "..", "..", "crates", "lore", "out", "lore")
MISSING = "no program is built: 'bash .ci/run' proves lore and leaves it; or the environment variable LORE names one"


def find():
    """The program's file, None where there is none."""
    path = os.path.abspath(os.environ.get("LORE") or BUILT)
    return path if os.path.isfile(path) and os.access(path, os.X_OK) else None
