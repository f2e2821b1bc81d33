"""How a tool runs: faults become one line on standard error and a status, a closed pipe ends it quietly, and what it reads
is bounded. (That an interrupt ends it is said at the top of each tool, before all else.)"""
import argparse
import os
import signal
import sys


class Fault(Exception):
    """Why nothing is written, with the status that a tool ends with."""

    def __init__(self, status, text):
        super().__init__(text)
        self.status = status


class Words(argparse.ArgumentParser):
    """The words of a command line: what is wrong with them is a fault of status 2, and help is the tool's own text."""

    def __init__(self, usage):
        super().__init__(add_help=False, allow_abbrev=False)
        self.usage_line = usage

    def error(self, message):
        raise Fault(2, f"{message}\nusage: {self.usage_line}")


def run(tool, text, work):
    """Ends the process with the status of `work(words)`. Help is the text of the tool. A closed pipe ends it by its signal."""
    signal.signal(signal.SIGPIPE, signal.SIG_DFL)
    words = sys.argv[1:]
    if words in (["-h"], ["--help"]):
        work, text = written, text.rstrip() + "\n"
        words = text.encode()
    try:
        sys.exit(work(words) or 0)
    except Fault as fault:
        tell(tool, fault)
        sys.exit(fault.status)
    except OSError as error:
        tell(tool, error.strerror or error)
    except UnicodeEncodeError:
        tell(tool, "a word has bytes that are no UTF-8")
    except MemoryError:
        tell(tool, "memory was refused")
    sys.exit(1)


def tell(tool, text):
    """One line on standard error, where there is one."""
    try:
        os.write(2, f"{tool}: {text}\n".encode("utf-8", "backslashreplace"))
    except OSError:
        pass


def written(data):
    """Writes bytes to standard output."""
    with open(1, "wb", closefd=False) as out:
        out.write(data)


class Input:
    """What may still be read: files one after another, and no more than so many bytes in all."""

    def __init__(self, most):
        self.most = most
        self.left = most

    def read(self, file):
        """All bytes of a file, or of standard input where it is None."""
        source = source_of(file)
        if file is None and os.isatty(0):
            tell(os.path.basename(sys.argv[0]), "reading standard input, until Ctrl-D")
        try:
            with open(0 if file is None else file, "rb", closefd=file is not None) as opened:
                data = opened.read(self.left + 1)
        except OSError as error:
            raise Fault(1, f"{source}: {error.strerror}")
        self.left -= len(data)
        if self.left < 0:
            raise Fault(1, f"{source}: there are more than {self.most} bytes to read in all")
        return data


def source_of(file):
    """A file as messages call it."""
    return "standard input" if file is None else file
