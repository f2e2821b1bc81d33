"""Keeps a file whole: new content is written aside, brought to the disk, and renamed to the file's name in one step.

What a session read or wrote last is remembered by its digest. A file whose content is another one is not written over. While
that is looked at and renamed, the folder is locked against other sessions.
"""
import contextlib
import fcntl
import hashlib
import os
import stat
import tempfile
from dataclasses import dataclass

from lore_lib.tool import Fault


ENDING = ".new"


@dataclass(frozen=True)
class Saved:
    """A file that was saved: the digest of its content, what was lost of its owner, and why it isn't sure to last. The last
    two are None where all is well."""
    digest: str
    owner: str
    unsure: str


@dataclass
class KeptFile:
    """The file that a database is kept in: its path and what a person calls it, both None where there is none; the digest of
    what was read or written last; and whether the database was changed since."""
    path: str = None
    called: str = None
    known: str = None
    changed: bool = False

    def opened(self, called, data):
        """The file with this content was opened."""
        self.path, self.called, self.known, self.changed = os.path.realpath(called), called, digest(data), False

    def save(self, called, data, over):
        """Saves to a file, which is the one that it is kept in from then on."""
        path = os.path.realpath(called)
        saved = save(path, data, self.known if path == self.path else None, over)
        self.path, self.called, self.known, self.changed = path, called, saved.digest, False
        return saved


def digest(data):
    """What content is remembered by."""
    return hashlib.sha256(data).hexdigest()


@contextlib.contextmanager
def opened_regular(path):
    """A regular file, open for reading. Nothing else is waited for, such as a pipe without a writer."""
    there = os.open(path, os.O_RDONLY | os.O_NONBLOCK | os.O_NOCTTY)
    try:
        if not stat.S_ISREG(os.fstat(there).st_mode):
            raise Fault(1, f"{path}: this is no file")
        with open(there, "rb", closefd=False) as opened:
            yield opened
    finally:
        os.close(there)


def content(path, most):
    """The bytes of a regular file."""
    try:
        with opened_regular(path) as opened:
            data = opened.read(most + 1)
    except OSError as error:
        raise Fault(1, f"{path}: {error.strerror}")
    if len(data) > most:
        raise Fault(1, f"{path}: there are more than {most:,} bytes")
    return data


@contextlib.contextmanager
def locked(folder):
    """The folder, open, and whether it is locked: not every file system has such locks."""
    there = os.open(folder, os.O_RDONLY | os.O_DIRECTORY)
    try:
        try:
            fcntl.flock(there, fcntl.LOCK_EX)
            held = True
        except OSError:
            held = False
        yield there, held
    finally:
        os.close(there)


def unlike(path, known):
    """Why the file isn't what was read or written last, None where it is. `known` is None where it wasn't there."""
    try:
        with opened_regular(path) as opened:
            seen = hashlib.sha256()
            while block := opened.read(1 << 20):
                seen.update(block)
    except FileNotFoundError:
        return None
    if known is None:
        return "it is there already, and this session neither opened nor saved it"
    return None if seen.hexdigest() == known else "another session changed it"


def aside_begin(path):
    """How the names of the files begin that are written aside for this one."""
    return f".lore-{hashlib.sha256(os.fsencode(os.path.basename(path))).hexdigest()[:16]}-"


def remove_left(folder, begin):
    """Removes what was written aside for a file and never renamed, since its session was killed. The folder is locked."""
    for name in os.listdir(folder):
        if name.startswith(begin) and name.endswith(ENDING):
            with contextlib.suppress(OSError):
                os.unlink(os.path.join(folder, name))


def usual_mode():
    """The mode of a new file."""
    usual = os.umask(0o077)
    os.umask(usual)
    return 0o666 & ~usual


def keep_owner(there, old):
    """Gives an open file the owner and group of the old one; what is to be told where that is refused."""
    new = os.fstat(there)
    if (new.st_uid, new.st_gid) == (old.st_uid, old.st_gid):
        return None
    try:
        os.fchown(there, old.st_uid, old.st_gid)
    except OSError as error:
        with contextlib.suppress(OSError):
            os.fchown(there, -1, old.st_gid)
        return f"its owner was {old.st_uid} with group {old.st_gid}, which couldn't be kept: {error.strerror}"
    return None


def write_aside(path, data):
    """A new file beside this one with this content, its mode and its owner, brought to the disk: where it stands, and what is
    to be told."""
    try:
        old = os.stat(path)
    except FileNotFoundError:
        old = None
    there, aside = tempfile.mkstemp(ENDING, aside_begin(path), os.path.dirname(path))
    try:
        with open(there, "wb") as opened:
            opened.write(data)
            opened.flush()
            told = keep_owner(there, old) if old else None
            os.fchmod(there, stat.S_IMODE(old.st_mode) if old else usual_mode())
            os.fsync(there)
    except BaseException:
        with contextlib.suppress(OSError):
            os.unlink(aside)
        raise
    return aside, told


def rename(aside, path, before_renaming):
    """Puts what was written aside in the file's place."""
    try:
        before_renaming()
        os.replace(aside, path)
    except BaseException:
        with contextlib.suppress(OSError):
            os.unlink(aside)
        raise


def save(path, data, known, over=False, before_renaming=lambda: None):
    """Writes a file anew, and over one that is unlike what is known only where `over` says so."""
    path = os.path.realpath(path)
    folder = os.path.dirname(path)
    try:
        with locked(folder) as (there, held):
            why = unlike(path, known)
            if why and not over:
                raise Fault(1, f"{path}: {why}; it stays as it is, and `.save! {path}` writes over it")
            if held:
                remove_left(folder, aside_begin(path))
            aside, told = write_aside(path, data)
            rename(aside, path, before_renaming)
            return Saved(digest(data), told, unsure(there))
    except OSError as error:
        raise Fault(1, f"{path}: {error.strerror}; what stood there stays as it was")


def unsure(folder):
    """Why it isn't sure that a renaming outlasts a loss of power, None where it is."""
    try:
        os.fsync(folder)
    except OSError as error:
        return f"the new content stands there, but it may not outlast a loss of power: {error.strerror}"
    return None
