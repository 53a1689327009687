"""The digests of the files of an archive, as `sha256sum` and its kin write them (coreutils), for one time-stamp over all of them.

A file is reached by no link below the archive's folder, and read once, in pieces. What is known of it stays in a database of SQLite, so that
who was stopped reads it again only where it changed.
"""
from __future__ import annotations

import hashlib
import os
import re
import sqlite3
import stat
import time
from contextlib import contextmanager
from typing import Any, Callable, Iterable, Iterator, NamedTuple, Sequence, Union

from cmsproof_tools import descriptors
from cmsproof_tools.evidenced import ENDING
from cmsproof_tools.rows import STEP, mark_of
from cmsproof_tools.running import shown
from cmsproof_tools.state import told

PIECE = 1 << 20
FOLDER = os.O_RDONLY | os.O_DIRECTORY | os.O_NOFOLLOW | os.O_CLOEXEC
REACHING = os.O_PATH | os.O_NOFOLLOW | os.O_CLOEXEC
# how many octets a file has at most that a record can be checked of (docs/LINES.md): one that is nearly all a hole says any number
LONGEST = 1 << 40
# how many octets a name of a file has at most where nobody says it, and a path (limits.h)
LONGEST_NAME, LONGEST_PATH = 255, 4095
# what stands behind the name of a record while the program writes it, the first that no file has; the last is the longest
WRITTEN_AS = tuple(f".new{number}" for number in range(100))
BESIDE = WRITTEN_AS[-1]
# what a name is by which the program writes some record
WRITING = re.compile(r".*\.ers\.new[0-9]{1,2}", re.DOTALL)
TABLE = (
    "CREATE TABLE IF NOT EXISTS sums (name BLOB PRIMARY KEY, mark TEXT NOT NULL, steady INTEGER NOT NULL, algorithm TEXT NOT NULL,"
    " digest BLOB NOT NULL) WITHOUT ROWID"
)
SELECT = "SELECT mark, steady, digest FROM sums"
# after how many files, and seconds, rows are written for good
FILES, SECONDS = 1000, 1.0


class Summed(NamedTuple):
    """A file that was read: what says that it is the same, whether a change from now on changes that, and its digest; or why it was not."""

    mark: str
    steady: bool
    digest: bytes
    fault: str = ""


def reached_below(top: int, name: str) -> int:
    """A descriptor of what has this name below a folder, that is open but not for reading, by no link. Raises OSError."""
    *folders, last = name.split("/")
    at = top
    try:
        for folder in folders:
            below = os.open(folder, FOLDER, dir_fd=at)
            if at != top:
                os.close(at)
            at = below
        return os.open(last, REACHING, dir_fd=at)
    finally:
        if at != top:
            os.close(at)


def summed(top: int, algorithm: str, name: str) -> Summed:
    """Reads the file of this name below a folder. One that is longer by now than when it was opened is not read to its end."""
    begun = time.time_ns()
    try:
        reached = reached_below(top, name)
        try:
            found = os.fstat(reached)
            if not stat.S_ISREG(found.st_mode):
                return Summed("", False, b"", "it is no regular file any more")
            if found.st_size > LONGEST:
                return Summed("", False, b"", f"it has more than {LONGEST} octets, and no record of it could be checked")
            reading = os.open(descriptors.path_of(reached), descriptors.READING)
        finally:
            os.close(reached)
        try:
            hashed, left = hashlib.new(algorithm), found.st_size
            while left > 0 and (piece := os.read(reading, min(PIECE, left))):
                hashed.update(piece)
                left -= len(piece)
            after = os.fstat(reading)
        finally:
            os.close(reading)
    except OSError as error:
        return Summed("", False, b"", f"it cannot be read: {error.strerror}")
    if left or mark_of(found) != mark_of(after):
        return Summed("", False, b"", "it was changed while it was read")
    return Summed(mark_of(found), found.st_ctime_ns + STEP <= begun, hashed.digest())


def seen_below(top: int, name: str) -> Summed:
    """What says that a file below a folder is the same, as `summed`, without its digest; a mark "" of one that is not there, or no regular
    file."""
    begun = time.time_ns()
    try:
        reached = reached_below(top, name)
    except (OSError, ValueError):
        return Summed("", False, b"")
    try:
        found = os.fstat(reached)
    finally:
        os.close(reached)
    is_file = stat.S_ISREG(found.st_mode)
    return Summed(mark_of(found), found.st_ctime_ns + STEP <= begun, b"") if is_file else Summed("", False, b"")


def mark_below(top: int, name: str) -> str:
    """What says that a file below a folder is the same; "" of one that is not there, or no regular file."""
    return seen_below(top, name).mark


class Terms(NamedTuple):
    """By what workers elsewhere read files (handing.py): no list, the versions, the archive's folder, and the digest algorithm."""

    trust: str
    versions: str
    folder: str
    algorithm: str

    @contextmanager
    def task(self, _shared: bytes, _beside: Any) -> Iterator[Callable[[str], Summed]]:
        """What is done for a name."""
        try:
            top = os.open(self.folder, os.O_RDONLY | os.O_DIRECTORY | os.O_CLOEXEC)
        except OSError as error:
            unread = Summed("", False, b"", f"it cannot be read: {error.strerror}")
            yield lambda _: unread
            return
        try:
            yield lambda name: summed(top, self.algorithm, name)
        finally:
            os.close(top)

    def is_said(self, one: Any) -> bool:
        """Whether a worker can say this of a file: a fault, or a digest as long as one."""
        if not isinstance(one, Summed) or not isinstance(one.mark, str) or not isinstance(one.fault, str):
            return False
        return bool(one.fault) or (isinstance(one.digest, bytes) and len(one.digest) == hashlib.new(self.algorithm).digest_size)


def taken_beside(place: str) -> str:
    """Why the program cannot write a record beside its place, "" if it can: whoever may put files there can take all names for it."""
    is_taken = all(os.path.lexists(place + one) for one in WRITTEN_AS)
    return f"all names by which it would be written are taken, up to that with {BESIDE} behind it" if is_taken else ""


def said_taken(places: Iterable[str]) -> str:
    """The first of these places beside which the program cannot write, as the end of a line, "" if there is none."""
    return next((f"; {shown(place)}: {fault}" for place in places if (fault := taken_beside(place))), "")


def line_of(name: str, digest: bytes) -> bytes:
    """The line of a file: a backslash, LF and CR in its name are escapes, and then a backslash begins the line."""
    octets = os.fsencode(name)
    escaped = octets.replace(b"\\", b"\\\\").replace(b"\n", b"\\n").replace(b"\r", b"\\r")
    return (b"\\" if escaped != octets else b"") + digest.hex().encode() + b"  " + escaped + b"\n"


def name_in(line: bytes) -> str:
    """The name in a line that was written here."""
    name = line.partition(b"  ")[2].rstrip(b"\n")
    if line.startswith(b"\\"):
        name = b"\\".join(part.replace(b"\\n", b"\n").replace(b"\\r", b"\r") for part in name.split(b"\\\\"))
    return os.fsdecode(name)


class Names:
    """Which names of files can have records: what is seen of all is few octets."""

    def __init__(self, records: str) -> None:
        """Of records in this folder."""
        self.records, self.folders = os.fsencode(os.path.abspath(records)), set[str]()
        try:
            self.longest = os.pathconf(records, "PC_NAME_MAX")
        except (OSError, ValueError):
            self.longest = LONGEST_NAME

    def fault(self, name: str) -> str:
        """Why a name can have no record, "" if it can."""
        octets, parts = os.fsencode(name), name.split("/")
        try:
            octets.decode("utf-8")
        except UnicodeDecodeError:
            return "its name is not UTF-8"
        if any(len(os.fsencode(part)) > self.longest for part in (*parts[:-1], parts[-1] + ENDING + BESIDE)):
            return f"its name is too long to have {ENDING}{BESIDE} behind it, or that of a folder is"
        if len(self.records) + 1 + len(octets) + len(ENDING + BESIDE) > LONGEST_PATH:
            return "the path of its record would be too long"
        # (folders of such names, a hundred of which are enough, would hinder the record of another file for ever)
        if any(map(WRITING.fullmatch, parts[:-1])):
            return "a folder of it has a name by which a record is written"
        for at, part in enumerate(parts[:-1]):
            if part.endswith(ENDING):
                self.folders.add("/".join(parts[: at + 1]))
        return ""

    def hindered(self, names: Sequence[str]) -> Iterator[tuple[str, str]]:
        """Those of some names whose records would be in a folder that has the place of the record of another one, with that one. All were
        looked at before. (Whoever puts a file beside another one so costs that no record.)"""
        others = {name + ENDING: name for name in names if name + ENDING in self.folders}
        for name in names if others else ():
            at = name.find(ENDING + "/")
            while at >= 0 and name[: at + len(ENDING)] not in others:
                at = name.find(ENDING + "/", at + 1)
            if at >= 0:
                yield name, others[name[: at + len(ENDING)]]


class Sums:
    """The digests that are known, in a database."""

    def __init__(self, path: str, algorithm: str) -> None:
        """Opens it, or makes it. Raises Stop, with a line, where that fails."""
        self.path, self.algorithm, self.next = path, algorithm, time.monotonic() + SECONDS
        self.pending: list[tuple[object, ...]] = []
        with told(path):
            self.database = sqlite3.connect(path, timeout=60, isolation_level=None)
            self.database.execute("PRAGMA trusted_schema = OFF")
            self.database.execute("PRAGMA journal_mode = WAL")
            self.database.execute(TABLE)

    def __enter__(self) -> Sums:
        return self

    def __exit__(self, *_: object) -> None:
        with told(self.path):
            self.commit()
            self.database.close()

    def commit(self) -> None:
        """Writes for good what was put."""
        if self.pending:
            self.database.execute("BEGIN IMMEDIATE")
            self.database.executemany("INSERT OR REPLACE INTO sums VALUES (?, ?, ?, ?, ?)", self.pending)
            self.database.execute("COMMIT")
            self.pending = []
        self.next = time.monotonic() + SECONDS

    def put(self, name: str, one: Summed) -> None:
        """Keeps the digest of a file."""
        self.pending.append((os.fsencode(name), one.mark, int(one.steady), self.algorithm, one.digest))
        if len(self.pending) >= FILES or time.monotonic() >= self.next:
            with told(self.path):
                self.commit()

    def of_file(self, name: str) -> Union[Summed, None]:
        """What is kept of a file by the algorithm, if it is of the form that was put."""
        with told(self.path):
            words = os.fsencode(name), self.algorithm
            row = self.database.execute(f"{SELECT} WHERE name = ? AND algorithm = ?", words).fetchone()
        if row is None or type(row[0]) is not str or type(row[2]) is not bytes:
            return None
        is_whole = len(row[2]) == hashlib.new(self.algorithm).digest_size
        return Summed(row[0], bool(row[1]), row[2]) if is_whole else None

    def due(self, top: int, names: Sequence[str]) -> list[str]:
        """The names of the files that must be read, since nothing says that they are as they were."""
        found = []
        for name in names:
            kept = self.of_file(name)
            if kept is None or not kept.steady or kept.mark != mark_below(top, name):
                found.append(name)
        return found
