"""Descriptors: what a user names is opened once, by the tool, and the program gets it by a descriptor that no word can name."""
from __future__ import annotations

import errno
import fcntl
import os
import stat
from typing import Iterator

PIECE = 1 << 20
SEALS = fcntl.F_SEAL_SEAL | fcntl.F_SEAL_SHRINK | fcntl.F_SEAL_GROW | fcntl.F_SEAL_WRITE
# MFD_NOEXEC_SEAL, which Linux knows from 6.3 on and can be told to insist on (memfd_create(2))
NOEXEC = 8
# what is open for reading but holds nothing, and what never ends, are told apart by their number
NULL_DEVICE = os.makedev(1, 3)


# where a process has its own descriptors; how a file is reached that is not opened for reading yet, and how it is then
OWN = "/proc/self/fd/"
REACHING, READING = os.O_PATH | os.O_CLOEXEC, os.O_RDONLY | os.O_CLOEXEC
# how a file is opened that was a regular one a moment before: so that nothing waits for whatever is there now
AT_ONCE = READING | os.O_NONBLOCK | os.O_NOCTTY
STANDARD = ("stdin", "stdout", "stderr")
# how many digits the number of a descriptor has at most, which is an `int` of C; Python makes no number of very many
MOST_DIGITS = 10
# the copies that were made, by the number of the descriptor: what is named twice is the same
COPIES: dict[int, int] = {}
# the numbers of those of which nothing is left, for they were read to their end and not kept
EMPTIED: set[int] = set()


class Unfit(Exception):
    """A file that is opened by its name and is none of those that the program is given. Its text says why."""


def stand() -> None:
    """Opens those of the three standard descriptors that are closed, before a file can get their numbers.

    What is written to standard error is lost then. Each use of the other two fails: standard input cannot be read, and
    standard output cannot be written.
    """
    for number, way in enumerate((os.O_WRONLY, os.O_RDONLY, os.O_WRONLY)):
        try:
            fcntl.fcntl(number, fcntl.F_GETFD)
        except OSError:
            os.set_inheritable(os.open(os.devnull, way), True)


def inherited() -> frozenset[int]:
    """The descriptors that are open. Called before the tool opens any, they are those that a user can mean by a number."""
    found = set()
    for number in map(int, os.listdir("/proc/self/fd")):
        try:
            fcntl.fcntl(number, fcntl.F_GETFD)
            found.add(number)
        except OSError:
            pass  # the one by which the folder was listed
    return frozenset(found)


def written(descriptor: int, octets: bytes) -> None:
    """Writes all octets."""
    rest = memoryview(octets)
    while rest:
        rest = rest[os.write(descriptor, rest) :]


def sealed(octets: bytes) -> int:
    """A descriptor of these octets, which nobody can change any more: a file without a name, in memory."""
    ways = os.MFD_CLOEXEC | os.MFD_ALLOW_SEALING
    try:
        descriptor = os.memfd_create("cmsproof", ways | NOEXEC)
    except OSError as error:
        if error.errno != errno.EINVAL:
            raise
        descriptor = os.memfd_create("cmsproof", ways)
    written(descriptor, octets)
    fcntl.fcntl(descriptor, fcntl.F_ADD_SEALS, SEALS)
    return descriptor


def pieces_of(descriptor: int) -> Iterator[bytes]:
    """What a descriptor still has to give, in pieces."""
    while piece := os.read(descriptor, PIECE):
        yield piece


def kept(descriptor: int) -> int:
    """A descriptor of a copy of what this one still has to give: a file without a name, in the folder for such files."""
    import tempfile

    with tempfile.TemporaryFile(buffering=0) as file:
        for piece in pieces_of(descriptor):
            written(file.fileno(), piece)
        return os.dup(file.fileno())


def path_of(descriptor: int | str) -> str:
    """The path by which a process that has this descriptor opens the same file, from its beginning."""
    return f"{OWN}{descriptor}"


def number_named(path: str) -> int | None:
    """The number of the own descriptor that this path names, or None."""
    folder, name = os.path.split(path)
    if name not in STANDARD and not (name.isdecimal() and len(name) <= MOST_DIGITS):
        return None
    own, folder = os.getpid(), os.path.realpath(folder)
    if folder == "/dev" and name in STANDARD:
        return STANDARD.index(name)
    if name.isdecimal() and name == str(int(name)) and folder in (f"/proc/{own}/fd", f"/proc/{own}/task/{own}/fd"):
        return int(name)
    return None


def is_fit(mode: int, device: int) -> bool:
    """Whether the program is given such a file: a regular file, a folder, of which it says that it can't be read, or the device
    that is always empty."""
    return stat.S_ISREG(mode) or stat.S_ISDIR(mode) or (stat.S_ISCHR(mode) and device == NULL_DEVICE)


def reached_as(path: str) -> tuple[int, os.stat_result]:
    """A descriptor of the file of this name, not opened for reading yet, so that nothing waits for a pipe's other end; and what is said
    of the file."""
    descriptor = os.open(path, REACHING)
    found = os.fstat(descriptor)
    if is_fit(found.st_mode, found.st_rdev):
        return descriptor, found
    os.close(descriptor)
    raise Unfit("it is no regular file")


def reached(path: str) -> int:
    """As `reached_as`, the descriptor alone."""
    return reached_as(path)[0]


def copied(path: str, most: int) -> tuple[os.stat_result, bytes] | None:
    """What is said of the regular file of this name, and all its octets, if they are at most so many; None of any other, and of one that
    is changed meanwhile. Nothing else is opened: what takes the file's place in between is not waited for, and is seen by its number.
    (This is called for each file of an archive, and calls as little as it can.)"""
    was = os.stat(path)
    size = was.st_size
    if size > most or not stat.S_ISREG(was.st_mode):
        return None
    reading = os.open(path, AT_ONCE)
    try:
        octets = os.read(reading, size + 1)
        found = os.fstat(reading)
    finally:
        os.close(reading)
    # (the first seven are mode, number, device, links, owner, group and size)
    is_same = len(octets) == size and found[:7] == was[:7]
    if is_same and found.st_mtime_ns == was.st_mtime_ns and found.st_ctime_ns == was.st_ctime_ns:
        return found, octets
    return None


def taken(path: str, own: frozenset[int]) -> int:
    """As `reached`, also if the path names a descriptor: one of `own`, which are those that the tool was started with. What is
    no regular file is read to its end then, and kept."""
    number = number_named(path)
    if number is None:
        return reached(path)
    if number not in own:
        raise OSError(errno.ENOENT, os.strerror(errno.ENOENT))
    try:
        return reached(path_of(number))
    except Unfit:
        pass
    if number in EMPTIED:
        raise Unfit("it is named twice, and can be read once")
    try:
        if number not in COPIES:
            COPIES[number] = kept(number)
        return os.dup(COPIES[number])
    except OSError as error:
        raise Unfit(f"it cannot be read and kept: {error.strerror}") from error


def contents(path: str, own: frozenset[int]) -> bytes:
    """All octets of a file that is named so, whatever it is but a pipe with a name."""
    descriptor = taken(path, own)
    try:
        reading = os.open(path_of(descriptor), os.O_RDONLY | os.O_CLOEXEC)
    finally:
        os.close(descriptor)
    try:
        return b"".join(pieces_of(reading))
    finally:
        os.close(reading)
