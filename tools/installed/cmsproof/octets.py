"""Octets that the library reads: those of an object, or of a file, which is copied if it is short, and mapped if not."""
from __future__ import annotations

import ctypes
import errno
import fcntl
import mmap
import os
import signal
import stat
from contextlib import contextmanager, nullcontext
from typing import ContextManager, Iterator, NamedTuple, Optional, Union

# objects that have octets
Buffer = Union[bytes, bytearray, memoryview, mmap.mmap]
# a path is a text; octets are octets
Given = Union[Buffer, str, "os.PathLike[str]"]
# What is no longer than this is copied, so that nobody can change it while the library reads it.
COPIED = 64 << 20
# of mmap(2), MAP_NORESERVE, since a file may be longer than the memory, and MAP_FIXED
NO_RESERVE, FIXED = 0x4000, 0x10
FLAGS, WAYS = mmap.MAP_PRIVATE | NO_RESERVE, mmap.PROT_READ | mmap.PROT_WRITE
MMAP = ctypes.CDLL(None, use_errno=True).mmap
MMAP.restype, MMAP.argtypes = ctypes.c_void_p, (ctypes.c_void_p, ctypes.c_size_t, *[ctypes.c_int] * 3, ctypes.c_long)


class Octets(NamedTuple):
    """Where octets are: the object that has them, or their address; and how many they are."""

    at: Union[bytes, int]
    length: int


class Changed(OSError):
    """A file was changed while it was read, or may be so that nobody sees it."""


def times_of(found: os.stat_result) -> tuple[int, int, int]:
    """What tells that a file was changed: its size, and the times when its octets and its entry changed, in nanoseconds."""
    return found.st_size, found.st_mtime_ns, found.st_ctime_ns


def is_held(descriptor: int) -> bool:
    """Whether somebody has a file open to write to it, or mapped: then its times need not tell that it is changed. By a lease (fcntl(2)),
    which is to be had of files of one's own, or with CAP_LEASE, and not of all file systems; False where that is not so."""
    try:
        # (who opens it at this very moment has a signal sent, which does nothing)
        fcntl.fcntl(descriptor, fcntl.F_SETSIG, signal.SIGURG)
        fcntl.fcntl(descriptor, fcntl.F_SETLEASE, fcntl.F_RDLCK)
        fcntl.fcntl(descriptor, fcntl.F_SETLEASE, fcntl.F_UNLCK)
    except OSError as error:
        return error.errno == errno.EAGAIN
    return False


def parts_of(descriptor: int, size: int) -> Iterator[tuple[int, int]]:
    """The parts of a file that are mapped, each from its begin to its end. Holes (lseek(2)) are in none, but where they have no more octets in
    all than what the file has: so the parts are few."""
    begin = end = room = 0
    while end < size:
        try:
            at = os.lseek(descriptor, end, os.SEEK_DATA)
            hole = os.lseek(descriptor, at, os.SEEK_HOLE)
        except OSError as error:
            if error.errno == errno.ENXIO:
                break  # (the rest is a hole)
            at, hole = end, size  # (nobody says where holes are)
        room -= at - end
        if room < 0:
            if end > begin:
                yield begin, end
            # (a page is mapped as a whole)
            begin, room = at - at % mmap.PAGESIZE, room + at - end
        end, room = hole, room + hole - at
    if end > begin:
        yield begin, end


def plain(octets: Buffer) -> bytes:
    """The octets as `bytes`: a class that is made of that may say another length than it has."""
    return octets if type(octets) is bytes else memoryview(octets).tobytes()


def of_bytes(octets: bytes) -> Octets:
    """The octets of an object that lives as long as they are used."""
    own = plain(octets)
    return Octets(own, len(own))


def copied(octets: Octets) -> bytes:
    """The octets as an object of their own. (`ctypes.string_at` takes a length without all but its last 32 bits.)"""
    at, length = octets
    return at if isinstance(at, bytes) else (ctypes.c_char * length).from_address(at).raw


def size_of(buffer: Buffer) -> int:
    """How many octets an object has."""
    with memoryview(buffer) as view:
        return view.nbytes


def in_place(buffer: Union[memoryview, mmap.mmap]) -> bool:
    """Whether octets are used where they are: too many to be copied, and in memory that ctypes takes."""
    with memoryview(buffer) as view:
        return view.nbytes > COPIED and view.contiguous and not view.readonly


@contextmanager
def of_buffer(buffer: Buffer) -> Iterator[Octets]:
    """The octets of an object. A mapped file that is long, or a part of one, is not copied: nobody may write to it meanwhile."""
    if isinstance(buffer, (memoryview, mmap.mmap)) and in_place(buffer):
        held = (ctypes.c_uint8 * size_of(buffer)).from_buffer(buffer)
        try:
            # (by the address alone, so that the pointer does not keep the mapping)
            yield Octets(ctypes.addressof(held), len(held))
        finally:
            del held
    else:
        yield of_bytes(plain(buffer))


class File:
    """A regular file that is open, and its octets: a copy if they are few, which nobody can change.

    found   what was said of it when it was opened
    octets  all of them: `bytes`, or a mapping if they are many, which nothing here writes to
    """

    def __init__(self, descriptor: int, name: str, found: Optional[os.stat_result] = None) -> None:
        """Raises OSError if it is no regular file, cannot be read, or changes while it is. The descriptor is at its beginning, and
        stays open; `found` is what was said of it before, if it was asked."""
        self.descriptor, self.name = descriptor, name
        self.found = os.fstat(descriptor) if found is None else found
        if not stat.S_ISREG(self.found.st_mode):
            raise OSError(f"{name}: no regular file: read its octets and hand them in")
        self.octets: Union[bytes, mmap.mmap] = self.copied() if self.found.st_size <= COPIED else self.mapped()
        self.check_now()

    def copied(self) -> bytes:
        """All octets of a file that is short, and one more if it is longer than it said."""
        first = os.read(self.descriptor, self.found.st_size + 1)
        pieces, left = [first], self.found.st_size - len(first)
        if left == 0:
            return first
        while left > 0 and (piece := os.read(self.descriptor, left + 1)):
            pieces.append(piece)
            left -= len(piece)
        return b"".join(pieces)

    def mapped(self) -> mmap.mmap:
        """The octets of a file that is long. (It is a private mapping, which ctypes takes, although nothing writes to it. Its holes are not mapped,
        and are zeros of the process: in memory's own file system, tmpfs(5), whoever reads what is mapped there fills them.)"""
        octets = mmap.mmap(-1, self.found.st_size, flags=FLAGS | mmap.MAP_ANONYMOUS, prot=WAYS)
        first = ctypes.addressof(ctypes.c_char.from_buffer(octets))
        for begin, end in parts_of(self.descriptor, self.found.st_size):
            if MMAP(first + begin, end - begin, WAYS, FLAGS | FIXED, self.descriptor, begin) != first + begin:
                raise OSError(ctypes.get_errno(), os.strerror(ctypes.get_errno()))
        os.lseek(self.descriptor, 0, os.SEEK_SET)
        return octets

    def check(self) -> None:
        """Raises `Changed` if the octets may be others than they were: those of a copy are not."""
        if isinstance(self.octets, mmap.mmap):
            self.check_now()

    def check_now(self) -> None:
        """Raises `Changed` if the file was changed since it was opened, or is longer or shorter than it said."""
        if times_of(os.fstat(self.descriptor)) != times_of(self.found) or len(self.octets) != self.found.st_size:
            raise Changed(f"{self.name}: it was changed while it was read")
        if isinstance(self.octets, mmap.mmap) and is_held(self.descriptor):
            raise Changed(f"{self.name}: somebody has it open to write to it")

    def close(self) -> None:
        """Ends the mapping, or leaves it to the last one who uses a part of it."""
        if isinstance(self.octets, mmap.mmap):
            try:
                self.octets.close()
            except BufferError:
                pass


class Copy(File):
    """A short file whose octets were read, and that is closed again."""

    def __init__(self, name: str, found: os.stat_result, octets: bytes) -> None:
        self.descriptor, self.name, self.found, self.octets = -1, name, found, octets


@contextmanager
def file_of(descriptor: int, name: str) -> Iterator[File]:
    """The file of a descriptor. Raises `Changed` if it changed while its octets were used."""
    file = File(descriptor, name)
    try:
        yield file
        file.check()
    finally:
        file.close()


@contextmanager
def of_file(path: Union[str, "os.PathLike[str]"]) -> Iterator[Octets]:
    """The octets of a regular file. Raises OSError if it cannot be read or is none, and `Changed` if it changed meanwhile."""
    descriptor = os.open(path, os.O_RDONLY | os.O_CLOEXEC | os.O_NONBLOCK)
    try:
        with file_of(descriptor, str(os.fspath(path))) as file, of_buffer(file.octets) as octets:
            yield octets
    finally:
        os.close(descriptor)


def octets_of(given: Given) -> ContextManager[Octets]:
    """The octets of an object or of the file at a path, for a block."""
    if type(given) is bytes:
        return nullcontext(of_bytes(given))
    if isinstance(given, (bytes, bytearray, memoryview, mmap.mmap)):
        return of_buffer(given)
    if isinstance(given, (str, os.PathLike)):
        return of_file(given)
    raise TypeError(f"octets or a path are needed, and not {type(given).__name__}")


def octets_if_any(given: Optional[Given]) -> ContextManager[Octets]:
    """As `octets_of`; no octets, if none are given."""
    return octets_of(b"" if given is None else given)
