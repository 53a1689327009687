"""How files are written that a user named: beside their place, and put there once all octets are on the disk. So a full disk or a
kill costs nothing that was there."""
from __future__ import annotations

import errno
import os
import stat
from contextlib import contextmanager, suppress
from typing import IO, TYPE_CHECKING, Iterator

from cmsproof_tools import descriptors

if TYPE_CHECKING:
    from cmsproof.octets import Buffer

# what is written at once, and what is kept in memory before it goes to a pipe or a device
PIECE, KEPT = 1 << 20, 64 << 20
WAYS = os.O_WRONLY | os.O_CLOEXEC | os.O_NOCTTY
# who may read, write and run a file, among its permissions
ACCESS = 0o777
# what of its name the file beside has, in octets: its own may have as many as a name can
NAMED = 200
# what a folder says that can have no file without a name (open(2), O_TMPFILE)
NAMELESS = (errno.EOPNOTSUPP, errno.EISDIR, errno.ENOENT, errno.EINVAL)


def put(descriptor: int, octets: bytes | memoryview) -> None:
    """Writes the octets to a descriptor, and waits where it is one that does not."""
    rest = memoryview(octets)
    while rest:
        try:
            rest = rest[os.write(descriptor, rest) :]
        except BlockingIOError:
            import select

            select.select([], [descriptor], [])


def mask() -> int:
    """The mask of new files' permissions."""
    found = os.umask(0o077)
    os.umask(found)
    return found


def reached(path: str, own: frozenset[int]) -> int | None:
    """A descriptor for writing of what is there, where nothing is truncated yet; None where nothing is. A path of a descriptor names
    one of `own`, those that the tool was started with; a link that leads nowhere makes the file that it names."""
    number = descriptors.number_named(path)
    if number is not None:
        if number not in own:
            raise OSError(errno.ENOENT, os.strerror(errno.ENOENT))
        return os.dup(number)
    try:
        return os.open(path, WAYS)
    except FileNotFoundError:
        return os.open(path, WAYS | os.O_CREAT, 0o666) if os.path.islink(path) else None


def straight(path: str, descriptor: int) -> int | None:
    """The descriptor to which octets go as they are, where this one of a path is of no regular file, or was named as a descriptor. So
    they do to standard output and standard error where the path is that of their file: their lines would be lost with it."""
    found = os.fstat(descriptor)
    if not stat.S_ISREG(found.st_mode) or descriptors.number_named(path) is not None:
        return descriptor
    return next((number for number in (1, 2) if os.path.samestat(found, os.fstat(number))), None)


def keep_access(descriptor: int, old: os.stat_result | None) -> None:
    """Gives a new file the permissions of the one that it replaces, or those of any new file. Where the old group cannot be kept, the
    new one may do no more than others."""
    if old is None:
        os.fchmod(descriptor, 0o666 & ~mask())
        return
    mode, new = old.st_mode & ACCESS, os.fstat(descriptor)
    if (new.st_uid, new.st_gid) != (old.st_uid, old.st_gid):
        try:
            os.fchown(descriptor, old.st_uid, old.st_gid)
        except OSError:
            mode &= ~0o070 | (mode & 0o007) << 3
    os.fchmod(descriptor, mode)


def beside(path: str, old: os.stat_result | None) -> tuple[int, str]:
    """A new file beside the one of this path, which can be `old`: its descriptor and its name."""
    import tempfile

    folder, name = os.path.split(path)
    prefix = f".{os.fsdecode(os.fsencode(name)[:NAMED])}."
    try:
        descriptor, new = tempfile.mkstemp(dir=folder or ".", prefix=prefix)
    except OSError as error:
        if old is None:
            raise
        raise OSError(error.errno, f"no file can be made beside it, and it stays as it is: {error.strerror}") from error
    return descriptor, new


def place_of(path: str, old: os.stat_result | None) -> str:
    """The path of a file by no link, so that the file is replaced and not the link. Raises OSError if it is not the old one any
    more."""
    place = os.path.realpath(path) if os.path.islink(path) else path
    if old is not None and not os.path.samestat(old, os.lstat(place)):
        raise OSError(errno.ESTALE, "it was changed meanwhile")
    return place


@contextmanager
def replacing(path: str, old: os.stat_result | None) -> Iterator[IO[bytes]]:
    """A file whose octets come to stand at this path at the end of the block; at an error what was there stays."""
    place = place_of(path, old)
    descriptor, new = beside(place, old)
    try:
        with open(descriptor, "wb") as file:
            keep_access(descriptor, old)
            yield file
            file.flush()
            os.fsync(descriptor)
        os.replace(new, place)
    except BaseException:
        with suppress(OSError):
            os.unlink(new)
        raise


@contextmanager
def written(path: str, own: frozenset[int]) -> Iterator[IO[bytes]]:
    """A file to write into, whose octets are those of the file of this name once the block ends: all of them, or what was there.
    To what is no regular file, as a pipe or a device, they go when the block ends. Raises OSError."""
    import tempfile

    descriptor = reached(path, own)
    try:
        to = None if descriptor is None else straight(path, descriptor)
        if to is None:
            with replacing(path, None if descriptor is None else os.fstat(descriptor)) as file:
                yield file
            return
        with tempfile.SpooledTemporaryFile(KEPT) as kept:
            yield kept
            kept.seek(0)
            while piece := kept.read(PIECE):
                put(to, piece)
    finally:
        if descriptor is not None:
            os.close(descriptor)


def add(path: str, own: frozenset[int], octets: bytes) -> None:
    """Adds octets to the end of a file, which is made if it is not there; to what a path names that is a descriptor of `own`, or the file
    of standard output or standard error, they go as all other lines do, so that neither is written over. Raises OSError."""
    number = descriptors.number_named(path)
    if number is not None and number not in own:
        raise OSError(errno.ENOENT, os.strerror(errno.ENOENT))
    descriptor = os.dup(number) if number is not None else os.open(path, WAYS | os.O_CREAT | os.O_APPEND, 0o666)
    try:
        to = straight(path, descriptor)
        put(descriptor if to is None else to, octets)
    finally:
        os.close(descriptor)


def put_new(path: str, octets: Buffer) -> None:
    """Writes a file that is not there yet, whole or not at all: it has a name only once all octets are on the disk, where the file
    system has files without one. Raises OSError with the path."""
    folder, name = os.path.split(path)
    try:
        at = os.open(folder or ".", os.O_RDONLY | os.O_DIRECTORY | os.O_CLOEXEC)
        try:
            put_in(at, name, octets)
        finally:
            os.close(at)
    except OSError as error:
        raise OSError(error.errno, error.strerror, path) from error


def put_in(at: int, name: str, octets: Buffer) -> None:
    """As `put_new`, in the folder with this descriptor, wherever its name leads by now."""
    new = ""
    try:
        descriptor = os.open(".", os.O_TMPFILE | WAYS, 0o666, dir_fd=at)
    except OSError as error:
        if error.errno not in NAMELESS:
            raise
        descriptor, new = beside(os.path.join(descriptors.path_of(at), name), None)
        os.fchmod(descriptor, 0o666 & ~mask())
    try:
        with memoryview(octets) as view:
            put(descriptor, view)
        os.fsync(descriptor)
        # (with a folder's descriptor the link that /proc has of a descriptor is followed)
        os.link(new or descriptors.path_of(descriptor), name, dst_dir_fd=at)
    finally:
        os.close(descriptor)
        if new:
            os.unlink(new)
