"""Contents that are put together of pieces: in memory if they are short, else in a file without a name, which is mapped."""
from __future__ import annotations

import mmap
import resource
import signal
import tempfile
import threading
import zlib
from contextlib import contextmanager
from typing import Iterable, Iterator

from cmsproof.octets import COPIED, Buffer
from cmsproof_tools.containers.refusals import Refused

# no content of a container is longer, however short the container is
LONGEST = 4 << 30
PIECE = 1 << 20
# what a library may take of memory beside some times the file's size: tables can be packed a thousand times
ROOM, LIMIT = 256 << 20, threading.Lock()
# and of the processor's time: so many seconds, and one for so many octets of the file
SECONDS, QUICK = 10.0, 1 << 20


def pieces_of(views: Iterable[memoryview]) -> Iterable[bytes]:
    """The octets of views, in pieces."""
    for view in views:
        for at in range(0, len(view), PIECE):
            yield bytes(view[at : at + PIECE])


def kept(pieces: Iterable[bytes], longest: int = LONGEST) -> Buffer:
    """The octets of the pieces, one behind the other. Raises Refused where they are more than `longest`."""
    length = 0
    with tempfile.SpooledTemporaryFile(COPIED) as file:
        for piece in pieces:
            length += len(piece)
            if length > longest:
                raise Refused("F4", f"more than {longest} octets")
            file.write(piece)
        file.flush()
        if length > COPIED:
            return mmap.mmap(file.fileno(), length, access=mmap.ACCESS_COPY)
        file.seek(0)
        return file.read()


def inflated(packed: memoryview) -> Iterator[bytes]:
    """What deflate packed into these octets (RFC 1951), in pieces. Raises Refused where they do not end with it: a program that
    reads on there sees something else."""
    stream, at = zlib.decompressobj(-zlib.MAX_WBITS), 0
    while not stream.eof:
        part = packed[at : at + PIECE]
        piece = stream.decompress(part, PIECE)
        at += len(part) - len(stream.unconsumed_tail) - len(stream.unused_data)
        if not part and not piece:
            raise Refused("F3", "what is packed is cut")
        yield piece
    if at != len(packed):
        raise Refused("F10", "octets behind what is packed")


@contextmanager
def bounded(size: int, times: int) -> Iterator[None]:
    """Refuses what needs much more memory than so many times the size of the file, and ends the process where it needs much more time,
    which nothing else can end while a library has it. The limits are those of the process, so that one thread at a time has them.
    """
    with LIMIT:
        soft, hard = resource.getrlimit(resource.RLIMIT_AS)
        with open("/proc/self/statm", "rb") as file:
            most = int(file.read().split()[0]) * resource.getpagesize() + ROOM + times * size
        if soft == resource.RLIM_INFINITY or most < soft:
            resource.setrlimit(resource.RLIMIT_AS, (most, hard))
        signal.setitimer(signal.ITIMER_PROF, SECONDS + size / QUICK)
        try:
            yield
        except MemoryError as error:
            raise Refused("F4", "it unpacks to more than is read") from error
        finally:
            signal.setitimer(signal.ITIMER_PROF, 0)
            resource.setrlimit(resource.RLIMIT_AS, (soft, hard))
