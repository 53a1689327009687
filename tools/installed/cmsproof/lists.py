"""Lists that the library reads once and holds: trust lists, for any number of calls, and answers, for one."""
from __future__ import annotations

import ctypes
import os
import threading
import weakref
from contextlib import contextmanager
from typing import Iterable, Iterator, Union

from cmsproof import library as lib
from cmsproof.octets import of_bytes, plain

LISTS: "weakref.WeakSet[Held]" = weakref.WeakSet()
# who forks, and the lists that were taken for each fork that goes on (a signal can have a thread fork while it forks)
FORKING = threading.RLock()
TAKEN: "list[dict[Held, None]]" = []
# after how many seconds a fork lets go what another thread may wait for, and begins anew
PATIENCE = 1.0


def known() -> "list[Held]":
    """All lists, also where another thread makes one meanwhile."""
    while True:
        try:
            return list(LISTS)
        except RuntimeError:
            pass  # (the set changed)


def took_all(mine: "dict[Held, None]") -> bool:
    """Whether no call of another thread has a list now, and no other thread forks. What was taken for that is put to `mine`."""
    while new := [held for held in known() if held not in mine]:
        for held in new:
            if not held.lock.acquire(timeout=PATIENCE):
                return False
            mine[held] = None
    return True


def give(mine: "dict[Held, None]") -> None:
    """Gives the lists back, and lets others fork."""
    while mine:
        mine.popitem()[0].lock.release()
    FORKING.release()


def take_all() -> None:
    """Waits until no call has a trust list, and no other thread forks: so a fork copies none that is half in use. (A call has one such
    list, and answers that no other call sees. But a signal can have a thread fork in the middle of a call, whose list the fork of another
    thread waits for: so none waits for ever.)"""
    while True:
        if FORKING.acquire(timeout=PATIENCE):
            mine: "dict[Held, None]" = {}
            try:
                if took_all(mine):
                    TAKEN.append(mine)
                    return
            except BaseException:
                give(mine)
                raise
            give(mine)


def give_all() -> None:
    """Gives the lists back, on both sides of a fork."""
    if TAKEN:
        give(TAKEN.pop())


os.register_at_fork(before=take_all, after_in_parent=give_all, after_in_child=give_all)


# what the program calls the rules of lists (docs/REFUSALS.md, section 7)
RULES = {"L1": "Version", "L2": "Line", "L3": "Certificate", "L5": "Period", "B1": "Version", "B2": "Line"}


class ListRefused(ValueError):
    """A text is no trust list or no answers list: its text is the line of the program. `code` is the rule, as 'L3', and `line`
    the number of the line, from 1."""

    def __init__(self, what: str, code: str, line: int) -> None:
        super().__init__(what, code, line)
        self.what, self.code, self.line = what, code, line

    def __str__(self) -> str:
        name = RULES.get(self.code)
        return f"{self.what} {self.code}{f' {name}' if name else ''} at line {self.line}"


def refused(what: str, status: int, said: lib.Answer) -> Exception:
    """What is raised where the library took a text for no such list, or was refused memory."""
    if status == lib.NO_MEMORY:
        return MemoryError("libcmsproof was refused memory")
    return ListRefused(what, f"{chr(said.letter)}{said.number}" if said.letter else f"status {status}", said.line)


def handle_of(what: str, text: bytes) -> lib.Handle:
    """A list that the library has read, whose memory is to be freed. Raises ListRefused if the text is none."""
    loaded, handle, said = lib.library(), lib.Handle(), lib.Answer()
    status = getattr(loaded, f"cmsproof_{what}_read")(handle, *of_bytes(text), said)
    if status == lib.DONE:
        return handle
    getattr(loaded, f"cmsproof_{what}_free")(handle)
    raise refused(what, status, said)


@contextmanager
def answers_held(text: bytes) -> Iterator[lib.Handle]:
    """An answers list in the library's memory, for the calls of one block."""
    handle = handle_of("answers", text)
    try:
        yield handle
    finally:
        lib.library().cmsproof_answers_free(handle)


class Held:
    """A list in the library's memory. One call at a time has it, in any thread; it is freed with this object. (What a signal has a
    thread do stands between calls of that thread, and does not wait for it.)"""

    def __init__(self, what: str, text: bytes) -> None:
        self.handle, self.lock = handle_of(what, text), threading.RLock()
        self.reference = ctypes.byref(self.handle)
        self.freed = weakref.finalize(self, getattr(lib.library(), f"cmsproof_{what}_free"), self.handle)
        # (when Python ends, a thread that nobody waits for may still be in a call)
        self.freed.atexit = False

    def taken(self) -> "Held":
        """The list, for one call: a block has its handle."""
        return self

    def __enter__(self) -> lib.Handle:
        self.lock.acquire()
        return self.handle

    def __exit__(self, *_: object) -> None:
        self.lock.release()


class TrustList:
    """The certificates that are trusted, each as a signer's or as an authority's, in the order of the list.

    It is read once, and serves any number of calls, in any thread, one at a time, and after a fork in each process. A copy by
    `pickle` is read anew.
    """

    def __init__(self, text: bytes) -> None:
        """Reads a trust list (cmsproof-lists(5)). Raises ListRefused if it is none."""
        self.text = plain(bytes(text))
        self.held = Held("trust", self.text)
        LISTS.add(self.held)

    @classmethod
    def from_file(cls, path: Union[str, "os.PathLike[str]"]) -> "TrustList":
        """The trust list in a file."""
        with open(path, "rb") as file:
            return cls(file.read())

    @classmethod
    def from_certificates(cls, *, signers: Iterable[bytes] = (), authorities: Iterable[bytes] = ()) -> "TrustList":
        """A list of certificates in DER, each trusted without a period; signers first. Raises ValueError if one is none."""
        from cmsproof_tools.certificates import Certificate

        lines = ["cmsproof trust 2"]
        for role, found in (("signer", signers), ("tsa", authorities)):
            lines += [f"{role} - - {Certificate(bytes(octets)).octets.hex()}" for octets in found]
        return cls("".join(line + "\n" for line in lines).encode())

    def __len__(self) -> int:
        """How many entries it has."""
        count = ctypes.c_size_t()
        with self.held.taken() as handle:
            status = lib.library().cmsproof_trust_count(handle, count)
        if status != lib.DONE:
            raise RuntimeError(f"libcmsproof says status {status} of a list that was read")
        return count.value

    def __reduce__(self) -> tuple[type["TrustList"], tuple[bytes]]:
        return TrustList, (self.text,)
