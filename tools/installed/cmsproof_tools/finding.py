"""Which front end a file is for, by its first octets. It is the only place that picks one."""
from __future__ import annotations

import importlib
import re
from functools import lru_cache
from typing import Callable, Iterator, Union

from cmsproof.octets import Buffer, File
from cmsproof_tools.containers.twofold import begun_as, called_as, other_kind
from cmsproof_tools.found import BEGINNING, Found, Unfound
from cmsproof_tools.signed_parts import is_response

# what such a file is called that ends the process which takes too long to read it (keeping.bounded)
ENDING = ("pdf",)
TOO_LONG = "reading it takes more of the processor's time than it may"


@lru_cache(maxsize=None)
def front_ends() -> list[tuple[re.Pattern[bytes], str, str, str]]:
    """The first octets, what such a file is called, and the module of cmsproof_tools.containers with the function for it; the first that
    fits counts."""
    from cmsproof_tools.kinds import LABELS, MAIL

    return [
        (re.compile(rb"\A\x30\x80"), "ber", "ber", "found_in_ber"),
        (re.compile(rb"\A.{0,1019}%PDF-", re.DOTALL), "pdf", "pdf", "found_in_pdf"),
        (re.compile(rb"\APK(?:\x03\x04|\x05\x06)"), "asic", "asic", "found_in_zip"),
        (MAIL, "s/mime", "mail", "found_in_mail"),
        (re.compile(rb"^-----BEGIN " + LABELS + rb"-----", re.MULTILINE), "pem", "armour", "found_in_pem"),
        (re.compile(rb"\A\s*M[A-Za-z0-9+/=\s]{60,}\Z"), "base64", "armour", "found_in_base64"),
    ]


def front_end(beginning: bytes) -> tuple[str, Callable[[memoryview], Iterator[Union[Found, Unfound]]]] | None:
    """What a file with these first octets is called, and the front end for it, or None."""
    for pattern, container, module, function in front_ends():
        if pattern.search(beginning):
            return container, getattr(importlib.import_module("cmsproof_tools.containers." + module), function)
    return None


def in_container(octets: Buffer) -> Iterator[Union[Found, Unfound]]:
    """What is found in a file that is not in DER. Each part has a name of its own."""
    from cmsproof_tools.containers.refusals import Refused
    from cmsproof_tools.kinds import kind_of

    beginning = bytes(octets[:BEGINNING])
    front = front_end(beginning)
    if front is None:
        yield Unfound("", "F1", kind_of(beginning) or "it begins as no file that has a signature of CMS in it")
        return
    container, found_by = front
    names: set[str] = set()
    try:
        for found in found_by(memoryview(octets)):
            while found.part in names:
                found = found._replace(part=found.part + "'")
            names.add(found.part)
            yield found
        if not names:
            raise Refused("F1", "nothing in it is signed")
    except Refused as refused:
        yield Unfound("", refused.code, refused.reason, container)


def as_one(name: str, found: Union[Found, Unfound], octets: Buffer) -> Union[Found, Unfound]:
    """What was found, or a refusal where the SignedData is a file of another kind as well, or its file is called as one."""
    if isinstance(found, Unfound):
        return found
    # (a SignedData in a mail, say, is opened from there)
    if kind := begun_as(octets) or other_kind(octets if found.container in ("", "ber") else found.signed):
        return Unfound(found.part, "F10", f"it is a {kind} too, which is not signed", found.container)
    if kind := called_as(name, found.container):
        return Unfound(found.part, "F10", f"its name is that of a {kind}, which it is not", found.container)
    return found


def as_token(found: Union[Found, Unfound]) -> Union[Found, Unfound]:
    """What was found, or a refusal where a container has a whole response in the place of a token, as no standard of containers has it."""
    if isinstance(found, Unfound) or found.kind != "token" or not is_response(found.signed):
        return found
    return Unfound(found.part, "F1", "a response of an authority, and not the token in it (RFC 3161 2.4.2)", found.container)


def covering(found: Union[Found, Unfound], partial: bool) -> Union[Found, Unfound]:
    """What was found, or a refusal where the signature does not cover the whole file, unless that is allowed: then it is a note."""
    if isinstance(found, Unfound) or not found.uncovered:
        return found
    if partial:
        return found._replace(notes=(*found.notes, found.uncovered))
    return Unfound(found.part, "F6", found.uncovered, found.container)


def is_in_der(octets: Buffer) -> bool:
    """Whether a file is handed to the checker as it is: one in DER, and an empty one, of which the checker says what it is."""
    first = octets[:2]
    return first[:1] in (b"", b"\x30") and first != b"\x30\x80"


def is_alone_in_der(name: str, octets: bytes) -> bool:
    """Whether a file is one in DER, of two octets at least, and `found_in` finds the file itself in it. (This is asked of each file of an
    archive.)"""
    if len(octets) < 2 or octets[0] != 0x30 or octets[1] == 0x80:
        return False
    return not begun_as(octets) and not other_kind(octets) and not called_as(name, "")


def found_in_der(name: str, octets: Buffer) -> Union[Found, Unfound]:
    """What is found in a file that is handed to the checker as it is. (It is no token of a container, and covers itself.)"""
    return as_one(name, Found("", octets), octets)


def found_in(name: str, file: File, partial: bool = False) -> Iterator[Union[Found, Unfound]]:
    """What is found in a file: at least one. `name` is what the user calls it, by which only is decided whether it is called as a file of
    another kind. `partial` allows signatures that do not cover the whole file.

    What a front end gives is part of `file.octets`, as a memoryview of it say, or made of it: the file may be gone or another one
    by then. It is checked before the next one is asked for.
    """
    if is_in_der(file.octets):
        yield found_in_der(name, file.octets)
        return
    for found in in_container(file.octets):
        yield covering(as_token(as_one(name, found, file.octets)), partial)


def found_apart(name: str, file: File, partial: bool = False) -> Iterator[Union[Found, Unfound]]:
    """As `found_in`, for a process that has more to do than this file: what may end a process is read in another one before, in half of
    the time that is allowed."""
    if is_in_der(file.octets):
        yield from found_in(name, file, partial)
        return
    import signal
    from collections import deque

    from cmsproof_tools.workers import signal_at

    front = front_end(bytes(file.octets[:BEGINNING]))

    def read() -> None:
        from cmsproof_tools.containers import keeping

        keeping.SECONDS, keeping.QUICK = keeping.SECONDS / 2, keeping.QUICK * 2
        deque(found_in(name, file, partial), maxlen=0)

    by = 0 if front is None or front[0] not in ENDING else signal_at(read)
    if by == signal.SIGPROF:
        yield Unfound("", "F4", TOO_LONG)
    elif by:
        yield Unfound("", "F3", f"a process that read it was ended by signal {by}")
    else:
        yield from found_in(name, file, partial)


def again_in_der(found: Found, code: str | None) -> Found | None:
    """The same in DER, where the checker named a fault that only BER has (M3, M4), or None where nothing else can be had."""
    if code not in ("M3", "M4"):
        return None
    from cmsproof_tools.containers import ber
    from cmsproof_tools.containers.refusals import Refused

    if ber.CONVERTED in found.converted:
        return None
    try:
        signed = ber.in_der(memoryview(found.signed))
    except Refused:
        return None
    done = ", ".join(filter(None, [found.converted, ber.CONVERTED]))
    return found._replace(signed=signed, converted=done, container=found.container or "ber")
