"""SignedData in BER (X.690 8) are written again in DER by `openssl cms -cmsout`, and compared: nothing may be lost or changed.

The signed attributes, the signatures and the unsigned attributes, with the tokens in them, must be the same octets before and
after. All else must be the same values: only lengths, strings in pieces and the order of sets may differ.
"""
from __future__ import annotations

import resource
import shutil
import signal
import subprocess
from contextlib import suppress
from typing import Any, Iterator, NamedTuple

from cmsproof_tools.containers.refusals import Refused
from cmsproof_tools.containers.twofold import other_kind
from cmsproof_tools.found import Found, Unfound
from cmsproof_tools.signed_parts import header

# what is longer is not converted, and no element is deeper, so that memory and time stay bounded
LONGEST, DEEPEST, MOST_ELEMENTS = 256 << 20, 40, 200_000
SECONDS = 60
INDEFINITE = 0x80
SEQUENCE, SET, OCTET_STRING, CONTEXT_0, CONTEXT_1 = 0x30, 0x31, 0x04, 0xA0, 0xA1
CONSTRUCTED = 0x20
# id-signedData (RFC 5652 5.1)
OBJECT_IDENTIFIER, SIGNED_DATA = 0x06, bytes.fromhex("2a864886f70d010702")
CONVERTED = "BER to DER by openssl cms -cmsout"


class Element(NamedTuple):
    """An element of BER: its identifier, its contents without what ends them, all its octets, and the elements inside."""

    identifier: int
    contents: memoryview
    whole: memoryview
    inside: tuple[Any, ...]


class Reader:
    """Reads elements, of which there may not be too many."""

    def __init__(self, octets: memoryview) -> None:
        self.octets, self.count = octets, 0

    def head(self, at: int, end: int) -> tuple[int, int, int]:
        """The identifier at this place, the length, -1 if it is open, and where the contents begin."""
        if end - at < 2 or self.octets[at] & 0x1F == 0x1F:
            raise Refused("F3", f"no element of BER at {at}")
        identifier, first = self.octets[at], self.octets[at + 1]
        if first < INDEFINITE:
            return identifier, first, at + 2
        if first == INDEFINITE:
            return identifier, -1, at + 2
        begin = at + 2 + (first - INDEFINITE)
        if first - INDEFINITE > 8 or begin > end:
            raise Refused("F3", f"no length of BER at {at + 1}")
        return identifier, int.from_bytes(self.octets[at + 2 : begin], "big"), begin

    def element(self, at: int, end: int, depth: int = 0) -> tuple[Element, int]:
        """The element at this place, and where it ends (X.690 8.1)."""
        self.count += 1
        if depth > DEEPEST or self.count > MOST_ELEMENTS:
            raise Refused("F4", "more elements, or deeper ones, than are read")
        identifier, length, begin = self.head(at, end)
        if length > end - begin or (length < 0 and not identifier & CONSTRUCTED):
            raise Refused("F3", f"no length of BER at {at + 1}")
        inside: list[Element] = []
        place, last = begin, end if length < 0 else begin + length
        while identifier & CONSTRUCTED and place < last and not (length < 0 and self.octets[place : place + 2] == b"\0\0"):
            part, place = self.element(place, last, depth + 1)
            inside.append(part)
        if length < 0 and self.octets[place : min(place + 2, last)] != b"\0\0":
            raise Refused("F3", f"an element without an end at {at}")
        stop = place if length < 0 else last
        behind = stop + 2 if length < 0 else stop
        return Element(identifier, self.octets[begin:stop], self.octets[at:behind], tuple(inside)), behind


def first_element(octets: memoryview) -> tuple[Element, int]:
    """The first element of the octets, and how long it is."""
    if len(octets) > LONGEST:
        raise Refused("F4", f"more than {LONGEST} octets of BER")
    return Reader(octets).element(0, len(octets))


def value_of(element: Element) -> Any:
    """What an element means, however it is encoded: lengths are not in it, strings are whole, and sets are sorted.

    An element of context-specific identifier may be an implicit SET, as certificates are (RFC 5652 5.1), and is sorted too.
    """
    if element.identifier == OCTET_STRING | CONSTRUCTED:
        return OCTET_STRING, b"".join(string_of(part) for part in element.inside)
    if not element.identifier & CONSTRUCTED:
        return element.identifier, bytes(element.contents)
    values = [value_of(part) for part in element.inside]
    if len(values) > 1 and element.identifier in (SET, CONTEXT_0, CONTEXT_1):
        values.sort(key=repr)
    return element.identifier, values


def string_of(part: Element) -> bytes:
    """The octets of a part of an OCTET STRING, which may be in pieces itself (X.690 8.7.3)."""
    identifier, octets = value_of(part)
    if identifier != OCTET_STRING:
        raise Refused("F3", "a string in pieces that are no strings")
    found: bytes = octets
    return found


def fixed_in(signed: Element) -> list[Any]:
    """What must be the same octets: of each signer the signed attributes, the signature and the unsigned attributes.

    Raises Refused where the element is no SignedData in a ContentInfo (RFC 5652 3, 5.1, 5.3).
    """
    try:
        infos = signed.inside[1].inside[0].inside[-1]
        if signed.identifier != SEQUENCE or infos.identifier != SET:
            raise IndexError
        return sorted((fixed_of(info) for info in infos.inside), key=repr)
    except IndexError as error:
        raise Refused("F3", "no SignedData") from error


def fixed_of(info: Element) -> list[Any]:
    """The same of one signer."""
    parts = list(info.inside[3:])
    attributes = bytes(parts.pop(0).contents) if parts[0].identifier == CONTEXT_0 else None
    unsigned = [sorted(bytes(part.whole) for part in more.inside) for more in parts[2:]]
    return [attributes, value_of(parts[1]), unsigned]


def written_again(octets: memoryview) -> bytes:
    """What openssl writes of a ContentInfo, in so much of the processor's time: on a busy machine it may wait for long."""
    program = shutil.which("openssl")
    if program is None:
        raise Refused("F2", "the program openssl, which makes DER of BER, is missing: install Debian's openssl")
    words = [program, "cms", "-cmsout", "-inform", "DER", "-outform", "DER"]
    pipe, nowhere = subprocess.PIPE, subprocess.DEVNULL
    try:
        with subprocess.Popen(words, stdin=pipe, stdout=pipe, stderr=nowhere) as process:
            # (it has ended, or may have less)
            with suppress(OSError, ValueError):
                resource.prlimit(process.pid, resource.RLIMIT_CPU, (SECONDS, SECONDS + 1))
            written, _ = process.communicate(octets)
    except OSError as error:
        raise Refused("F2", f"the program openssl cannot be run: {error.strerror}") from error
    if process.returncode == -signal.SIGXCPU:
        raise Refused("F4", f"openssl took more than {SECONDS} seconds of the processor")
    if process.returncode != 0 or not written:
        raise Refused("F5", "openssl cms -cmsout does not read it")
    return written


def is_of_other_type(element: Element) -> bool:
    """Whether an element is a ContentInfo (RFC 5652 3) of another type than SignedData."""
    kinds = [part.identifier for part in element.inside]
    of_form = element.identifier == SEQUENCE and kinds == [OBJECT_IDENTIFIER, CONTEXT_0]
    return of_form and bytes(element.inside[0].contents) != SIGNED_DATA


def definite(element: Element) -> bytes:
    """An element with the same parts, each length of which is the shortest one (X.690 10.1)."""
    inside = element.identifier & CONSTRUCTED
    contents = b"".join(definite(part) for part in element.inside) if inside else bytes(element.contents)
    return header(element.identifier, len(contents)) + contents


def in_der(octets: memoryview) -> bytes:
    """The SignedData in DER, which the octets are in BER, all of them. Raises Refused where anything would be lost. CMS of another type has
    only its lengths written again, so that the checker says of it what it says of the same in DER (C2)."""
    before, length = first_element(octets)
    if length != len(octets):
        raise Refused("F3", f"octets behind the end of the signed data at {length}")
    if is_of_other_type(before):
        return definite(before)
    fixed = fixed_in(before)
    written = written_again(octets)
    after, end = first_element(memoryview(written))
    if end != len(written) or fixed_in(after) != fixed:
        raise Refused("F5", "in DER its signed attributes, signatures or tokens would be other octets")
    if value_of(after) != value_of(before):
        raise Refused("F5", "in DER something would be lost")
    return written


def signed_in(octets: memoryview) -> tuple[memoryview | bytes, str]:
    """The SignedData in DER and what was done to get it: nothing, if the octets are not BER with open lengths. Raises Refused where these
    are a file of another kind too: the heads of strings in pieces can be a part of one, and are not in DER."""
    if bytes(octets[:2]) != b"\x30\x80":
        return octets, ""
    signed = in_der(octets)
    if kind := other_kind(octets):
        raise Refused("F10", f"it is a {kind} too, which is not signed")
    return signed, CONVERTED


def found_in_ber(octets: memoryview) -> Iterator[Found | Unfound]:
    """What a file of BER is in DER."""
    yield Found("", in_der(octets), None, "ber", CONVERTED)
