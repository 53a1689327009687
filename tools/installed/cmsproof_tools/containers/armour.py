"""SignedData as text: PEM (RFC 7468 8, 9), and base64 (RFC 4648 4) with or without lines."""
from __future__ import annotations

import base64
import binascii
import re
import string
from itertools import islice
from typing import Iterator

from cmsproof_tools.containers.ber import signed_in
from cmsproof_tools.containers.refusals import Refused
from cmsproof_tools.found import Found, Unfound
from cmsproof_tools.kinds import LABELS

BEGIN = re.compile(rb"^-----BEGIN (" + LABELS + rb")-----[ \t]*\r?$", re.MULTILINE)
MOST_BLOCKS, LONGEST = 1000, 1 << 30
SPACES = string.whitespace.encode()


def decoded(text: bytes) -> bytes:
    """The octets that base64 stands for. Raises Refused where it has another character than white space in it, or no full end."""
    letters = text.translate(None, SPACES)
    if len(letters) % 4:
        raise Refused("F3", "it is no base64: its last letters are missing")
    try:
        return base64.b64decode(letters, validate=True)
    except binascii.Error as error:
        raise Refused("F3", f"it is no base64: {error}") from error


def of_text(text: bytes, part: str, container: str, uncovered: str = "") -> Found | Unfound:
    """What base64 holds."""
    try:
        signed, converted = signed_in(memoryview(decoded(text)))
        done = ", ".join(filter(None, [f"{container} to octets", converted]))
        return Found(part, signed, None, container, done, uncovered=uncovered)
    except Refused as refused:
        return Unfound(part, refused.code, refused.reason, container)


def text_of(octets: memoryview) -> bytes:
    """The octets of a text. Raises Refused where they are too many."""
    if len(octets) > LONGEST:
        raise Refused("F4", f"a text of more than {LONGEST} octets")
    return bytes(octets)


def found_in_base64(octets: memoryview) -> Iterator[Found | Unfound]:
    """What a file of base64 alone holds."""
    yield of_text(text_of(octets), "", "base64")


def ends_of(text: bytes, begins: list[re.Match[bytes]]) -> Iterator[re.Match[bytes] | None]:
    """For each begin of a block the next line that ends such a block, or None. The text is read once for each label."""
    further: dict[bytes, Iterator[re.Match[bytes]]] = {}
    ahead: dict[bytes, re.Match[bytes] | None] = {}
    for begin in begins:
        label = begin[1]
        if label not in further:
            further[label] = re.finditer(rb"^-----END %s-----[ \t]*\r?$" % re.escape(label), text, re.MULTILINE)
            ahead[label] = next(further[label], None)
        while (end := ahead[label]) is not None and end.start() < begin.end():
            ahead[label] = next(further[label], None)
        yield ahead[label]


def found_in_pem(octets: memoryview) -> Iterator[Found | Unfound]:
    """What each block of PEM holds: a part for each, if there are several. Text outside of them (RFC 7468 2) is not signed, and a
    reader sees it first."""
    text = text_of(octets)
    begins = list(islice(BEGIN.finditer(text), MOST_BLOCKS + 1))
    if not begins:
        raise Refused("F3", "the line that begins a block of PEM has no end, or more in it")
    if len(begins) > MOST_BLOCKS:
        raise Refused("F4", f"more than {MOST_BLOCKS} blocks of PEM")
    ends = list(ends_of(text, begins))
    places = [0, *(len(text) if end is None else end.end() for end in ends)]
    outside = b"".join(text[place : begin.start()] for place, begin in zip(places, begins)) + text[places[-1] :]
    uncovered = "text outside of the blocks of PEM is not signed" if outside.strip() else ""
    for number, (begin, end) in enumerate(zip(begins, ends), 1):
        part = f"block {number}" if len(begins) > 1 else ""
        if end is None:
            yield Unfound(part, "F3", "a block of PEM without an end", "pem")
        else:
            yield of_text(text[begin.end() : end.start()], part, "pem", uncovered)
