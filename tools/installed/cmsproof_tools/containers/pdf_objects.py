"""Whether what a PDF holds hangs on the octets of a signature, of which not all are signed: an object may go over its place, as a picture
whose octets they are, or a table of where objects are. Whoever has the file could then choose what is shown.

The text tells of most files that none does. Of another one all objects are compared with those that it has without signatures.
"""
from __future__ import annotations

import copy
import re
from bisect import bisect
from typing import Any, Callable, Iterator, NamedTuple

from cmsproof_tools.containers.refusals import Refused
from cmsproof_tools.containers.twofold import PDF_OBJECT, is_object

SPACE = rb"[\0\t\n\f\r ]"
WORD, MARKS = re.compile(rb"endobj|stream"), re.compile(rb"<<|>>|[\[\]()<>%]")
# strings, with two more in each other in them, comments, and strings in hexadecimal: whichever begins first (7.2.3, 7.3.4)
INNER = rb"\((?:[^()\\]|\\.)*\)"
TEXT = rb"\((?:[^()\\]|\\.|\((?:[^()\\]|\\.|%s)*\))*\)" % INNER
MEANINGLESS = re.compile(TEXT + rb"|%[^\r\n]*|(?<!<)<[0-9A-Fa-f\0\t\n\f\r ]*>|[()]", re.DOTALL)
LENGTH = re.compile(rb"/Length(?=[\0\t\n\f\r /<>\[\]])")
NUMBER = re.compile(rb"%s+([0-9]{1,10})(?:%s+([0-9]{1,5})%s+R)?(?=[\0\t\n\f\r />])" % (SPACE, SPACE, SPACE))
LINE_END, STREAM_END = re.compile(rb"\r?\n"), re.compile(SPACE + rb"{0,4}endstream")
TRAILER, AFTER_TRAILER = re.compile(rb"trailer"), re.compile(rb"startxref|trailer")
# so many octets of an object, and so many signatures of a file, each of which takes a search
LONGEST, MOST_PLACES = 1 << 20, 100
CLOSING = {b">>": b"<<", b"]": b"["}


class Place(NamedTuple):
    """Where a signature is: where its object has the word `obj`, where its string begins, and what is behind that."""

    head: int
    begin: int
    after: int


def plain(octets: memoryview) -> bytes | None:
    """A text without its strings and comments, in which marks mean nothing, or None where it is long, or something begins that does not end in
    it."""
    if len(octets) > LONGEST:
        return None
    text, parts, at = bytes(octets), [], 0
    for found in MEANINGLESS.finditer(text):
        if found[0] in (b"(", b")") or (found[0][:1] == b"%" and found.end() == len(text)):
            return None
        parts.append(text[at : found.start()])
        at = found.end()
    left = b" ".join([*parts, text[at:]])
    return left if is_closed(left) else None


def is_closed(body: bytes) -> bool:
    """Whether each array and dictionary in a text without strings ends in it."""
    open_ones = []
    for mark in MARKS.findall(body):
        if mark in CLOSING.values():
            open_ones.append(mark)
        elif mark not in CLOSING or not open_ones or open_ones.pop() != CLOSING[mark]:
            return False
    return not open_ones


def length_in(body: bytes, number_of: Callable[[int, int], object]) -> int | None:
    """The length that the dictionary of a stream says, or None where the text does not tell. (`#` can spell any name.)"""
    named = list(LENGTH.finditer(body))
    said = NUMBER.match(body, named[0].end()) if len(named) == 1 and b"#" not in body else None
    if said is None or body.count(b"<<", 0, said.start()) - body.count(b">>", 0, said.start()) != 1:
        return None
    length = int(said[1]) if said[2] is None else number_of(int(said[1]), int(said[2]))
    return length if type(length) is int else None


def end_of(octets: memoryview, at: int, following: int, number_of: Callable[[int, int], object]) -> int | None:
    """Where the object ends whose contents begin at this place, before another one follows; None where the text does not tell."""
    word = WORD.search(octets, at, following)
    return None if word is None else end_at(octets, at, word, number_of)


def end_at(octets: memoryview, at: int, word: re.Match[bytes], number_of: Callable[[int, int], object]) -> int | None:
    """The same, where this word is the next one, `endobj` or `stream`."""
    body = plain(octets[at : word.start()])
    if body is None:
        return None
    if word[0] == b"endobj":
        return word.end()
    length, line = length_in(body, number_of), LINE_END.match(octets, word.end())
    end = None if length is None or line is None else STREAM_END.match(octets, line.end() + length)
    return None if end is None else end.end()


def heads_in(octets: memoryview, last: int) -> Iterator[tuple[int, int, int]]:
    """Where objects have the word `obj` before this place, where their contents begin, and where the next one has that word."""
    head = None
    for found in PDF_OBJECT.finditer(octets, 0, last):
        if is_object(octets, found):
            if head is not None:
                yield head.start(), head.end(), found.start()
            head = found
    if head is not None:
        yield head.start(), head.end(), len(octets)


def trailers_end(octets: memoryview, last: int) -> bool:
    """Whether the text tells that each trailer that begins before this place ends before it."""
    for found in TRAILER.finditer(octets, 0, last):
        word = AFTER_TRAILER.search(octets, found.end(), last)
        if word is None or plain(octets[found.end() : word.start()]) is None:
            return False
    return True


def may_go_over(octets: memoryview, places: list[Place], number_of: Callable[[int, int], object]) -> bool:
    """Whether an object may go over the place of a signature, or the text does not tell."""
    begins, own = sorted(place.begin for place in places), {place.head for place in places}
    if not all(trailers_end(octets, begin) for begin in begins[:MOST_PLACES]) or len(begins) > MOST_PLACES:
        return True
    for head, at, following in heads_in(octets, begins[-1]):
        end = head if head in own else end_of(octets, at, following, number_of)
        # (the next place behind the head)
        if end is None or begins[bisect(begins, head)] < end:
            return True
    return False


def without(octets: memoryview, places: list[Place]) -> memoryview:
    """The file with zeros in the place of each signature."""
    found = bytearray(octets)
    for place in places:
        found[place.begin + 1 : place.after - 1] = b"0" * (place.after - place.begin - 2)
    return memoryview(found)


def written_as(pikepdf: Any, one: Any, signatures: frozenset[tuple[int, int]] = frozenset()) -> tuple[Any, bytes]:
    """What an object is: its text, and the octets of a stream as they are packed. Of one of these signatures it is without the string."""
    if not isinstance(one, pikepdf.Object):
        return one, b""
    if isinstance(one, pikepdf.Stream):
        return one.stream_dict.unparse(True), one.read_raw_bytes()
    if one.objgen in signatures:
        one = copy.copy(one)
        del one["/Contents"]
    return one.unparse(True), b""


def check_same(pikepdf: Any, found: Any, other: Any, signatures: frozenset[tuple[int, int]]) -> None:
    """Raises Refused unless two files have the same objects but for the strings of these signatures, and each can be read: some viewers
    mend what cannot."""
    other.get_warnings()  # (each is given once, and none of an object that was read before)
    first, second = found.objects, other.objects
    if complaints := other.get_warnings():
        raise Refused("F3", f"qpdf: {complaints[0]}"[:300])
    if found.trailer.unparse(True) == other.trailer.unparse(True) and len(first) == len(second):
        pairs = zip(first, second)
        if all(written_as(pikepdf, one, signatures) == written_as(pikepdf, two, signatures) for one, two in pairs):
            return
    raise Refused("F10", "what the file holds hangs on the octets of a signature, of which not all are signed")
