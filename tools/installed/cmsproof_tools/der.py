"""The little of DER (X.690) that is needed to read algorithms and their parameters."""
from __future__ import annotations

from typing import NamedTuple

SEQUENCE, INTEGER, OID, BOOLEAN, OCTETS = 0x30, 0x02, 0x06, 0x01, 0x04
# no object identifier that is known has so many octets; the time that one takes grows with their square
LONGEST_OID = 1 << 10


class Element(NamedTuple):
    """An element: its identifier octet, its contents, and all its octets."""

    identifier: int
    contents: bytes
    whole: bytes


def length_at(octets: bytes, at: int) -> tuple[int, int]:
    """The length that stands at this place, and where the contents begin. Raises ValueError where none is there."""
    first = octets[at]
    if first < 0x80:
        return first, at + 1
    size = first - 0x80
    further = octets[at + 1 : at + 1 + size]
    if not 1 <= size <= 4 or len(further) != size or further[0] == 0 or (size == 1 and further[0] < 0x80):
        raise ValueError("a length is not in its form")
    return int.from_bytes(further, "big"), at + 1 + size


def elements(octets: bytes, most: int = -1) -> list[Element]:
    """The elements that the octets are a row of, or so many of them: whoever made the octets can have put in any number. Raises
    ValueError where they are none."""
    found: list[Element] = []
    at, size = 0, len(octets)
    while at < size and len(found) != most:
        identifier = octets[at]
        if at + 1 == size or identifier == 0 or identifier & 0x1F == 0x1F:
            raise ValueError("an element is not in its form")
        # (most are short, and this is asked for each element of each file)
        length, begin = octets[at + 1], at + 2
        if length >= 0x80:
            length, begin = length_at(octets, at + 1)
        end = begin + length
        if end > size:
            raise ValueError("an element is longer than what it stands in")
        found.append(Element(identifier, octets[begin:end], octets[at:end]))
        at = end
    return found


def only(identifier: int, octets: bytes) -> bytes:
    """The contents of the one element, with this identifier, that the octets are. Raises ValueError where they are not."""
    found = elements(octets, 2)
    if len(found) != 1 or found[0].identifier != identifier:
        raise ValueError("another element was due")
    return found[0].contents


def number(octets: bytes) -> int:
    """The number of the INTEGER that the octets are. Raises ValueError where they are none."""
    contents = only(INTEGER, octets)
    if not contents or (len(contents) > 1 and (contents[0], contents[1] & 0x80) in ((0, 0), (0xFF, 0x80))):
        raise ValueError("a number is not in its shortest form")
    return int.from_bytes(contents, "big", signed=True)


def oid_text(contents: bytes) -> str:
    """The text, as 1.2.840, of an OBJECT IDENTIFIER's contents. Raises ValueError where they are not in their form."""
    if not contents or contents[-1] >= 0x80:
        raise ValueError("an object identifier does not end")
    if len(contents) > LONGEST_OID:
        raise ValueError(f"an object identifier of more than {LONGEST_OID} octets")
    arcs, arc, begins = [], 0, True
    for octet in contents:
        if begins and octet == 0x80:
            raise ValueError("an object identifier is not in its shortest form")
        arc, begins = arc << 7 | octet & 0x7F, octet < 0x80
        if begins:
            arcs.append(arc)
            arc = 0
    first = min(arcs[0] // 40, 2)
    return ".".join(map(str, [first, arcs[0] - 40 * first, *arcs[1:]]))


def algorithm(octets: bytes) -> tuple[str, bytes]:
    """The object identifier, as text, and the parameters of an AlgorithmIdentifier (RFC 5280 4.1.1.2).

    The parameters are one whole element, or no octets where they are absent. Raises ValueError where the octets are no
    AlgorithmIdentifier.
    """
    parts = elements(only(SEQUENCE, octets), 3)
    if not 1 <= len(parts) <= 2 or parts[0].identifier != OID:
        raise ValueError("no AlgorithmIdentifier")
    return oid_text(parts[0].contents), b"".join(part.whole for part in parts[1:])
