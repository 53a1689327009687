"""DER (X.690), read and written: the one reader and the one writer of elements that the scripts in tools/ and benchmarks/ use.

It is written from X.690 and docs/FORMAT.md, and not from the program or from the tools that are installed. What cannot be read
raises `Fault(kind, at)`, the leftmost fault by the order of docs/FORMAT.md, section 3."""
from __future__ import annotations

from typing import Callable, NamedTuple, Optional, Union, overload

KINDS = {
    1: "End",
    2: "HighTag",
    3: "Indefinite",
    4: "LengthForm",
    5: "Overrun",
    6: "Tag",
    7: "Trailing",
    8: "Integer",
    9: "Oid",
    10: "Boolean",
    11: "Bits",
    12: "Time",
    13: "Value",
    14: "Order",
    15: "Empty",
}
# the identifier octets of the basic types (X.690 8.1.2)
BOOLEAN, INTEGER, BITS, OCTETS, NULL, OID, UTF8 = 0x01, 0x02, 0x03, 0x04, 0x05, 0x06, 0x0C
UTC, GENERALIZED, SEQUENCE, SET = 0x17, 0x18, 0x30, 0x31
TRUE, FALSE = b"\xff", b"\0"


class Fault(Exception):
    """Octets that are not what they must be: the kind of the fault, and where it is."""

    def __init__(self, kind: int, at: int) -> None:
        super().__init__(f"M{kind} {KINDS[kind]} at {at}")
        self.kind, self.at = kind, at


class Cut(Exception):
    """A stream ends before what is read of it."""


class Stream:
    """Octets of which nobody knows how many come: whoever reads past them raises `Cut`."""

    def __init__(self, octets: bytes) -> None:
        self.octets = octets

    def __len__(self) -> int:
        return 1 << 62

    @overload
    def __getitem__(self, at: int) -> int:
        ...

    @overload
    def __getitem__(self, at: slice) -> bytes:
        ...

    def __getitem__(self, at: Union[int, slice]) -> Union[int, bytes]:
        if (at.stop if isinstance(at, slice) else at + 1) > len(self.octets):
            raise Cut()
        return self.octets[at]


Octets = Union[bytes, Stream]
# an element that is kept whole, with the identifiers that the grammar allows in its place: none where it allows any
Opaque = tuple[tuple[int, ...], bytes]


# ---- writing


def header(tag: int, size: int, length_octets: int = 0) -> bytes:
    """Identifier and length octets of an element with so much in it (X.690 8.1.3, 10.1). With `length_octets` the length has
    that many octets behind its first one, which DER allows only where no fewer can state it."""
    if size < 0x80 and not length_octets:
        return bytes([tag, size])
    count = length_octets or (size.bit_length() + 7) // 8
    return bytes([tag, 0x80 + count]) + size.to_bytes(count, "big")


def element(tag: int, *parts: bytes, length_octets: int = 0) -> bytes:
    """An element with these parts in it."""
    body = b"".join(parts)
    return header(tag, len(body), length_octets) + body


def sequence(*parts: bytes) -> bytes:
    """A SEQUENCE of these parts."""
    return element(SEQUENCE, *parts)


def number(value: int) -> bytes:
    """An INTEGER (X.690 8.3): as few octets as state its sign too."""
    return element(INTEGER, value.to_bytes((value + (value < 0)).bit_length() // 8 + 1, "big", signed=True))


def octets(contents: bytes) -> bytes:
    """An OCTET STRING."""
    return element(OCTETS, contents)


def oid_contents(text: str) -> bytes:
    """The contents of the OBJECT IDENTIFIER that is written as `2.999.3` (X.690 8.19)."""
    first, second, *arcs = map(int, text.split("."))
    contents = b""
    for arc in [40 * first + second, *arcs]:
        groups = [arc & 0x7F]
        while arc := arc >> 7:
            groups.insert(0, 0x80 | arc & 0x7F)
        contents += bytes(groups)
    return contents


def oid(text: str) -> bytes:
    """An OBJECT IDENTIFIER that is written as `2.999.3`."""
    return element(OID, oid_contents(text))


# ---- contents of basic types


def is_identifier(octet: int) -> bool:
    """Whether an identifier octet is one of the profile: no end of contents, and no tag number of 31 or more."""
    return octet != 0 and octet & 0x1F != 0x1F


def is_boolean(contents: bytes) -> bool:
    """Whether octets are contents of a BOOLEAN (X.690 8.2, 11.1)."""
    return contents in (FALSE, TRUE)


def is_integer(contents: bytes) -> bool:
    """Whether octets are contents of an INTEGER (X.690 8.3): the first nine bits are not all the same."""
    return len(contents) == 1 or len(contents) > 1 and (contents[0], contents[1] >> 7) not in ((0, 0), (0xFF, 1))


def is_oid(contents: bytes) -> bool:
    """Whether octets are contents of an OBJECT IDENTIFIER (X.690 8.19): no arc begins with 80, and the last one ends."""
    begins = [0] + [at + 1 for at, octet in enumerate(contents[:-1]) if octet < 0x80]
    return len(contents) > 0 and contents[-1] < 0x80 and all(contents[at] != 0x80 for at in begins)


def is_bits(contents: bytes) -> bool:
    """Whether octets are contents of a BIT STRING (X.690 8.6, 11.2.1): the unused bits are fewer than eight, and 0."""
    if len(contents) < 2:
        return contents == b"\0"
    return contents[0] < 8 and contents[-1] & ((1 << contents[0]) - 1) == 0


def is_digits(contents: bytes) -> bool:
    """Whether all octets are digits."""
    return all(0x30 <= octet <= 0x39 for octet in contents)


def is_civil(text: bytes) -> bool:
    """Whether YYYYMMDDHHMMSS is a civil day and a time of it."""
    year, month, day, hour, minute, second = (
        int(text[first:end]) for first, end in ((0, 4), (4, 6), (6, 8), (8, 10), (10, 12), (12, 14))
    )
    leap = year % 4 == 0 and (year % 100 != 0 or year % 400 == 0)
    days = [0, 31, 29 if leap else 28, 31, 30, 31, 30, 31, 31, 30, 31, 30, 31]
    return 1 <= month <= 12 and 1 <= day <= days[month] and hour < 24 and minute < 60 and second < 60


def moment_of(tag: int, contents: bytes) -> Optional[str]:
    """The moment of a time's text (X.690 11.7, 11.8; RFC 5280 4.1.2.5), as 14 digits and 9 of the fraction, or None. Their order
    is that of the moments."""
    if not contents.endswith(b"Z"):
        return None
    main, point, fraction = contents[:-1].partition(b".")
    if tag == UTC:
        if point or len(main) != 12 or not is_digits(main):
            return None
        main = (b"19" if main >= b"50" else b"20") + main
    if len(main) != 14 or not is_digits(main) or not is_civil(main):
        return None
    if point and (not 1 <= len(fraction) <= 9 or not is_digits(fraction) or fraction.endswith(b"0")):
        return None
    return main.decode() + fraction.decode().ljust(9, "0")


def time_text(moment: str) -> str:
    """The text of a moment, as a GeneralizedTime."""
    fraction = moment[14:].rstrip("0")
    return moment[:14] + ("." + fraction if fraction else "") + "Z"


def oid_text(contents: bytes) -> str:
    """The text, as `2.999.3`, of the contents of an OBJECT IDENTIFIER that are in their form."""
    arcs, arc = [], 0
    for octet in contents:
        arc = arc << 7 | octet & 0x7F
        if octet < 0x80:
            arcs.append(arc)
            arc = 0
    first = min(arcs[0] // 40, 2)
    return ".".join(map(str, [first, arcs[0] - 40 * first, *arcs[1:]]))


# ---- reading


class Element(NamedTuple):
    """An element at `at`: its identifier, and where its contents begin and end."""

    octets: Octets
    tag: int
    at: int
    start: int
    stop: int

    def body(self) -> bytes:
        """Its contents."""
        return self.octets[self.start : self.stop]

    def whole(self) -> bytes:
        """All its octets."""
        return self.octets[self.at : self.stop]


def pass_over(_element: Element) -> None:
    """Keeps nothing."""


class Cursor:
    """A place in a body that ends at `end`. A reader of a stream is told of each element that must be kept, by `keep`."""

    def __init__(
        self,
        octets: Octets,
        at: int = 0,
        end: Optional[int] = None,
        opaque: Optional[list[Opaque]] = None,
        keep: Callable[[Element], None] = pass_over,
    ) -> None:
        self.octets, self.at, self.end = octets, at, len(octets) if end is None else end
        self.opaque: list[Opaque] = [] if opaque is None else opaque
        self.keep = keep

    def inside(self, element: Element) -> Cursor:
        """A cursor at the beginning of an element's contents."""
        return Cursor(self.octets, element.start, element.stop, self.opaque, self.keep)

    def length(self, first: int) -> tuple[int, int]:
        """The length whose first octet is there (X.690 8.1.3, 10.1), and where the contents begin."""
        octets, end = self.octets, self.end
        if first >= end:
            raise Fault(1, end)
        count = octets[first] - 0x80
        if count < 0:
            return octets[first], first + 1
        if count == 0:
            raise Fault(3, first)
        if count > 4:
            raise Fault(4, first)
        start = first + 1 + count
        if first + 1 >= end:
            raise Fault(1, end)
        if octets[first + 1] == 0 or count == 1 and octets[first + 1] < 0x80:
            raise Fault(4, first)
        if start > end:
            raise Fault(1, end)
        return int.from_bytes(octets[first + 1 : start], "big"), start

    def peek(self, *tags: int) -> Element:
        """The element here, which must stand: one with one of these identifiers, any where none is given."""
        if self.at == self.end:
            raise Fault(1, self.at)
        if not is_identifier(self.octets[self.at]):
            raise Fault(2, self.at)
        if tags and self.octets[self.at] not in tags:
            raise Fault(6, self.at)
        length, start = self.length(self.at + 1)
        if start + length > self.end:
            raise Fault(5, self.at)
        return Element(self.octets, self.octets[self.at], self.at, start, start + length)

    def take(self, *tags: int) -> Element:
        """The element here, as `peek`; the cursor is behind it then."""
        element = self.peek(*tags)
        self.at = element.stop
        return element

    def has(self, *tags: int) -> bool:
        """Whether an element with one of these identifiers begins here."""
        return self.at < self.end and self.octets[self.at] in tags

    def finish(self, absent: bool = False) -> None:
        """The end of the body; `absent` where its last part may be absent, and is."""
        if self.at < self.end:
            good = is_identifier(self.octets[self.at])
            raise Fault(7 if not absent else 6 if good else 2, self.at)

    def opaque_element(self, *tags: int) -> Element:
        """The element here, as `take`, which is kept whole."""
        element = self.take(*tags)
        self.opaque.append((tags, element.whole()))
        return element


def elements(body: bytes) -> list[Element]:
    """The elements that the octets are a row of."""
    cursor, found = Cursor(body), []
    while cursor.at < cursor.end:
        found.append(cursor.take())
    return found


def only(body: bytes, *tags: int) -> Element:
    """The one element that the octets are, with one of these identifiers."""
    cursor = Cursor(body)
    found = cursor.take(*tags)
    cursor.finish()
    return found
