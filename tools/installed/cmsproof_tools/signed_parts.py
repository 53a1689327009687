"""What is in the octets of a SignedData (RFC 5652 5.1): its certificates, its signers, and their time-stamp tokens.

It finds what the proved calls are then asked about, and takes for granted that they found the octets well formed. The content
is passed over, however long it is.
"""
from __future__ import annotations

from typing import Iterator, NamedTuple, Union

from cmsproof.octets import Buffer
from cmsproof_tools import der
from cmsproof_tools.texts import is_moment

TOKEN, TST_INFO = "1.2.840.113549.1.9.16.2.14", "1.2.840.113549.1.9.16.1.4"
CONTEXT_0, CONTEXT_1, GENERALIZED_TIME, SET = 0xA0, 0xA1, 0x18, 0x31
# id-signedData (RFC 5652 5.1) as an element; and the identifiers of the parts of a ContentInfo and its SignedData (3, 5.1), and of those
# around the unsigned attributes of a SignerInfo (5.3)
SIGNED_DATA = bytes.fromhex("06092a864886f70d010702")
OF_INFO, OF_SIGNED = [der.SEQUENCE, der.OID, CONTEXT_0, der.SEQUENCE], [der.INTEGER, SET, der.SEQUENCE]
BEFORE_UNSIGNED = [der.SEQUENCE, der.OCTETS, CONTEXT_1]
# what is looked at in a file: whoever made it can have put in any number
MOST_CERTIFICATES, MOST_TOKENS, MOST_MENDED = 10000, 1000, 100_000
# how many parts there are at most in a ContentInfo, a SignedData, a SignerInfo, an EncapsulatedContentInfo, an Attribute (RFC 5652 3,
# 5.1 to 5.3) and a TSTInfo (RFC 3161 2.4.2)
IN_INFO, IN_SIGNED, IN_SIGNER, IN_CONTENT, IN_ATTRIBUTE, IN_TST_INFO = 2, 6, 7, 2, 2, 10
Span = tuple[int, int, int, int]


class TooMany(ValueError):
    """More is in a file than is looked at."""


class Token(NamedTuple):
    """A time-stamp token, the octets that it must stamp, the certificates in it, the element that names its certificate, and the time
    that it says; None where it has no such part that can be read."""

    octets: bytes
    stamped: bytes
    bag: tuple[bytes, ...] = ()
    sid: Union[der.Element, None] = None
    time: Union[str, None] = None


class Signer(NamedTuple):
    """A signer: the element that names its certificate, and its tokens."""

    sid: der.Element
    tokens: tuple[Token, ...]


def spans(octets: Buffer, at: int, end: int) -> Iterator[Span]:
    """The elements in this part of octets: identifier, begin, begin of the contents, end. Raises ValueError where none is."""
    while at < end:
        span = span_at(octets, at, end)
        yield span
        at = span[3]


def span_at(octets: Buffer, at: int, end: int) -> Span:
    """The element that stands at this place. Raises ValueError where none is."""
    identifier = octets[at]
    if at + 2 > end or identifier & 0x1F == 0x1F:
        raise ValueError("an element is not in its form")
    length, begin = octets[at + 1], at + 2
    if length == 0x82 and at + 4 <= end and octets[begin]:
        # (what is long mostly has two octets for its length)
        length, begin = octets[begin] << 8 | octets[begin + 1], begin + 2
    elif length >= 0x80:
        try:
            length, begin = der.length_at(octets, at + 1)  # type: ignore[arg-type]
        except IndexError as error:
            raise ValueError("an element is not in its form") from error
    stop = begin + length
    if stop > end:
        raise ValueError("an element is longer than what it stands in")
    return identifier, at, begin, stop


def some(octets: Buffer, begin: int, end: int, most: int) -> list[Span]:
    """The elements in this part of octets, which are at most so many. Raises ValueError where there are more, or none is."""
    found: list[Span] = []
    while begin < end:
        if len(found) == most:
            raise ValueError("an element has too many parts")
        span = span_at(octets, begin, end)
        found.append(span)
        begin = span[3]
    return found


def parts_of(octets: Buffer, whole: int) -> list[Span]:
    """The parts of the SignedData in a ContentInfo of so many octets, but the certificates and signers are not looked into."""
    ((_, _, begin, end),) = some(octets, 0, whole, 1)
    _, (_, _, begin, end) = some(octets, begin, end, IN_INFO)
    ((_, _, begin, end),) = some(octets, begin, end, 1)
    return some(octets, begin, end, IN_SIGNED)


def is_response(octets: Buffer) -> bool:
    """Whether a stamp is a response of an authority, whose first part is a SEQUENCE, its status, and not a token, whose first part is an
    object identifier (RFC 3161 2.4.2)."""
    try:
        ((identifier, _, begin, _),) = some(octets, 0, len(octets), 1)
        return identifier == der.SEQUENCE and octets[begin] == der.SEQUENCE
    except (ValueError, IndexError):
        return False


def token_of_stamp(octets: Buffer) -> Buffer:
    """The token of a stamp, which it is, or has as a response. Raises ValueError where there is none."""
    if not is_response(octets):
        return octets
    ((_, _, begin, end),) = some(octets, 0, len(octets), 1)
    _, _, _, after = next(spans(octets, begin, end))
    if after == end:
        raise ValueError("a response without a token")
    return octets[after:end]


def content_type_of(octets: Buffer) -> str:
    """The type of the content of a SignedData (RFC 5652 5.2), or no text where that cannot be read."""
    try:
        _, _, begin, end = parts_of(octets, len(octets))[2]
        kind, *_ = some(octets, begin, end, IN_CONTENT)
        return "" if kind[3] - kind[2] > der.LONGEST_OID else der.oid_text(bytes(octets[kind[2] : kind[3]]))
    except (ValueError, IndexError):
        return ""


def signers_there(octets: Buffer) -> bool:
    """Whether a SignedData has a signer (RFC 5652 5.1); it has where that cannot be read."""
    try:
        *_, (identifier, _, begin, end) = parts_of(octets, len(octets))
    except (ValueError, IndexError):
        return True
    return identifier != SET or begin != end


def certificates_of(octets: Buffer, parts: list[Span]) -> list[bytes]:
    """The certificates among the parts of a SignedData, each in DER. Raises TooMany if they are too many."""
    found: list[bytes] = []
    for identifier, _, begin, end in parts[3:-1]:
        if identifier == CONTEXT_0:
            for kind, first, _, last in spans(octets, begin, end):
                if len(found) == MOST_CERTIFICATES:
                    raise TooMany(f"more than {MOST_CERTIFICATES} certificates are in it")
                if kind == der.SEQUENCE:
                    found.append(bytes(octets[first:last]))
    return found


def signers_of(octets: Buffer, parts: list[Span]) -> list[Signer]:
    """The signers among the parts of a SignedData. Raises TooMany if they or their tokens are too many."""
    found: list[Signer] = []
    left = MOST_TOKENS
    for _, _, begin, end in spans(octets, *parts[-1][2:]):
        found.append(signer_of(octets, begin, end, left - 1))
        left -= 1 + len(found[-1].tokens)
    return found


def element_of(octets: Buffer, span: Span) -> der.Element:
    """The octets of an element."""
    identifier, first, begin, end = span
    return der.Element(identifier, bytes(octets[begin:end]), bytes(octets[first:end]))


def signer_of(octets: Buffer, begin: int, end: int, most: int) -> Signer:
    """The signer in the contents of a SignerInfo (RFC 5652 5.3), who has at most so many tokens. Raises TooMany."""
    parts = some(octets, begin, end, IN_SIGNER)
    if len(parts) < 5:
        raise ValueError("a signer lacks a part")
    attributes = parts.pop() if parts[-1][0] == CONTEXT_1 else None
    signature = element_of(octets, parts[-1]).contents
    tokens: list[Token] = []
    if most < 0:
        raise TooMany(f"more than {MOST_TOKENS} signers and tokens are in it")
    for first, last in values_of(octets, attributes, TOKEN):
        if len(tokens) == most:
            raise TooMany(f"more than {MOST_TOKENS} signers and tokens are in it")
        tokens.append(token_of(bytes(octets[first:last]), signature))
    return Signer(element_of(octets, parts[1]), tuple(tokens))


def values_of(octets: Buffer, attributes: Union[Span, None], name: str) -> Iterator[tuple[int, int]]:
    """Where the values of the attributes of this name begin and end (RFC 5652 5.3)."""
    for _, _, begin, end in spans(octets, *attributes[2:]) if attributes else ():
        kind, values = some(octets, begin, end, IN_ATTRIBUTE)
        if der.oid_text(bytes(octets[kind[2] : kind[3]])) == name:
            for _, first, _, last in spans(octets, *values[2:]):
                yield first, last


def tst_fields(octets: bytes, parts: list[Span]) -> list[der.Element]:
    """The fields of the TSTInfo (RFC 3161 2.4.2) that is the content of a SignedData with these parts. Raises ValueError or IndexError where
    it is none."""
    _, content = some(octets, *parts[2][2:], IN_CONTENT)
    (inside,) = some(octets, *content[2:], 1)
    return der.elements(der.only(der.SEQUENCE, octets[inside[2] : inside[3]]), IN_TST_INFO)


def time_in(fields: list[der.Element]) -> Union[str, None]:
    """The time that the fields of a TSTInfo say. Raises ValueError where it is no text."""
    times = [field.contents.decode("ascii") for field in fields if field.identifier == GENERALIZED_TIME]
    return next((time for time in times if is_moment(time)), None)


def token_of(octets: bytes, stamped: bytes) -> Token:
    """A token (RFC 3161 2.4.2) with what of it can be read; the proved calls say what it is. Raises TooMany."""
    bag: list[bytes] = []
    try:
        parts = parts_of(octets, len(octets))
        bag = certificates_of(octets, parts)
        (info,) = some(octets, *parts[-1][2:], 1)
        _, sid, *_ = some(octets, *info[2:], IN_SIGNER)
        return Token(octets, stamped, tuple(bag), element_of(octets, sid), time_in(tst_fields(octets, parts)))
    except TooMany:
        raise
    except (ValueError, IndexError):
        return Token(octets, stamped, tuple(bag))


def header(identifier: int, length: int) -> bytes:
    """The identifier and the length of an element in DER (X.690 10.1)."""
    if length < 0x80:
        return bytes([identifier, length])
    found = length.to_bytes((length.bit_length() + 7) // 8, "big")
    return bytes([identifier, 0x80 + len(found)]) + found


def around(span: Span, pieces: list[Buffer]) -> list[Buffer]:
    """An element in the place of another one, with the same identifier and these pieces as its contents."""
    return [header(span[0], sum(map(len, pieces))), *pieces]


def end_without_empty(octets: Buffer, signer: Span) -> int:
    """Where the contents of a SignerInfo end without its unsigned attributes, if these are there and empty, and else where they end."""
    fields = some(octets, *signer[2:], IN_SIGNER)
    empty = len(fields) > 5 and [field[0] for field in fields[-3:]] == BEFORE_UNSIGNED and fields[-1][2] == fields[-1][3]
    return fields[-1][1] if empty else signer[3]


def signers_without_empty(octets: Buffer, begin: int, end: int) -> tuple[bytearray, list[int]]:
    """The signers in this part of octets without empty unsigned attributes, and the numbers of those who had them."""
    view, written, found = memoryview(octets), bytearray(), []
    for number, signer in enumerate(spans(octets, begin, end), 1):
        if number > MOST_MENDED:
            raise TooMany(f"more than {MOST_MENDED} signers are in it")
        identifier, first, inside, stop = signer
        last = end_without_empty(octets, signer)
        if last != stop:
            found.append(number)
            written += header(identifier, last - inside)
            first = inside
        written += view[first:last]
    return written, found


def without_empty(octets: Buffer) -> tuple[Buffer, list[int]]:
    """A SignedData without the unsigned attributes that are there and empty, `a1 00`, which RFC 5652 5.3 does not allow and no signature
    covers (5.4), and the numbers of the signers who had them. All else is the same, but the lengths around. Raises ValueError where the
    octets are no SignedData."""
    (info,) = some(octets, 0, len(octets), 1)
    kind, explicit = some(octets, *info[2:], IN_INFO)
    (signed,) = some(octets, *explicit[2:], 1)
    *parts, last = some(octets, *signed[2:], IN_SIGNED)
    view = memoryview(octets)
    of_form = [part[0] for part in (info, kind, explicit, signed)] == OF_INFO and view[kind[1] : kind[3]] == SIGNED_DATA
    if not of_form or [part[0] for part in parts[:3]] != OF_SIGNED or last[0] != SET:
        raise ValueError("it is no SignedData")
    signers, found = signers_without_empty(octets, *last[2:])
    if not found:
        return octets, []
    inside = [view[signed[2] : last[1]], *around(last, [signers])]
    return b"".join(around(info, [view[kind[1] : kind[3]], *around(explicit, around(signed, inside))])), found


def everything_in(octets: Buffer) -> tuple[list[bytes], list[Signer]]:
    """The certificates of a SignedData and of its tokens, and its signers. Raises TooMany, and ValueError if it is none."""
    parts = parts_of(octets, len(octets))
    signers, found = signers_of(octets, parts), certificates_of(octets, parts)
    for token in (token for signer in signers for token in signer.tokens):
        found += token.bag
        if len(found) > MOST_CERTIFICATES:
            raise TooMany(f"more than {MOST_CERTIFICATES} certificates are in it")
    return found, signers
