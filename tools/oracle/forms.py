"""Reads the types of docs/FORMAT.md from octets: requests, responses, TSTInfos, certificates, SignedData, signing certificates.
Written from the standards and that page, and not from the program: what it says of a file is what the program is expected to say.
It raises `Fault(kind, at)` where the octets are no such type. A reader of it looks into nothing that the grammar leaves opaque;
`Cursor.opaque` lists those elements, each with the identifiers that the grammar allows there, none where it allows any."""
from __future__ import annotations

from typing import Callable, NamedTuple, Optional, TypeVar

from oracle import der
from oracle.der import BITS, BOOLEAN, GENERALIZED, INTEGER, OCTETS, OID, SEQUENCE, SET, TRUE, UTC, UTF8
from oracle.der import Cursor, Cut, Element, Fault, Opaque, Stream

ID_SIGNED_DATA = der.oid_contents("1.2.840.113549.1.7.2")
# subjectKeyIdentifier and extKeyUsage: a certificate has each of them once at most
ONCE = der.oid_contents("2.5.29.14"), der.oid_contents("2.5.29.37")
Read = TypeVar("Read")


class NotSignedData(Exception):
    """A ContentInfo of another type."""


class TooLong(Exception):
    """What must be kept of a stream is longer than the room for it."""


# ---- parts that many types have


def contents(c: Cursor, tag: int, test: Callable[[bytes], bool], kind: int) -> Element:
    """An element of a basic type, whose contents are in their form."""
    element = c.take(tag)
    if not test(element.body()):
        raise Fault(kind, element.start)
    return element


def integer(c: Cursor, tag: int = INTEGER) -> bytes:
    """The contents of an INTEGER."""
    return contents(c, tag, der.is_integer, 8).body()


def oid(c: Cursor) -> bytes:
    """The contents of an OBJECT IDENTIFIER."""
    return contents(c, OID, der.is_oid, 9).body()


def bits(c: Cursor, tag: int = BITS) -> bytes:
    """The contents of a BIT STRING."""
    return contents(c, tag, der.is_bits, 11).body()


def boolean(c: Cursor) -> bool:
    """The value of a BOOLEAN."""
    return contents(c, BOOLEAN, der.is_boolean, 10).body() == TRUE


def version(c: Cursor, *allowed: int) -> int:
    """A version that is one of these."""
    element = contents(c, INTEGER, der.is_integer, 8)
    if element.body() not in [bytes([v]) for v in allowed]:
        raise Fault(13, element.start)
    return element.body()[0]


def time(c: Cursor, *tags: int) -> str:
    """A moment, as a text of one of these types."""
    element = c.take(*tags)
    moment = der.moment_of(element.tag, element.body())
    if moment is None:
        raise Fault(12, element.start)
    return moment


def opaque(c: Cursor) -> Element:
    """An element of any type that is kept whole."""
    return c.opaque_element()


def many(c: Cursor, read: Callable[[Cursor], Read]) -> list[Read]:
    """What is read of each element up to the end of the body."""
    items = []
    while c.at < c.end:
        items.append(read(c))
    return items


class Algorithm(NamedTuple):
    """An AlgorithmIdentifier (RFC 5280 4.1.1.2): its identifier, its parameters as a whole element, and all its octets."""

    oid: bytes
    parameters: Optional[bytes]
    whole: bytes


def algorithm(c: Cursor) -> Algorithm:
    """An AlgorithmIdentifier."""
    element = c.take(SEQUENCE)
    inner = c.inside(element)
    of, parameters = oid(inner), None
    if inner.at < inner.end:
        parameters = inner.opaque_element().whole()
    inner.finish()
    return Algorithm(of, parameters, element.whole())


class Extension(NamedTuple):
    """An Extension (RFC 5280 4.1), and where it is."""

    oid: bytes
    critical: bool
    value: bytes
    at: int


def extension(c: Cursor) -> Extension:
    """An Extension."""
    element = c.take(SEQUENCE)
    inner = c.inside(element)
    of = oid(inner)
    critical = boolean(inner) if inner.has(BOOLEAN) else False
    value = inner.take(OCTETS).body()
    inner.finish()
    return Extension(of, critical, value, element.at)


def last_extensions(c: Cursor, tag: int) -> list[Extension]:
    """The extensions that may be the last part of a body."""
    if not c.has(tag):
        c.finish(absent=True)
        return []
    items = many(c.inside(c.take(tag)), extension)
    c.finish()
    return items


class Imprint(NamedTuple):
    """A MessageImprint (RFC 3161 2.4.1)."""

    alg: Algorithm
    digest: bytes


def imprint(c: Cursor) -> Imprint:
    """A MessageImprint."""
    inner = c.inside(c.take(SEQUENCE))
    value = Imprint(algorithm(inner), inner.take(OCTETS).body())
    inner.finish()
    return value


# ---- whole inputs


def whole(octets: bytes, read: Callable[[Cursor], Read], opaque: Optional[list[Opaque]] = None) -> Read:
    """What is read of octets that are nothing else."""
    c = Cursor(octets, opaque=opaque)
    value = read(c)
    c.finish()
    return value


class Certificate(NamedTuple):
    """A Certificate (RFC 5280 4.1): all its octets, and what the rules look at. Names and key are whole elements."""

    whole: bytes
    serial: bytes
    issuer: bytes
    first: str
    last: str
    subject: bytes
    key: bytes
    extensions: list[Extension]


def certificate(c: Cursor) -> Certificate:
    """A Certificate."""
    outer = c.take(SEQUENCE)
    parts = c.inside(outer)
    t = parts.inside(parts.take(SEQUENCE))
    if t.has(0xA0):
        explicit = t.inside(t.take(0xA0))
        version(explicit, 0, 1, 2)
        explicit.finish()
    serial = integer(t)
    algorithm(t)
    issuer = t.opaque_element(SEQUENCE).whole()
    period = t.inside(t.take(SEQUENCE))
    first, last = time(period, UTC, GENERALIZED), time(period, UTC, GENERALIZED)
    period.finish()
    subject, key = t.opaque_element(SEQUENCE).whole(), t.opaque_element(SEQUENCE).whole()
    for tag in (0x81, 0x82):
        if t.has(tag):
            bits(t, tag)
    extensions = certificate_extensions(t)
    algorithm(parts)
    bits(parts)
    parts.finish()
    return Certificate(outer.whole(), serial, issuer, first, last, subject, key, extensions)


def certificate_extensions(t: Cursor) -> list[Extension]:
    """The extensions at the end of a TBSCertificate."""
    if not t.has(0xA3):
        t.finish(absent=True)
        return []
    explicit = t.inside(t.take(0xA3))
    listed = explicit.inside(explicit.take(SEQUENCE))
    seen: set[bytes] = set()
    items: list[Extension] = []
    while listed.at < listed.end:
        item = extension(listed)
        if item.oid in ONCE and item.oid in seen:
            raise Fault(13, item.at)
        seen.add(item.oid)
        items.append(item)
    explicit.finish()
    t.finish()
    return items


class Request(NamedTuple):
    """A TimeStampReq (RFC 3161 2.4.1)."""

    imprint: Imprint
    policy: Optional[bytes]
    nonce: Optional[bytes]
    cert: bool


def request(c: Cursor) -> Request:
    """A TimeStampReq."""
    inner = c.inside(c.take(SEQUENCE))
    version(inner, 1)
    stamped = imprint(inner)
    policy = oid(inner) if inner.has(OID) else None
    nonce = integer(inner) if inner.has(INTEGER) else None
    cert = boolean(inner) if inner.has(BOOLEAN) else False
    last_extensions(inner, 0xA0)
    return Request(stamped, policy, nonce, cert)


def accuracy(c: Cursor) -> None:
    """An Accuracy (RFC 3161 2.4.2)."""
    inner = c.inside(c.take(SEQUENCE))
    last = 0
    for tag in (INTEGER, 0x80, 0x81):
        if inner.has(tag):
            integer(inner, tag)
            last = tag
    inner.finish(absent=last != 0x81)


class TstInfo(NamedTuple):
    """A TSTInfo (RFC 3161 2.4.2)."""

    policy: bytes
    imprint: Imprint
    serial: bytes
    time: str
    nonce: Optional[bytes]
    extensions: list[Extension]


def tst_info(c: Cursor) -> TstInfo:
    """A TSTInfo."""
    inner = c.inside(c.take(SEQUENCE))
    version(inner, 1)
    policy, stamped, serial, moment = oid(inner), imprint(inner), integer(inner), time(inner, GENERALIZED)
    if inner.has(SEQUENCE):
        accuracy(inner)
    if inner.has(BOOLEAN):
        boolean(inner)
    nonce = integer(inner) if inner.has(INTEGER) else None
    if inner.has(0xA0):
        name = inner.inside(inner.take(0xA0))
        name.opaque_element()
        name.finish()
    return TstInfo(policy, stamped, serial, moment, nonce, last_extensions(inner, 0xA1))


class Response(NamedTuple):
    """A TimeStampResp (RFC 3161 2.4.2), with its token as a whole element."""

    status: bytes
    token: Optional[bytes]


def response(c: Cursor) -> Response:
    """A TimeStampResp."""
    inner = c.inside(c.take(SEQUENCE))
    parts = inner.inside(inner.take(SEQUENCE))
    status, token = integer(parts), None
    if parts.has(SEQUENCE):
        many(parts.inside(parts.take(SEQUENCE)), lambda at: at.take(UTF8))
    if parts.has(BITS):
        bits(parts)
        parts.finish()
    else:
        parts.finish(absent=True)
    if inner.has(SEQUENCE):
        token = inner.opaque_element(SEQUENCE).whole()
        inner.finish()
    else:
        inner.finish(absent=True)
    return Response(status, token)


class Named(NamedTuple):
    """An ESSCertID (RFC 2634 5.4.1) or ESSCertIDv2 (RFC 5035 4): the digest of a certificate, with its issuer's names and its
    serial number if they are there."""

    alg: Optional[Algorithm]
    hash: bytes
    names: Optional[list[Element]]
    serial: Optional[bytes]


def named(c: Cursor, second: bool) -> Named:
    """An ESSCertID, of the second version if it is said."""
    inner = c.inside(c.take(SEQUENCE))
    alg = algorithm(inner) if second and inner.has(SEQUENCE) else None
    digest, names, serial = inner.take(OCTETS).body(), None, None
    if inner.has(SEQUENCE):
        pair = inner.inside(inner.take(SEQUENCE))
        names = many(pair.inside(pair.take(SEQUENCE)), opaque)
        serial = integer(pair)
        pair.finish()
        inner.finish()
    else:
        inner.finish(absent=True)
    return Named(alg, digest, names, serial)


def signing_certificate(second: bool) -> Callable[[Cursor], list[Named]]:
    """The reader of a SigningCertificate (RFC 2634 5.4), or of a SigningCertificateV2 (RFC 5035 3)."""

    def read(c: Cursor) -> list[Named]:
        inner = c.inside(c.take(SEQUENCE))
        identifiers = many(inner.inside(inner.take(SEQUENCE)), lambda at: named(at, second))
        if inner.has(SEQUENCE):
            inner.opaque_element(SEQUENCE)
            inner.finish()
        else:
            inner.finish(absent=True)
        return identifiers

    return read


# ---- SignedData


def ordered(c: Cursor, read: Callable[[Cursor], Read], *tags: int) -> list[Read]:
    """Elements in ascending order, each read after it was compared with the one before."""
    items: list[Read] = []
    before: Optional[bytes] = None
    while c.at < c.end:
        octets = c.peek(*tags).whole()
        if before is not None and octets < before:
            raise Fault(14, c.at)
        before = octets
        items.append(read(c))
    return items


class Attribute(NamedTuple):
    """An Attribute (RFC 5652 5.3)."""

    oid: bytes
    values: list[Element]


def attribute(c: Cursor, in_order: bool) -> Attribute:
    """An Attribute, whose values are in the order of DER if it is said."""
    inner = c.inside(c.take(SEQUENCE))
    of = oid(inner)
    values = inner.inside(inner.take(SET))
    listed = ordered(values, opaque) if in_order else many(values, opaque)
    inner.finish()
    return Attribute(of, listed)


def filled(c: Cursor, tag: int) -> Element:
    """A set that must have a member."""
    element = c.take(tag)
    if element.start == element.stop:
        raise Fault(15, element.at)
    return element


class SignerId(NamedTuple):
    """A SignerIdentifier (RFC 5652 5.3): a key identifier, or an issuer, as a whole element, with a serial number."""

    key_id: Optional[bytes]
    issuer: Optional[bytes]
    serial: Optional[bytes]


def signer_id(c: Cursor) -> SignerId:
    """A SignerIdentifier."""
    if c.has(0x80):
        return SignerId(c.take(0x80).body(), None, None)
    inner = c.inside(c.take(SEQUENCE, 0x80))
    value = SignerId(None, inner.opaque_element(SEQUENCE).whole(), integer(inner))
    inner.finish()
    return value


class Signer(NamedTuple):
    """A SignerInfo (RFC 5652 5.3). `tail` is the encoding of the signed attributes without its first octet."""

    version: int
    sid: SignerId
    alg: Algorithm
    signed: Optional[list[Attribute]]
    tail: bytes
    signature_alg: Algorithm
    signature: bytes
    unsigned: list[Attribute]


def signer(c: Cursor) -> Signer:
    """A SignerInfo."""
    inner = c.inside(c.take(SEQUENCE))
    of, sid, alg = version(inner, 1, 3), signer_id(inner), algorithm(inner)
    signed, tail = None, b""
    if inner.has(0xA0):
        element = filled(inner, 0xA0)
        tail = element.whole()[1:]
        signed = ordered(inner.inside(element), lambda at: attribute(at, True), SEQUENCE)
    else:
        inner.peek(SEQUENCE, 0xA0)
    signature_alg, signature = algorithm(inner), inner.take(OCTETS).body()
    unsigned: list[Attribute] = []
    if inner.has(0xA1):
        unsigned = many(inner.inside(filled(inner, 0xA1)), lambda at: attribute(at, False))
        inner.finish()
    else:
        inner.finish(absent=True)
    return Signer(of, sid, alg, signed, tail, signature_alg, signature, unsigned)


def encapsulated(c: Cursor) -> tuple[bytes, Optional[bytes]]:
    """The type of an EncapsulatedContentInfo (RFC 5652 5.2), and its content."""
    inner = c.inside(c.take(SEQUENCE))
    c.keep(inner.peek(OID))
    of, content = oid(inner), None
    if inner.has(0xA0):
        explicit = inner.inside(inner.take(0xA0))
        content = explicit.take(OCTETS).body()
        explicit.finish()
        inner.finish()
    else:
        inner.finish(absent=True)
    return of, content


class SignedData(NamedTuple):
    """A SignedData (RFC 5652 5.1)."""

    version: int
    digests: list[Algorithm]
    type: bytes
    content: Optional[bytes]
    certificates: list[Element]
    crls: list[Element]
    signers: list[Signer]


def signed_data(c: Cursor) -> SignedData:
    """A SignedData."""
    inner = c.inside(c.take(SEQUENCE))
    of, digests = version(inner, 1, 3, 4, 5), many(inner.inside(inner.take(SET)), algorithm)
    kind, content = encapsulated(inner)
    certificates: list[Element] = []
    crls: list[Element] = []
    if inner.has(0xA0):
        listed = inner.inside(inner.take(0xA0))
        certificates = many(listed, lambda at: at.opaque_element(SEQUENCE, 0xA0, 0xA1, 0xA2, 0xA3))
    if inner.has(0xA1):
        crls = many(inner.inside(inner.take(0xA1)), lambda at: at.opaque_element(SEQUENCE, 0xA1))
    c.keep(inner.peek(SET))
    signers = many(inner.inside(inner.take(SET)), signer)
    inner.finish()
    return SignedData(of, digests, kind, content, certificates, crls, signers)


def content_info(c: Cursor) -> Optional[SignedData]:
    """The SignedData of a ContentInfo (RFC 5652 3), None of one of another type."""
    inner = c.inside(c.take(SEQUENCE))
    of, value = oid(inner), None
    explicit = inner.inside(inner.take(0xA0))
    if of == ID_SIGNED_DATA:
        value = signed_data(explicit)
    else:
        explicit.opaque_element()
    explicit.finish()
    inner.finish()
    return value


def read_signed_data(octets: bytes, opaque: Optional[list[Opaque]] = None) -> SignedData:
    """The SignedData of a file. NotSignedData where it is a ContentInfo of another type."""
    value = whole(octets, content_info, opaque)
    if value is None:
        raise NotSignedData()
    return value


def read_stream(octets: bytes, room: int) -> SignedData:
    """The SignedData of a file whose octets come one after the other, of which so many may be kept. Of several faults it is
    the one that is seen first: that the file is cut is seen last, and what follows it after all that is in it."""
    kept: list[int] = []

    def keep(element: Element) -> None:
        kept.append(element.stop - element.at)
        if sum(kept) > room:
            raise TooLong()
        if element.stop > len(octets):
            raise Cut()

    c = Cursor(Stream(octets), keep=keep)
    try:
        value = content_info(c)
    except Cut:
        return read_signed_data(octets)
    if c.at < len(octets):
        raise Fault(7, c.at)
    if value is None:
        raise NotSignedData()
    return value
