"""Certificates in files, PEM or DER, and what a reader wants to know of them. Python's library `cryptography` reads them."""
from __future__ import annotations

import base64
import hashlib
import re
import warnings
from functools import cached_property
from typing import Callable

from cryptography import x509
from cryptography.utils import CryptographyDeprecationWarning

from cmsproof_tools import der
from cmsproof_tools.kinds import CERTIFICATE, kind_instead
from cmsproof_tools.periods import Period
from cmsproof_tools.running import one_line

# Old certificates are what archives have; whether to trust them is for the user to say.
warnings.filterwarnings("ignore", category=CryptographyDeprecationWarning)
# (anybody's certificate can have such a name, which is shown as it is)
warnings.filterwarnings("ignore", message="Country names should be two characters")

# a certificate in PEM (RFC 7468 5), by its label of today or the older one: how it begins and ends
BLOCK = re.compile(rb"-----BEGIN (?:X509 )?CERTIFICATE-----"), re.compile(rb"-----END (?:X509 )?CERTIFICATE-----")
# where another program may find one, as OpenSSL does behind BEGIN TRUSTED CERTIFICATE
BEGIN = re.compile(rb"-----BEGIN (?:(?!-----BEGIN )[^\n])*?CERTIFICATE *-----")
# a block under any label, as Java reads it; and what no text has, but each certificate and each list in DER, as the identifier octet of an
# object identifier
ANY, NO_TEXT = re.compile(rb"-----([^-]*)-----END "), re.compile(rb"[\x01-\x08\x0e-\x19]")
# how a certificate of version 2 or 3 begins, also in BER, which Java reads: two sequences, and the version (X.690 8.1.3)
LENGTH = rb"(?:[\x00-\x80]|\x81.|\x82..|\x83...|\x84....)"
BEGINS = re.compile(b"\x30" + LENGTH + b"\x30" + LENGTH + b"\xa0", re.DOTALL)
# what the library says of ASN.1 that it cannot read, and the names of the parts that it says
ASN_1, QUOTED = re.compile(r"error parsing asn1 value: ParseError \{ kind: (\w+)"), re.compile(r'"([^"]*)"')
# how a SignedData begins (RFC 5652 3, 5.1), which brings certificates and lists along
SIGNED_DATA = re.compile(b"\x30" + LENGTH + re.escape(bytes.fromhex("06092a864886f70d010702")), re.DOTALL)
EXTENSIONS, TRUE, FALSE, VERSION, KEY_IDENTIFIER = 0xA3, b"\xff", b"\0", 0xA0, 0x80
SUBJECT_KEY_IDENTIFIER, BASIC_CONSTRAINTS, EXTENDED_KEY_USAGE = "2.5.29.14", "2.5.29.19", "2.5.29.37"
KEY_USAGE, BITS, DIGITAL_SIGNATURE_OR_NON_REPUDIATION = "2.5.29.15", 0x03, 0xC0
# any purpose, mail (RFC 5280 4.2.1.12), documents (RFC 9336, and what Microsoft and Adobe had before it)
DOCUMENTS = ("2.5.29.37.0", "1.3.6.1.5.5.7.3.4", "1.3.6.1.5.5.7.3.36", "1.3.6.1.4.1.311.10.3.12", "1.2.840.113583.1.1.5")
STAMPS = ("2.5.29.37.0", "1.3.6.1.5.5.7.3.8")
# an ExtKeyUsageSyntax with id-kp-timeStamping as its one purpose
TIME_STAMPING_ALONE = bytes.fromhex("300a06082b06010505070308")


class Certificate:
    """A certificate: its octets in DER, and the library's reading of them. Raises ValueError where they are no certificate."""

    def __init__(self, octets: bytes) -> None:
        # Old versions of the library pass over octets behind a certificate.
        der.only(der.SEQUENCE, octets)
        self.octets = octets
        try:
            self.read = x509.load_der_x509_certificate(octets)
            self.extensions("")
        except (x509.InvalidVersion, IndexError) as error:
            raise ValueError(error) from error

    def name_text(self, whose: str) -> str:
        """The name of its subject or its issuer in the form of RFC 4514, on one line."""
        text = self.name_read(whose)
        return "(a name that cannot be shown)" if text is None else one_line(text)

    def name_read(self, whose: str) -> str | None:
        """The name as the library reads it, or None where it does not: it has a word of its own for each fault, as KeyError."""
        try:
            return str(getattr(self.read, whose).rfc4514_string())
        except Exception:  # whatever it says, there is no name
            return None

    def about(self) -> list[str]:
        """Lines for a reader: subject, issuer, serial number, validity, and what tells it from any other certificate."""
        return [
            "subject " + self.name_text("subject"),
            "issuer " + self.name_text("issuer"),
            "serial " + serial_text(self.read.serial_number),
            f"valid {self.time_text('not_valid_before')} to {self.time_text('not_valid_after')}",
            "sha256 " + self.fingerprint(),
        ]

    @cached_property
    def fields(self) -> list[der.Element]:
        """The fields of its TBSCertificate (RFC 5280 4.1) behind the version: serial number, algorithm, issuer, validity, subject,
        key, and what else is there."""
        fields = der.elements(der.elements(der.only(der.SEQUENCE, self.octets))[0].contents)
        return fields[1:] if fields[0].identifier == VERSION else fields

    @property
    def key(self) -> bytes:
        """Its SubjectPublicKeyInfo."""
        return self.fields[5].whole

    @property
    def identity(self) -> tuple[str, bytes]:
        """Whose it is: the name and the key, of which there may be several certificates."""
        return self.name_keys["subject"], self.key

    @cached_property
    def name_keys(self) -> dict[str, str]:
        """What names that may be the same have in common, of its issuer and its subject: it only finds what OpenSSL is asked about."""
        keys = {}
        for whose, field in (("issuer", 2), ("subject", 4)):
            text = self.name_read(whose)
            keys[whose] = self.fields[field].whole.hex() if text is None else name_key(text)
        return keys

    @cached_property
    def sids(self) -> frozenset[tuple[bool, bytes]]:
        """How signers may name it (RFC 5652 5.3): by issuer and serial number, or, with True, by a subjectKeyIdentifier."""
        marks = [value[2:] for _, value in self.extensions(SUBJECT_KEY_IDENTIFIER) if is_short(value)]
        return frozenset([(False, self.fields[2].whole + self.fields[0].whole), *((True, mark) for mark in marks)])

    def is_named(self, sid: der.Element) -> bool:
        """Whether a signer names it."""
        return sid_of(sid) in self.sids

    def is_self_issued(self) -> bool:
        """Whether its subject is its issuer, as of a root."""
        return self.fields[2].whole == self.fields[4].whole

    def validity(self) -> Period:
        """Its validity, and that it ends with it."""
        return self._validity

    @cached_property
    def _validity(self) -> Period:
        subject = self.name_text("subject")
        return Period(
            self.time_text("not_valid_before"), self.time_text("not_valid_after"), f"the certificate of {subject} expires"
        )

    def fingerprint(self) -> str:
        """The SHA-256 of the certificate, as `openssl x509 -fingerprint -sha256` shows it."""
        return hashlib.sha256(self.octets).digest().hex(":").upper()

    def time_text(self, name: str) -> str:
        """An end of the validity as a GeneralizedTime. The library has it in UTC, from version 42 on under another name."""
        time = getattr(self.read, name + "_utc", None) or getattr(self.read, name)
        return f"{time.year:04}{time:%m%d%H%M%SZ}"

    def extensions(self, number: str) -> list[tuple[bool, bytes]]:
        """Criticality and contents of each extension of this object identifier. It is read here, for the library refuses all
        extensions if one of them has a name of a kind that it does not know."""
        fields = der.elements(der.elements(der.only(der.SEQUENCE, self.octets))[0].contents)
        found = [field for field in fields if field.identifier == EXTENSIONS]
        rows = [der.elements(row.contents) for row in der.elements(der.only(der.SEQUENCE, found[0].contents))] if found else []
        named = [row for row in rows if der.oid_text(row[0].contents) == number]
        return [(len(row) == 3 and row[1].contents == TRUE, row[-1].contents) for row in named]

    def is_issuer(self) -> bool:
        """Whether it says that it is an issuer's: CA is true in basicConstraints (RFC 5280 4.2.1.9)."""
        found = [part for part in map(first_part, self.extensions(BASIC_CONSTRAINTS)) if part is not None]
        return any(part.identifier == der.BOOLEAN and part.contents != FALSE for part in found)

    def stamping_only(self) -> bool:
        """Whether its key is for time-stamping alone, and that critically (RFC 3161 2.3)."""
        return self.extensions(EXTENDED_KEY_USAGE) == [(True, TIME_STAMPING_ALONE)]

    def signs_documents(self) -> bool:
        """Whether its key is for signing documents, as far as it says what it is for (RFC 5280 4.2.1.3, 4.2.1.12)."""
        return self.signs() and self.is_for(DOCUMENTS)

    def signs(self) -> bool:
        """Whether its key is for signing other things than certificates and lists, as far as it says that (RFC 5280 4.2.1.3)."""
        usages = [der.only(BITS, value) for _, value in self.extensions(KEY_USAGE)]
        return all(len(usage) > 1 and usage[1] & DIGITAL_SIGNATURE_OR_NON_REPUDIATION for usage in usages)

    def is_for(self, purposes: tuple[str, ...]) -> bool:
        """Whether its key is for one of these purposes, as far as it says what it is for."""
        found = [der.elements(der.only(der.SEQUENCE, value)) for _, value in self.extensions(EXTENDED_KEY_USAGE)]
        return all(any(der.oid_text(part.contents) in purposes for part in parts) for parts in found)

    def has_key_identifier(self, octets: bytes) -> bool:
        """Whether this is its subjectKeyIdentifier (RFC 5280 4.2.1.2): short, so that its length has one octet."""
        return (bytes([der.OCTETS, len(octets)]) + octets) in [value for _, value in self.extensions(SUBJECT_KEY_IDENTIFIER)]


def name_key(text: str) -> str:
    """What the texts of names that may be the same have in common: all but white space, which OpenSSL passes over at the ends of values, and
    the case."""
    return "".join(text.casefold().replace("\\ ", "").split())


def is_short(value: bytes) -> bool:
    """Whether an extension's contents are an OCTET STRING whose length has one octet, as each subjectKeyIdentifier's."""
    return len(value) > 1 and value[0] == der.OCTETS and value[1] == len(value) - 2 and value[1] < 0x80


def sid_of(sid: der.Element) -> tuple[bool, bytes]:
    """What a signer names, as `Certificate.sids` has it."""
    return sid.identifier == KEY_IDENTIFIER, sid.contents


def first_part(extension: tuple[bool, bytes]) -> der.Element | None:
    """The first element of the SEQUENCE in an extension, or None where there is none."""
    try:
        return next(iter(der.elements(der.only(der.SEQUENCE, extension[1]))), None)
    except ValueError:
        return None


def serial_text(number: int) -> str:
    """The contents of the INTEGER of a serial number in hexadecimal, as `cmsproof cert` shows it."""
    return number.to_bytes(number.bit_length() // 8 + 1, "big", signed=True).hex()


def octets_in(block: bytes) -> bytes:
    """The octets that a block of PEM holds. Raises ValueError where it is none."""
    return base64.b64decode(b"".join(block.split()), validate=True)


def is_in(block: bytes, is_one: Callable[[bytes], object]) -> bool:
    """Whether a block of PEM holds what is looked for, or a SignedData, out of which Java takes it; also without the signs `=` at its end,
    of which Java needs none."""
    text = b"".join(block.split()).rstrip(b"=")
    try:
        octets = octets_in(text + b"=" * (-len(text) % 4))
        return SIGNED_DATA.match(octets) is not None or bool(is_one(octets))
    except ValueError:
        return False


def parts_of(octets: bytes, block: tuple[re.Pattern[bytes], re.Pattern[bytes]]) -> tuple[list[bytes], bytes]:
    """What stands in the blocks of a text in PEM, and what is around them. (Behind one that does not end no other is looked for: that took
    the square of their number.)"""
    begin, end = block
    found, around, at = [], [], 0
    while (first := begin.search(octets, at)) and (last := end.search(octets, first.end())):
        found.append(octets[first.end() : last.start()])
        around.append(octets[at : first.start()])
        at = last.end()
    return found, b"\n".join([*around, octets[at:]])


def others_beside(around: bytes, is_one: Callable[[bytes], object]) -> bool:
    """Whether around the blocks of a file stands what may be another one in DER, or is one under another label."""
    return bool(NO_TEXT.search(around)) or any(is_in(block, is_one) for block in ANY.findall(around))


def may_be_certificate(octets: bytes) -> bool:
    """Whether another program may read octets as a certificate."""
    return BEGINS.match(octets) is not None or certificate_in_der(octets) is not None


def certificate_in_der(octets: bytes) -> Certificate | None:
    """The certificate that octets are in DER, or None."""
    try:
        return Certificate(octets) if octets[:1] == b"\x30" else None
    except ValueError:
        return None


def reason_of(error: Exception) -> str:
    """Why the library reads no certificate, list or response, without the words of the language that it is written in."""
    text = str(error)
    found = ASN_1.match(text)
    return text if found is None else f"its ASN.1 cannot be read ({' at '.join([found[1], *QUOTED.findall(text)[-1:]])})"


def certificates_in(octets: bytes, left_out: Callable[[str], None] | None = None) -> list[Certificate]:
    """The certificates of a file: one in DER, or all that are there in PEM. Raises ValueError, with a line, where none is; of one that cannot
    be read, `left_out` is called with that line instead."""
    alone = certificate_in_der(octets)
    if alone is not None:
        # (which OpenSSL 3.0 shows in place of this one)
        if BEGIN.search(octets):
            raise ValueError("another certificate begins in it, as a text, which is not read here, but is elsewhere")
        return [alone]
    blocks, around = parts_of(octets, BLOCK)
    if not blocks and b"-----BEGIN " in octets:
        raise ValueError("no certificate is in it, but other PEM")
    kind = "" if blocks else kind_instead(octets)
    is_meant = bool(blocks) or BEGINS.match(octets) is not None or kind == CERTIFICATE
    if kind and not is_meant:
        raise ValueError(f"it is no certificate in PEM or DER: {kind}")
    found = []
    for number, block in enumerate(blocks or [octets], start=1):
        try:
            certificate = Certificate(octets_in(block) if blocks else octets)
            certificate.validity()
            found.append(certificate)
        except ValueError as error:
            what = f"certificate {number} is none" if blocks else "it is no certificate in PEM or DER"
            line = f"{what}: {reason_of(error)}"
            if left_out is None or not is_meant:
                raise ValueError(line) from error
            left_out(line)
    if blocks and len(BEGIN.findall(octets)) > len(blocks):
        raise ValueError("another certificate begins in it, which is not read here, but is elsewhere")
    if blocks and others_beside(around, may_be_certificate):
        raise ValueError(
            "another certificate may be in it, in DER or under another label, which is not read here, but is elsewhere"
        )
    return found
