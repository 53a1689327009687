"""Stored responses about the revocation of a certificate (OCSP, RFC 6960), each verified by `openssl ocsp`. Nothing here is proved."""
from __future__ import annotations

import hashlib
from datetime import datetime
from typing import Any, Callable, Iterator, NamedTuple

from cryptography.hazmat.primitives.serialization import Encoding
from cryptography.x509 import ocsp

from cmsproof_tools import der
from cmsproof_tools.certificates import EXTENDED_KEY_USAGE, TRUE, Certificate
from cmsproof_tools.paths import Broken, OpenSSL, Row, pem
from cmsproof_tools.periods import moment_of
from cmsproof_tools.revocation import Known, Revoked, time_of
from cmsproof_tools.running import shown
from cmsproof_tools.signatures import is_small, is_under, is_weak, signed_in
from cmsproof_tools.texts import time_in
from cmsproof_tools.verifying import Unjudged

# (the times are compared with the stamp's, and not with the clock: so many seconds to both sides are allowed)
ANY_TIME = ["-validity_period", "4000000000"]
DIGESTS = ("sha1", "sha224", "sha256", "sha384", "sha512")
GOOD, REVOKED = ocsp.OCSPCertStatus.GOOD, ocsp.OCSPCertStatus.REVOKED
EXTENSIONS, GENERALIZED_TIME, INVALIDITY_DATE = 0xA1, 0x18, "2.5.29.24"
# extensions of a response, or of a part, that may be critical (RFC 6960 4.4): the nonce, where a list is, from when on expired ones are
# known, what the responder says of certificates that nobody issued; and those of an entry of a list (RFC 5280 5.3)
KNOWN = tuple("1.3.6.1.5.5.7.48.1." + last for last in ("2", "3", "6", "9")) + (INVALIDITY_DATE, "2.5.29.21")
# who signs responses in the place of an issuer (RFC 6960 4.2.2.2)
OCSP_SIGNING = "1.3.6.1.5.5.7.3.9"


class Single(NamedTuple):
    """What a response says of one certificate, as the library reads it, and its extensions: number, criticality, contents."""

    read: Any
    extensions: list[tuple[str, bool, bytes]]

    def is_about(self, certificate: Certificate, issuer: Certificate) -> bool:
        """Whether it is about a certificate of an issuer (CertID, RFC 6960 4.1.1): the name is that which the certificate has, or that
        of the issuer, which may be written otherwise."""
        if self.read.serial_number != certificate.read.serial_number:
            return False
        key = der.elements(der.only(der.SEQUENCE, issuer.fields[5].whole))[1].contents[1:]
        name, of_key, *others = (
            hashlib.new(self.read.hash_algorithm.name, octets).digest()
            for octets in (certificate.fields[2].whole, key, issuer.fields[4].whole)
        )
        return self.read.issuer_name_hash in (name, *others) and self.read.issuer_key_hash == of_key

    def revocation(self) -> Revoked | None:
        """The revocation that it says. Raises Broken where the invalidity date cannot be read."""
        if self.read.certificate_status != REVOKED:
            return None
        date, reason = time_of(self.read, "revocation_time"), self.read.revocation_reason
        assert date is not None
        invalid = [invalidity_in(value) for number, _, value in self.extensions if number == INVALIDITY_DATE]
        return Revoked(date, min(invalid, default=None), "" if reason is None else reason.value)

    def known(self, counts: bool) -> Known:
        """What is known by it."""
        this = time_of(self.read, "this_update")
        assert this is not None
        return Known(this, time_of(self.read, "next_update"), None, self.revocation(), counts)


def invalidity_in(value: bytes) -> datetime:
    """The time in an invalidityDate (RFC 5280 5.3.2). Raises Broken where it cannot be read."""
    try:
        text = der.only(GENERALIZED_TIME, value).decode("ascii")
        return time_in(text)
    except ValueError as error:
        raise Broken(f"the invalidity date in a response cannot be read: {error}") from error


def extensions_in(parts: list[der.Element]) -> list[tuple[str, bool, bytes]]:
    """The extensions that are the last of these parts, if they are there: number, criticality, contents."""
    if not parts or parts[-1].identifier != EXTENSIONS:
        return []
    rows = [der.elements(row.contents) for row in der.elements(der.only(der.SEQUENCE, parts[-1].contents))]
    return [(der.oid_text(row[0].contents), len(row) == 3 and row[1].contents == TRUE, row[-1].contents) for row in rows]


def singles_in(basic: bytes, read: Any) -> tuple[list[Single], list[tuple[str, bool, bytes]]]:
    """The parts of a basic response (RFC 6960 4.2.1), and its own extensions. Raises ValueError where a digest is not known: nobody knows
    then whom the part is about."""
    parts = der.elements(der.elements(der.only(der.SEQUENCE, basic))[0].contents)
    at = max(number for number, part in enumerate(parts) if part.identifier == der.SEQUENCE)
    rows, found = der.elements(parts[at].contents), list(read.responses)
    if len(rows) != len(found) or any(single.hash_algorithm.name not in DIGESTS for single in found):
        raise ValueError("whom a part of it is about is said by a digest that is not known")
    return [Single(single, extensions_in(der.elements(row.contents)[3:])) for row, single in zip(rows, found)], extensions_in(
        parts[at + 1 :]
    )


def basic_in(octets: bytes) -> bytes:
    """The BasicOCSPResponse in a response (RFC 6960 4.2.1)."""
    explicit = der.elements(der.only(der.SEQUENCE, octets))[1].contents
    return der.elements(der.only(der.SEQUENCE, explicit))[1].contents


class Response:
    """A response, as it was found in a file. Raises ValueError where the octets are none, or one that says that it failed."""

    def __init__(self, name: str, octets: bytes) -> None:
        der.only(der.SEQUENCE, octets)
        self.name, self.octets = shown(name), octets
        try:
            self.read = ocsp.load_der_ocsp_response(octets)
            if self.read.response_status != ocsp.OCSPResponseStatus.SUCCESSFUL:
                raise ValueError(f"it says {self.read.response_status.name}")
            produced = time_of(self.read, "produced_at")
            self.singles, self.extensions = singles_in(basic_in(octets), self.read)
            self.certificates = [Certificate(found.public_bytes(Encoding.DER)) for found in self.read.certificates]
            self.signed = signed_in(basic_in(octets))
        except ValueError:
            raise
        except Exception as error:  # the library has a word of its own for each fault of a response
            raise ValueError(str(error)) from error
        assert produced is not None
        self.produced = produced

    def about(self) -> str:
        """What it is, for a reader."""
        return f"response {self.name} of {moment_of(self.produced)}, sha256 {hashlib.sha256(self.octets).hexdigest()}"

    def about_one(self, certificate: Certificate, issuer: Certificate) -> list[Single]:
        """What it says of a certificate of an issuer."""
        return [single for single in self.singles if single.is_about(certificate, issuer)]

    def revocations(self, certificate: Certificate, issuer: Certificate, signers: list[Certificate]) -> Iterator[Revoked]:
        """What it revokes, if one of these keys of the issuer signed it, or somebody whom the issuer named for that."""
        found = [single for single in self.about_one(certificate, issuer) if single.read.certificate_status == REVOKED]
        if found and self.is_of(signers):
            yield from filter(None, (single.revocation() for single in found))

    def is_of(self, signers: list[Certificate]) -> bool:
        """Whether it is signed by one of these keys of an issuer, or by one that it brings along, which such a key signed for responses."""
        brought = [(found, signed_in(found.octets)) for found in self.certificates if is_responder(found)]
        named = [found for found, signed in brought if any(is_under(signed, one.key) for one in signers)]
        return any(is_under(self.signed, found.key) for found in (*signers, *named))

    def known(
        self, openssl: OpenSSL, row: Row, signers: list[Certificate], sha1: bool, told: Callable[[str], None]
    ) -> Iterator[Known]:
        """What it says of the first certificate of a path, if OpenSSL takes it; a line if not. One that OpenSSL does not take, that has a
        critical extension which is not known, or that is signed by a weak algorithm or under anybody's key counts for a revocation alone.
        """
        found = self.about_one(row[0], row[1])
        if not found:
            return
        fault = self.fault(openssl, row, found[0].read)
        held = self.is_of(signers)
        less = fault or self.strange(found) or self.weakness(sha1) or "nobody can say that its signature holds" * (not held)
        if less:
            told(f"{self.name}: not a response about {row[0].name_text('subject')}: {less}")
        for single in found if not fault or held else ():
            if single.read.certificate_status in (GOOD, REVOKED):
                yield single.known(not less)
            else:
                told(f"{self.name}: not a response about {row[0].name_text('subject')}: it does not know the certificate")

    def strange(self, found: list[Single]) -> str:
        """The critical extension of it, or of these parts, that is not known (RFC 6960 4.4), or no text."""
        every = [*self.extensions, *(extension for single in found for extension in single.extensions)]
        numbers = [number for number, critical, _ in every if critical and number not in KNOWN]
        return f"a critical extension is not known: {numbers[0]}" if numbers else ""

    def weakness(self, sha1: bool) -> str:
        """Why no good word may stand on it, by its signature or by a certificate that it brings along, or no text."""
        signatures = [self.signed.algorithm, *(signed_in(found.octets).algorithm for found in self.certificates)]
        try:
            small = any(is_small(found.key) for found in self.certificates)
        except Unjudged:
            small = True
        unfit = any(is_unfit(found) and is_under(self.signed, found.key) for found in self.certificates)
        weak = small or unfit or any(is_weak(signature, sha1) for signature in signatures)
        return "it, or who signed it, has a signature by SHA-1 or by an algorithm or a key that is not good enough" * weak

    def fault(self, openssl: OpenSSL, row: Row, single: Any) -> str:
        """Why OpenSSL does not take it as signed by the issuer, or by one whom the issuer named for that (RFC 6960 4.2.2.2)."""
        openssl.write("response.der", self.octets)
        openssl.write("judged0.pem", pem(row[:1]))
        openssl.write("issuer.pem", pem(row[1:2]))
        alone = ["-CAfile", "issuer.pem", "-no-CApath", "-no-CAstore", "-partial_chain", "-no_nonce", *ANY_TIME]
        # (a weak signature counts for a revocation)
        at = ["-attime", str(int(self.produced.timestamp())), "-auth_level", "0"]
        asked = ["-issuer", "issuer.pem", "-" + single.hash_algorithm.name, "-cert", "judged0.pem"]
        done = openssl.said(["ocsp", "-respin", "response.der", *alone, *at, *asked])
        good = done.returncode == 0 and b"Response verify OK\n" in done.stderr
        return "" if good and done.stdout.startswith(b"judged0.pem: ") else "its signature does not hold"


def is_responder(certificate: Certificate) -> bool:
    """Whether a certificate says that it is for signing responses."""
    try:
        return bool(certificate.extensions(EXTENDED_KEY_USAGE)) and certificate.is_for((OCSP_SIGNING,))
    except ValueError:
        return False


def is_unfit(certificate: Certificate) -> bool:
    """Whether the key of one that is for signing responses signs nothing by its keyUsage, at which OpenSSL does not look."""
    try:
        return is_responder(certificate) and not certificate.signs()
    except ValueError:
        return True
