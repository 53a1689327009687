"""Revocation: lists (RFC 5280 5) that are given, each verified by OpenSSL under the issuer's certificate of a path, and what they
cut from the period of a path. Nothing here is proved.

A certificate that is judged with revocation must be covered: by a list of its issuer that was not yet stale at the stamp's time,
and that was issued before the certificate expired. A period ends with what is known: at the next update of the latest list that
covers the certificate, and until when the certificate serves is kept beside it. A revocation cuts both before its date, and before its
invalidity date where that is earlier (RFC 5280 5.3.2); one that became known after the stamp, as any other. A time-stamping authority,
and who issued its certificate, can have been revoked for four reasons; with any other, or with none, all of its stamps are void (RFC
3161 4).

A list that is not whole, or signed by a weak algorithm or by another key of the issuer than that of the path, counts for what it
revokes, and never for what it leaves out.
"""
from __future__ import annotations

import base64
import hashlib
import os
import re
import textwrap
from datetime import datetime
from typing import Any, Callable, Iterable, Iterator, NamedTuple, Optional

from cryptography import x509

from cmsproof_tools import der
from cmsproof_tools.certificates import Certificate, certificates_in, name_key, octets_in, others_beside, parts_of, reason_of
from cmsproof_tools.descriptors import AT_ONCE
from cmsproof_tools.kinds import BEGINNING, HEADER, LENGTH, OCSP
from cmsproof_tools.paths import Broken, OpenSSL, Path, Row
from cmsproof_tools.periods import OPEN, Period, just_before, moment_of, utc
from cmsproof_tools.running import shown
from cmsproof_tools.signatures import is_under, is_weak, signed_in
from cmsproof_tools.texts import in_order, time_in

# where a list may begin, also by a label that nobody reads here (RFC 7468 6)
BEGIN = re.compile(rb"-----BEGIN [^\n-]*CRL *-----")
BLOCK = re.compile(rb"-----BEGIN X509 CRL-----"), re.compile(rb"-----END X509 CRL-----")
# how a list in DER begins: its version, if it says one, and its algorithm (RFC 5280 5.1), which is not the name of a kind of CMS
NO_CMS = rb"(?!\x09\x2a\x86\x48\x86\xf7\x0d\x01\x07)"
LIST_BEGINS = re.compile(HEADER + rb"\x30" + LENGTH + rb"(?:\x02\x01\x01)?\x30" + LENGTH + rb"\x06" + NO_CMS, re.DOTALL)
DELTA, EXPIRED_ON_LIST, DISTRIBUTION, CERTIFICATE_ISSUER = "2.5.29.27", "2.5.29.60", "2.5.29.28", "2.5.29.29"
DISTRIBUTION_POINTS, POINT_NAME = "2.5.29.31", 0xA0
# what a list counts for that OpenSSL does not take
REVOKES, STRANGE = "what it revokes counts all the same", "if another key of it signed it, name that by --intermediate"
# how many lines are told of lists that are not those of an issuer of their name
MOST_TOLD = 3
# critical ones that OpenSSL knows: the issuing distribution point, and who issued the list
KNOWN = (DISTRIBUTION, "2.5.29.35", "2.5.29.20")
# the reasons for which stamps of earlier times stay good (RFC 3161 4)
HARMLESS = ("unspecified", "affiliationChanged", "superseded", "cessationOfOperation")
ERROR = re.compile(r"^error ([0-9]+) at ([0-9]+) depth lookup: (.*)$", re.MULTILINE)
REVOKED = {("23", "0")}


class Revoked(NamedTuple):
    """That a certificate was revoked: when, since when it was invalid, if that is said, and why; no text where no reason is said."""

    date: datetime
    invalid: Optional[datetime]
    reason: str

    def since(self) -> datetime:
        """From when on it does not count."""
        return self.date if self.invalid is None else min(self.date, self.invalid)

    def text(self, certificate: Certificate) -> str:
        """What is said of it."""
        since = "" if self.invalid is None else f", invalid since {moment_of(self.invalid)}"
        return f"{certificate.name_text('subject')} was revoked {moment_of(self.date)}{since} ({self.reason or 'no reason is said'})"


class Known(NamedTuple):
    """What a list or a response says of a certificate: its time, that of the next one, from when on it has expired ones too,
    the revocation, if there is one, and whether it counts for more than that."""

    this: datetime
    next: Optional[datetime]
    expired_since: Optional[datetime]
    revoked: Optional[Revoked]
    counts: bool

    def last(self) -> str:
        """Until when it says something."""
        return moment_of(self.this if self.next is None else max(self.this, self.next))

    def covers(self, certificate: Certificate, moment: str) -> bool:
        """Whether it says how the certificate stood at a moment: it is not stale then, and was issued before the certificate
        expired, for later ones need not have it (RFC 5280 3.3)."""
        validity = certificate.validity()
        early = in_order(moment_of(self.this), validity.last)
        kept = self.expired_since is not None and in_order(moment_of(self.expired_since), validity.last)
        return self.counts and in_order(moment, self.last()) and (early or kept)


def time_of(read: Any, name: str) -> Optional[datetime]:
    """A time that the library has in UTC, from version 42 on under another name; None where it is absent."""
    found = getattr(read, name + "_utc", None) or getattr(read, name)
    return None if found is None else utc(found)


class RevocationList:
    """A list, as it was found in a file. Raises ValueError where the octets are none, and Broken for one of a kind that is not read.
    `partial` says why it does not have all revocations of its issuer, if it has not."""

    def __init__(self, name: str, octets: bytes) -> None:
        der.only(der.SEQUENCE, octets)
        self.name, self.octets, self.read = shown(name), octets, x509.load_der_x509_crl(octets)
        self.signed = signed_in(octets)
        self.this, self.next = time_of(self.read, "last_update"), time_of(self.read, "next_update")
        self.issuer = name_key(self.read.issuer.rfc4514_string())
        self.extensions = {extension.oid.dotted_string: extension for extension in self.read.extensions}
        self.scoped = DISTRIBUTION in self.extensions
        self.verified: dict[tuple[bytes, ...], str] = {}
        self.partial = self.missing()

    def missing(self) -> str:
        """Why it may lack revocations of its issuer, or no text. Raises Broken where its serial numbers are of no certificates."""
        point: Any = self.extensions[DISTRIBUTION].value if self.scoped else None
        if point is not None and point.only_contains_attribute_certs:
            raise Broken(f"{self.name}: a list of attribute certificates is not read")
        self.indirect = point is not None and point.indirect_crl
        self.named = point is not None and bool(point.full_name or point.relative_name)
        if self.indirect:
            return "a list for other issuers too is not whole"
        if DELTA in self.extensions:
            return "a delta list, which has only what changed: name the whole list"
        unknown = [number for number, found in self.extensions.items() if found.critical and number not in KNOWN]
        if unknown:
            return f"a critical extension is not known: {unknown[0]}"
        return "a list for some reasons alone is not whole" if point is not None and point.only_some_reasons else ""

    def expired_since(self) -> Optional[datetime]:
        """From when on it has expired certificates too (X.509 9.5.2.8), if it says so in a form that is read."""
        found = self.extensions.get(EXPIRED_ON_LIST)
        try:
            text = "" if found is None else der.only(0x18, found.value.value).decode("ascii", "replace")
            return time_in(text)
        except ValueError:
            return None

    def entries(self, certificate: Certificate) -> list[Any]:
        """Its entries for a certificate of its issuer: none, one, or more by a fault of the issuer."""
        number = certificate.read.serial_number
        if self.read.get_revoked_certificate_by_serial_number(number) is None:
            return []
        every: Any = self.read  # (the types of `cryptography` 38 do not say that it can be gone through)
        issuers, found = {self.issuer}, []
        for entry in every:
            issuers = issuers_in(entry, issuers) if self.indirect else issuers
            if entry.serial_number == number and certificate.name_keys["issuer"] in issuers:
                found.append(entry)
        return found

    def revocations(self, certificate: Certificate) -> list[Revoked]:
        """What it says of a certificate of its issuer. Raises Broken where an entry cannot be read."""
        try:
            found = [revoked_in(entry) for entry in self.entries(certificate)]
        except Exception as error:  # whatever the library says here, there is an entry
            raise Broken(f"{certificate.name_text('subject')}: its entry in {self.name} cannot be read: {error}") from error
        # (what a delta list removes from the whole one is revoked there, and not here)
        return [revoked for revoked in found if DELTA not in self.extensions or revoked.reason != "removeFromCRL"]

    def is_of(self, issuer: Certificate) -> bool:
        """Whether it is signed by the key of an issuer of its name."""
        return self.issuer == issuer.name_keys["subject"] and is_under(self.signed, issuer.key)

    def known(self, certificate: Certificate, counts: bool) -> Iterator[Known]:
        """What it says of a certificate of its issuer."""
        assert self.this is not None
        found: list[Optional[Revoked]] = [*self.revocations(certificate)]
        for revoked in found or [None]:
            yield Known(self.this, self.next, self.expired_since(), revoked, counts)

    def fault(self, openssl: OpenSSL, row: Row) -> str:
        """Why OpenSSL does not take the list for one of the issuer of the first of these certificates, or no text where it does."""
        if self.named and has_unnamed_point(row[0]):
            return "different CRL scope"
        # (which one of the path issued it OpenSSL finds: names do not say that)
        key = tuple(certificate.octets for certificate in row[not self.scoped :])
        if key not in self.verified:
            self.verified[key] = list_fault(openssl, self.octets, row)
        return self.verified[key]


def issuers_in(entry: Any, before: set[str]) -> set[str]:
    """The issuers of whose certificate an entry of an indirect list is: those of the entry before, unless it names one (RFC 5280 5.3.3)."""
    named = [extension.value for extension in entry.extensions if extension.oid.dotted_string == CERTIFICATE_ISSUER]
    return {name_key(name.rfc4514_string()) for name in named[0].get_values_for_type(x509.DirectoryName)} if named else before


def has_unnamed_point(certificate: Certificate) -> bool:
    """Whether a distribution point of a certificate has no name, or cannot be read: OpenSSL takes any list for one of that (RFC 5280 6.3.3
    (b) (2) (i))."""
    try:
        points = [der.elements(der.only(der.SEQUENCE, value)) for _, value in certificate.extensions(DISTRIBUTION_POINTS)]
        return any(der.elements(point.contents)[0].identifier != POINT_NAME for every in points for point in every)
    except (ValueError, IndexError):
        return True


def revoked_in(entry: Any) -> Revoked:
    """The revocation in an entry of a list."""
    found = {extension.oid.dotted_string: extension.value for extension in entry.extensions}
    reason, invalid = found.get("2.5.29.21"), found.get("2.5.29.24")
    date = time_of(entry, "revocation_date")
    assert date is not None
    since = None if invalid is None else time_of(invalid, "invalidity_date")
    return Revoked(date, since, "" if reason is None else reason.reason.value)


def list_fault(openssl: OpenSSL, octets: bytes, row: Row) -> str:
    """What OpenSSL says of a list for the first certificate of a path: no text where it holds, and says good or revoked."""
    body = "\n".join(textwrap.wrap(base64.b64encode(octets).decode(), 64))
    openssl.write("list.pem", f"-----BEGIN X509 CRL-----\n{body}\n-----END X509 CRL-----\n".encode())
    # (the times are compared here)
    good, told = openssl.judge([row[0]], row[1:], ["-no_check_time", "-crl_check", "-CRLfile", "list.pem"])
    found = ERROR.findall(told)
    if good or (found and {fault[:2] for fault in found} == REVOKED):
        return ""
    return next((text for number, _, text in found if number != "23"), "OpenSSL cannot read it")


def lists_in(name: str, octets: bytes) -> Iterator[bytes]:
    """The lists of a file, each in DER: one in DER, or all that are there in PEM. Raises ValueError where none is."""
    begins, (blocks, around) = begins_in(octets), parts_of(octets, BLOCK)
    if begins and is_element(octets):
        raise ValueError("another list begins in it, as a text")
    if not begins and b"-----BEGIN " in octets:
        raise ValueError("no revocation list is in it, but other PEM")
    if begins > len(blocks):
        raise ValueError("another list begins in it, and does not end, is in UTF-16, or has another label than X509 CRL")
    if blocks and others_beside(around, is_list):
        raise ValueError("another list may be in it, in DER or under another label")
    yield from map(octets_in, blocks)
    if not blocks:
        yield octets


def begins_in(octets: bytes) -> int:
    """How many lists in PEM begin in octets, also in UTF-16, as PowerShell writes them."""
    return len(BEGIN.findall(octets.replace(b"\0", b"")))


def is_list(octets: bytes) -> bool:
    """Whether octets are a list in DER."""
    try:
        return is_element(octets) and x509.load_der_x509_crl(octets) is not None
    except Exception:  # whatever the library says, it is none that another program reads
        return False


def known_at(name: str) -> str:
    """What a regular file of this name is, if it is a revocation list or a response of OCSP by its first octets, or else no text."""
    try:
        if not os.path.isfile(name):
            return ""
        reading = os.open(name, AT_ONCE)
        try:
            octets = os.read(reading, BEGINNING)
        finally:
            os.close(reading)
    except (OSError, ValueError):
        return ""
    is_crl = begins_in(octets) or LIST_BEGINS.match(octets)
    return "a revocation list" if is_crl else "a response of OCSP" if OCSP.match(octets) else ""


def is_element(octets: bytes) -> bool:
    """Whether octets are one SEQUENCE in DER."""
    try:
        return bool(der.only(der.SEQUENCE, octets))
    except (ValueError, IndexError):
        return False


def is_meant(name: str, octets: bytes) -> bool:
    """Whether octets that cannot be read as a list were meant as one: by the name of their file, or since they begin as one, or as a
    certificate that they are not, which is how certutil writes a list."""
    if begins_in(octets) or name.lower().endswith(".crl"):
        return True
    try:
        begun = octets[:1] == b"\x30" or b"-----BEGIN CERTIFICATE" in octets
        return begun and not certificates_in(octets)
    except ValueError:
        return True


def period_before(certificate: Certificate, revocations: Iterable[Revoked], stamping: bool) -> Period:
    """The period before all of these revocations of a certificate. Raises Broken where stamps of no time count any more."""
    period = Period()
    for revoked in revocations:
        if stamping and revoked.reason not in HARMLESS:
            raise Broken(f"{revoked.text(certificate)}: none of its stamps counts any more (RFC 3161 4)")
        period = period.cut(Period(OPEN, just_before(revoked.since()), revoked.text(certificate)))
    return period


class Revocation:
    """All that is known of revocations: what lists and responses say of a certificate. `trusted` and `between` are the issuers and other
    certificates that the user has, among which there may be other keys of an issuer."""

    def __init__(
        self,
        openssl: OpenSSL,
        sha1: bool,
        told: Callable[[str], None],
        trusted: Iterable[Certificate] = (),
        between: Iterable[Certificate] = (),
    ) -> None:
        self.openssl, self.sha1, self.told = openssl, sha1, told
        self.trusted, self.between = list(trusted), list(between)
        self.lists: list[RevocationList] = []
        self.responses: list[Any] = []
        # the lines about lists that are not those of an issuer of their name
        self.strange: set[str] = set()

    def about(self) -> Iterator[str]:
        """What is given, for a reader."""
        for found in self.lists:
            assert found.this is not None
            digest = hashlib.sha256(found.octets).hexdigest()
            yield f"list {found.name} of {moment_of(found.this)}, sha256 {digest}"
        yield from (response.about() for response in self.responses)

    def add_list(self, name: str, octets: bytes) -> None:
        """Puts the lists of a file into it; one that is not whole gets a line. Raises ValueError where it has none."""
        for found in lists_in(name, octets):
            try:
                self.lists.append(RevocationList(name, found))
                if self.lists[-1].partial:
                    self.told(f"{self.lists[-1].name}: {self.lists[-1].partial}; {REVOKES}")
            except Broken as fault:
                self.told(str(fault))
            except Exception as error:  # the library has a word of its own for each fault of a list
                raise ValueError(reason_of(error)) from error

    def known(self, row: Row) -> Iterator[Known]:
        """What is known of the first certificate of a path, by lists and responses that hold; a line for each that does not."""
        for found in self.lists:
            if found.issuer == row[0].name_keys["issuer"] or found.indirect:
                yield from self.known_by(found, row)
        for response in self.responses:
            if response.about_one(row[0], row[1]):
                yield from self.known_from(response, row)

    def known_from(self, response: Any, row: Row) -> Iterator[Known]:
        """What a response says, unless who signed it may have been revoked."""
        struck = [who for who in response.certificates if any(True for _ in self.struck(who, row))]
        if not struck:
            signers = self.signers_of(row[1].name_keys["subject"], row)
            yield from response.known(self.openssl, row, signers, self.sha1, self.told)
        else:
            self.told(f"{response.name}: who signed it may be {struck[0].name_text('subject')}, which was revoked")

    def known_by(self, found: RevocationList, row: Row) -> Iterator[Known]:
        """What a list of this issuer's name says: all of it if OpenSSL takes it for whole and for one of this issuer, and what it
        revokes if it is signed by a key of the issuer."""
        fault = found.partial or found.fault(self.openssl, row)
        weak, held = is_weak(found.signed.algorithm, self.sha1), not fault or self.is_of(found, row)
        if fault and not (found.partial and held):
            more = REVOKES if held else STRANGE
            self.tell_strange(f"{found.name}: not a list of {row[1].name_text('subject')}: {fault}; {more}")
        elif weak:
            self.told(f"{found.name}: signed by SHA-1, or by an algorithm that is not known: only what it revokes counts")
        if held:
            yield from found.known(row[0], not fault and not weak)

    def tell_strange(self, line: str) -> None:
        """Tells of a list that is not of an issuer of its name: of the first ones, for each path can meet each list."""
        if line not in self.strange and len(self.strange) < MOST_TOLD:
            self.told(line)
        self.strange.add(line)

    def tell_rest(self) -> None:
        """Tells how many lines `tell_strange` left out."""
        if (count := len(self.strange) - MOST_TOLD) > 0:
            self.told(f"{count} more lines as `not a list of` above: lists with the name of an issuer that are not that one's")

    def is_of(self, found: RevocationList, row: Row) -> bool:
        """Whether a list is signed by the issuer of the first certificate of a path, by any of its keys."""
        return any(found.is_of(one) for one in self.signers_of(found.issuer, row))

    def signers_of(self, name: str, row: Row) -> list[Certificate]:
        """Certificates with the keys of an issuer of this name: the first issuer of a path, and others that are trusted, or that a key of
        the path signed (RFC 5280 6.3.3 (f))."""
        trusted, between = (
            [one for one in found if one.name_keys["subject"] == name] for found in (self.trusted, self.between)
        )
        signed = [one for one in between if any(is_under(signed_in(one.octets), above.key) for above in row[1:])]
        return [row[1], *trusted, *signed]

    def struck(self, certificate: Certificate, row: Row) -> Iterator[Revoked]:
        """The revocations of a certificate by the issuer of the first one of a path, if that issued it."""
        for found in self.lists:
            if (found.issuer == certificate.name_keys["issuer"] or found.indirect) and self.is_of(found, row):
                yield from found.revocations(certificate)
        for response in self.responses:
            yield from response.revocations(certificate, row[1], self.signers_of(row[1].name_keys["subject"], row))

    def period_of_issuer(self, issuer: Certificate, stamping: bool) -> Period:
        """When an issuer that is trusted is not known to be revoked by who issued its certificate, if the user has that one's. It need
        not be covered."""
        named = (one for one in (*self.trusted, *self.between) if one.name_keys["subject"] == issuer.name_keys["issuer"])
        above = [one for one in named if one.octets != issuer.octets and is_under(signed_in(issuer.octets), one.key)]
        return period_before(issuer, (found for one in above for found in self.struck(issuer, (issuer, one))), stamping)

    def cut(self, path: Path, moment: str, stamping: bool) -> Period:
        """The period of a path, cut by what is known. Raises Broken where a certificate was revoked at the moment, or where that
        is not known of one."""
        period = path.period()
        for at in range(len(path.certificates) - 1):
            period = period.cut(self.period_of(path.certificates[at:], moment, stamping))
        period = period.cut(self.period_of_issuer(path.certificates[-1], stamping))
        if period.is_none() or not period.has(moment):
            raise Broken(period.ends)
        return period

    def period_of(self, row: Row, moment: str, stamping: bool) -> Period:
        """When the first certificate of a path is known not to be revoked."""
        known, subject = list(self.known(row)), row[0].name_text("subject")
        period = period_before(row[0], (found.revoked for found in known if found.revoked is not None), stamping)
        if not period.has(moment):
            raise Broken(period.ends)
        covering = [found for found in known if found.covers(row[0], moment)]
        if not covering:
            what = "those that are given are stale, too late or not whole" if known else "none of its issuer is given"
            raise Broken(f"{subject}: no revocation list or response covers it at {moment}: {what}")
        last = max(covering, key=lambda found: found.last()).last()
        return period.cut(Period(OPEN, last, f"what is known of the revocation of {subject} ends", serves=OPEN))
