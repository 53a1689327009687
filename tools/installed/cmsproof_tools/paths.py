"""Paths of certificates to issuers that are trusted. `openssl verify` judges each (RFC 5280 6); here it is only found what it is
asked about: the certificates whose names make a row from one to an issuer. Nothing here is proved.

What OpenSSL judged must be the row that is held, for periods and revocation are taken of that: so each certificate of a row is
signed by the next one's key, and the chain that OpenSSL found has as many certificates as the row, of which it was given no other.
"""
from __future__ import annotations

import base64
import os
import re
import subprocess
import tempfile
import textwrap
from collections import defaultdict
from functools import cached_property
from itertools import islice
from pathlib import Path as Place
from typing import Iterable, Iterator, NamedTuple

from cmsproof_tools import der
from cmsproof_tools.certificates import DOCUMENTS, STAMPS, Certificate, sid_of
from cmsproof_tools.periods import Period, seconds_of
from cmsproof_tools.running import FAILED, Stop
from cmsproof_tools.signatures import LEAST_BITS, is_signed, is_small, is_weak, signed_in
from cmsproof_tools.verifying import Unjudged

# How many certificates a path has at most, how many paths are judged for one certificate, and how many steps find them, for one
# certificate and for all of a file: whoever made it can have put in any certificates.
LONGEST, MOST_PATHS, MOST_STEPS, MOST_OF_FILE = 10, 16, 1000, 5000
SECONDS = 60
FAULT = re.compile(r"^error [0-9]+ at ([0-9]+) depth lookup: (.*)$", re.MULTILINE)
# what OpenSSL says of a certificate whose path holds, with the number of the file that it is in
GOOD = re.compile(rb"^judged([0-9]+)\.pem: OK\nChain:\n((?:depth=[0-9]+: .*\n)+)", re.MULTILINE)
# constraints of policies are processed, and any policy is wanted, which OpenSSL must be told (RFC 5280 6.1.1 (c))
ANY_POLICY = ["-policy_check", "-policy", "2.5.29.32.0"]
# no certificate and no setting of the system has a say
ALONE = ["-no-CAfile", "-no-CApath", "-no-CAstore"]


# what OpenSSL knows as critical and passes over for these purposes: the nsCertType of Netscape, and what is for responders of OCSP
PASSED_OVER = ("2.16.840.1.113730.1.1", "1.3.6.1.5.5.7.48.1.5")
# the qualifiers of policies that are known (RFC 5280 4.2.1.4)
POLICIES, QUALIFIERS = "2.5.29.32", ("1.3.6.1.5.5.7.2.1", "1.3.6.1.5.5.7.2.2")
# what the certificates between one and an issuer must be for, where they say what they are for
PURPOSES = {"any": DOCUMENTS, "timestampsign": STAMPS}
# the way round where issuers of real authorities are for documents alone, as by a purpose of Adobe's
ROUND = {
    "timestampsign": (
        ". `cmsproof-trust --tsa FILE` lists the authority's own certificate, once you compared its SHA-256 with what its owner told you "
        "in another way than by this file"
    )
}
Row = tuple[Certificate, ...]
# the periods in which trusted lists trust those who are in them, by their identities
Statuses = dict[tuple[str, bytes], list[Period]]


class Broken(Exception):
    """No path holds. Its text says which step fails."""


class Unsigned(Broken):
    """A row of names is no path, since nobody can say that one of its certificates is signed by the next."""


class Path(NamedTuple):
    """Certificates from the one that is judged to an issuer that is trusted, each issued by the next, and when that is trusted."""

    certificates: Row
    trusted: Period = Period()

    def period(self) -> Period:
        """When all of them are valid, and the issuer is trusted."""
        period = self.trusted
        for certificate in self.certificates:
            period = period.cut(certificate.validity())
        return period

    def text(self) -> str:
        """The path for a reader."""
        return " < ".join(certificate.name_text("subject") for certificate in self.certificates)


class Pool:
    """Certificates that may be part of a path, and how many steps may still look for one among them."""

    def __init__(self, certificates: Iterable[Certificate]) -> None:
        self.certificates, self.left = list(certificates), MOST_OF_FILE

    @cached_property
    def mark(self) -> int:
        """What tells them from others, within a run."""
        return hash(frozenset(certificate.octets for certificate in self.certificates))

    @cached_property
    def by_sid(self) -> dict[tuple[bool, bytes], list[Certificate]]:
        """They by what signers may name."""
        found: dict[tuple[bool, bytes], list[Certificate]] = defaultdict(list)
        for certificate in self.certificates:
            for sid in certificate.sids:
                found[sid].append(certificate)
        return found

    def named(self, sid: der.Element) -> list[Certificate]:
        """Those that a signer names."""
        return self.by_sid.get(sid_of(sid), [])

    @cached_property
    def by_subject(self) -> dict[str, dict[bytes, Certificate]]:
        """They by their subjects, each once."""
        found: dict[str, dict[bytes, Certificate]] = defaultdict(dict)
        for certificate in self.certificates:
            found[certificate.name_keys["subject"]][certificate.octets] = certificate
        return found

    def issuers_of(self, certificate: Certificate) -> list[Certificate]:
        """Those that have the name of its issuer."""
        return list(self.by_subject.get(certificate.name_keys["issuer"], {}).values())


def pem(certificates: Iterable[Certificate]) -> bytes:
    """The certificates in PEM (RFC 7468)."""
    text = ""
    for certificate in certificates:
        body = "\n".join(textwrap.wrap(base64.b64encode(certificate.octets).decode(), 64))
        text += f"-----BEGIN CERTIFICATE-----\n{body}\n-----END CERTIFICATE-----\n"
    return text.encode()


class OpenSSL:
    """The command `openssl`, in a folder that only this user can look into. It gets no name and no octet string that was not
    written here from what the library read."""

    def __init__(self, folder: str) -> None:
        self.folder = Place(folder)
        self.written: dict[str, bytes] = {}
        self.environment = {**os.environ, "OPENSSL_CONF": os.devnull, "LC_ALL": "C"}
        self.version = self.said(["version"]).stdout.decode("utf-8", "replace").strip()

    def write(self, name: str, octets: bytes) -> None:
        """Makes a file in the folder, if it is not there as it must be."""
        if self.written.get(name) != octets:
            # (where the disk is full, a part of it is there, and not what was before)
            self.written.pop(name, None)
            (self.folder / name).write_bytes(octets)
            self.written[name] = octets

    def said(self, words: list[str]) -> subprocess.CompletedProcess[bytes]:
        """What it says to these words. Raises Broken where it takes too long, or is killed."""
        try:
            done = subprocess.run(
                ["openssl", *words],
                cwd=self.folder,
                env=self.environment,
                stdin=subprocess.DEVNULL,
                capture_output=True,
                timeout=SECONDS,
                check=False,
            )
        except subprocess.TimeoutExpired as error:
            raise Broken(f"OpenSSL took longer than {SECONDS} seconds") from error
        except OSError as error:
            raise Stop(
                FAILED, f"failed run openssl: {error.strerror}: paths are judged by it, Debian's package openssl"
            ) from error
        if done.returncode < 0:
            raise Broken(f"OpenSSL was ended by signal {-done.returncode}")
        return done

    def words_for(self, above: Row) -> list[str]:
        """Its words to judge certificates whose path goes by these to the last, with no others at hand."""
        *between, issuer = above
        self.write("between.pem", pem(between))
        self.write("issuer.pem", pem([issuer]))
        words = ["verify", *ALONE, "-trusted", "issuer.pem", *(["-untrusted", "between.pem"] if between else [])]
        # (an issuer that is no root is trusted for itself, as RFC 5280 6.1.1 (d) has it)
        return words + ["-partial_chain"] * (not issuer.is_self_issued())

    def judge(self, leaves: list[Certificate], above: Row, options: list[str]) -> tuple[set[int], str]:
        """Which of these certificates have a path of themselves and all of those above to the last, and what is said of others."""
        names = [f"judged{number}.pem" for number in range(len(leaves))]
        for name, leaf in zip(names, leaves):
            self.write(name, pem([leaf]))
        # (names of subjects are printed in a form that has no line feed)
        done = self.said([*self.words_for(above), *options, "-show_chain", "-nameopt", "RFC2253", *names])
        found = {int(number): chain.count(b"\n") for number, chain in GOOD.findall(done.stdout)}
        return {number for number, count in found.items() if count == 1 + len(above)}, done.stderr.decode("utf-8", "replace")

    def verify(self, row: Row, options: list[str]) -> None:
        """Judges the path of these certificates to the last of them. Raises Broken where it does not hold."""
        good, told = self.judge([row[0]], row[1:], options)
        if good != {0}:
            raise Broken(fault_text(row, told))


def fault_text(certificates: Row, told: str) -> str:
    """The step that fails, by what OpenSSL said on standard error."""
    found = FAULT.search(told)
    if found is None and not told:
        return "OpenSSL judged another path than this one"
    if found is None:
        return "OpenSSL says: " + (told.strip().splitlines() or ["nothing"])[-1][:200]
    depth = int(found[1])
    name = certificates[depth].name_text("subject") if depth < len(certificates) else f"depth {depth}"
    return f"{name}: {found[2]}"


def check_signed(certificate: Certificate, issuer: Certificate) -> None:
    """Raises Broken unless a certificate is signed by the key of an issuer, by an algorithm and a key that are good enough."""
    name = certificate.name_text("subject")
    try:
        small = is_small(certificate.key) or is_small(issuer.key)
        if small:
            raise Broken(f"{name}: its key, or its issuer's, has fewer than {LEAST_BITS} bits")
        if not is_signed(signed_in(certificate.octets), issuer.key):
            raise Unsigned(f"{name}: certificate signature failure")
    except Unjudged as error:
        raise Unsigned(f"{name}: {error}") from error


def unknown_critical(certificate: Certificate) -> str:
    """The critical extension of a certificate, or the qualifier in one of policies, that OpenSSL passes over; or no text. Raises ValueError
    where policies cannot be read."""
    found = [number for number in PASSED_OVER if any(critical for critical, _ in certificate.extensions(number))]
    for value in (value for critical, value in certificate.extensions(POLICIES) if critical):
        for policy in der.elements(der.only(der.SEQUENCE, value)):
            rows = [row for part in der.elements(policy.contents)[1:] for row in der.elements(part.contents)]
            names = [der.oid_text(der.elements(row.contents, 1)[0].contents) for row in rows]
            found += [name for name in names if name not in QUALIFIERS]
    return "".join(found[:1])


def check_row(row: Row, purpose: str) -> None:
    """Raises Broken unless each certificate of a row is signed by the next and has no critical extension that nobody looks at (RFC 5280
    4.2), and those between are for this purpose."""
    for certificate, issuer in zip(row, row[1:]):
        check_signed(certificate, issuer)
        try:
            unknown = unknown_critical(certificate)
        except (ValueError, IndexError):
            unknown = POLICIES
        if unknown:
            raise Broken(f"{certificate.name_text('subject')}: a critical extension is not known: {unknown}")
    for certificate in row[1:-1]:
        try:
            good = certificate.is_for(PURPOSES[purpose])
        except ValueError:
            good = False
        if not good:
            raise Broken(
                f"{certificate.name_text('subject')}: it is for issuing other certificates (extendedKeyUsage)"
                + ROUND.get(purpose, "")
            )


def rows(leaf: Certificate, pool: Pool, issuers: Pool) -> Iterator[Row]:
    """The rows of certificates by names from one to an issuer that is trusted, short ones first."""
    waiting: list[Row] = [(leaf,)]
    steps = 0
    while waiting and steps < MOST_STEPS and pool.left > 0:
        row = waiting.pop(0)
        steps += 1
        trusted = issuers.issuers_of(row[-1])
        found = [row + (issuer,) for issuer in trusted if issuer.octets not in {c.octets for c in row}]
        pool.left -= 1 + len(found)
        yield from found
        if len(row) < LONGEST - 1:
            names = {certificate.octets for certificate in (*row, *trusted)}
            more = [one for one in pool.issuers_of(row[-1]) if one.octets not in names]
            waiting += [row + (one,) for one in more[: MOST_STEPS - len(waiting)]]


def nowhere(leaf: Certificate, pool: Pool) -> str:
    """Where the names lead that lead to no issuer."""
    row = [leaf]
    while len(row) < LONGEST:
        above = [found for found in pool.issuers_of(row[-1]) if found not in row]
        if not above:
            break
        row.append(above[0])
    if row[-1].is_self_issued():
        return f"it leads to {row[-1].name_text('subject')}, which is no issuer that is trusted"
    return f"the certificate of the issuer {row[-1].name_text('issuer')} is not at hand, and it is none that is trusted"


class Judge:
    """Judges paths to some issuers, each of which is trusted in a period: always if the user named it, and else by trusted lists, which
    say of others on a path too when they are trusted."""

    def __init__(self, openssl: OpenSSL, issuers: Iterable[tuple[Certificate, Period]], sha1: bool, statuses: Statuses) -> None:
        self.openssl, self.periods, self.statuses = openssl, defaultdict[bytes, list[Period]](list), statuses
        named = list(issuers)
        self.issuers = Pool(issuer for issuer, _ in named)
        for issuer, period in named:
            self.periods[issuer.octets].append(period)
        # the rows that hold for a purpose while all of them are valid
        self.held: set[tuple[tuple[bytes, ...], str]] = set()
        # (level 1 refuses signatures of certificates by SHA-1, but where who built OpenSSL has it otherwise)
        self.sha1, self.level = sha1, ["-auth_level", "0" if sha1 else "1"]

    def options(self, moment: str, purpose: str) -> list[str]:
        """OpenSSL's words about what is asked. Raises Broken where it has no such time."""
        try:
            return ["-attime", str(seconds_of(moment)), "-purpose", purpose, *ANY_POLICY, *self.level]
        except ValueError as error:
            raise Broken("OpenSSL has no such time") from error

    def foresee(self, asked: Iterable[tuple[Certificate, Pool, str]], purpose: str) -> None:
        """Judges in one run those of several certificates whose shortest rows go by the same issuers, at a moment at which all
        are valid. What holds is remembered: at other moments at which all of a row is valid it holds as well, since nothing but
        validity has to do with the moment."""
        groups: dict[tuple[bytes, ...], list[tuple[Row, str]]] = defaultdict(list)
        for leaf, pool, moment in asked:
            for row in islice(rows(leaf, pool, self.issuers), 1):
                groups[key_of(row[1:])].append((row, moment))
        for (_, *above), moment in (found[0] for found in groups.values()):
            together = [row for row, _ in groups[key_of(above)] if Path(row).period().has(moment)]
            if len(together) > 1:
                self.remember(together, tuple(above), moment, purpose)

    def remember(self, together: list[Row], above: Row, moment: str, purpose: str) -> None:
        """Remembers which of these rows hold."""
        try:
            good, _ = self.openssl.judge([row[0] for row in together], above, self.options(moment, purpose))
            self.held |= {(key_of(together[number]), purpose) for number in good}
        except Broken:
            pass  # each is judged by itself then, and has its own line

    def check_digests(self, row: Row) -> None:
        """Raises Broken where a certificate of a row is signed by SHA-1 and that is not allowed."""
        for certificate in row[:-1]:
            if is_weak(signed_in(certificate.octets).algorithm, self.sha1):
                raise Broken(f"{certificate.name_text('subject')}: it is signed by SHA-1, which --sha1 allows")

    def judged(self, row: Row, moment: str, purpose: str) -> Path:
        """The path of a row that was checked. Raises Broken where it does not hold at the moment."""
        options = self.options(moment, purpose)
        if (key_of(row), purpose) not in self.held or not Path(row).period().has(moment):
            self.openssl.verify(row, options)
        self.check_digests(row)
        period = next((period for period in self.periods[row[-1].octets] if period.has(moment)), None)
        if period is None:
            raise Broken(f"{row[-1].name_text('subject')}: it is not trusted as an issuer then")
        return Path(row, period if period == Period() else self.listed(row[:-1], period, moment))

    def listed(self, below: Row, period: Period, moment: str) -> Period:
        """The period of an issuer in a trusted list, cut by those of whoever is below it and in one too. Raises Broken where one of these
        is not trusted at the moment."""
        for certificate in below:
            periods = self.statuses.get(certificate.identity)
            held = None if periods is None else next((found for found in periods if found.has(moment)), None)
            if periods is not None and held is None:
                raise Broken(f"{certificate.name_text('subject')}: the trusted list does not trust it then")
            period = period if held is None else period.cut(held)
        return period

    def ever(self, leaf: Certificate, pool: Pool, purpose: str) -> Path | None:
        """The first path of a certificate that holds at a moment at which all of it is valid, or None; OpenSSL judges MOST_PATHS at most."""
        for row in islice(rows(leaf, pool, self.issuers), MOST_PATHS):
            path = Path(row)
            period = path.period()
            try:
                if not period.is_none():
                    check_row(row, purpose)
                    self.check_digests(row)
                    if (key_of(row), purpose) not in self.held:
                        self.openssl.verify(row, self.options(period.first, purpose))
                    return path
            except Broken:
                pass
        return None

    def paths(self, leaf: Certificate, pool: Pool, moment: str, purpose: str) -> Iterator[Path | Broken]:
        """The paths of a certificate that hold at a moment, and why others do not; OpenSSL judges MOST_PATHS at most."""
        count, faults = 0, 0
        for row in rows(leaf, pool, self.issuers):
            try:
                check_row(row, purpose)
                count += 1
                if count > MOST_PATHS:
                    yield Broken(f"more than {MOST_PATHS} paths")
                    return
                yield self.judged(row, moment, purpose)
            except Broken as fault:
                faults += 1
                yield fault
        if pool.left <= 0:
            yield Broken(f"no more than {MOST_OF_FILE} steps look for paths among the certificates of one file")
        elif not count and not faults:
            yield Broken(nowhere(leaf, pool))


def key_of(row: Iterable[Certificate]) -> tuple[bytes, ...]:
    """What tells a row from others."""
    return tuple(certificate.octets for certificate in row)


def private_folder() -> "tempfile.TemporaryDirectory[str]":
    """A folder for OpenSSL's files, which goes when it is left."""
    return tempfile.TemporaryDirectory(prefix="cmsproof-")
