"""The list of `cmsproof-trust --issuer`: whom the user names is read, the files are looked at in two steps, and the list is written
with what it stands on."""
from __future__ import annotations

import os
from contextlib import contextmanager
from pathlib import Path as Place
from typing import Callable, Iterable, Iterator

from cmsproof import TrustList
from cmsproof_tools.certificates import Certificate, certificates_in, reason_of
from cmsproof_tools.checking import Unread, opened
from cmsproof_tools.descriptors import number_named
from cmsproof_tools.finding import found_apart, found_in
from cmsproof_tools.found import Found
from cmsproof_tools.issuer_words import Asked
from cmsproof_tools.issuers import Entry, Growing, Trusted
from cmsproof_tools.paths import Judge, OpenSSL, Statuses, private_folder
from cmsproof_tools.kinds import CMS_BEGINS, OCSP, kind_instead
from cmsproof_tools.listing import HEAD, JUDGED, entry_lines, warnings_of
from cmsproof_tools.outcomes import called
from cmsproof_tools.periods import Period
from cmsproof_tools.responses import Response
from cmsproof_tools.revocation import Revocation, is_meant
from cmsproof_tools.texts import trust_entries
from cmsproof_tools.trusted_lists import TrustedList
from cmsproof_tools.running import DONE, FAILED, MALFORMED, REFUSED, Stop, read, shown
from cmsproof_tools.stamping import tokens_beside
from cmsproof_tools.workers import Workers

Told = Callable[[str], None]
# what is said of CMS in the place of a revocation list
SIGNED_INSTEAD = "it looks like CMS, as a signed file, and each FILE behind --crl is a list"
# after how many files the next ones are looked at by several processes; then after twice as many more each time
FIRST = 256


def certificates_of(path: str) -> list[Certificate]:
    """The certificates of a file."""
    try:
        return certificates_in(read(path))
    except ValueError as error:
        raise Stop(MALFORMED, f"{shown(path)}: {error}") from error


def intermediates_of(path: str, told: Told) -> list[Certificate]:
    """The certificates of a file that may be part of a path; each that cannot be read is left out, with a line."""
    try:
        return certificates_in(read(path), lambda line: told(f"{shown(path)}: {line}: it is left out"))
    except ValueError as error:
        raise Stop(MALFORMED, f"{shown(path)}: {error}") from error


def issuers_of(paths: Iterable[str], several: bool) -> list[tuple[Certificate, Period]]:
    """The issuers in these files, one in each. Ends the tool where one is none."""
    found = []
    for path in paths:
        issuers = list({issuer.octets: issuer for issuer in certificates_of(path)}.values())
        if len(issuers) > 1 and not several:
            raise Stop(
                REFUSED, f"{shown(path)}: {len(issuers)} certificates are in it: name a file with one, or take all by --all"
            )
        for issuer in issuers:
            if issuer.read.version.name != "v1" and not issuer.is_issuer():
                raise Stop(
                    REFUSED, f"{shown(path)}: {issuer.name_text('subject')} is no issuer (CA is not true, RFC 5280 4.2.1.9)"
                )
            found.append((issuer, Period()))
    return found


def revocation_of(asked: Asked, revocation: Revocation, told: Told) -> Revocation | None:
    """What the user knows of revocations, None where nothing is given."""
    if not asked.lists and not asked.folders and not asked.responses:
        return None
    for path in asked.lists:
        octets = read(path)
        try:
            revocation.add_list(path, octets)
        except ValueError as error:
            kind = SIGNED_INSTEAD if CMS_BEGINS.match(octets) else "" if b"-----BEGIN " in octets else kind_instead(octets)
            raise Stop(MALFORMED, f"{shown(path)}: it is no revocation list: {kind or error}") from error
    for path in asked.responses:
        octets = read(path)
        try:
            revocation.responses.append(Response(path, octets))
        except ValueError as error:
            kind = "" if OCSP.match(octets) else kind_instead(octets)
            raise Stop(MALFORMED, f"{shown(path)}: it is no response of OCSP: {kind or reason_of(error)}") from error
    for folder in asked.folders:
        add_folder(revocation, folder, told)
    return revocation


def add_folder(revocation: Revocation, folder: str, told: Told) -> None:
    """Adds the lists of a folder, with a line for what is none. Ends the tool for one that cannot be read: nobody knows whom it
    revokes."""
    try:
        paths = sorted(Place(folder).iterdir())
    except OSError as error:
        raise Stop(FAILED, f"failed open {shown(folder)}: {error.strerror}") from error
    for path in paths:
        # (a link that leads nowhere is a list that is missing, and its line is that of a file)
        if path.exists() and not path.is_file():
            told(f"{shown(str(path))}: it is no file, and not looked into")
            continue
        # (`-` alone would be standard input)
        name = os.path.join(folder, "-") if str(path) == "-" else str(path)
        octets = read(name)
        try:
            revocation.add_list(name, octets)
        except ValueError as error:
            line = f"{shown(name)}: it is no revocation list: {error}"
            if is_meant(path.name, octets):
                raise Stop(MALFORMED, line) from error
            told(line)


def trusted_lists_of(asked: Asked, told: Told) -> list[TrustedList]:
    """The trusted lists that are named."""
    operators = [] if asked.operator is None else certificates_of(asked.operator)
    if len(operators) > 1:
        raise Stop(REFUSED, f"{shown(asked.operator or '')}: {len(operators)} certificates are in it: name a file with one")
    found = []
    for path in asked.trusted_lists:
        try:
            found.append(TrustedList(path, read(path), operators[0] if operators else None, asked.sha1))
            list(found[-1].services())
        except ValueError as error:
            raise Stop(MALFORMED, f"{shown(path)}: it is no trusted list: {error}") from error
        if not operators:
            told(f"warning: {shown(path)}: nobody verified its signature: --scheme-operator FILE names the certificate")
    check_territories(found)
    return found


def check_territories(lists: list[TrustedList]) -> None:
    """Ends the tool where two lists are of one territory: an older one trusts who was withdrawn in the newer one."""
    known: dict[str, TrustedList] = {}
    for found in lists:
        other = known.setdefault(found.territory, found)
        if other.octets != found.octets:
            line = f"it is of {found.territory or 'no territory'}, as {other.name} is: name the newest list alone"
            raise Stop(REFUSED, f"{found.name}: {line}")


def services_of(lists: list[TrustedList], stamping: bool) -> Iterator[tuple[Certificate, Period]]:
    """The issuers in trusted lists, of authorities or of signers."""
    for service in (service for found in lists for service in found.services()):
        if service.stamping == stamping and service.certificate.is_issuer():
            yield service.certificate, service.period


def statuses_of(lists: list[TrustedList], stamping: bool) -> Statuses:
    """When trusted lists trust those who are in them as services of authorities, or of issuers of signers; at no time, for some."""
    found: Statuses = {}
    for service in (service for one in lists for service in one.listed() if service.stamping == stamping):
        found.setdefault(service.certificate.identity, []).extend(service.periods)
    return found


def authorities_of(lists: list[TrustedList], most: Period) -> Iterator[Entry]:
    """The authorities themselves in trusted lists, in the period that all entries are in."""
    for found in lists:
        for service in found.services():
            period = service.period.cut(most)
            if service.stamping and not service.certificate.is_issuer() and not period.is_none():
                yield Entry("tsa", period, service.certificate, found.name)


@contextmanager
def trusted_by(asked: Asked, lists: list[TrustedList], told: Told) -> Iterator[Trusted]:
    """Whom the user trusts, for as long as OpenSSL has its folder."""
    with private_folder() as folder:
        openssl = OpenSSL(folder)
        issuers = [*issuers_of(asked.issuers, asked.several), *services_of(lists, False)]
        tsa_issuers = [*issuers_of(asked.tsa_issuers, asked.several), *services_of(lists, True)]
        between = tuple(found for path in asked.between for found in intermediates_of(path, told))
        judges = (
            Judge(openssl, issuers, asked.sha1, statuses_of(lists, False)),
            Judge(openssl, tsa_issuers, asked.sha1, statuses_of(lists, True)),
        )
        known = Revocation(openssl, asked.sha1, told, [issuer for issuer, _ in (*issuers, *tsa_issuers)], between)
        yield Trusted(*judges, revocation_of(asked, known, told), between, asked.sha1, asked.most)


def look(names: list[str], step: Callable[[str, Found], bool], told: Told, unread: Told, stamps: bool) -> tuple[list[str], int]:
    """Takes a step with each file, and answers those for which it says yes, and the worst status; `unread` is called with the line
    of a file that cannot be read, and `told` with that of one at which something else fails. Whom a list trusts does not depend on
    how much of a file is covered. `stamps` says that the stamps beside files are looked at too."""
    again, worst = [], DONE
    for name in names:
        try:
            with opened(name) as file, tokens_beside(name, file, stamps) as (parts, is_stamp):
                for found in () if is_stamp else found_apart(name, file, partial=True):
                    if isinstance(found, Found):
                        parts.append(found)
                    elif found.code == "F4":
                        unread(f"{shown(name)}: {found.line}: {found.reason}: it is not looked at")
                said = [step(called(name, found.part), found) for found in parts]
                again += [name] * any(said)
        except Unread as error:
            unread(str(error))
            worst = FAILED
        except (Stop, ImportError):
            raise
        except Exception as error:  # a fault of the tool itself: it costs this file, and no other one
            told(f"{shown(name)}: failed trust: {type(error).__name__}: {error}")
            worst = FAILED
    return again, worst


def left_of(growing: Growing, names: list[str], jobs: int, stamps: bool) -> list[str]:
    """Those of some files that may add something to a list: so many processes look, and what one of them cannot say is left."""

    def adds_nothing(name: str) -> bool:
        try:
            # (what a descriptor gives can be read once)
            if number_named(name) is not None:
                return False
            with opened(name) as file, tokens_beside(name, file, stamps) as (tokens, is_stamp):
                found = [] if is_stamp else list(found_in(name, file, partial=True))
                return all(isinstance(one, Found) and growing.adds_nothing(one) for one in (*found, *tokens))
        except Exception:
            return False

    with Workers(min(jobs, len(names)), adds_nothing) as workers:
        said = workers.results(names, lambda *_: False)
        return [name for name, nothing in zip(names, said) if nothing is not True]


def grown(
    trusted: Trusted, given: Iterable[Entry], names: list[str], told: Told, unread: Told, jobs: int = 1, stamps: bool = False
) -> tuple[list[Entry], int]:
    """The entries of a list for these files, behind those that are given, authorities first; and the worst status of a file. With
    several jobs most files of a large archive are only looked at by others: they are by those of whom the first ones were."""
    growing = Growing(trusted, given, told)
    again: list[str] = []
    worst, size = DONE, FIRST if jobs > 1 else len(names)
    while names:
        found, ended = look(names[:size], growing.take, told, unread, stamps)
        again += found
        worst, names, size = max(worst, ended), names[size:], 2 * size
        if len(names) > FIRST:
            growing.settle()
            names = left_of(growing, names, jobs, stamps)
    _, later = look(again, growing.take_again, told, unread, stamps)
    growing.settle()
    return growing.listed(), max(worst, later)


def head_of(trusted: Trusted, lists: list[TrustedList]) -> Iterator[str]:
    """What the list stands on, as comments at its head."""
    yield f"{JUDGED}{trusted.signers.openssl.version}, at the times of stamps; this list is not proved"
    yield from (found.about() for found in lists)
    for role, judge in (("signers", trusted.signers), ("authorities", trusted.authorities)):
        for issuer in {issuer.octets: issuer for issuer in judge.issuers.certificates}.values():
            yield f"issuer of {role}: {issuer.name_text('subject')}, sha256 {issuer.fingerprint()}"
    if trusted.revocation is None:
        yield "revocation was not looked at: no list or response was given"
    else:
        yield from (f"revocation: {line}" for line in trusted.revocation.about())


def lines_of(head: Iterable[str], entries: Iterable[Entry]) -> Iterator[str]:
    """The lines of a list: its head, and each entry with its comments."""
    yield HEAD
    yield from ("# " + line for line in head)
    for entry in entries:
        yield ""
        yield "# " + entry.found
        yield from ("# " + line for line in entry.certificate.about())
        yield from ("# warning: " + line for line in warnings_of(entry.role, entry.certificate))
        if entry.path is not None:
            yield "# path " + entry.path.text()
        if entry.period.ends:
            yield "# ends: " + entry.period.ends
        yield from entry_lines(entry.role, entry.period, entry.certificate)


def list_text(
    asked: Asked,
    given: Iterable[Entry],
    names: list[str],
    told: Told,
    unread: Told | None = None,
    jobs: int = 1,
    of_file: Told | None = None,
) -> tuple[bytes, int]:
    """The list for these files as a text, and the worst status of a file. `unread`, or else `told`, is called with the line of a
    file that cannot be read; `of_file`, or else `told`, with a line about whose certificates in a file get an entry. So many processes
    look at them, if they are many."""
    tell = once(told)
    lists = trusted_lists_of(asked, tell)
    with trusted_by(asked, lists, tell) as trusted:
        entries, worst = grown(
            trusted,
            [*given, *authorities_of(lists, asked.most)],
            names,
            tell if of_file is None else once(of_file),
            unread or tell,
            jobs,
            asked.stamps,
        )
        if trusted.revocation is not None:
            trusted.revocation.tell_rest()
        text = "".join(line + "\n" for line in lines_of(head_of(trusted, lists), entries)).encode("utf-8", "surrogateescape")
    if len(TrustList(text)) != len(entries):
        raise Stop(FAILED, "the list that was made is not read as it was meant")
    return text, worst


def once(told: Told) -> Told:
    """Tells each line once."""
    known: set[str] = set()

    def tell(line: str) -> None:
        if line not in known:
            known.add(line)
            told(line)

    return tell


def entries_of(trusted: bytes, name: str) -> list[Entry]:
    """The entries of a list that the library took for one."""
    rows = list(trust_entries(trusted))
    return [Entry(row.role, Period(row.first, row.last, "", row.serves), Certificate(row.octets), shown(name)) for row in rows]


def list_for(
    asked: Asked,
    trusted: tuple[str, bytes] | None,
    names: list[str],
    told: Told,
    jobs: int = 1,
    of_file: Told | None = None,
) -> TrustList:
    """The list by which files are checked: the entries of the list that is named, if one is, and what issuers issued. What is told is as
    of `list_text`."""
    given = entries_of(trusted[1], trusted[0]) if trusted else []
    # (a file that cannot be read has a line of its own in the check)
    text, _ = list_text(asked, given, names, told, lambda line: None, jobs, of_file)
    return TrustList(text)
