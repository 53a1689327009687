"""What is kept of each part of a file that was judged: a row. And what says later that the file is the same."""
from __future__ import annotations

import hashlib
import json
import os
import time
from functools import lru_cache
from typing import Any, NamedTuple

from cmsproof_tools import der
from cmsproof_tools.outcomes import Outcome
from cmsproof_tools.running import one_line, shown
from cmsproof_tools.texts import trust_entries

# How long ago the entry of a file must have changed, so that a later change of its octets changes that time too: the times of
# some file systems go by steps of two seconds.
STEP = 2_000_000_000
# the attribute content-type (RFC 5652 11.1) with id-ct-TSTInfo (RFC 3161 2.4.2), which a token's signer has
TST_INFO = bytes.fromhex("301a06092a864886f70d010903310d060b2a864886f70d0109100104")
CONTEXT_0 = 0xA0


class Ground(NamedTuple):
    """Under what a signature holds: the role of an entry, the SHA-256 of its certificate, the digest algorithm's identifier."""

    role: str
    certificate: str
    digest: str


class Decided(NamedTuple):
    """What decided: the number of a signer and that of its token, from 1, or 0 of a time-stamp without a signer; the SHA-256 of the
    authority's certificate and of the signer's, several where it cannot be told which of the list it is."""

    signer: int
    token: int
    authorities: tuple[str, ...]
    certificates: tuple[str, ...]


class Linked(NamedTuple):
    """A time-stamp in the chains of an evidence record: the number of its chain, its time, the identifiers of its digest algorithm and of
    that of the authority's signature, and the SHA-256 of the authority's certificate, several where it cannot be told which of the list it
    is."""

    chain: int
    time: str
    algorithm: str
    digest: str
    authorities: tuple[str, ...]


class Listed(NamedTuple):
    """A certificate of a trust list: its SHA-256, and its octets."""

    sha256: str
    octets: bytes


# what is noted of a part of a file: size, time, mark, sha256, content and grounds of Row
Record = tuple[int, int, str, bytes, bytes, str]


class Noting(NamedTuple):
    """By what it is noted: the certificates of each role and key in the trust list, the SHA-256 of the content that is named for all
    files, and the grounds that were found for keys and algorithms of a signer and its token, behind the fields of both questions that have
    these: by these fields, and the last ones by texts.PLACE in both lines; and of a file that is judged by its evidence record the moment
    that this shows, behind which no stamp counts, or no text."""

    keys: dict[tuple[str, bytes], tuple[Listed, ...]]
    content: bytes
    usual: dict[tuple[bytes, bytes], tuple[bytes, bytes, str]]
    until: str = ""


NOTHING: Record = (0, 0, "", b"", b"", '{"holds": [], "decided": []}')


class Row(NamedTuple):
    """What is kept of one part of a file.

    name      the name that the user gave; part is "" for the file itself, else what is printed behind the name
    size      how many octets the file had; time is when they were changed, in seconds since 1970
    mark      what says that the file, and the one beside it that is its content, are the same; "" if nothing does
    sha256    of the octets that were judged, and content of a content that is not in them; no octets where there is none
    status    the status and the line of the verdict
    grounds   under what signatures of the part hold, and what decided, as a text of JSON
    judged    when it was judged, in seconds since 1970
    """

    name: str
    part: str
    size: int
    time: int
    mark: str
    sha256: bytes
    content: bytes
    status: int
    line: str
    grounds: str
    judged: int

    @property
    def called(self) -> str:
        """The name of the file and the part, as they are shown."""
        return shown(f"{self.name} {self.part}") if self.part else shown(self.name)


def mark_of(found: os.stat_result) -> str:
    """What says that a file is the same: its size, when its octets and its entry changed, its device and its number.

    Whoever may write a file can set the first time, but not the second one.
    """
    return f"{found.st_size} {found.st_mtime_ns} {found.st_ctime_ns} {found.st_dev} {found.st_ino}"


def steady(found: os.stat_result, begun: int) -> str:
    """The mark of a file that had this size and these times before and after it was read, whose reading began at this moment in
    nanoseconds; "" if it changed so shortly before that a change behind the reading may leave the same times."""
    return mark_of(found) if found.st_ctime_ns + STEP <= begun else ""


def seen_here(mark: str, here: str) -> str:
    """The mark of files as this machine sees them, if another one, where a file system has another device number, saw the same;
    "" if not."""
    if mark == here:
        return here
    there, seen = [
        [[number for place, number in enumerate(one.split(" ")) if place != 3] for one in both.split("; ")]
        for both in (mark, here)
    ]
    return here if mark and here and there == seen else ""


def joined(marks: list[str]) -> str:
    """The mark of a file and of those beside it, its content and its stamps; "" if one has none."""
    return "; ".join(marks) if all(marks) else ""


def mark_now(*names: str | None) -> str:
    """The mark of the files of these names, or "" if there is not each."""
    try:
        return joined([mark_of(os.stat(name)) for name in names if name is not None])
    except (OSError, ValueError):
        return ""


def time_text(seconds: int) -> str:
    """A moment as the program writes it; "" for one that is before 1970 or has no year of four digits."""
    return time.strftime("%Y%m%d%H%M%SZ", time.gmtime(seconds)) if 0 <= seconds < 253402300800 else ""


def key_of(certificate: bytes) -> bytes:
    """The SubjectPublicKeyInfo of a certificate in DER (RFC 5280 4.1). Raises ValueError or IndexError if it has none."""
    fields = der.elements(der.elements(der.only(der.SEQUENCE, certificate))[0].contents)
    return fields[6 if fields[0].identifier == CONTEXT_0 else 5].whole


def keys_of(trusted: bytes) -> dict[tuple[str, bytes], tuple[Listed, ...]]:
    """The certificates of each role and key of a trust list."""
    found: dict[tuple[str, bytes], tuple[Listed, ...]] = {}
    for entry in trust_entries(trusted):
        try:
            place = entry.role, key_of(entry.octets)
        except (ValueError, IndexError):
            continue  # the library judges lists; here a reader only misses a name
        listed = Listed(hashlib.sha256(entry.octets).hexdigest(), entry.octets)
        found[place] = tuple(dict.fromkeys((*found.get(place, ()), listed)))
    return found


@lru_cache(maxsize=64)
def digest_of(algorithm: bytes) -> str:
    """The object identifier of an AlgorithmIdentifier as text, or "" if it cannot be read."""
    try:
        return der.algorithm(algorithm)[0]
    except (ValueError, IndexError):
        return ""


def is_of_token(tail: bytes) -> bool:
    """Whether signed attributes, without the first octet of their element, are those of a token: the content-type is TSTInfo."""
    if TST_INFO not in tail:
        return False
    try:
        _, at = der.length_at(tail, 0)
        while at < len(tail):
            if tail.startswith(TST_INFO, at):
                return True
            length, begin = der.length_at(tail, at + 1)
            at = begin + length
    except (ValueError, IndexError):
        pass
    return False


@lru_cache(maxsize=4096)
def grounds_text(
    found: tuple[tuple[str, tuple[Listed, ...], str], ...], decided: tuple[Decided, ...], chains: tuple[Linked, ...] = ()
) -> str:
    """Under what signatures hold, and what decided, and of an evidence record its time-stamps, as a text of JSON."""
    holds = {Ground(role, one.sha256, digest) for role, listed, digest in found for one in listed}
    return json.dumps({"holds": sorted(holds), "decided": decided, **({"chains": chains} if chains else {})})


def values_of_all(outcomes: list[Outcome]) -> list[tuple[Any, ...]]:
    """The values of the rows of what is said of all parts of a file, each without the file's name and the moment when it was judged. Of two
    parts of one name the worse one counts."""
    if len(outcomes) == 1:
        return [values_of(outcomes[0])]
    worst: dict[str, Outcome] = {}
    for outcome in outcomes:
        worst[outcome.part] = max(worst.get(outcome.part, outcome), outcome, key=lambda one: one.status)
    return [values_of(outcome) for outcome in worst.values()]


def values_of(outcome: Outcome) -> tuple[Any, ...]:
    """The values of the row of what is said of a part of a file: part, record, status, line and grounds of Row."""
    size, changed, mark, sha256, content, grounds = outcome.record or NOTHING
    return outcome.part, size, changed, mark, sha256, content, outcome.status, one_line(outcome.line), grounds
