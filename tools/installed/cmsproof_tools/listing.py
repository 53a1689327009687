"""How trust lists are written: the first line, and what a reader is warned of."""
from __future__ import annotations

from typing import TYPE_CHECKING, Iterator

from cmsproof_tools.periods import OPEN, Period
from cmsproof_tools.running import MALFORMED, Stop, shown

if TYPE_CHECKING:
    from cmsproof import ListRefused
    from cmsproof_tools.certificates import Certificate

HEAD = "cmsproof trust 2"
WARNING = "not for time-stamping alone (RFC 3161 2.3): tokens under it are refused"
STAMPER = "for time-stamping alone (RFC 3161 2.3): it is an authority's, and signs no files: --tsa lists it"
ISSUER = "an issuer's certificate (CA:TRUE): those that it issued are not trusted by it"
# how the comment begins at the head of a list that is made of what issuers issued
JUDGED = "paths were judged by "
# what the comment of an entry for no time says first, and what ends the moment that is its period: a second's last nanosecond
NO_TIME = "for no time"
LAST_NANOSECOND = ".999999999Z"


def no_list(path: str, octets: bytes, error: ListRefused, more: str = "") -> Stop:
    """What ends a tool where a file is no trust list, and more of it; if its first line is not that of one, with what it is."""
    kind = ""
    if error.code == "L1" and not octets.startswith(b"cmsproof trust "):
        from cmsproof_tools.kinds import kind_instead

        kind = kind_instead(octets)
    return Stop(MALFORMED, f"{shown(path)}: {error}" + (f": {kind}; cmsproof-trust writes trust lists" if kind else "") + more)


def warnings_of(role: str, certificate: Certificate) -> list[str]:
    """What a reader should know before trusting a certificate in a role."""
    stamping = certificate.stamping_only()
    found = [WARNING] if role == "tsa" and not stamping else [STAMPER] if role == "signer" and stamping else []
    return [*found, *([ISSUER] if certificate.is_issuer() else [])]


def no_time(until: str, why: str) -> Period:
    """A period of one moment at which a certificate is no longer valid, whose validity ends so: an entry for it never counts, for the
    checker demands both (RFC 5280 4.1.2.5), and only lets a check name the rule that fails. Raises ValueError where the end has a fraction.
    """
    if "." in until:
        raise ValueError("a validity with a fraction of a second")
    moment = until[:-1] + LAST_NANOSECOND
    return Period(moment, moment, why)


def entry_lines(role: str, period: Period, certificate: Certificate) -> Iterator[str]:
    """The line of an entry, and above it until when its certificate serves where that is not until the entry ends."""
    if period.serves:
        yield f"# known until {period.last}, serves until {period.serves}"
    yield f"{role} {period.first} {period.last} {certificate.octets.hex()}"


def is_for_no_time(first: str, last: str, certificate: Certificate) -> bool:
    """Whether an entry with this period is one that `no_time` makes for a certificate. It is not where its validity cannot be read."""
    if not OPEN != first == last or not last.endswith(LAST_NANOSECOND):
        return False
    try:
        return last == certificate.time_text("not_valid_after")[:-1] + LAST_NANOSECOND
    except (ValueError, IndexError):
        return False


def is_by_issuers(trusted: bytes) -> bool:
    """Whether a list says that it was made of what issuers issued."""
    return b"\n# " + JUDGED.encode() in trusted
