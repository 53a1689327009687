"""Periods of trust, as a trust list writes them: moments as texts, with `-` for an open end."""
from __future__ import annotations

from datetime import datetime, timedelta, timezone
from typing import NamedTuple

from cmsproof_tools.texts import in_order

OPEN = "-"
EARLIEST = datetime.min.replace(tzinfo=timezone.utc) + timedelta(days=1)


class Period(NamedTuple):
    """A period, both ends of which belong to it, and why it ends, for a reader. Where it ends since no more is known, as of revocations,
    `serves` is until when the certificate serves if nobody revokes it; "" is the same end."""

    first: str = OPEN
    last: str = OPEN
    ends: str = ""
    serves: str = ""

    @property
    def served(self) -> str:
        """Until when the certificate serves."""
        return self.serves or self.last

    def has(self, moment: str) -> bool:
        """Whether a moment is in it."""
        return (self.first == OPEN or in_order(self.first, moment)) and (self.last == OPEN or in_order(moment, self.last))

    def cut(self, other: Period) -> Period:
        """What it has in common with another; the earlier end says why."""
        first = other.first if self.first == OPEN or (other.first != OPEN and in_order(self.first, other.first)) else self.first
        last, serves = earlier(self.last, other.last), earlier(self.served, other.served)
        return Period(first, last, self.ends if last == self.last else other.ends, "" if serves == last else serves)

    def is_none(self) -> bool:
        """Whether no moment is in it."""
        return OPEN not in self[:2] and not in_order(self.first, self.last)


def earlier(end: str, other: str) -> str:
    """The earlier of two ends."""
    return end if other == OPEN or (end != OPEN and in_order(end, other)) else other


def utc(time: datetime) -> datetime:
    """A time of the library `cryptography`, which is in UTC, as one that says so."""
    return time if time.tzinfo else time.replace(tzinfo=timezone.utc)


def moment_of(time: datetime) -> str:
    """The moment of a time in whole seconds."""
    return f"{time.year:04}{time:%m%d%H%M%SZ}"


def just_before(time: datetime) -> str:
    """The last moment before a time in whole seconds: a nanosecond earlier. Before the first of all times there is the year 0000."""
    if utc(time) <= EARLIEST:
        return "00000101000000Z"
    before = time - timedelta(seconds=1)
    return f"{before.year:04}{before:%m%d%H%M%S}.999999999Z"


def seconds_of(moment: str) -> int:
    """The whole seconds from 1970 to a moment, as OpenSSL counts them. Raises ValueError in the year 0000, which no datetime has."""
    return int(datetime.strptime(moment[:14], "%Y%m%d%H%M%S").replace(tzinfo=timezone.utc).timestamp())
