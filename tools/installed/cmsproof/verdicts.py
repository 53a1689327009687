"""What a call says of a file: a verdict, whose parts come from the library's numbers and whose line is the program's."""
from __future__ import annotations

from datetime import datetime, timedelta, timezone
from functools import lru_cache
from typing import NamedTuple, Optional

from cmsproof import library as lib

START = datetime(1970, 1, 1)
EPOCH = START.replace(tzinfo=timezone.utc)
# the seconds at which the year 0001 begins, the first one that a datetime has, and those from 0000 to 0004, which has the same calendar
DAY = 86400
YEAR_1, FOUR_YEARS = -62135596800, (4 * 365 + 1) * DAY
SECONDS = tuple(f"{second:02}" for second in range(60))
WORDS = {lib.ACCEPTED: "accepted", lib.REFUSES: "refused", lib.IS_MALFORMED: "malformed", lib.FAILS: "failed"}
# the status that goes with each verdict
STATUSES = {lib.ACCEPTED: lib.DONE, lib.REFUSES: lib.REFUSED, lib.IS_MALFORMED: lib.MALFORMED, lib.FAILS: lib.FAILED}


class Unexpected(RuntimeError):
    """The library said something that include/cmsproof.h does not have: no verdict."""


class Verdict(NamedTuple):
    """What a check says.

    accepted     whether each signature existed by a moment, and that moment is shown; the only field that says so
    verdict      'accepted', 'refused', 'malformed' or 'failed'
    moment       of an accepted file: the moment in UTC, to the microsecond below it, or None if the year is 0000
    nanoseconds  of an accepted file: the whole fraction of its second
    code         the code of the rule that refuses, as 'S9'; None if there is none
    name         the rest of the line behind code, as 'SignatureFails'
    signer       the number of the signer, from 1, if one is meant
    token        the number of that signer's token, from 1, if one is meant
    line         what the command of the program prints
    """

    accepted: bool
    verdict: str
    moment: Optional[datetime]
    nanoseconds: Optional[int]
    code: Optional[str]
    name: str
    signer: Optional[int]
    token: Optional[int]
    line: str

    def __bool__(self) -> bool:
        raise TypeError("a verdict is neither true nor false: ask for .accepted, or compare .verdict")


class Said(NamedTuple):
    """What a check says, as far as a line has it: verdict, code and line of a Verdict."""

    verdict: str
    code: Optional[str]
    line: str

    def __bool__(self) -> bool:
        raise TypeError("what is said is neither true nor false: compare .verdict")


@lru_cache(maxsize=4096)
def day_text(days: int) -> str:
    """The day so many days after 1970-01-01 as eight digits; the year 0000 is what no datetime has."""
    seconds = days * DAY
    year = "0000" if seconds < YEAR_1 else ""
    # (by the calendar of datetime, since `gmtime` heeds TZ where that counts leap seconds)
    day = START + timedelta(0, seconds + FOUR_YEARS if year else seconds)
    text = day.isoformat()[:10].replace("-", "")
    return f"{year or text[:4]}{text[4:]}"


@lru_cache(maxsize=24 * 60)
def minute_text(minutes: int) -> str:
    """The minute so many minutes after midnight as four digits."""
    return f"{minutes // 60:02}{minutes % 60:02}"


def time_text(seconds: int, nanoseconds: int) -> str:
    """A moment as the program writes it, without `accepted`."""
    days, rest = divmod(seconds, DAY)
    fraction = "." + f"{nanoseconds:09}".rstrip("0") if nanoseconds else ""
    return f"{day_text(days)}{minute_text(rest // 60)}{SECONDS[rest % 60]}{fraction}Z"


def moment_of(answer: lib.Answer) -> Optional[datetime]:
    """The moment of an accepted file."""
    seconds = answer.seconds
    return None if seconds < YEAR_1 else EPOCH + timedelta(0, seconds, answer.nanoseconds // 1000)


def code_of(answer: lib.Answer) -> Optional[str]:
    """The code that the line has: of a fault of form, if there is one, or else of the rule."""
    if answer.kind:
        return f"M{answer.kind}"
    return f"{chr(answer.letter)}{answer.number}" if answer.letter else None


def said_of(status: int, answer: lib.Answer, text: bytes) -> Said:
    """What is said by a check's status, numbers and line, which must agree."""
    number, letter, kind, nanoseconds, seconds = lib.NUMBERS_SAID.unpack_from(answer)
    if number == lib.ACCEPTED and status == lib.DONE:
        # (the line is made of the numbers, and must be the library's)
        line = "accepted " + time_text(seconds, nanoseconds)
        if kind or letter or text != (line + "\n").encode():
            raise Unexpected(f"the line {text!r} and the numbers of the library differ")
        # (as Said(..), in two thirds of the time: this is said of each file of an archive)
        return tuple.__new__(Said, ("accepted", None, line))
    word, code = WORDS.get(number), code_of(answer)
    if word is None or STATUSES[number] != status:
        raise Unexpected(f"the library said status {status} and verdict {number}")
    line = text.decode("ascii", "replace")
    if (
        line.count("\n") != 1
        or not line.endswith("\n")
        or line.partition(" ")[0] != word
        or (code and code not in line.split())
    ):
        raise Unexpected(f"the library said {word} {code or ''}, and the line {line!r}")
    return Said(word, code, line.rstrip("\n"))


def verdict_of(status: int, answer: lib.Answer, text: bytes) -> Verdict:
    """The verdict of a check's status, numbers and line, which must agree."""
    word, code, line = said_of(status, answer, text)
    signer, token = answer.signer or None, answer.token or None
    if word == "accepted":
        return Verdict(True, word, moment_of(answer), answer.nanoseconds, None, "", signer, token, line)
    return Verdict(False, word, None, None, code, line.partition(f" {code} ")[2] if code else "", signer, token, line)
