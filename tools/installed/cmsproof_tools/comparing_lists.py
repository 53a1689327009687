"""What trust lists have: a table of one, what tells two apart, and several in one."""
from __future__ import annotations

from typing import Iterable, Iterator, NamedTuple

from cmsproof import ListRefused, TrustList
from cmsproof_tools.certificates import Certificate
from cmsproof_tools.listing import HEAD, NO_TIME, entry_lines, is_for_no_time, no_list
from cmsproof_tools.periods import OPEN, Period
from cmsproof_tools.running import FAILED, Stop, one_line, read, shown
from cmsproof_tools.texts import SERVES, numbered_lines, trust_entries

ENDS = b"# ends: "
Key = tuple[str, bytes]


class Row(NamedTuple):
    """An entry of a list, with the comments above it."""

    role: str
    period: Period
    certificate: Certificate
    comments: tuple[bytes, ...]

    @property
    def key(self) -> Key:
        """What it trusts."""
        return self.role, self.certificate.octets

    def is_for_no_time(self) -> bool:
        """Whether it trusts nobody, and only lets a check name a rule."""
        return is_for_no_time(self.period.first, self.period.last, self.certificate)

    def subject(self) -> str:
        """Whose certificate it is."""
        return self.certificate.name_text("subject")

    def text(self) -> str:
        """It in one line."""
        who = f"{self.subject()}, sha256 {self.certificate.fingerprint()}"
        return f"{self.role} {self.period.first} {self.period.last} {who}{self.served()}"

    def served(self) -> str:
        """What is said of it where its certificate serves until another moment than that at which it ends."""
        return f"; serves until {self.period.serves}" if self.period.serves else ""

    def why(self) -> str:
        """Why it ends when it ends: by its comment, which whoever wrote the list wrote."""
        if self.is_for_no_time():
            return self.period.ends if self.period.ends.startswith(NO_TIME) else f"{NO_TIME}: it trusts nobody"
        expires = self.certificate.time_text("not_valid_after")
        if self.period.last == OPEN or not Period(last=expires).cut(self.period).ends:
            return f"the certificate expires {expires}"
        return self.period.ends + self.served()

    def lines(self) -> Iterator[bytes]:
        """The lines of it in a list."""
        yield b""
        yield from self.comments
        yield from (line.encode() for line in entry_lines(self.role, self.period, self.certificate))


def list_at(path: str) -> bytes:
    """The octets of a trust list, which the proved reader takes. Ends the tool where it is none."""
    octets = read(path)
    try:
        TrustList(octets)
    except ListRefused as error:
        raise no_list(path, octets, error) from error
    except ImportError as error:
        raise Stop(FAILED, str(error)) from error
    return octets


def comments_of(text: bytes) -> dict[int, tuple[bytes, ...]]:
    """The comments above each line, by its number: those since an empty line or another entry."""
    found: dict[int, tuple[bytes, ...]] = {}
    above: list[bytes] = []
    for number, line in numbered_lines(text):
        if line.startswith(b"#"):
            above.append(line)
        else:
            found[number] = tuple(above) if line else ()
            above = []
    return found


def rows_of(path: str) -> list[Row]:
    """The entries of a list."""
    text = list_at(path)
    comments, rows = comments_of(text), []
    for entry in trust_entries(text):
        above = tuple(line for line in comments[entry.number] if not SERVES.fullmatch(line))
        ends = [line[len(ENDS) :].decode("utf-8", "replace") for line in above if line.startswith(ENDS)]
        why = one_line(ends[-1]) if ends else "the list does not say why"
        rows.append(Row(entry.role, Period(entry.first, entry.last, why, entry.serves), Certificate(entry.octets), above))
    return rows


def explained(path: str) -> Iterator[str]:
    """A table of a list: role, period, subject, and why it ends."""
    table = [(row.role, row.period.first, row.period.last, row.subject(), row.why()) for row in rows_of(path)]
    table.insert(0, ("role", "from", "until", "subject", "ends"))
    widths = [max(len(line[column]) for line in table) for column in range(4)]
    for line in table:
        yield "  ".join([*(text.ljust(width) for text, width in zip(line, widths)), line[4]])


def differing(old: str, new: str) -> Iterator[str]:
    """What is in one list and not in the other: a line with `-` for what was, and with `+` for what is."""
    before, after = ([row.text() for row in rows_of(path)] for path in (old, new))
    was, is_now = set(before), set(after)
    yield from ("- " + text for text in before if text not in is_now)
    yield from ("+ " + text for text in after if text not in was)


def in_both(first: list[Row], second: list[Row]) -> list[Row]:
    """The entries of one certificate that two lists have: the moments at which both trust it."""
    found = []
    for row in first:
        for other in second:
            period = row.period.cut(other.period)
            if not period.is_none():
                chosen = row if period.last == row.period.last else other
                found.append(chosen._replace(period=period))
    return found


def merged(paths: Iterable[str]) -> tuple[bytes, list[str]]:
    """A list of the entries of several, and a line for each that is cut. A certificate that several have in a role is trusted when
    all of these trust it. One that only one has is trusted when that does: what a list leaves out it does not deny."""
    whole: dict[Key, list[Row]] = {}
    told = []
    for path in paths:
        rows: dict[Key, list[Row]] = {}
        for row in rows_of(path):
            rows.setdefault(row.key, []).append(row)
        for key, several in rows.items():
            known, found = whole.get(key), [row for row in several if not row.is_for_no_time()] or several
            # (which a list has of somebody of whom it trusts nothing, as if it left him out)
            if found[0].is_for_no_time():
                whole.setdefault(key, found)
                continue
            # (none are there where the lists before trust it at no moment together, and no later one brings it back)
            if known and known[0].is_for_no_time():
                known = None
            whole[key] = found if known is None else in_both(known, found)
            if known is not None and {row.text() for row in known} != {row.text() for row in found}:
                told.append(
                    f"{shown(path)}: {found[0].role} {found[0].subject()}: other periods than before: what they have in common"
                )
    lines = [HEAD.encode(), *(line for rows in whole.values() for row in rows for line in row.lines())]
    text = b"".join(line + b"\n" for line in lines)
    if len(TrustList(text)) != sum(map(len, whole.values())):
        raise Stop(FAILED, "the list that was made is not read as it was meant")
    return text, told
