"""The time-stamps of evidence records on a line of time, as SVG: until when each served, who took over, and when the last one must be renewed."""
from __future__ import annotations

import html
from typing import NamedTuple

from cmsproof_tools.plots import framed
from cmsproof_tools.rows import Linked
from cmsproof_tools.texts import in_order, is_moment

# a picture: its width, the part for texts, where the first row begins, how high a row and a bar are, and what is left of a row's lines
WIDTH, LEFT, TOP, ROW, BAR, LINE = 960, 300, 30, 58, 14, 15
# how many years behind the last use are drawn at most, and about how many years have a number, which is so wide
AHEAD, NUMBERED, NUMBER = 15, 16, 32
LONGEST_NAME = 44
# how many rows a picture has at most: the first time-stamp, and the last ones
MOST_ROWS = 64
# the digest algorithms by which ends are named (docs/FORMAT.md, section 5)
NAMES = {
    "1.3.14.3.2.26": "sha1",
    "2.16.840.1.101.3.4.2.4": "sha224",
    "2.16.840.1.101.3.4.2.1": "sha256",
    "2.16.840.1.101.3.4.2.2": "sha384",
    "2.16.840.1.101.3.4.2.3": "sha512",
    "2.16.840.1.101.3.4.2.5": "sha512-224",
    "2.16.840.1.101.3.4.2.6": "sha512-256",
}


class Policy(NamedTuple):
    """What a run said of ends: the moment of each algorithm, by its name, and the one up to which the last time-stamp must serve."""

    ends: dict[str, str]
    at: str


class Use(NamedTuple):
    """What a time-stamp serves for: its chain, its time, until when it serves, its algorithm, the name of its authority, until when that
    lasts, and until when its algorithms hold; "" where that is not known."""

    chain: int
    time: str
    until: str
    algorithm: str
    authority: str
    lasts: str
    holds: str

    @property
    def due(self) -> str:
        """When it can serve no more; "" where that is not known."""
        return earliest([self.lasts, self.holds])


def earliest(times: list[str]) -> str:
    """The earliest of some moments; "" of none."""
    found = ""
    for time in filter(None, times):
        found = time if not found or in_order(time, found) else found
    return found


def policy_of(text: str) -> Policy:
    """What the words of a run say of ends."""
    words, ends = text.split(" "), dict[str, str]()
    for word, value in zip(words, words[1:]):
        name, equals, time = value.partition("=")
        if word == "--end" and equals:
            ends[name] = earliest([ends.get(name, ""), time])
    return Policy(ends, next((value for word, value in zip(words, words[1:]) if word == "--at"), ""))


def uses_of(chains: tuple[Linked, ...], policy: Policy, known: dict[str, tuple[str, str]]) -> list[Use]:
    """What each time-stamp of a record serves for. `known` has the name of an authority by its SHA-256, and until when it lasts."""
    found = []
    for number, link in enumerate(chains):
        until = chains[number + 1].time if number + 1 < len(chains) else policy.at or link.time
        # (of several that it may be the one that ends first)
        several = [known[one] for one in link.authorities if one in known]
        unknown = "an authority that is not in a list that is kept", ""
        name, lasts = min(several, key=lambda one: in_turn(one[1]), default=unknown)
        algorithms = [NAMES.get(one, one) for one in (link.algorithm, link.digest) if one]
        holds = earliest([policy.ends.get(one, "") for one in algorithms])
        # (a list in a state may be anybody's)
        lasts = lasts if is_moment(lasts) else ""
        found.append(Use(link.chain, link.time, until, algorithms[0] if algorithms else "", name, lasts, holds))
    return found


def year_of(time: str) -> float:
    """A moment in years, as far as a picture shows it."""
    return int(time[:4]) + (int(time[4:6]) - 1) / 12 + (int(time[6:8]) - 1) / 366


def in_turn(time: str) -> tuple[str, str]:
    """A moment as moments are in order, none behind all others."""
    return (time[:14], time[15:-1]) if time else ("~", "")


def day_of(time: str) -> str:
    """A moment as a day."""
    return f"{time[:4]}-{time[4:6]}-{time[6:8]}"


class Scale:
    """Where moments are in a picture."""

    def __init__(self, uses: list[Use]) -> None:
        last = max(year_of(time) for use in uses for time in (use.time, use.until))
        self.first = int(year_of(uses[0].time))
        due = [year_of(use.due) for use in uses if use.due]
        self.last = int(min(max([last, *due]), last + AHEAD)) + 1

    def at(self, time: str) -> float:
        """The place of a moment, none behind the edge."""
        return round(LEFT + (WIDTH - LEFT) * min((year_of(time) - self.first) / (self.last - self.first), 1), 1)

    def axis(self, high: int) -> list[str]:
        """The years at the foot of a picture."""
        step = -(-(self.last - self.first) // NUMBERED)
        parts = [f'<line class="axis" x1="{LEFT}" x2="{WIDTH}" y1="{high + 0.5}" y2="{high + 0.5}"/>']
        for year in range(self.first, self.last, step):
            place = self.at(f"{year:04}0101")
            parts.append(f'<line class="axis" x1="{place}" x2="{place}" y1="{TOP}" y2="{high + 4}"/>')
            if place + NUMBER <= WIDTH:
                parts.append(f'<text x="{place + 2}" y="{high + 17}">{year}</text>')
        return parts


def texts_of(number: int, uses: list[Use]) -> list[tuple[str, str]]:
    """What is said of a time-stamp, each line with its class: when it was made, by whom, and of what."""
    use, what = uses[number], "stamps the document"
    if number:
        renewed = uses[number - 1].chain != use.chain
        what = "stamps the document and all before it anew" if renewed else "stamps the time-stamp before it"
    name = use.authority if len(use.authority) <= LONGEST_NAME else use.authority[: LONGEST_NAME - 1] + "\u2026"
    return [("said", f"{number + 1}. {day_of(use.time)}, {use.algorithm}"), ("dim", name), ("dim", what)]


def last_text(uses: list[Use]) -> str:
    """What is said of the last time-stamp: until when it serves, and why no longer."""
    use = uses[-1]
    asked = [f"is asked to serve until {day_of(use.until)}"] if use.until != use.time else []
    lasts = [f"its authority lasts until {day_of(use.lasts)}"] if use.lasts else []
    holds = [f"its algorithms hold until {day_of(use.holds)}"] if use.holds else []
    due = [f"renew it before {day_of(use.due)}"] if use.due else ["no end of it is known"]
    return f"The last time-stamp, of {day_of(use.time)}: {'; '.join([*asked, *lasts, *holds, *due])}."


def rect(kind: str, left: float, right: float, top: float, high: float) -> str:
    """A part of a picture, which can be seen however short it is."""
    return f'<rect class="{kind}" x="{left}" y="{top}" width="{max(round(right - left, 1), 3)}" height="{high}"/>'


def row_of(row: int, number: int, uses: list[Use], scale: Scale, followed: bool) -> list[str]:
    """The row of a time-stamp: what is said of it, a bar from its time until the next one takes over, before it how long it could serve,
    and an arrow to the next one if that has the next row."""
    use, top = uses[number], TOP + ROW * row + 8
    lines = [(kind, text, top + 10 + LINE * place) for place, (kind, text) in enumerate(texts_of(number, uses))]
    parts = [f'<text class="{kind}" x="0" y="{at}">{html.escape(text)}</text>' for kind, text, at in lines]
    left, right, top = scale.at(use.time), scale.at(use.until), top + 14
    if use.due:
        end = scale.at(use.due)
        parts.append(rect("could", left, end, top + 4, BAR - 8))
        parts.append(f'<text class="dim" x="{end}" y="{top - 3}" text-anchor="end">until {day_of(use.due)}</text>')
    parts.append(rect("use", left, right, top, BAR))
    if followed:
        below = top + ROW
        parts.append(f'<line class="next" x1="{right}" x2="{right}" y1="{top + BAR}" y2="{below - 4}"/>')
        parts.append(f'<path class="tip" d="M{right - 4} {below - 6} L{right + 4} {below - 6} L{right} {below} Z"/>')
    return parts


def timeline(uses: list[Use], title: str) -> str:
    """The picture of a record, with a row for each time-stamp, or of very many for the first one and the last ones."""
    numbers = [0, *range(max(1, len(uses) - MOST_ROWS + 1), len(uses))]
    scale, high = Scale(uses), TOP + ROW * len(numbers)
    begin = scale.at(uses[0].time)
    parts = [*scale.axis(high), f'<line class="moment" x1="{begin}" x2="{begin}" y1="18" y2="{high}"/>']
    parts.append(f'<text x="{begin}" y="13">it existed by {day_of(uses[0].time)}</text>')
    for row, number in enumerate(numbers):
        parts += row_of(row, number, uses, scale, number + 1 in numbers[row + 1 : row + 2])
    return framed(WIDTH, high + 24, title, parts)
