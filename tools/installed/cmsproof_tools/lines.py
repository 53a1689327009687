"""The lines of `check`, `stamp check` and `evidence check`, and the parts that they have (docs/LINES.md)."""
from __future__ import annotations

import re

from cmsproof_tools.running import DONE, FAILED, MALFORMED, REFUSED
from cmsproof_tools.texts import MOMENT, is_moment

NUMBER, CODE = "[1-9][0-9]*", "(?P<code>[A-Z][0-9]+)"
# of which signer, or of which time-stamp of an evidence record, a line is
SIGNER = rf" signer (?P<signer>{NUMBER})(?: token (?P<token>{NUMBER}))?"
STAMP = rf" chain (?P<chain>{NUMBER}) stamp (?P<chainstamp>{NUMBER})"
# what is said of a file with each status; behind `record` of the evidence record under which it is judged
LINES = {
    DONE: re.compile(rf"(?P<verdict>accepted|stamped|evidenced) (?P<time>{MOMENT})"),
    REFUSED: re.compile(rf"(?P<verdict>refused)(?:{SIGNER}|(?: record)?{STAMP}| record)? {CODE}(?: [0-9A-Za-z ]+)?"),
    MALFORMED: re.compile(rf"(?P<verdict>malformed)(?: record)? {CODE} [A-Za-z]+(?: at [0-9]+)?"),
    FAILED: re.compile(rf"(?P<verdict>failed) (?:{CODE}(?: .*)?|.*)"),
}

# what a file counts as in which there is no signature in a form that is read, and the lines that say so of a file
UNSIGNED = "unsigned"
WITHOUT = ("refused F1 UnknownForm", "refused C2 NotSignedData")


def counts_as(line: str, part: str) -> str:
    """What a line counts as: its first word, or `unsigned` where it says of a file, and not of a part of one, that it has no signature."""
    return UNSIGNED if line in WITHOUT and not part else line.partition(" ")[0]


def parts_of(status: int, line: str) -> dict[str, str] | None:
    """The parts that a line of this status has, by their names, or None where no line of this status is like it."""
    found = LINES[status].fullmatch(line) if status in LINES else None
    if found is None or (status == DONE and not is_moment(found["time"])):
        return None
    return {name: part for name, part in found.groupdict().items() if part is not None}
