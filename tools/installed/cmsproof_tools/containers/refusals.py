"""The refusals of the front ends: each code with its word. docs/REFUSALS.md has the same table, with causes and cures."""
from __future__ import annotations

from contextlib import contextmanager
from typing import Iterator

WORDS = {
    "F1": "UnknownForm",
    "F2": "ToolMissing",
    "F3": "Broken",
    "F4": "TooLarge",
    "F5": "NotInDer",
    "F6": "Uncovered",
    "F7": "ByteRange",
    "F8": "SharedGap",
    "F9": "Encrypted",
    "F10": "Ambiguous",
    "F11": "EntryName",
    "F12": "Mimetype",
    "F13": "ObjectDiffers",
    "F14": "ContentTwice",
    "F15": "StampAlone",
    "F16": "NoRecord",
    "F17": "RecordAlone",
}
# a program or a library that is missing is no fault of the file
FAILURES = ("F2",)


class Refused(Exception):
    """What a front end refuses: a code of WORDS, and the reason in a few words."""

    def __init__(self, code: str, reason: str) -> None:
        super().__init__(reason)
        self.code, self.reason = code, reason


@contextmanager
def refusing(code: str, *kinds: type[Exception]) -> Iterator[None]:
    """Makes a refusal of each of these exceptions, which a library raises for a file that it cannot read."""
    try:
        yield
    except kinds as error:
        raise Refused(code, f"{type(error).__name__}: {error}"[:300]) from error
