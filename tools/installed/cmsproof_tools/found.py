"""What a front end finds in a file: what the library is to check, or why there is nothing that it could check."""
from __future__ import annotations

from typing import NamedTuple, Optional

from cmsproof.octets import Buffer
from cmsproof_tools.containers.refusals import FAILURES, WORDS
from cmsproof_tools.running import FAILED, REFUSED

# how many octets show what kind of file it is
BEGINNING = 4096


class Found(NamedTuple):
    """A signature in a file.

    part       which one of the file's it is, as it is shown behind the file's name: "" is the file itself
    signed     the octets of a SignedData in DER
    content    the octets that it signs, if they are elsewhere in the file: None if they are in the SignedData or beside the file
    container  the kind of file that it was found in, as "pdf": "" is a file in DER
    converted  what was done to get `signed` or `content`, as "BER to DER": "" is nothing
    notes      what a reader should know, each for one line
    kind       "signed", or of a time-stamp over `content` "token", and "stamp" for one beside its file, which may be a response
    covers     what of the file the signature covers, for a reader
    uncovered  what of the file it does not cover: "" is nothing. Such a signature is refused unless the user allows it
    """

    part: str
    signed: Buffer
    content: Optional[Buffer] = None
    container: str = ""
    converted: str = ""
    notes: tuple[str, ...] = ()
    kind: str = "signed"
    covers: str = ""
    uncovered: str = ""


class Unfound(NamedTuple):
    """Why nothing of a file, or of a part of it, is handed to the library: a refusal of the front end's own, by a code with F.

    It can only refuse: no front end accepts anything.
    """

    part: str
    code: str
    reason: str
    container: str = ""

    @property
    def status(self) -> int:
        """The exit status that it goes with."""
        return FAILED if self.code in FAILURES else REFUSED

    @property
    def line(self) -> str:
        """The line that says it."""
        return f"{'failed' if self.code in FAILURES else 'refused'} {self.code} {WORDS[self.code]}"
