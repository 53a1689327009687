"""What the calls beside `check` say: a result, whose parts come from the library's numbers and whose line is the program's."""
from __future__ import annotations

from typing import NamedTuple, Optional

from cmsproof import library as lib
from cmsproof.verdicts import Unexpected, code_of

WORDS = {
    lib.REFUSES: "refused",
    lib.IS_MALFORMED: "malformed",
    lib.FAILS: "failed",
    lib.FITS: "fits",
    lib.ANSWERS: "answers",
    lib.SAME: "same",
    lib.DIFFERENT: "different",
    lib.COLLISION: "collision",
}
# the status that goes with each verdict
STATUSES = {
    **dict.fromkeys((lib.FITS, lib.ANSWERS, lib.SAME), lib.DONE),
    **dict.fromkeys((lib.REFUSES, lib.DIFFERENT, lib.COLLISION), lib.REFUSED),
    lib.IS_MALFORMED: lib.MALFORMED,
    lib.FAILS: lib.FAILED,
}


class Result(NamedTuple):
    """What a call says.

    done     whether it is what was asked for: the content fits, the response answers, the signers sign the same, octets were made
    verdict  'fits', 'answers', 'same', 'attached', 'requested', or 'different', 'collision', 'refused', 'malformed', 'failed'
    code     the code of the rule that refuses, as 'P4'; None if there is none
    signers  of a content that fits: how many signers the file has
    input    of two inputs: which one fails a rule, 1 or 2
    line     what the command of the program prints
    octets   of a response that answers: its token; of a token that was attached: the new file; the request
    """

    done: bool
    verdict: str
    code: Optional[str]
    signers: Optional[int]
    input: Optional[int]
    line: str
    octets: Optional[bytes] = None

    def __bool__(self) -> bool:
        raise TypeError("a result is neither true nor false: ask for .done, or compare .verdict")

    def with_octets(self, octets: bytes) -> "Result":
        """The same with the octets that were made."""
        return self._replace(octets=octets)


def result_of(status: int, answer: lib.Answer, text: bytes) -> Result:
    """The result of a call's status, numbers and line, which must agree."""
    word, line, code = WORDS.get(answer.verdict), text.decode("ascii", "replace"), code_of(answer)
    if word is None or STATUSES[answer.verdict] != status:
        raise Unexpected(f"the library said status {status} and verdict {answer.verdict}")
    words = line.split()
    if line.count("\n") != 1 or not line.endswith("\n") or words[:1] != [word] or (code and code not in words):
        raise Unexpected(f"the library said {word} {code or ''}, and the line {line!r}")
    return Result(
        done=status == lib.DONE,
        verdict=word,
        code=code,
        signers=answer.signer if answer.verdict == lib.FITS else None,
        input=answer.line or None,
        line=line.rstrip("\n"),
    )
