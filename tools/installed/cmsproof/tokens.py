"""The check of one time-stamp token: whether it is valid for the octets that it should stamp, and its time (rules K1 to K14).

The library makes no line of it: the line here has the words of `cmsproof stamp check`, which `cmsproof.stamp.check` is.
"""
from __future__ import annotations

import re
from typing import Iterable, Optional

from cmsproof import library as lib
from cmsproof.calls import asked_of
from cmsproof.lists import TrustList, answers_held
from cmsproof.octets import Buffer, Given, Octets, octets_of, of_bytes
from cmsproof.verdicts import STATUSES, WORDS, Unexpected, Verdict, moment_of, time_text
from cmsproof.verifiers import Verifier, cryptography_verifier, vouching
from cmsproof_tools.texts import Question, answers_of, answers_text

# the names of the rules (docs/REFUSALS.md), by their numbers
KINDS = "End HighTag Indefinite LengthForm Overrun Tag Trailing Integer Oid Boolean Bits Time Value Order Empty".split()
RULES = (
    "NotSignedData ContentType NoContent OneSigner . . CriticalExtension ImprintAlgorithm ImprintDiffers UnknownTsa NotNamed Purpose "
    "Period SignatureFails"
).split()
SIGNER_RULES = "NoSignedAttrs ContentTypeAttr ContentTypeDiffers DigestAttr DigestAlgorithm DigestDiffers".split()
AUTHORITY, SIGNER = re.compile(rb"(?m)^tsa "), re.compile(rb"(?m)^signer ")


def authorities_of(trust: TrustList) -> TrustList:
    """The list with its authorities in the role of signers, and no other entries: so the library says what must be asked of a
    token, which is a SignedData. It serves for questions alone, and no verdict comes from it."""
    found: Optional[TrustList] = getattr(trust, "authorities", None)
    if found is None:
        found = TrustList(AUTHORITY.sub(b"signer ", SIGNER.sub(b"# ", trust.text)))
        setattr(trust, "authorities", found)
    return found


def name_of(answer: lib.Answer) -> str:
    """What stands behind the code of the rule that refuses."""
    fault = f"M{answer.kind} {KINDS[answer.kind - 1]} at {answer.at}" if 1 <= answer.kind <= len(KINDS) else ""
    if answer.inner:
        return f"S{answer.inner} {SIGNER_RULES[answer.inner - 1]}"
    return fault or RULES[answer.number - 1]


def line_of(answer: lib.Answer) -> str:
    """The line that says it, in the form of the program's."""
    if answer.verdict == lib.ACCEPTED:
        return "accepted " + time_text(answer.seconds, answer.nanoseconds)
    if answer.letter != ord("K") or not 1 <= answer.number <= len(RULES):
        raise Unexpected(f"the library said letter {answer.letter} and number {answer.number} of a token")
    return f"refused K{answer.number} {name_of(answer)}"


def said_of(token: Octets, stamped: Octets, trust: TrustList, answers: bytes, sha1: bool) -> lib.Answer:
    """What the library says of a token, once the questions whose signatures are good are handed in, as an answers list."""
    answer = lib.Answer()
    with answers_held(answers) as list_of_answers, trust.held.taken() as list_of_trust:
        status = lib.library().cmsproof_check_token(list_of_trust, list_of_answers, *token, *stamped, sha1, answer)
    if answer.verdict not in (lib.ACCEPTED, lib.REFUSES) or status != STATUSES[answer.verdict]:
        raise Unexpected(f"the library said status {status} and verdict {answer.verdict} of a token")
    return answer


def token_time(
    token: bytes, stamped: Buffer, *, trust: TrustList, vouched: Iterable[Question], sha1: bool = False
) -> Optional[str]:
    """The time of a token that passes for what was stamped, as a trust list writes it, or None where it does not pass. The
    questions whose signatures are good are handed in."""
    with octets_of(stamped) as under:
        said = said_of(of_bytes(token), under, trust, answers_text(vouched), sha1)
    return time_text(said.seconds, said.nanoseconds) if said.verdict == lib.ACCEPTED else None


def check_token(
    token: Given,
    stamped: Given,
    *,
    trust: TrustList,
    verifier: Verifier = cryptography_verifier,
    sha1: bool = False,
) -> Verdict:
    """Whether a time-stamp token is valid for the octets that were stamped, and its time.

    The words are those of `check`. Raises what `check` raises.
    """
    asked = vouching(verifier)
    with octets_of(token) as octets, octets_of(stamped) as under:
        status, _, text = asked_of(authorities_of(trust), octets)
        answers = asked.answers(text) if status == lib.DONE else answers_of([])
        answer = said_of(octets, under, trust, answers, sha1)
    line, accepted = line_of(answer), answer.verdict == lib.ACCEPTED
    words = line.split(" ", 2)
    return Verdict(
        accepted=accepted,
        verdict=WORDS[answer.verdict],
        moment=moment_of(answer) if accepted else None,
        nanoseconds=answer.nanoseconds if accepted else None,
        code=None if accepted else words[1],
        name="" if accepted else words[2],
        signer=None,
        token=None,
        line=line,
    )
