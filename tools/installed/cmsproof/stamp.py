"""A time-stamp by itself, a token or a response of an authority with one (RFC 3161 2.4.2): whether it is valid for data, and its time.

`check` is what the commands `cmsproof stamp questions`, `cmsproof-verify` and `cmsproof stamp check` are together, and says the same line.
No certificate in a stamp is trusted: the entries `tsa` of the trust list alone are.
"""
from __future__ import annotations

from cmsproof import library as lib
from cmsproof.calls import Questions, answers_to, give_back, questions_of, room, written
from cmsproof.lists import TrustList
from cmsproof.octets import Given, octets_of
from cmsproof.verdicts import Unexpected, Verdict, verdict_of
from cmsproof.verifiers import Verifier, vouching


def verdict_by(status: int, answer: lib.Answer, text: bytes) -> Verdict:
    """The verdict of a stamp's status, numbers and line, which must agree. The code is that of the rule, also where a fault stands behind
    it."""
    said = verdict_of(status, answer, text)
    if answer.signer or answer.token:
        raise Unexpected("the library named a signer of a stamp")
    if said.verdict != "refused":
        return said
    _, code, *name = said.line.split(" ", 2)
    if code != f"{chr(answer.letter)}{answer.number}":
        raise Unexpected(f"the library said letter {answer.letter} and number {answer.number}, and the line {said.line!r}")
    return said._replace(code=code, name="".join(name))


def check(stamp: Given, data: Given, *, trust: TrustList, verifier: Verifier = "openssl", sha1: bool = False) -> Verdict:
    """Whether a time-stamp is valid for data, and its time, or why that is not shown.

    `stamp` and `data` are octets, or paths of regular files. `verifier` and `sha1` are as for `check` of signed files, and so is what is
    raised. An accepted stamp says when the data were there, and not whose they are.
    """
    asked, own = vouching(verifier), room()
    try:
        with octets_of(stamp) as octets, octets_of(data) as under:
            answers = answers_to(own.asked(trust, octets, "cmsproof_stamp_questions"), asked)
            status, line = own.checked(trust, octets, (*under, sha1), answers, "cmsproof_stamp_check")
        # (only here, where the files are known to be as they were)
        return verdict_by(status, own.answer, line)
    finally:
        give_back(own)


def questions(stamp: Given, *, trust: TrustList) -> Questions:
    """What a verifier is asked before a time-stamp is checked: the signatures that may count under this list. `code` is 'Q1', 'Q2', 'P1' or
    'P2' where nothing can be asked."""
    with octets_of(stamp) as octets, trust.held.taken() as handle:
        said = written(lib.library().cmsproof_stamp_questions, handle, *octets)
    return questions_of(*said)
