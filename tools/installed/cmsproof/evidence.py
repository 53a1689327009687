"""Evidence records (RFC 4998): whether one shows that data existed, and by which moment; how they are made, and renewed.

`check` is what the commands `cmsproof evidence questions`, `cmsproof-verify` and `cmsproof evidence check` are together, and says the same
line; `check_signed` says that of `cmsproof check --evidence`, of a signed file under a record. No certificate in a record is trusted: the
entries `tsa` of the trust list alone are.

    asked = cmsproof.request(digest=evidence.root(digests), certificate=True)
    records = evidence.make(digests, cmsproof.match(asked, response).octets)

An authority answers `asked` by `response`. `renewal_root` and `renew`, `rehash_root` and `rehash` go likewise with records. None of these
verifies a signature, or checks what a record shows: do so before and after, by `check`.
"""
from __future__ import annotations

import ctypes
import re
from contextlib import ExitStack
from datetime import datetime, timezone
from typing import Any, Mapping, NamedTuple, Optional, Sequence, Union

from cmsproof import library as lib
from cmsproof.calls import Questions, answers_to, give_back, questions_of, room, written
from cmsproof.lists import TrustList
from cmsproof.making import LENGTHS, Root, Unmade, make, rehash, rehash_root, renew, renewal_root, root
from cmsproof.octets import Given, Octets, copied, octets_if_any, octets_of, of_bytes
from cmsproof.verdicts import Unexpected, Verdict, moment_of, said_of, verdict_of
from cmsproof.verifiers import Verifier, vouching
from cmsproof_tools.texts import QUESTIONS, question_lines

__all__ = [
    "EvidenceVerdict",
    "Root",
    "Unmade",
    "check",
    "check_signed",
    "make",
    "questions",
    "rehash",
    "rehash_root",
    "renew",
    "renewal_root",
    "root",
]

# a moment: as the program writes it, or with a time zone
Moment = Union[str, datetime]
# the names of the digest algorithms
ALGORITHMS = tuple(LENGTHS)
# a moment by its form alone: the library knows the calendar
TIME = re.compile(r"[0-9]{14}(\.[0-9]+)?Z")
REFUSED = re.compile(r"refused (?:chain ([1-9][0-9]*) stamp ([1-9][0-9]*) )?([VW])([1-9])(?: (.*))?")


class EvidenceVerdict(NamedTuple):
    """What a check of an evidence record says.

    accepted     whether the data existed by a moment, and that moment is shown; the only field that says so
    verdict      'accepted', 'refused' or 'malformed'
    moment       of an accepted record: the moment in UTC, to the microsecond below it, or None if the year is 0000
    nanoseconds  of an accepted record: the whole fraction of its second
    code         the code of the rule that refuses, as 'W3'; of a malformed record that of the fault, as 'M7'; None if there is none
    name         the rest of the line behind code, as 'NotCovered', or of 'W4' the rule of its token, as 'K14 SignatureFails'
    chain        the number of the chain, from 1, if one is meant
    stamp        the number of the archive time-stamp in that chain, from 1, if one is meant
    line         what the command of the program prints
    """

    accepted: bool
    verdict: str
    moment: Optional[datetime]
    nanoseconds: Optional[int]
    code: Optional[str]
    name: str
    chain: Optional[int]
    stamp: Optional[int]
    line: str

    def __bool__(self) -> bool:
        raise TypeError("a verdict is neither true nor false: ask for .accepted, or compare .verdict")


def rule_in(line: str, answer: lib.Answer) -> tuple[str, str]:
    """The code and the name of the rule that refuses, by a line whose numbers must be those of the answer."""
    found = REFUSED.fullmatch(line)
    if found:
        chain, stamp, letter, number, name = found[1], found[2], found[3], int(found[4]), found[5] or ""
        # (of W4 the numbers are those of the rule that its token fails)
        numbers = (answer.letter, answer.number) == (ord(letter), number)
        if (letter, number) == ("W", 4):
            numbers = answer.letter == ord("K") and name.split(" ")[0] == f"K{answer.number}"
        of_stamp = (answer.signer, answer.token) == (int(chain or 0), int(stamp or 0))
        if numbers and of_stamp and (letter == "W") == bool(chain):
            return f"{letter}{number}", name
    said = f"letter {answer.letter} and number {answer.number} of {answer.signer}, {answer.token}"
    raise Unexpected(f"the library said {said}, and the line {line!r}")


def verdict_by(status: int, answer: lib.Answer, text: bytes) -> EvidenceVerdict:
    """The verdict of a status, numbers and line, which must agree."""
    word, code, line = said_of(status, answer, text)
    if word == "refused":
        code, name = rule_in(line, answer)
        return EvidenceVerdict(False, word, None, None, code, name, answer.signer or None, answer.token or None, line)
    if answer.signer or answer.token or word not in ("accepted", "malformed"):
        raise Unexpected(f"the library said {word} of an evidence record, or named a time-stamp of it")
    if word == "accepted":
        return EvidenceVerdict(True, word, moment_of(answer), answer.nanoseconds, None, "", None, None, line)
    if (answer.letter, answer.number) != (ord("V"), 1) or not code:
        raise Unexpected(f"the library said letter {answer.letter} of an evidence record, and the line {line!r}")
    return EvidenceVerdict(False, word, None, None, code, line.partition(f" {code} ")[2], None, None, line)


def time_of(moment: Moment) -> str:
    """A moment as the library takes it. Raises TypeError and ValueError for what is none."""
    if isinstance(moment, datetime):
        if moment.utcoffset() is None:
            raise ValueError(f"{moment!r} has no time zone")
        try:
            utc = moment.astimezone(timezone.utc)
        except OverflowError as error:
            raise ValueError(f"{moment!r} is in none of the years from 1 to 9999 in UTC") from error
        fraction = f".{utc.microsecond:06}".rstrip("0") if utc.microsecond else ""
        return f"{utc.year:04}{utc:%m%d%H%M%S}{fraction}Z"
    if not isinstance(moment, str):
        raise TypeError(f"a moment is a text or a datetime, and not {type(moment).__name__}")
    if not TIME.fullmatch(moment):
        raise ValueError(f"{moment!r} is no moment: one is as 20261231000000Z")
    return moment


def ends_text(ends: Optional[Mapping[str, Moment]]) -> bytes:
    """The ends of algorithms as the library takes them. Raises TypeError and ValueError for what are none."""
    if ends is None:
        return b""
    if not isinstance(ends, Mapping):
        raise TypeError(f"ends are a mapping of algorithms to moments, and not {type(ends).__name__}")
    for name in ends:
        if name not in ALGORITHMS:
            raise ValueError(f"{name!r} is none of {', '.join(ALGORITHMS)}")
    return " ".join(f"{name}={time_of(moment)}" for name, moment in ends.items()).encode("ascii")


def joined(objects: Sequence[Octets]) -> Octets:
    """Octets one after the other. Of one object they are where they were."""
    if len(objects) == 1:
        return objects[0]
    return of_bytes(b"".join(map(copied, objects)))


def words_of(objects: Sequence[Octets], ends: bytes, at: bytes, whole: bool) -> tuple[Any, ...]:
    """What the library's call takes behind the record. `objects` live as long as the call."""
    octets, count = joined(objects), len(objects)
    # (an array of none has no place)
    lengths = (ctypes.c_uint64 * max(count, 1))(*(one.length for one in objects))
    return (*octets, lengths, count, *of_bytes(ends), *of_bytes(at), whole)


def check(
    record: Given,
    data: Union[Given, Sequence[Given]],
    *,
    trust: TrustList,
    answers: Optional[bytes] = None,
    verifier: Verifier = "openssl",
    ends: Optional[Mapping[str, Moment]] = None,
    at: Optional[Moment] = None,
    whole: bool = False,
) -> EvidenceVerdict:
    """Whether an evidence record shows that data existed, and by which moment, or why that is not shown.

    `record` is octets, or the path of a regular file; `data` is so too, or a list or tuple of such: a group, of which the record must cover
    each. `ends` has for names of digest algorithms the last moment at which each holds, as `{"sha1": "20160101000000Z"}` or a datetime with
    a time zone: SHA-1 holds only until such an end. At `at` the last time-stamp must hold, in place of its own moment. With `whole` the first
    list of hash values may have none but those of the data. `answers` is an answers list, which is then taken in place of a verifier.
    `verifier`, and what is raised of files and by it, are as for `check` of signed files. Raises ValueError or TypeError for an end or a
    moment that is not as it must be.
    """
    until, moment = ends_text(ends), b"" if at is None else time_of(at).encode("ascii")
    if answers is not None and not isinstance(answers, bytes):
        raise TypeError(f"an answers list is bytes, and not {type(answers).__name__}")
    asked, own = vouching(verifier), room()
    try:
        with ExitStack() as files:
            octets = files.enter_context(octets_of(record))
            given = data if isinstance(data, (list, tuple)) else (data,)
            objects = [files.enter_context(octets_of(one)) for one in given]
            if answers is None:
                answers = answers_to(own.asked(trust, octets, "cmsproof_evidence_questions"), asked)
            words = words_of(objects, until, moment, whole)
            status, line = own.checked(trust, octets, words, answers, "cmsproof_evidence_check")
        # (only here, where the files are known to be as they were)
        if status == lib.USAGE:
            raise ValueError(line.decode("ascii", "replace").rstrip("\n"))
        return verdict_by(status, own.answer, line)
    finally:
        give_back(own)


def verdict_under(status: int, answer: lib.Answer, text: bytes) -> Verdict:
    """The verdict about a signed file under a record, of a status, numbers and line, which must agree: a refusal of the record is one of
    the second input, and its line names the record."""
    of_record = text.split(b" ")[1:2] == [b"record"]
    if answer.line != (2 if of_record else 0):
        raise Unexpected(f"the library said a refusal of input {answer.line}, and the line {text!r}")
    if not of_record:
        return verdict_of(status, answer, text)
    found = verdict_by(status, answer, text.replace(b" record ", b" ", 1))
    if found.accepted:
        raise Unexpected(f"the library accepted, and said the line {text!r}")
    line = text.decode("ascii").rstrip("\n")
    return Verdict(False, found.verdict, None, None, found.code, found.name, None, None, line)


def of_both(first: bytes, second: bytes) -> bytes:
    """The questions of two questions texts, each once; no octets if there are none."""
    lines = dict.fromkeys(line for text in (first, second) if text for _, line in question_lines(text))
    return b"\n".join([QUESTIONS, *lines, b""]) if lines else b""


def check_signed(
    record: Given,
    file: Given,
    *,
    trust: TrustList,
    content: Optional[Given] = None,
    answers: Optional[bytes] = None,
    verifier: Verifier = "openssl",
    ends: Optional[Mapping[str, Moment]] = None,
    at: Optional[Moment] = None,
) -> Verdict:
    """By which moment a file was signed by all its signers, under an evidence record that shows the file, and the content if that is given.

    `file` and `content` are as for `check` of signed files, all else is as for `check` here. Of a refusal of the record the line names the
    record, and `signer` and `token` are None.
    """
    until, moment = ends_text(ends), b"" if at is None else time_of(at).encode("ascii")
    if answers is not None and not isinstance(answers, bytes):
        raise TypeError(f"an answers list is bytes, and not {type(answers).__name__}")
    asked, own = vouching(verifier), room()
    try:
        with octets_of(record) as evidence, octets_of(file) as octets, octets_if_any(content) as beside:
            if answers is None:
                texts = own.asked(trust, evidence, "cmsproof_evidence_questions"), own.asked(trust, octets)
                answers = answers_to(of_both(*texts), asked)
            words = (*beside, content is not None, *evidence, *of_bytes(until), *of_bytes(moment))
            status, line = own.checked(trust, octets, words, answers, "cmsproof_check_under")
        # (only here, where the files are known to be as they were)
        if status == lib.USAGE:
            raise ValueError(line.decode("ascii", "replace").rstrip("\n"))
        return verdict_under(status, own.answer, line)
    finally:
        give_back(own)


def questions(record: Given, *, trust: TrustList) -> Questions:
    """What a verifier is asked before an evidence record is checked: the signatures that may count under this list. `code` is 'V1' or 'V2'
    where nothing can be asked."""
    with octets_of(record) as octets, trust.held.taken() as handle:
        status, answer, text = written(lib.library().cmsproof_evidence_questions, handle, *octets)
    if status == lib.DONE:
        return questions_of(status, answer, text)
    code = f"{chr(answer.letter)}{answer.number}"
    if (status, code) not in ((lib.MALFORMED, "V1"), (lib.REFUSED, "V2")):
        raise Unexpected(f"the library said status {status} of questions, letter {answer.letter} and number {answer.number}")
    return Questions(b"", (), code)
