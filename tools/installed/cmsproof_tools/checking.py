"""How one file is checked: opened, read, and asked of the proved library, in this process. No word of a user is handed on."""
from __future__ import annotations

import errno
import math
import os
import stat
from contextlib import contextmanager, nullcontext
from time import time_ns
from typing import TYPE_CHECKING, ContextManager, Iterator, NamedTuple, Sequence, Union

import cmsproof
from cmsproof.calls import check_several
from cmsproof.octets import Buffer, Changed, Copy, File
from cmsproof.verdicts import Said
from cmsproof.verifiers import Vouching
from cmsproof_tools import descriptors
from cmsproof_tools.descriptors import path_of
from cmsproof_tools.evidenced import Records
from cmsproof_tools.finding import again_in_der, found_in, is_alone_in_der
from cmsproof_tools.found import Found, Unfound
from cmsproof_tools.outcomes import Outcome, accepted
from cmsproof_tools.pairs import Pairs
from cmsproof_tools.running import DONE, FAILED, MALFORMED, REFUSED, Started, module, shown
from cmsproof_tools.stamps import may_have
from cmsproof_tools.texts import answers_of, lines_asked

if TYPE_CHECKING:
    from cmsproof_tools.evidencing import Under
    from cmsproof_tools.rows import Noting

STATUSES = {"accepted": DONE, "refused": REFUSED, "malformed": MALFORMED, "failed": FAILED}


class Unread(Exception):
    """A file cannot be opened or read: the text is the line that says so."""

    def __init__(self, done: str, name: str, reason: str = "") -> None:
        super().__init__(f"failed {done} {shown(name)}" + (f": {reason}" if reason else ""))


class Work(NamedTuple):
    """What is the same for all files: the trust list, as the library has it and as it was read, the content, if one is named,
    whether SHA-1 is allowed and refusals are explained, the files that are open already, which contents stand beside their
    signatures and are themselves among the files, whether a signature may cover a part of its file alone, whether a time-stamp
    needs no signature beside it and may stand beside its file, by what a state notes what is said, and where the evidence records
    of files are, if each is to have one.

    The descriptor of a file that cannot be opened is the error, and so is a content that cannot be read.
    """

    trust: cmsproof.TrustList
    content: Union[File, Unread, None]
    sha1: bool
    explain: bool
    opened: dict[str, Union[int, Exception]]
    pairs: Pairs
    contents: frozenset[str]
    partial: bool
    stamps: bool
    noting: Union["Noting", None] = None
    records: Union[Records, None] = None


class Judge(Vouching):
    """A verifier that keeps count: how many questions there were, the lines that it vouched for, and why not for the others. Of evidence records
    it keeps the last questions with what was said of them: very many records can have the same time-stamp."""

    def __init__(self, of_record: bool = False) -> None:
        self.of_record, self.asked = of_record, 0
        self.faults: list[str] = []
        self.vouched: list[bytes] = []

    def answers(self, text: bytes) -> bytes:
        """The answers list for a questions text."""
        verifying, vouched = module("verifying"), self.vouched
        fault_in = verifying.fault_kept if self.of_record else verifying.fault_in
        lines = lines_asked(text)
        self.asked += len(lines)
        for line in lines:
            fault = fault_in(line)
            if fault is None:
                vouched.append(line)
            else:
                self.faults.append(fault)
        return answers_of(vouched)


def unread(name: str, error: OSError) -> Unread:
    """The line of a file that cannot be read, with the reason."""
    changed = isinstance(error, Changed)
    return Unread("read", name, str(error).removeprefix(f"{name}: ") if changed else error.strerror or "")


def file_at(descriptor: int, name: str, found: Union[os.stat_result, None] = None) -> File:
    """The file of a descriptor that need not be open for reading, and of which this was said. Raises Unread where it cannot be read."""
    try:
        reading = os.open(path_of(descriptor), os.O_RDONLY | os.O_CLOEXEC)
    except OSError as error:
        raise unopened(name, error) from error
    try:
        found = found or os.fstat(reading)
        if stat.S_ISDIR(found.st_mode):
            raise IsADirectoryError(errno.EISDIR, os.strerror(errno.EISDIR))
        if not stat.S_ISCHR(found.st_mode):
            return File(reading, name, found)
        # the device that is always empty
        os.close(reading)
        reading = descriptors.sealed(b"")
        return File(reading, name)
    except OSError as error:
        os.close(reading)
        raise unread(name, error) from error


def end_file(file: File) -> None:
    """Closes a file that `file_at` opened."""
    file.close()
    os.close(file.descriptor)


def check_unchanged(file: File) -> None:
    """Raises Unread if the octets of a file may be others than they were."""
    try:
        file.check()
    except OSError as error:
        raise unread(file.name, error) from error


def unopened(name: str, error: Exception) -> Unread:
    """The line of a file that cannot be opened, with the reason."""
    return Unread("open", name, (error.strerror or "") if isinstance(error, OSError) else str(error))


def content_named(name: str) -> Union[File, Unread]:
    """The content in the file of this name, which is read before there are workers, or the error."""
    try:
        descriptor = descriptors.taken(name, Started.descriptors)
    except (OSError, descriptors.Unfit) as error:
        return unopened(name, error)
    try:
        return file_at(descriptor, name)
    except Unread as error:
        return error
    finally:
        os.close(descriptor)


class Opened:
    """A file that is open for a block. Raises Unread at its end if it was changed meanwhile."""

    def __init__(self, file: File) -> None:
        self.file = file

    def __enter__(self) -> File:
        return self.file

    def __exit__(self, kind: object, *_: object) -> None:
        try:
            if kind is None:
                check_unchanged(self.file)
        finally:
            end_file(self.file)


def opened(name: str) -> Opened:
    """A file that a user named. Raises Unread where it cannot be read."""
    try:
        descriptor = descriptors.taken(name, Started.descriptors)
    except (OSError, descriptors.Unfit) as error:
        raise unopened(name, error) from error
    try:
        return Opened(file_at(descriptor, name))
    finally:
        os.close(descriptor)


def open_file(work: Work, name: str, most: float = math.inf) -> Opened:
    """As `opened`, of the files that a run names: some are open already. One that is said to be longer than `most` is not read."""
    given = work.opened.get(name)
    try:
        if isinstance(given, Exception):
            raise given
        descriptor, found = descriptors.reached_as(name) if given is None else (given, None)
    except (OSError, descriptors.Unfit) as error:
        raise unopened(name, error) from error
    try:
        if found is not None and found.st_size > most:
            raise Unread("read", name)
        return Opened(file_at(descriptor, name, found))
    finally:
        if given is None:
            os.close(descriptor)


@contextmanager
def unchanged(file: File) -> Iterator[File]:
    """A file that is open already. Raises Unread at the end if it was changed meanwhile."""
    yield file
    check_unchanged(file)


def content_beside(work: Work, name: str) -> ContextManager[Union[File, None]]:
    """The file that is the content of this one: the one that is named for all, or the one beside it. Raises Unread where it cannot
    be read, and at the end if it was changed meanwhile."""
    if isinstance(work.content, Unread):
        raise work.content
    if work.content is not None:
        return unchanged(work.content)
    content = work.pairs.content_of(name)
    if content is None:
        return nullcontext(None)
    return open_file(work, content)


def explained(work: Work, outcome: Outcome, found: Found) -> Outcome:
    """The outcome with what a reader may want to know of it. A fault in that leaves the outcome as it is."""
    try:
        is_malformed = outcome.status == MALFORMED
        # (of a record in BER nothing helps that helps a signed file)
        is_other = is_malformed and found.kind == RECORD and found.signed[:2] != b"\x30\x80"
        is_empty = is_malformed and not len(found.signed)
        if is_other or is_empty or (outcome.status in (MALFORMED, REFUSED) and found.kind == "signed"):
            from cmsproof_tools.kinds import kind_of_signed

            outcome = outcome._replace(kind=kind_of_signed(found.signed, is_malformed))
        if outcome.status != DONE and work.explain:
            from cmsproof_tools.lines import parts_of

            parts = parts_of(outcome.status, outcome.line) or {}
            words = found.signed, work.trust.text, parts, outcome.line
            if found.kind == RECORD:
                at = "" if work.records is None else work.records.at
                return outcome._replace(explanation=module("explaining_records").explanation(*words, at))
            is_stamp = found.kind in STAMPS
            return outcome._replace(explanation=module("explaining").explanation(*words, outcome.converted, is_stamp))
    except Exception:  # an explanation is read by an own reader, of octets that anybody can write
        pass
    return outcome


def with_cure(work: Work, outcome: Outcome, code: str) -> Outcome:
    """The outcome of a front end's refusal, with its cause and cure if these are wanted."""
    return outcome._replace(explanation=module("cures").said_of(code)) if work.explain else outcome


# what a valid time-stamp is said to be, which is not `accepted`: it says when octets were there, and not whose they are
STAMPED = "stamped "
# the kinds of what is found that are time-stamps
STAMPS = ("token", "stamp")
# what octets are said to be that a record shows, for the same reason; and the kind of such a record
EVIDENCED, RECORD = "evidenced ", "record"
SAID = {**dict.fromkeys(STAMPS, STAMPED), RECORD: EVIDENCED}
# of how many octets a file is short
SHORT = 1 << 16
# what is said of a file that is not signed
UNSIGNED = ("refused F1 ", "refused C2 ", "malformed ")


def is_of_record(line: str) -> bool:
    """Whether a line of a signed file is about the evidence record by which it is judged."""
    return line.split(" ")[1:2] == ["record"]


def says_unsigned(line: str) -> bool:
    """Whether a line says of a file that nothing in it is signed; one about its record does not."""
    return line.startswith(UNSIGNED) and not is_of_record(line)


def verdict_of(work: Work, found: Found, content: Union[Buffer, None], judge: Judge) -> Union[cmsproof.Verdict, Said]:
    """What the library says of a signature, or of a time-stamp or an evidence record over a content."""
    if found.kind == RECORD and content is not None and (records := work.records) is not None:
        ends, at, whole = dict(records.ends), records.at or None, records.whole
        said = cmsproof.evidence.check(found.signed, content, trust=work.trust, verifier=judge, ends=ends, at=at, whole=whole)
        return Said(said.verdict, said.code, said.line)
    if found.kind in STAMPS and content is not None:
        return cmsproof.stamp.check(found.signed, content, trust=work.trust, verifier=judge, sha1=work.sha1)
    return cmsproof.check(found.signed, trust=work.trust, content=content, verifier=judge, sha1=work.sha1)


class Reading(NamedTuple):
    """A file that is judged, the one beside it that is its content, and when its reading began, in nanoseconds since 1970; and the other
    files by which it is judged, as stamps, or None for one that cannot be read; and the evidence record by which what is signed is judged,
    if it is."""

    file: File
    beside: Union[File, None]
    begun: int
    others: tuple[Union[File, None], ...] = ()
    under: Union["Under", None] = None


# what was said of a short file, its octets, and when its reading began
Short = tuple[os.stat_result, bytes, int]


class Draft(NamedTuple):
    """What a record is made of: the file, what was found in it, its content, the line of the library, and the lines of the questions that
    were vouched for. Nothing was found where a front end judged the whole file."""

    reading: Reading
    found: Union[Found, None] = None
    content: Union[Buffer, None] = None
    line: str = ""
    vouched: Sequence[bytes] = ()


class Usual(NamedTuple):
    """As Draft, of a short signed file in DER that is accepted without a content beside it: a Short, and the lines that were vouched for."""

    found: os.stat_result
    octets: bytes
    begun: int
    vouched: Sequence[bytes]


def may_wait(reading: Reading, outcomes: list[Outcome]) -> bool:
    """Whether a file's records may be made later: its octets are a copy, and few. (What a container has may be longer than the file.)"""
    if (
        len(reading.file.octets) > SHORT
        or reading.others
        or (reading.beside is not None and len(reading.beside.octets) > SHORT)
    ):
        return False
    return not any(outcome.container for outcome in outcomes)


def noted(work: Work, noting: Noting, outcomes: list[Outcome]) -> list[Outcome]:
    """The outcomes of a file with the records that their drafts become."""
    try:
        recorded = module("recording").with_record
        return [recorded(work, noting, one) if isinstance(one.record, (Draft, Usual)) else one for one in outcomes]
    except Exception as error:
        return [failed(outcomes[0].name, error)]


def all_noted(work: Work, several: list[list[Outcome]]) -> list[list[Outcome]]:
    """The outcomes of several files with their records, if a state is to have them. What is done for some files in turn takes a third of
    the time that it takes between other work."""
    noting = work.noting
    return several if noting is None else [noted(work, noting, outcomes) for outcomes in several]


def outcome_of(work: Work, reading: Reading, found: Union[Found, Unfound], name: str) -> Outcome:
    """Checks what was found in the file of this name, with the content beside the file if there is one."""
    beside = reading.beside
    if isinstance(found, Unfound):
        said = Outcome(name, found.status, found.line, part=found.part, notes=(found.reason,), container=found.container)
        said = with_cure(work, said, found.code)
        return said if work.noting is None else said._replace(record=Draft(reading))
    if found.content is not None and beside is not None:
        # (which of the two is meant nobody can know)
        reason = f"the content is in the file, and {shown(beside.name)} is named as the content"
        return outcome_of(work, reading, Unfound(found.part, "F14", reason, found.container), name)
    # (a record is over the octets of a file, and not over what is found in a container)
    if reading.under is not None and found.kind == "signed" and not found.container:
        by_record: Outcome = module("evidencing").outcome_under(work, reading, reading.under, found, name)
        return by_record
    judge, content = Judge(found.kind == RECORD), found.content if beside is None else beside.octets
    return outcome_by(work, reading, found, judge, verdict_of(work, found, content, judge), name)


def outcome_by(
    work: Work,
    reading: Reading,
    found: Found,
    judge: Judge,
    verdict: Union[cmsproof.Verdict, Said],
    name: str,
    about: Union[Found, None] = None,
) -> Outcome:
    """What this verdict says of what was found in the file of this name; or of the evidence record that it is about."""
    beside = reading.beside
    content = found.content if beside is None else beside.octets
    if found.kind != RECORD and about is None and (other := again_in_der(found, verdict.code)) is not None:
        return outcome_of(work, reading, other, name)
    line = verdict.line.replace("accepted ", SAID[found.kind], 1) if found.kind in SAID else verdict.line
    status, faults, named = STATUSES[verdict.verdict], tuple(judge.faults), "" if beside is None else beside.name
    record = None if work.noting is None else Draft(reading, found, content, verdict.line, judge.vouched)
    part, notes, how = found.part, found.notes, (found.container, found.converted, found.covers)
    said = Outcome(name, status, line, judge.asked, faults, "", "", part, notes, *how, named, "", "", record)
    return said if status == DONE else explained(work, said, about or found)


def told(work: Work, name: str, outcomes: list[Outcome]) -> list[Outcome]:
    """The outcomes that have a line: none where the file is the content of one beside it, and is no signed file itself."""
    if name in work.contents and all(says_unsigned(outcome.line) for outcome in outcomes):
        return []
    return outcomes


def stamps_judged(work: Work, outcomes: list[Outcome]) -> list[Outcome]:
    """The outcomes of a file, in which a time-stamp is refused where no signature is accepted: anybody gets one for any octets."""
    if work.stamps or not any(outcome.line.startswith(STAMPED) for outcome in outcomes):
        return outcomes
    if any(outcome.line.startswith("accepted ") for outcome in outcomes):
        return outcomes
    return [alone(work, outcome) if outcome.line.startswith(STAMPED) else outcome for outcome in outcomes]


def alone(work: Work, stamp: Outcome) -> Outcome:
    """The outcome of a time-stamp without a signature."""
    refusal = Unfound(stamp.part, "F15", f"a time-stamp of {stamp.line[len(STAMPED) :]}, and no signature that is accepted")
    said = stamp._replace(status=refusal.status, line=refusal.line, notes=(*stamp.notes, refusal.reason))
    return with_cure(work, said, refusal.code)


def failed(name: str, error: Exception) -> Outcome:
    """What is said of a file at which something failed, which costs no other file."""
    if isinstance(error, Unread):
        return Outcome(name, FAILED, str(error))
    if isinstance(error, MemoryError):
        return Outcome(name, FAILED, "failed memory")
    # a fault of the tool itself
    return Outcome(name, FAILED, f"failed archive: {type(error).__name__} ({shown(str(error))})")


def all_said(work: Work, name: str, reading: Reading, found: list[Outcome]) -> list[Outcome]:
    """The outcomes of what was found in a file, as they are told. What a state is to have of a short file are drafts, of which
    `all_noted` makes records."""
    outcomes = told(work, name, stamps_judged(work, found))
    noting = work.noting
    return outcomes if noting is None or may_wait(reading, outcomes) else noted(work, noting, outcomes)


def outcomes_of(work: Work, name: str, read: Union[Reading, None] = None) -> list[Outcome]:
    """Checks one file, each part of it, which may have been read. Whatever fails at it, the others are checked."""
    try:
        if read is not None:
            return outcomes_in(work, name, read)
        begun = time_ns()
        with open_file(work, name) as file, content_beside(work, name) as beside:
            reading = Reading(file, beside, begun)
            if work.records is not None:
                return list(module("evidencing").outcomes_in(work, work.records, name, reading))
            if work.stamps and may_have(name):
                return list(module("stamping").outcomes_in(work, name, reading))
            return outcomes_in(work, name, reading)
    except Exception as error:
        return [failed(name, error)]


def outcomes_in(work: Work, name: str, reading: Reading) -> list[Outcome]:
    """Checks each part of a file that is read."""
    found = found_in(name, reading.file, work.partial)
    return all_said(work, name, reading, [outcome_of(work, reading, one, name) for one in found])


def short(work: Work, name: str) -> Union[Short, None]:
    """A short file that has no content and no stamp beside it, of which a copy is read; None of any other, and where anything fails."""
    try:
        if name in work.opened or work.content is not None or work.records is not None or (work.stamps and may_have(name)):
            return None
        begun = time_ns()
        read = descriptors.copied(name, SHORT)
        if read is None or work.pairs.content_of(name) is not None:
            return None
        return *read, begun
    except Exception:
        return None


def reading_of(name: str, read: Short) -> Reading:
    """A short file of this name."""
    found, octets, begun = read
    return Reading(Copy(name, found, octets), None, begun)


def is_usual(name: str, read: Union[Short, None]) -> bool:
    """Whether a file is a short one in DER, in which nothing else is found; no, where anything fails."""
    try:
        return read is not None and is_alone_in_der(name, read[1])
    except Exception:
        return False


def outcomes_by(work: Work, name: str, read: Short, judge: Judge, verdict: Union[Said, Exception]) -> list[Outcome]:
    """As `outcomes_of`, of a file of which the library said this. (Of one that is accepted nothing else is told, and its record may wait.)"""
    try:
        if isinstance(verdict, Exception):
            raise verdict
        if verdict.verdict == "accepted":
            draft = None if work.noting is None else tuple.__new__(Usual, (*read, judge.vouched))
            return [accepted(name, verdict.line, judge.asked, tuple(judge.faults), draft)]
        reading = reading_of(name, read)
        one = outcome_by(work, reading, Found("", read[1]), judge, verdict, name)
        return [one] if one.status == DONE and not one.container else all_said(work, name, reading, [one])
    except Exception as error:
        return [failed(name, error)]


def outcomes_of_several(work: Work, names: list[str]) -> list[list[Outcome]]:
    """As `outcomes_of`, of several files: those that are short and in DER are judged together, the others one by one. None that is
    short is read twice, and none that is long."""
    read = [short(work, name) for name in names]
    usual = list(map(is_usual, names, read))
    try:
        files = [one[1] for one, is_ready in zip(read, usual) if one is not None and is_ready]
        judges = [Judge() for _ in files]
        verdicts = iter(zip(judges, check_several(files, trust=work.trust, verifiers=judges, sha1=work.sha1)))
    except Exception:  # as where memory is refused, which then is said of the file that it is refused for
        return [outcomes_of(work, name) for name in names]
    said = []
    for name, one, is_ready in zip(names, read, usual):
        if one is not None and is_ready:
            said.append(outcomes_by(work, name, one, *next(verdicts)))
        else:
            said.append(outcomes_of(work, name, None if one is None else reading_of(name, one)))
    return said
