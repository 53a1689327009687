"""How a file is judged that must have an evidence record (RFC 4998), or is one, in a folder of records.

What a record shows was there, and nothing says whose it is. So a record takes no line away that says something of a signature. Where what is
signed is judged by records too, nothing is accepted but a signed file in DER, by its own. A record is over the octets of its file, and so none
is of what is signed in a container, which is refused then: whoever sends a file chooses its form.
"""
from __future__ import annotations

import os
from contextlib import ExitStack
from typing import NamedTuple, Union

import cmsproof
from cmsproof.octets import Buffer, File
from cmsproof_tools import stamps
from cmsproof_tools.checking import RECORD, Draft, Judge, Reading, Work
from cmsproof_tools.checking import failed, is_of_record, noted, open_file, outcome_by, outcome_of, says_unsigned, stamps_judged
from cmsproof_tools.checking import told, verdict_of, with_cure
from cmsproof_tools.evidenced import ENDING, NOTHING, UNSEEN, Records
from cmsproof_tools.finding import found_in
from cmsproof_tools.found import Found, Unfound
from cmsproof_tools.kinds import kind_of_signed
from cmsproof_tools.lines import parts_of
from cmsproof_tools.outcomes import Outcome
from cmsproof_tools.pairs import is_regular
from cmsproof_tools.running import DONE, shown
from cmsproof_tools.stamping import Stamp, alone_with, opened_beside, says_nothing_signed, unread_of, with_others, with_stamps
from cmsproof_tools.texts import answers_of

# the rules that turn on the moment at which a file is judged: of its digests, and of its stamps
OF_MOMENT = ("S5", "K5", "K8", "K13")
# what is said of a record that does not show a file with its content beside it
OF_BOTH = " The record must be of the file together with its content beside it, as of a group (RFC 4998 4.2)."
# the forms that no record looks into, as a reader knows them
FORMS = {"ber": "BER", "pem": "PEM", "base64": "base64", "s/mime": "a mail", "pdf": "a PDF", "asic": "a zip file (ASiC)"}


class Under(NamedTuple):
    """By what records are judged, and the one by which what is signed in its file is, or why there is none."""

    records: Records
    record: Union[Stamp, str]

    @property
    def octets(self) -> Union[Buffer, None]:
        """The octets of the record; None where there is none that is read."""
        return self.record.file.octets if isinstance(self.record, Stamp) and isinstance(self.record.file, File) else None


def refused(work: Work, name: str, reading: Reading, part: str, code: str, reason: str) -> Outcome:
    """The outcome of a file without its record, or of a record without its file."""
    refusal = Unfound(part, code, reason)
    said = with_cure(work, Outcome(name, refusal.status, refusal.line, part=part, notes=(reason,)), code)
    return said if work.noting is None else said._replace(record=Draft(reading))


def judged(work: Work, name: str, reading: Reading, record: Stamp, over: File, part: str) -> Outcome:
    """What is said of a record of this file, as a part of the file of this name. Its octets were read once: they are what a verifier is
    asked about, and what is judged."""
    try:
        if isinstance(record.file, Exception):
            raise record.file
        if isinstance(record.file, Unfound):
            said = outcome_of(work, reading, record.file, name)
        else:
            said = outcome_of(work, reading, Found(part, record.file.octets, over.octets, kind=RECORD), name)
    except Exception as error:
        said = failed(name, error)
    return said._replace(part=part, evidence=record.called)


def of_record(work: Work, name: str, reading: Reading, first: str, stack: ExitStack) -> Outcome:
    """What is said of what stands in the place of a record."""
    if not is_regular(first):
        reason = f"it stands where the evidence record of {shown(first)} would be, and no regular file is there"
        return refused(work, name, reading, "", "F17", reason)
    over = stack.enter_context(open_file(work, first))
    reading = reading._replace(beside=None, others=(over,))
    return judged(work, name, reading, Stamp("", reading.file), over, "")._replace(content=over.name)


def of_file(work: Work, name: str, reading: Reading, record: Union[Stamp, str]) -> Outcome:
    """What is said of the record of a file, or that there is none, as a part of the file."""
    if isinstance(record, str):
        return refused(work, name, reading, "", "F16", record)
    return judged(work, name, reading, record, reading.file, record.called)


def verdict_under(
    work: Work, records: Records, record: Buffer, signed: Buffer, content: Union[Buffer, None], judge: Judge
) -> cmsproof.Verdict:
    """What `cmsproof check --evidence` says of a signed file and its record, which must show the content too if that is beside it. The judge
    is asked what the file asks; what the record asks has a judge of its own."""
    other = Judge(True)
    asked = cmsproof.questions(signed, trust=work.trust), cmsproof.evidence.questions(record, trust=work.trust)
    for one, questions in zip((judge, other), asked):
        if questions.text:
            one.answers(questions.text)
    answers = answers_of(dict.fromkeys([*judge.vouched, *other.vouched]))
    ends, at = dict(records.ends), records.at or None
    return cmsproof.evidence.check_signed(record, signed, trust=work.trust, content=content, answers=answers, ends=ends, at=at)


def nothing_signed(work: Work, signed: Buffer, content: Union[Buffer, None]) -> Union[cmsproof.Verdict, None]:
    """What is said of a file in which nothing is signed, whatever its record is; None of any other."""
    said = cmsproof.check(signed, trust=work.trust, content=content, verifier=lambda _: False)
    return said if says_unsigned(said.line) else None


def moment_shown(work: Work, under: Under, file: Buffer) -> str:
    """The moment by which the record shows that a file was there, for a reader; no text if it does not."""
    try:
        if under.octets is not None:
            said = verdict_of(work, Found("", under.octets, file, kind=RECORD), file, Judge(True))
            return said.line.removeprefix("accepted ") if said.verdict == "accepted" else ""
    except Exception:  # which leaves what is said of the file as it is
        pass
    return ""


def with_moment(work: Work, under: Under, outcome: Outcome, file: Buffer) -> Outcome:
    """What is said of a signed file, with the moment at which it was judged if that is explained and matters."""
    code = (parts_of(outcome.status, outcome.line) or {}).get("code") if work.explain else None
    if code not in OF_MOMENT or not (moment := moment_shown(work, under, file)):
        return outcome
    said = (
        f" It is judged as of {moment}, by when its evidence record shows it: a stamp counts if it is not later, and the entry of its "
        "authority and its algorithms hold then too (--end)."
    )
    return outcome._replace(explanation=outcome.explanation + said)


def outcome_under(work: Work, reading: Reading, under: Under, found: Found, name: str) -> Outcome:
    """What is said of a file in DER by its record. Where nothing is signed in it, that is said, and its record has its own line."""
    judge, content, octets = Judge(), None if reading.beside is None else reading.beside.octets, under.octets
    verdict = None if octets is None else verdict_under(work, under.records, octets, found.signed, content, judge)
    if verdict is not None and not is_of_record(verdict.line):
        said = outcome_by(work, reading, found, judge, verdict, name)
        # (what was made DER is in no record)
        return said if said.container else by_record(with_moment(work, under, said, found.signed), under)
    if (plain := nothing_signed(work, found.signed, content)) is not None:
        return outcome_by(work, reading, found, Judge(), plain, name)
    if verdict is None or octets is None:
        said = of_file(work, name, reading, under.record)._replace(part="")
    else:
        said = outcome_by(work, reading, found, judge, verdict, name, Found("", octets, kind=RECORD))
        if said.explanation and content is not None and {"W3", "K9"}.intersection(said.line.split(" ")):
            said = said._replace(explanation=said.explanation + OF_BOTH)
    return by_record(said._replace(kind=kind_of_signed(found.signed, False)), under)


def by_record(outcome: Outcome, under: Under) -> Outcome:
    """What is said of a signed file, with the name of the record by which it is said."""
    return outcome._replace(evidence=under.record.called) if isinstance(under.record, Stamp) else outcome


def by_record_alone(work: Work, reading: Reading, outcome: Outcome) -> Outcome:
    """What is said of a part of a file, or a refusal where it is accepted and no record decided that: what is signed in another form than DER
    is in no record, and that would be a way round it."""
    if outcome.evidence or not outcome.line.startswith("accepted "):
        return outcome
    form = FORMS.get(outcome.container, "another form than DER")
    reason = (
        f"no record can be of what is signed in it: it is in {form}, and the record is over the octets of the file; check it without "
        "--by-records"
    )
    refusal = Unfound(outcome.part, "F16", reason)
    said = outcome._replace(status=refusal.status, line=refusal.line, notes=(*outcome.notes, reason))
    return with_cure(work, said if work.noting is None else said._replace(record=Draft(reading)), refusal.code)


def record_of(work: Work, name: str, records: Records, stack: ExitStack) -> Union[Stamp, str]:
    """The record of a file, or why there is none."""
    place = records.place_of(name)
    if place is None:
        return f"no evidence record is looked for: the file is not in the folder {shown(records.tops[1])}"
    lacking = records.lacking(place)
    if lacking in ("", UNSEEN):
        return opened_beside(work, place, stack, "an evidence record")
    called = shown(place)
    if lacking == NOTHING:
        return f"there is no evidence record {called}"
    return f"its evidence record {called} is {lacking}, and is not read"


def together(own: list[Outcome], record: Outcome, called: str) -> list[Outcome]:
    """What is said of a file and of its record: where nothing is signed in the file, what its record shows is said of the file itself, and
    so is that it has none. What is said of a stamp beside the file stays."""
    of_stamps = [one for one in own if one.stamp and one.part]
    of_file = [one for one in own if not (one.stamp and one.part)]
    unsigned = says_nothing_signed(of_file)
    kept = of_stamps if unsigned else own
    if unsigned and (record.status == DONE or not record.evidence):
        return [record._replace(part="", notes=(*record.notes, *unread_of(of_file))), *kept]
    part, names = called, {one.part for one in kept}
    while part in names:
        part += "'"
    return [*kept, record._replace(part=part)]


def own_outcomes(work: Work, name: str, reading: Reading, stack: ExitStack) -> tuple[list[Outcome], Reading]:
    """What is said of the file itself, and of the stamps beside it if these are allowed; and the reading with these."""
    if work.stamps and stamps.may_have(name):
        return with_stamps(work, name, reading, stack)
    found = [outcome_of(work, reading, one, name) for one in found_in(name, reading.file, work.partial)]
    return told(work, name, stamps_judged(work, found)), reading


def outcomes_in(work: Work, records: Records, name: str, reading: Reading) -> list[Outcome]:
    """Checks a file, each part of it, and its record; or a record, which was named itself."""
    with ExitStack() as stack:
        if (first := records.file_of(name)) is not None:
            outcomes = [of_record(work, name, reading, first, stack)]
        else:
            record = record_of(work, name, records, stack)
            if isinstance(record, Stamp):
                reading = reading._replace(others=(record.file if isinstance(record.file, File) else None,))
            reading = reading._replace(under=Under(records, record) if records.signed else None)
            own, reading = own_outcomes(work, name, reading, stack)
            said = of_file(work, name, alone_with(work, reading), record)
            outcomes = together(own, said, os.path.basename(name) + ENDING)
            if records.signed:
                outcomes = stamps_judged(work, [by_record_alone(work, reading, one) for one in outcomes])
            outcomes = with_others(name, outcomes) if work.stamps else outcomes
        if work.noting is not None:
            outcomes = noted(work, work.noting, outcomes)
    return outcomes
