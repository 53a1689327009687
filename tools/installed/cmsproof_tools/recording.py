"""What a state keeps of what was judged: a record of each part of a file, made of a draft."""
from __future__ import annotations

import hashlib

from cmsproof_tools.checking import RECORD, Draft, Usual, Work, reading_of
from cmsproof_tools.deciding import content_sum, grounds_of, list_as_of, usual_grounds
from cmsproof_tools.found import Found
from cmsproof_tools.outcomes import Outcome
from cmsproof_tools.rows import NOTHING, Noting, Record, joined, steady
from cmsproof_tools.running import module
from cmsproof_tools.texts import in_order, question_of


def record_of(work: Work, noting: Noting, draft: Draft) -> Record:
    """What a state keeps of a part of a file."""
    (file, beside, begun, others, under), found, content, line, lines = draft
    mark = steady(file.found, begun)
    if beside is not None or others:
        of_beside = [] if beside is None or work.content is not None else [beside]
        mark = joined([mark, *("" if one is None else steady(one.found, begun) for one in (*of_beside, *others))])
    octets = file.octets if found is None else found.signed
    known = file.found.st_size, int(file.found.st_mtime), mark, hashlib.sha256(octets).digest()
    if found is None:
        return (*known, *NOTHING[4:])
    is_signed = found.kind == "signed"
    usual = usual_grounds(found.signed, lines, noting) if is_signed and line.startswith("accepted ") else ""
    if usual and content is None:
        return (*known, b"", usual)
    vouched = [question_of(0, question) for question in lines]
    if work.content is not None and found.kind not in ("stamp", RECORD):
        summed = noting.content
    elif content is None:
        summed = b""
    else:
        summed = (is_signed and content_sum(line, vouched)) or hashlib.sha256(content).digest()
    is_under = under is not None and is_signed and not found.container and line.startswith("accepted ")
    if under is not None and is_under and not usual:
        work, noting = as_shown(work, noting, module("evidencing").moment_shown(work, under, found.signed))
    return (*known, summed, usual or grounds_of(found, line, vouched, work.trust, noting, work.sha1))


def as_shown(work: Work, noting: Noting, moment: str) -> tuple[Work, Noting]:
    """By what the stamps of a file are looked at that is judged as of the moment that its evidence record shows, if it shows one."""
    if not moment or work.records is None:
        return work, noting
    trust, keys = list_as_of(work.trust.text, moment)
    last = dict(work.records.ends).get("sha1")
    sha1 = last is not None and in_order(moment, last)
    return work._replace(trust=trust, sha1=sha1), noting._replace(keys=keys, usual={}, until=moment)


def record_of_usual(work: Work, noting: Noting, outcome: Outcome, usual: Usual) -> Record:
    """What a state keeps of a file of which this was said."""
    found, octets, begun, lines = usual
    grounds = usual_grounds(octets, lines, noting)
    if grounds:
        return found.st_size, int(found.st_mtime), steady(found, begun), hashlib.sha256(octets).digest(), b"", grounds
    reading = reading_of(outcome.name, usual[:3])
    return record_of(work, noting, Draft(reading, Found("", octets), None, outcome.line, lines))


def with_record(work: Work, noting: Noting, outcome: Outcome) -> Outcome:
    """The outcome with the record that its draft becomes."""
    draft = outcome.record
    record = record_of_usual(work, noting, outcome, draft) if type(draft) is Usual else record_of(work, noting, draft)
    return tuple.__new__(Outcome, (*outcome[:-1], record))
