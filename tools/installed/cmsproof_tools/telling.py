"""What is said of a file, as it goes from the process that judged it to the one that prints it."""
from __future__ import annotations

from itertools import chain
from typing import TYPE_CHECKING, Any, Callable, Iterator

from cmsproof_tools.checking import Work, all_noted
from cmsproof_tools.lines import counts_as
from cmsproof_tools.outcomes import Outcome
from cmsproof_tools.running import DONE, module
from cmsproof_tools.texts import UNHOLDING
from cmsproof_tools.workers import MOST

if TYPE_CHECKING:
    from cmsproof_tools.known import Known

# Of files that follow each other: their lines with their ends; what is said on standard error before these, of one file alone; the worst
# status; the verdict of each; the values of the rows of each that a state is to have (rows.values_of); and of one file alone the outcomes,
# where refusals are acknowledged, which only the process that prints can look for. (A plain tuple goes from process to process in a third
# of the time that one with names takes, and one of many files in a fraction.)
Told = tuple[bytes, tuple[str, ...], int, list[str], list[list[tuple[Any, ...]]], list[Outcome]]


def complaints(outcomes: list[Outcome]) -> Iterator[str]:
    """What is not in the lines of a file, each thing once: a file can have any number of signers."""
    for outcome in outcomes:
        if outcome.faults or outcome.kind or outcome.notes:
            unjudged = [f"a signature is {fault}" for fault in outcome.faults if fault != UNHOLDING]
            for text in dict.fromkeys((*unjudged, *filter(None, [outcome.kind]), *outcome.notes)):
                yield f"{outcome.called}: {text}"


def told_of(outcomes: list[Outcome], line_of: Callable[[Outcome], str], is_kept: bool, is_known: bool = False) -> Told:
    """What is said of a file by its outcomes, and for a state if one is kept; a content may have none."""
    if not outcomes:
        return b"", (), DONE, ["content"], [[]], []
    said: tuple[str, ...] = ()
    ended, lines = outcomes[0], line_of(outcomes[0]) + "\n"
    if len(outcomes) > 1 or ended.faults or ended.kind or ended.notes:
        ended, said = max(outcomes, key=lambda outcome: outcome.status), tuple(complaints(outcomes))
        lines = "".join([line_of(outcome) + "\n" for outcome in outcomes])
    rows = module("rows").values_of_all(outcomes) if is_kept else []
    return lines.encode(), said, ended.status, [counts_as(ended.line, ended.part)], [rows], outcomes if is_known else []


def all_told(
    work: Work, line_of: Callable[[Outcome], str], several: list[list[Outcome]], is_known: bool = False
) -> list[tuple[int, Told]]:
    """What is said of several files, of many at a time, and of how many."""
    is_kept, found, some = work.noting is not None, list[tuple[int, Told]](), list[Outcome]()
    for outcomes in all_noted(work, several):
        if len(outcomes) == 1 and not is_known:
            (one,) = outcomes
            if not one.faults and not one.kind and not one.notes:
                some.append(one)
                continue
        found += [*quietly_told(some, line_of, is_kept), (1, told_of(outcomes, line_of, is_kept, is_known))]
        some = []
    return found + quietly_told(some, line_of, is_kept)


def quietly_told(several: list[Outcome], line_of: Callable[[Outcome], str], is_kept: bool) -> list[tuple[int, Told]]:
    """As `joined`, of what is said of files that have a line each, and nothing on standard error."""
    values_of, found = module("rows").values_of if is_kept else None, list[tuple[int, Told]]()
    for at in range(0, len(several), MOST):
        some = several[at : at + MOST]
        lines = "\n".join([*map(line_of, some), ""]).encode()
        rows = [[] if values_of is None else [values_of(one)] for one in some]
        verdicts = [counts_as(one.line, one.part) for one in some]
        found.append((len(some), (lines, (), max([one.status for one in some]), verdicts, rows, [])))
    return found


def joined(several: list[Told]) -> list[tuple[int, Told]]:
    """What is said of files one by one, said of many at a time where nothing must stand between, and of how many."""
    found: list[tuple[int, Told]] = []
    some: list[Told] = []
    for told in several:
        # (what is said on standard error, or may be acknowledged, goes by itself)
        if told[1] or told[5]:
            found += [*as_one(some), (1, told)]
            some = []
        else:
            some.append(told)
            if len(some) == MOST:
                found += as_one(some)
                some = []
    return found + as_one(some)


def as_one(several: list[Told]) -> list[tuple[int, Told]]:
    """As `joined`, of files between whose lines nothing stands."""
    if not several:
        return []
    lines, _, statuses, verdicts, rows, _ = zip(*several)
    return [(len(several), (b"".join(lines), (), max(statuses), list(chain(*verdicts)), list(chain(*rows)), []))]


def told_beside(known: Known, told: Told) -> Told:
    """What is said of a file beside what is acknowledged: nothing on standard error of that, and the worst status of the rest."""
    lines, _, _, verdicts, rows, outcomes = told
    # (of what has no outcomes nothing is acknowledged)
    if not outcomes:
        return told
    return lines, tuple(complaints(known.without(outcomes))), known.add(outcomes), verdicts, rows, outcomes
