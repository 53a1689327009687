"""How a file is judged that has time-stamps beside it, or is one, where stamps by themselves are allowed.

What is stamped was there, and nothing says whose it is. So a stamp takes no line away that says something of a signature.
"""
from __future__ import annotations

import os
from contextlib import ExitStack, contextmanager, suppress
from typing import Iterator, NamedTuple, Union

from cmsproof.octets import COPIED, File
from cmsproof_tools import stamps
from cmsproof_tools.checking import STAMPED, Reading, Work
from cmsproof_tools.checking import failed, noted, open_file, opened, outcome_of, says_unsigned, stamps_judged, told, unopened
from cmsproof_tools.checking import with_cure
from cmsproof_tools.finding import found_in
from cmsproof_tools.found import Found, Unfound
from cmsproof_tools.kinds import says_stamp
from cmsproof_tools.outcomes import Outcome
from cmsproof_tools.pairs import is_regular
from cmsproof_tools.running import DONE, shown
from cmsproof_tools.signed_parts import token_of_stamp

# containers whose parts have names: what is said of the file itself says that nothing signed was reached
NAMING = ("pdf", "asic")


class Stamp(NamedTuple):
    """A stamp beside a file: its name without the folder, and the file, or why it is not read."""

    called: str
    file: Union[File, Exception, Unfound]


def opened_beside(work: Work, name: str, stack: ExitStack, what: str = "a time-stamp") -> Stamp:
    """The stamp of this name, or what else there is of a file. One that fails costs no other one. What is long is not read: so each is a
    copy, which nobody changes."""
    called = os.path.basename(name)
    try:
        if os.lstat(name).st_size > COPIED:
            return Stamp(called, Unfound(called, "F4", f"{what} of more than {COPIED} octets"))
        return Stamp(called, stack.enter_context(open_file(work, name, COPIED)))
    except OSError as error:
        return Stamp(called, unopened(name, error))
    except Exception as error:
        return Stamp(called, error)


def judged(work: Work, name: str, reading: Reading, stamp: Stamp, over: File, part: str) -> Outcome:
    """What is said of a stamp of this file, as a part of the file of this name."""
    try:
        if isinstance(stamp.file, Exception):
            raise stamp.file
        found: Union[Found, Unfound]
        found = stamp.file if isinstance(stamp.file, Unfound) else Found(part, stamp.file.octets, over.octets, kind="stamp")
        return outcome_of(work, reading, found, name)._replace(part=part, stamp=stamp.called)
    except Exception as error:
        return failed(name, error)._replace(part=part, stamp=stamp.called)


def says_nothing_signed(outcomes: list[Outcome]) -> bool:
    """Whether nothing that is said of a file is about a signature in it."""
    return all(
        says_unsigned(one.line) or (not one.part and one.container in NAMING and one.line.startswith("refused F"))
        for one in outcomes
    )


def time_of(outcome: Outcome) -> tuple[str, str]:
    """The time of a stamp that passes, by which it is in order."""
    time = outcome.line[len(STAMPED) :]
    return time[:14], time[15:-1]


def unread_of(outcomes: list[Outcome]) -> tuple[str, ...]:
    """What a reader should know of a file that is stamped and whose form is not read, so that nobody knows what is signed in it."""
    unread = [one for one in outcomes if not says_unsigned(one.line)]
    return tuple(
        f"no signature in it is looked at: {one.line.partition(' ')[2]}: {note}" for one in unread for note in one.notes
    )


def together(own: list[Outcome], stamped: list[Outcome]) -> list[Outcome]:
    """What is said of a file and of its stamps: the earliest that passes, and each that does not, in a part of its own."""
    unsigned = says_nothing_signed(own)
    found, names = ([], set()) if unsigned else (list(own), {one.part for one in own})
    good = [one for one in stamped if one.status == DONE]
    if good:
        first = min(good, key=time_of)
        found.append(first._replace(part="", notes=(*first.notes, *unread_of(own))) if unsigned else first)
    found += [one for one in stamped if one.status != DONE]
    for at, one in enumerate(found):
        while one.stamp and one.part and one.part in names:
            one = one._replace(part=one.part + "'")
        found[at] = one
        names.add(one.part)
    return found


def alone(work: Work, outcome: Outcome, first: str) -> Outcome:
    """What is said of a stamp by itself whose file is not there."""
    if not says_stamp(outcome.kind):
        return outcome
    refusal = Unfound(
        outcome.part,
        "F15",
        f"a time-stamp, and no regular file {shown(os.path.basename(first))}, which it would stamp, is beside it",
    )
    said = outcome._replace(status=refusal.status, line=refusal.line, kind="", notes=(*outcome.notes, refusal.reason))
    return with_cure(work, said, refusal.code)


def own_outcomes(work: Work, name: str, reading: Reading) -> list[Outcome]:
    """What is said of the file itself, which is no stamp of a file that is there."""
    own = [outcome_of(work, reading, one, name) for one in found_in(name, reading.file, work.partial)]
    first = stamps.stamped_by(name)
    return own if first is None else [alone(work, one, first) for one in own]


def alone_with(work: Work, reading: Reading) -> Reading:
    """A reading of what is over the file itself, and not over the content beside it: that only says whether the file is as it was."""
    beside = () if reading.beside is None or work.content is not None else (reading.beside,)
    return reading._replace(beside=None, others=(*beside, *reading.others))


def with_stamps(work: Work, name: str, reading: Reading, stack: ExitStack) -> tuple[list[Outcome], Reading]:
    """What is said of a file, each part of it, and its stamps, and the reading with these, which are open as long as the block is."""
    first = stamps.stamped_by(name)
    over = stack.enter_context(open_file(work, first)) if first is not None and is_regular(first) else None
    there = [opened_beside(work, one, stack) for one in stamps.beside(name)]
    files = [stamp.file if isinstance(stamp.file, File) else None for stamp in there]
    reading = reading._replace(others=(*([over] if over else []), *files, *reading.others))
    of_stamps = alone_with(work, reading)
    if over is None:
        own = told(work, name, stamps_judged(work, own_outcomes(work, name, reading)))
    else:
        own = [judged(work, name, of_stamps, Stamp("", reading.file), over, "")._replace(content=over.name)]
    stamped = [judged(work, name, of_stamps, stamp, reading.file, stamp.called) for stamp in there]
    return together(own, stamped) if stamped else own, reading


def with_others(name: str, outcomes: list[Outcome]) -> list[Outcome]:
    """The outcomes of a file, of which the first one notes what is beside it as a stamp and is none."""
    notes = tuple(f"{shown(other)}, is beside it, and is not read" for other in stamps.kinds_of_others(name))
    if notes and outcomes:
        outcomes[0] = outcomes[0]._replace(notes=(*outcomes[0].notes, *notes))
    return outcomes


def outcomes_in(work: Work, name: str, reading: Reading) -> list[Outcome]:
    """Checks a file, each part of it, and its stamps."""
    with ExitStack() as stack:
        outcomes, _ = with_stamps(work, name, reading, stack)
        outcomes = with_others(name, outcomes)
        if work.noting is not None:
            outcomes = noted(work, work.noting, outcomes)
    return outcomes


@contextmanager
def tokens_beside(name: str, file: File, wanted: bool) -> Iterator[tuple[list[Found], bool]]:
    """The tokens of the stamps beside a file, over it, for whoever looks for their authorities, while a block has them; and whether the file
    is itself a stamp of one that is there: then its own token is among them. None, unless they are wanted. (One that cannot be read has
    its line when it is checked.)"""
    first = stamps.stamped_by(name) if wanted else None
    is_stamp = first is not None and is_regular(first)
    with ExitStack() as stack:
        pairs = [("", file.octets, stack.enter_context(opened(first)).octets)] if is_stamp and first else []
        for one in stamps.beside(name) if wanted else []:
            with suppress(Exception):
                if os.lstat(one).st_size <= COPIED:
                    pairs.append((os.path.basename(one), stack.enter_context(opened(one)).octets, file.octets))
        found = []
        for part, stamp, over in pairs:
            with suppress(ValueError, IndexError):
                found.append(Found(part, token_of_stamp(stamp), over, kind="token"))
        yield found, is_stamp
