"""What is said of a file or of a part of it, as a line or as JSON."""
from __future__ import annotations

import errno
import os
from typing import Any, NamedTuple

from cmsproof_tools.running import DONE, FAILED, one_line, shown, shown_apart


# what the line of JSON has only where there is something to say
NUMBERS = ("signer", "token", "chain", "chainstamp")
SAID_IF_THERE = ("kind", "explanation", "container", "converted", "covers", "content", "stamp", "evidence")


class Outcome(NamedTuple):
    """What is said of a file: status and line of `check`, how many questions there were, the faults of signatures, what kind of
    file it is if that is a cause, what explains a refusal, which part of the file it is about, what is to be noted of it, and how it
    was found: in which container, converted how, covering what of it, with which file beside it as its content, or as its stamp, or
    elsewhere as its evidence record; and what a state keeps of it, a Record, or what one is made of.
    """

    name: str
    status: int
    line: str
    questions: int = 0
    faults: tuple[str, ...] = ()
    kind: str = ""
    explanation: str = ""
    part: str = ""
    notes: tuple[str, ...] = ()
    container: str = ""
    converted: str = ""
    covers: str = ""
    content: str = ""
    stamp: str = ""
    evidence: str = ""
    record: Any = None

    @property
    def called(self) -> str:
        """The name of the file and the part, as they are shown."""
        return called(self.name, self.part)


# what nothing is said of that is accepted by itself: all between faults and record
NOTHING_ELSE = Outcome("", DONE, "")[5:-1]


def accepted(name: str, line: str, questions: int, faults: tuple[str, ...], record: Any) -> Outcome:
    """What is said of a signed file by itself that is accepted. (This is made for each file of an archive.)"""
    return tuple.__new__(Outcome, (name, DONE, line, questions, faults, *NOTHING_ELSE, record))


def is_there(name: str) -> bool:
    """Whether anything has this name."""
    try:
        return os.path.lexists(name)
    except ValueError:
        return False


def called(name: str, part: str) -> str:
    """The name of a file and a part of it, as they are shown: with an escape between where they can be read as another file, or as one and
    a part of that."""
    if not part:
        return shown(name)
    both = f"{name} {part}"
    return shown_apart(name, part) if is_there(both) or is_twofold(name, both) else shown(both)


def is_twofold(name: str, both: str) -> bool:
    """Whether a file has a name that is longer than this one, and with which both the name and a part begin, up to a space. (The part can
    have any number of spaces: it ends where no longer name can be there.)"""
    at, folder = len(name), os.path.dirname(name)
    while (at := both.find(" ", at + 1)) >= 0:
        other = both[:at]
        if os.path.dirname(other) != folder:
            folder = os.path.dirname(other)
            if not os.path.isdir(folder):
                return False
        try:
            os.lstat(other)
            if not os.path.isdir(other):
                return True
        except ValueError:
            return False
        except OSError as error:
            if error.errno == errno.ENAMETOOLONG:
                return False
    return False


def lost(name: str, by: int) -> list[Outcome]:
    """What is said of a file whose worker was ended."""
    return [Outcome(name, FAILED, f"failed worker: it was ended by signal {by}" if by else "failed worker: it ended")]


def text_lines(outcome: Outcome) -> str:
    """The line of a file, and a second one where there is an explanation."""
    if not outcome.part and not outcome.explanation:
        return f"{shown(outcome.name)}: {one_line(outcome.line)}"
    second = f"\n    {one_line(outcome.explanation)}" if outcome.explanation else ""
    return f"{outcome.called}: {one_line(outcome.line)}{second}"


def named(name: str) -> dict[str, object]:
    """The members of JSON that say a name: the octets too, in hexadecimal, where they are no UTF-8."""
    octets = os.fsencode(name)
    text = octets.decode("utf-8", "replace")
    return {"file": text} if text.encode() == octets else {"file": text, "octets": octets.hex()}


def json_lines(outcome: Outcome) -> str:
    """The line of a file as JSON: the parts that `check`'s line has, and how many questions and good signatures there were."""
    import json

    from cmsproof_tools.lines import counts_as, parts_of

    found = {**(parts_of(outcome.status, outcome.line) or {}), "verdict": counts_as(outcome.line, outcome.part)}
    numbers = {name: int(found.pop(name)) for name in NUMBERS if name in found}
    part = {"part": one_line(outcome.part)} if outcome.part else {}
    members = {**named(outcome.name), **part, "status": outcome.status, "line": one_line(outcome.line), **found, **numbers}
    members.update({"questions": outcome.questions, "vouched": outcome.questions - len(outcome.faults)})
    members.update({name: one_line(text) for name in SAID_IF_THERE if (text := getattr(outcome, name))})
    if outcome.notes:
        members["notes"] = [one_line(note) for note in outcome.notes]
    return json.dumps(members)
