"""Refusals that a person has acknowledged: a text that names each by its code and the name of its file, and what is new beside them.

Such a refusal stays one. Only the status of a run, its summary and a report tell what is new; nothing that is acknowledged is accepted.
"""
from __future__ import annotations

import re
from collections import Counter
from typing import Iterable, Iterator

from cmsproof_tools.lines import counts_as, parts_of
from cmsproof_tools.outcomes import Outcome
from cmsproof_tools.progress import counted
from cmsproof_tools.running import ACKNOWLEDGED, DONE, MALFORMED, REFUSED, USAGE, Stop, module, one_line, read, shown

# a line: a code, a space, and a name as `shown` writes it, in which each backslash begins an escape
LINE = re.compile(r"([A-Z][1-9][0-9]*) ((?:[^\\]|\\(?:[\\nrt]|x[0-9a-f]{2}|u[0-9a-f]{4}|U[0-9a-f]{8}))+)")
# by which letters the codes of a file's line begin, if it is refused or malformed; and the one of a line that says `failed`
KINDS, NEVER = "CFKMPSVW", ("F2", "P3", "P4", "P5", "P6", "P7", "W4")
# of a time-stamp whose token fails: the rule that fails, since W4 says the same where its authority is in no list and where the file
# was changed
OF_TOKEN = re.compile(r"refused (?:record )?chain [0-9]+ stamp [0-9]+ W4 (K[0-9]+)")


def acknowledged(line: str) -> tuple[str, str]:
    """The code and the name in a line. Raises ValueError, with what is wrong, where it has another form."""
    found = LINE.fullmatch(line)
    if found is None or not line.isprintable() or ": " in line:
        raise ValueError("it is not a code, a space, and a name as it is printed")
    code, name = found.groups()
    if code[0] not in KINDS or code in NEVER or code not in module("cures").known_cures():
        raise ValueError(f"{code} is no code of a file that is refused or malformed")
    return code, name


def code_of(status: int, line: str) -> str:
    """The code by which what a line says is acknowledged, or no text."""
    code = (parts_of(status, line) or {}).get("code", "") if status in (REFUSED, MALFORMED) else ""
    token = OF_TOKEN.match(line) if code == "W4" else None
    return token.group(1) if token else code


class Known:
    """What is acknowledged, and what of a run, or of a state, is new beside it."""

    def __init__(self, path: str) -> None:
        """Reads the text. Raises Stop, with the number of the first line that has another form."""
        self.path = path
        # the number of the line that acknowledges a code and a name; which of these were met, and of which names something else was
        self.lines: dict[tuple[str, str], int] = {}
        self.met: set[tuple[str, str]] = set()
        self.others: set[str] = set()
        # how many files have something new, by the verdict, and how many have nothing else than what is acknowledged
        self.new: Counter[str] = Counter()
        self.old = 0
        self.held: list[str] = []
        for number, octets in enumerate(read(path).split(b"\n"), 1):
            line = octets[:-1] if octets.endswith(b"\r") else octets
            if not line or line.startswith(b"#"):
                continue
            try:
                self.lines.setdefault(acknowledged(line.decode()), number)
            except UnicodeDecodeError as error:
                raise Stop(USAGE, f"{shown(path)}: line {number}: it is no UTF-8") from error
            except ValueError as error:
                raise Stop(USAGE, f"{shown(path)}: line {number}: {error}") from error
        self.names = {name for _, name in self.lines}

    def covers(self, status: int, line: str, name: str) -> bool:
        """Whether a line acknowledges just this: a refusal, or a fault of form, of this code, of what is shown by this name."""
        code = code_of(status, line)
        if (code, name) in self.lines:
            self.met.add((code, name))
            return True
        if name in self.names:
            self.others.add(name)
        return False

    def is_new(self, outcome: Outcome) -> bool:
        """Whether this is not accepted, and not acknowledged."""
        return outcome.status != DONE and not self.covers(outcome.status, outcome.line, outcome.called)

    def without(self, outcomes: Iterable[Outcome]) -> list[Outcome]:
        """What is said of the parts of a file, but what is acknowledged."""
        return [outcome for outcome in outcomes if outcome.status == DONE or self.is_new(outcome)]

    def add(self, outcomes: Iterable[Outcome]) -> int:
        """Counts a file by what is said of its parts, and answers the worst status of what is new."""
        bad = [outcome for outcome in outcomes if outcome.status != DONE]
        new = list(filter(self.is_new, bad))
        if not new:
            self.old += bool(bad)
            return DONE
        ended = max(new, key=lambda outcome: outcome.status)
        self.new[counts_as(ended.line, ended.part)] += 1
        return ended.status

    def status(self, worst: int) -> int:
        """The exit status, where this is the worst status of what is new: never 0 unless all is accepted."""
        return ACKNOWLEDGED if worst == DONE and self.old else worst

    def text(self) -> str:
        """What a summary says besides."""
        return f"; {self.old} acknowledged; new: {counted(self.new) or 'none'}"

    def hold(self, line: str) -> bool:
        """Whether a line is about a file of which something is acknowledged: it is kept until it is known whether that is all."""
        if line.partition(": ")[0] not in self.names:
            return False
        self.held.append(line)
        return True

    def left_to_tell(self, whole: bool = True) -> Iterator[str]:
        """What was held of files, but those of which what is acknowledged was met, and nothing else; and if all was looked at, each line of
        the text that met nothing."""
        names = {name for _, name in self.met} - self.others
        for line in self.held:
            # (why a certificate has no path is said of the first file with it alone, and the others may be new)
            if line.partition(": ")[0] not in names or (self.new and ": no path for " in line):
                yield line
        for (code, name), number in self.lines.items() if whole else ():
            if (code, name) not in self.met:
                yield f"{shown(self.path)}: line {number}: nothing is refused so: {code} {one_line(name)}"
