"""What a run does with a state: which files are to be judged, and what is kept of those that were."""
from __future__ import annotations

import argparse
import re
import time
from collections import Counter
from typing import TYPE_CHECKING, Any, Iterable, Iterator, Sequence

from cmsproof_tools.checking import Work
from cmsproof_tools.evidenced import ENDING
from cmsproof_tools.lines import counts_as
from cmsproof_tools.outcomes import Outcome, called
from cmsproof_tools.rows import Row, mark_now, seen_here
from cmsproof_tools.running import DONE, tell
from cmsproof_tools.stamps import beside, judged_with
from cmsproof_tools.state import State
from cmsproof_tools.telling import Told
from cmsproof_tools.texts import time_in

if TYPE_CHECKING:
    from cmsproof_tools.known import Known

# where the mark is among the values of a row without the file's name
MARK = Row._fields.index("mark") - 1
DAY = re.compile(r"([0-9]{4})-([0-9]{2})-([0-9]{2})")


def moment_of(text: str) -> int:
    """The seconds since 1970 of a day, 2026-11-25, or of a moment, 20261125080648Z."""
    day = DAY.fullmatch(text)
    try:
        return int(time_in(f"{''.join(day.groups())}000000Z" if day else text).timestamp())
    except ValueError as error:
        raise argparse.ArgumentTypeError(f"{text} is no day like 2026-11-25 and no moment like 20261125080648Z") from error


class Resume:
    """A state in use: which of the named files are due, and how the others stand."""

    def __init__(self, tool: str, state: State, given: Any, work: Work, known: Known | None = None) -> None:
        self.tool, self.state, self.since, self.recheck, self.only = tool, state, given.since or 0, given.recheck, given.only
        self.work, self.is_elsewhere, self.known = work, given.dask is not None, known
        self.kept: Counter[str] = Counter()
        self.worst = DONE
        # the records that have rows by themselves, as where their files were not there
        named = state.names_ending(ENDING) if work.records is not None else []
        self.alone = frozenset(name for name in named if work.records is not None and work.records.file_of(name) is not None)

    def named(self, names: list[str]) -> list[str]:
        """The files that are meant: those that are named, and of these, or of all if none is, those that --only says."""
        if self.only is None:
            return names
        found = self.state.names(self.only)
        if not names:
            return found
        meant = set(found)
        return [name for name in names if name in meant]

    def mark_of(self, name: str) -> str:
        """What says that a file, and those beside it that are its content and its stamps, and its record, are the same as before."""
        content = self.work.pairs.content_of(name) if self.work.content is None else None
        records = [] if self.work.records is None else self.work.records.judged_with(name)
        return mark_now(name, content, *(judged_with(name) if self.has_stamps(name) else []), *records)

    def has_stamps(self, name: str) -> bool:
        """Whether a file is judged with the stamps beside it, as all are but records, where stamps are allowed."""
        records = self.work.records
        return self.work.stamps and (records is None or records.file_of(name) is None)

    def due(self, names: list[str]) -> list[str]:
        """The files that are to be judged; the others are counted."""
        if self.recheck or self.state.is_empty():
            return names
        found = []
        for name in names:
            # (a file that is the content of another has a line only if it is a signed file, or is to have a record)
            is_content = name in self.work.contents and self.work.records is None
            rows = [] if is_content else self.state.kept(name, self.mark_of(name), self.since)
            if rows:
                self.forget_others(name)
                ended = max(rows, key=lambda row: row.status)
                self.kept[counts_as(ended.line, ended.part)] += 1
                self.worst = max(self.worst, self.status_of(rows, ended.status))
            else:
                found.append(name)
        return found

    def status_of(self, rows: list[Row], worst: int) -> int:
        """The worst status of the parts of a file that are not acknowledged, of which this is the worst one."""
        if self.known is None or worst == DONE:
            return worst
        return self.known.add([Outcome(row.name, row.status, row.line, part=row.part) for row in rows])

    def forget_others(self, name: str) -> None:
        """Takes away the rows that stamps beside a file have by themselves, as where it was not there, or its record: they are judged
        with it."""
        for one in beside(name) if self.has_stamps(name) else []:
            if one not in self.work.pairs.named and self.state.of_file(one):
                self.state.put(one, [])
        records = self.work.records
        if self.alone and records is not None and records.file_of(name) is None:
            if (place := records.place_of(name)) in self.alone:
                self.state.put(place or "", [])

    def warn(self, name: str, rows: list[Row]) -> None:
        """Says of which part the octets changed although its times say that they did not."""
        before = {row.part: row for row, _ in self.state.of_file(name)}
        for row in rows:
            old = before.get(row.part)
            if old is not None and row.mark and old.mark == row.mark and (old.sha256, old.content) != (row.sha256, row.content):
                tell(self.tool, f"{called(row.name, row.part)}: its octets changed, and its size and its times did not")

    def keep(self, name: str, kept: list[tuple[Any, ...]]) -> None:
        """Keeps the rows of all parts of the file of this name, which are given without it."""
        if self.is_elsewhere:
            here = self.mark_of(name)
            kept = [(*values[:MARK], seen_here(values[MARK], here), *values[MARK + 1 :]) for values in kept]
        if self.recheck:
            self.warn(name, [Row._make((name, *values)) for values in kept])
        self.forget_others(name)
        self.state.put_values(name, kept)

    def kept_of(self, names: Sequence[str], found: Iterable[list[Told]]) -> Iterator[list[Told]]:
        """What is said of each of these files, of some at a time. Its rows are kept once the next ones are asked for: what is kept has been
        printed."""
        left = iter(names)
        keep = self.keep if self.is_elsewhere or self.recheck or self.work.stamps or self.alone else self.state.put_values
        for several in found:
            yield several
            judged = (int(time.time()),)
            for _, _, _, _, kept_of_all, _ in several:
                for kept, name in zip(kept_of_all, left):
                    keep(name, [values + judged for values in kept])
