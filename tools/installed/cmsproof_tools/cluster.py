"""Files judged by other processes and machines: one function of some names and the trust list, which the workers of Dask do (handing.py), or
those of another engine."""
from __future__ import annotations

import hashlib
import os
import pickle
import time
from functools import lru_cache
from itertools import groupby
from typing import Any, Callable, Iterable, Iterator, NamedTuple, Sequence, Union

import cmsproof
from cmsproof.library import Flag
from cmsproof_tools.checking import Work, all_noted, outcomes_of_several
from cmsproof_tools.evidenced import Records
from cmsproof_tools.handing import LONGEST, Cluster, Part, Task, sum_of
from cmsproof_tools.outcomes import Outcome, json_lines, lost, text_lines
from cmsproof_tools.pairs import USUAL, Pairs
from cmsproof_tools.rows import Noting, keys_of
from cmsproof_tools.running import shown
from cmsproof_tools.telling import Told, joined, quietly_told
from cmsproof_tools.versions import digest_of_library, versions_text, versions_told
from cmsproof_tools.workers import MOST

class Terms(NamedTuple):
    """By what files are judged: the SHA-256 of the trust list, the versions of all that judges, the folder of relative names, and
    what Work has of the user's words; whether a state keeps what is said, lines are of JSON, refusals may be acknowledged; and the digest
    of the library by which the state says that it was judged."""

    trust: str
    versions: str
    folder: str
    endings: tuple[tuple[str, str], ...]
    sha1: bool
    explain: bool
    partial: bool
    stamps: bool
    noted: bool
    records: Union[Records, None] = None
    json: bool = False
    known: bool = False
    library: str = ""


class Lines(NamedTuple):
    """What is told of files that follow each other, and the SHA-256 of their names."""

    names: bytes
    told: Told


# what a worker says: of one file the outcomes, or of some the lines
Said = Union[list[Outcome], Lines]


def terms_of(work: Work) -> Terms:
    """The terms of this work, in the folder of this process."""
    trust, endings = hashlib.sha256(work.trust.text).hexdigest(), tuple(work.pairs.endings.items())
    policy = work.sha1, work.explain, work.partial, work.stamps, work.noting is not None
    here, records = os.getcwd(), work.records
    if records is not None:
        # (a worker has another folder: names are those from the root there)
        records = records._replace(folder=os.path.join(here, records.folder), archive=os.path.join(here, records.archive))
    library = "" if work.noting is None else digest_of_library()
    return Terms(trust, versions_text(), here, endings, *policy, records, library=library)


@lru_cache(maxsize=1)
def work_of(trusted: bytes, terms: Terms) -> Work:
    """What is the same for all files, made once in a worker."""
    noting = Noting(keys_of(trusted), b"", {}) if terms.noted else None
    pairs, trust = Pairs({}, dict(terms.endings)), cmsproof.TrustList(trusted)
    policy = terms.partial, terms.stamps, noting, terms.records
    return Work(trust, None, terms.sha1, terms.explain, {}, pairs, frozenset(), *policy)


def as_named(outcome: Outcome, name: str, folder: str) -> Outcome:
    """The outcome of a file as it is said of this name, which is one in that folder if it is relative."""
    if os.path.isabs(name):
        return outcome if outcome.name == name else outcome._replace(name=name)
    inside = os.path.join(folder, "")
    # (so it is of nearly all files: the folder is in none of its texts)
    if not outcome.notes and not outcome.content and " /" not in outcome.line:
        return tuple.__new__(Outcome, (name, *outcome[1:]))
    line, *notes = (text.replace(f" {shown(inside)}", " ", 1) for text in (outcome.line, *outcome.notes))
    return outcome._replace(name=name, line=line, notes=tuple(notes), content=outcome.content.removeprefix(inside))


@lru_cache(maxsize=1)
def library_here() -> str:
    """The digest of the library that this process has, which another one may lie beside later."""
    return digest_of_library()


def is_kept(terms: Terms) -> bool:
    """Whether what this process says is kept as by the library of who asks. (Its file may be another one, as of another machine.)"""
    return not terms.noted or library_here() == terms.library != ""


def unmarked(outcome: Outcome) -> Outcome:
    """The outcome of a file that is to be judged again: nothing says that it is the same."""
    record = outcome.record
    return outcome if record is None else outcome._replace(record=(*record[:2], "", *record[3:]))


def as_lines(several: list[list[Outcome]], terms: Terms) -> list[Said]:
    """What is said of each of a few files: the lines of those of which nothing else is to be said. (By what a part is called hangs on what
    is in this process's folder.)"""

    def is_quiet(outcomes: list[Outcome]) -> bool:
        if terms.known or len(outcomes) != 1:
            return False
        (one,) = outcomes
        return not (one.faults or one.kind or one.notes or one.part)

    line_of, found = json_lines if terms.json else text_lines, list[Said]()
    for quiet, group in groupby(several, is_quiet):
        if quiet:
            alone = [one for (one,) in group]
            names = sum_of([one.name for one in alone])
            found += [Lines(names, told) for _, told in quietly_told(alone, line_of, terms.noted)]
        else:
            found += group
    return found


def judge(
    names: list[str], trusted: bytes, terms: Terms, contents: frozenset[str] = frozenset(), is_told: bool = False
) -> Part:
    """Judges the files of these names, of which some are contents of others. Nothing is judged by another list or version than the
    terms say: nothing is said then. If it `is_told`, lines are said where that is all, and files are left if they take long."""
    trust, versions, begun = hashlib.sha256(trusted).hexdigest(), versions_told(), time.monotonic()
    if (trust, versions) != (terms.trust, terms.versions):
        return Part(trust, versions, [])
    inside = frozenset(os.path.join(terms.folder, name) for name in contents)
    work = work_of(trusted, terms)._replace(contents=inside)
    said: list[Said] = []
    for at in range(0, len(names), MOST):
        group = names[at : at + MOST]
        found = all_noted(work, outcomes_of_several(work, [os.path.join(terms.folder, name) for name in group]))
        named = [[as_named(outcome, name, terms.folder) for outcome in outcomes] for name, outcomes in zip(group, found)]
        if not is_kept(terms):
            named = [[unmarked(outcome) for outcome in outcomes] for outcomes in named]
        if not is_told:
            said += named
            continue
        said += as_lines(named, terms)
        if time.monotonic() - begun > LONGEST:
            break
    return Part(trust, versions, said, time.monotonic() - begun)


def judge_packed(packed: bytes, trusted: bytes, terms: Terms, contents: frozenset[str]) -> Part:
    """As `judge`, of names that are one string of octets: Dask looks at each item of a list, in each process. And it has lines."""
    return judge(pickle.loads(packed), trusted, terms, contents, is_told=True)


def terms_for(
    trusted: bytes,
    *,
    sha1: bool = False,
    partial: bool = False,
    stamps: bool = False,
    records: Union[Records, None] = None,
) -> Terms:
    """The terms of a trust list and of what else is allowed or demanded, in the folder of this process, for an engine that has no other way
    to get them: contents are beside their signatures as usual. Raises ListRefused if it is no trust list, and TypeError where a flag is
    neither True nor False."""
    for flag in (sha1, partial, stamps, *(() if records is None else (records.whole, records.signed))):
        Flag.from_param(flag)
    pairs, trust = Pairs({}, USUAL), cmsproof.TrustList(trusted)
    return terms_of(Work(trust, None, sha1, False, {}, pairs, frozenset(), partial, stamps, None, records))


def lines_of(names: Iterable[str], trusted: bytes, terms: Terms) -> Iterator[str]:
    """The lines of the files of these names, in their order, for an engine that calls a function of some names, as Spark:

        from functools import partial
        from cmsproof_tools import cluster
        trusted = open("trust.txt", "rb").read()
        lines = partial(cluster.lines_of, trusted=trusted, terms=cluster.terms_for(trusted))
        spark.sparkContext.textFile("names.txt").mapPartitions(lines).saveAsTextFile("lines")

    Raises RuntimeError where files are judged by another list or version than the terms say: no line is left out."""
    for name in names:
        part = judge([name], trusted, terms)
        if not fitting(part, [name], terms, frozenset()):
            raise RuntimeError(f"this worker judges by {part.trust} and {part.versions}, and not by the terms")
        yield from (text_lines(outcome) for outcomes in part.outcomes for outcome in outcomes)


def is_of(said: Said, names: Sequence[str], contents: frozenset[str]) -> bool:
    """Whether this is said of these names: only a content of others may have no outcome."""
    if isinstance(said, Lines):
        return said.names == sum_of(names)
    return ({outcome.name for outcome in said} or contents.intersection(names)) == set(names)


def fitting(part: Any, names: list[str], terms: Terms, contents: frozenset[str]) -> int:
    """Of how many of these names, from the first on, a worker's answer is one, by these terms; 0 if it is none."""
    if not isinstance(part, Part) or not part.is_by(terms):
        return 0
    at = 0
    for said in part.said:
        # (there is a verdict of each file)
        end = at + (len(said.told[3]) if isinstance(said, Lines) else 1)
        if end > len(names) or not is_of(said, names[at:end], contents):
            return 0
        at = end
    return at


def told_by(said: Iterable[Said], told_of: Callable[[list[Outcome]], Told]) -> Iterator[list[Told]]:
    """What is told of files, of some at a time, by what is said of them."""
    some: list[Told] = []
    for one in said:
        if isinstance(one, Lines):
            yield [*(told for _, told in joined(some)), one.told]
            some = []
            continue
        some.append(told_of(one))
        if len(some) == MOST:
            yield [told for _, told in joined(some)]
            some = []
    if some:
        yield [told for _, told in joined(some)]


class Checks(Task):
    """Files that are judged by these terms, of which some are contents of others."""

    def __init__(self, trusted: bytes, terms: Terms, contents: frozenset[str]) -> None:
        super().__init__(judge_packed, trusted, terms)
        self.contents = contents

    def beside(self, names: list[str]) -> frozenset[str]:
        return self.contents.intersection(names)

    def lost(self, name: str) -> Said:
        return lost(name, 0)

    def fitting(self, part: Any, names: list[str]) -> int:
        return fitting(part, names, self.terms, self.contents)


def batches(
    others: Cluster, names: Sequence[str], told_of: Callable[[list[Outcome]], Told]
) -> Iterator[list[Told]]:
    """What is told of each file by the workers that judge them, in the order of the names, of some at a time."""
    for said in others.said(names):
        yield from told_by(said, told_of)
