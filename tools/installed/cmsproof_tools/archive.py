"""cmsproof-archive: checks signed files, from the questions to the verdict."""
from __future__ import annotations

import argparse
import os
import sys
from contextlib import ExitStack
from functools import partial
from itertools import chain
from typing import TYPE_CHECKING, Any, Iterable, Sequence

from cmsproof import ListRefused, TrustList
from cmsproof.octets import File
from cmsproof_tools import descriptors, stamps
from cmsproof_tools.checking import Unread, Work, content_named, outcomes_of, outcomes_of_several
from cmsproof_tools.descriptors import path_of
from cmsproof_tools.evidenced import Records, records_in
from cmsproof_tools.issuer_words import asked_of, names_issuers
from cmsproof_tools.listing import no_list
from cmsproof_tools.outcomes import json_lines, lost, named, text_lines
from cmsproof_tools.pairs import USUAL, Pairs, check_ends, rows_of_all
from cmsproof_tools.progress import Progress
from cmsproof_tools.running import DONE, FAILED, MALFORMED, USAGE, Started, Stop, Words
from cmsproof_tools.running import check_kept, module, read, shown, tell, write
from cmsproof_tools.telling import Told, all_told, told_beside, told_of
from cmsproof_tools.workers import Workers

if TYPE_CHECKING:
    from cmsproof_tools.known import Known
    from cmsproof_tools.resuming import Resume

# how many names are very many (names.py)
MANY = 50_000
# where descriptors have names
PLACES = ("/dev/", "/proc/")
# what is read for files that are not accepted
READ = ("kinds", "lines")


def last_line(trust: str, trusted: bytes, resume: Resume | None, known: Known | None, count: int, worst: int) -> str:
    """The last line of JSON: which trust list it was, how many files there were, and the exit status."""
    import hashlib
    import json

    members = {"trust": named(trust)["file"], "sha256": hashlib.sha256(trusted).hexdigest()}
    kept = {} if resume is None else {"kept": sum(resume.kept.values())}
    counts = {} if known is None else {"acknowledged": known.old, "new": sum(known.new.values())}
    return json.dumps({**members, "files": count, **kept, **counts, "worst": worst})


def names_in(path: str, null: bool) -> list[str]:
    """The names of a list: one on each line, whose end may be CR LF if all have it, or each ended by an octet 00."""
    octets = read(path)
    if not null and b"\0" in octets:
        raise Stop(MALFORMED, f"{shown(path)}: no list of lines, for it has octets 00: --null reads it")
    names = [name for name in octets.split(b"\0" if null else b"\n") if name]
    if not null and all(name.endswith(b"\r") for name in names):
        check_ends(path, names)
        names = [name[:-1] for name in names if name != b"\r"]
    if sys.getfilesystemencoding() == "utf-8":
        # (of all at once: an end of a name ends what is no UTF-8, too)
        return os.fsdecode(b"\0".join(names)).split("\0") if names else []
    return [os.fsdecode(name) for name in names]


def contents_of(path: str) -> bytes:
    """The octets of the trust list, which is read once."""
    try:
        return descriptors.contents(path, Started.descriptors)
    except OSError as error:
        done = "read" if isinstance(error, IsADirectoryError) else "open"
        raise Stop(FAILED, f"failed {done} {shown(path)}: {error.strerror}") from error
    except descriptors.Unfit as error:
        raise Stop(FAILED, f"failed open {shown(path)}: {error}") from error


def opened_now(path: str) -> int | Exception:
    """The descriptor of a file, or the error."""
    try:
        return descriptors.taken(path, Started.descriptors)
    except (OSError, descriptors.Unfit) as error:
        return error


def trust_list(path: str, explain: bool) -> TrustList:
    """The trust list, which the library judges before a file is read. Ends the tool where it is none, or there is no library."""
    octets = contents_of(path)
    try:
        return TrustList(octets)
    except ListRefused as error:
        raise no_list(path, octets, error, f". {module('cures').said_of(error.code)}" if explain else "") from error
    except ImportError as error:
        raise Stop(FAILED, str(error)) from error


def trust_by(tool: str, given: argparse.Namespace, named: TrustList | None, names: list[str], known: Known | None) -> TrustList:
    """The trust list that is named, or the one that is made of what issuers issued, which is written before it is used."""

    def of_file(line: str) -> None:
        if known is None or not known.hold(line):
            tell(tool, line)

    if not names_issuers(given) and named is not None:
        return named
    trusted = None if named is None else (given.trust, named.text)
    made: TrustList = module("issuing").list_for(
        asked_of(given), trusted, names, lambda line: tell(tool, line), given.jobs, of_file
    )
    if given.write_trust is not None:
        write(given.write_trust, made.text)
    return made


def own_among(names: Iterable[str]) -> list[str]:
    """Those of some names that name descriptors of this process."""
    places = (name for name in names if name.startswith(PLACES))
    return list(dict.fromkeys(name for name in places if descriptors.number_named(name) is not None))


def check_elsewhere(names: Iterable[str]) -> None:
    """Ends the tool where a name names a descriptor of this process."""
    for name in own_among(names):
        raise Stop(USAGE, f"{shown(name)} is a descriptor, which workers of Dask do not have")


def print_lines(tool: str, several: list[Told]) -> None:
    """Writes the lines of some files at once, but those of a file behind what is said of it on standard error."""
    lines: list[bytes] = []
    for text, complaints, _, _, _, _ in several:
        if complaints:
            write("-", b"".join(lines))
            lines.clear()
            for complaint in complaints:
                tell(tool, complaint)
        lines.append(text)
    write("-", b"".join(lines))


def checked(tool: str, found: Iterable[list[Told]], progress: Progress, known: Known | None = None) -> int:
    """Writes the lines of each file, of some files at a time, and answers the worst status of what is not acknowledged."""
    worst = DONE
    for batch in found:
        several = batch if known is None else [told_beside(known, told) for told in batch]
        progress.put("")
        print_lines(tool, several)
        progress.steps([verdict for _, _, _, verdicts, _, _ in several for verdict in verdicts])
        worst = max([worst, *(status for _, _, status, _, _, _ in several)])
    progress.end("" if known is None else known.text())
    return worst


def pairs_of(given: argparse.Namespace) -> Pairs:
    """How contents beside their signatures are found; with `--content` they are not."""
    endings = {} if given.no_pairs or given.content is not None else {**USUAL, **dict(given.pair)}
    return Pairs(rows_of_all(given.pairs_from, given.null), endings)


def records_of(given: argparse.Namespace) -> Records | None:
    """Where the evidence records of files are, if they must have some. Ends the tool where that is no folder."""
    if given.records is None:
        return None
    for folder in filter(None.__ne__, (given.records, given.under)):
        if not os.path.isdir(folder):
            raise Stop(FAILED, f"failed open {shown(folder)}: it is no folder")
    return records_in(given.records, given.under or "", tuple(given.end), given.at or "", given.whole, given.by_records)


def judged_apart(pairs: Pairs, records: Records | None, name: str) -> bool:
    """Whether a stamp has a line of its own also where what it stamps is there: a list names it, or it stamps a record, which is judged
    without its stamps."""
    first = None if records is None else stamps.stamped_by(name)
    return name in pairs.named or (records is not None and first is not None and records.file_of(first) is not None)


def names_of(tool: str, given: argparse.Namespace, pairs: Pairs, records: Records | None) -> tuple[list[str], frozenset[str]]:
    """The names of all files, and which of those in folders are the contents of others."""
    from cmsproof_tools.folders import files_under

    def skip(name: str, kind: str) -> None:
        tell(tool, f"{shown(name)}: skipped: it is {kind}")

    apart = partial(judged_apart, pairs, records)
    names: list[str] = []
    walked: list[str] = []
    for name in given.files:
        if name != "-" and not name.startswith(PLACES) and os.path.isdir(name):
            below = list(files_under(name, skip))
            if not below:
                tell(tool, f"{shown(name)}: no file is in it")
            if given.stamps:
                # (what a stamp is of stands in the same folder)
                below = [one for one in below if apart(one) or not stamps.belongs(one)]
            if records is not None:
                below = records.walked(name, below, skip)
            walked += below
            names += below
        else:
            names += names_in("-", given.null) if name == "-" else [name]
    names += [name for path in given.files_from for name in names_in(path, given.null)]
    if given.stamps:
        names = stamps.without_belonging(names, apart)
    if records is not None:
        names = records.without_records(names)
    if pairs.named:
        known = set(names)
        names += [name for name in pairs.named if name not in known]
    contents = {content for name in walked if (content := pairs.content_of(name)) is not None and pairs.ending(content) is None}
    return names, frozenset(contents.intersection(walked))


def directly_in(folder: str) -> list[str]:
    """The names of what stands in a folder; none where it cannot be listed, which has its line later."""
    try:
        return [os.path.join(folder, name) for name in os.listdir(folder)]
    except OSError:
        return []


def check_behind(parser: Words, names: list[str]) -> None:
    """Ends the tool where one of these files, which stand behind a revocation list or a response and would be checked as signed files, is
    another one: what it revokes would not count."""
    for name in names:
        if kind := module("revocation").known_at(name):
            checked_as = "would be checked as a signed file: --crl and --ocsp are said before each one"
            parser.error(f"{shown(name)} is {kind}, and {checked_as}")


def check_outputs(parser: Words, given: argparse.Namespace, names: list[str], pairs: Pairs, records: Records | None) -> None:
    """Ends the tool where a file that is to be written is one that is read. (A list may take the place of the one that it grew from.)"""
    if given.write_trust is not None and given.write_trust in names:
        parser.error(f"--write-trust would write over {shown(given.write_trust)}, a signed file")
    if given.write_trust is None and given.log is None:
        return
    states = module("state").beside(given.state) if given.state else []
    lists = [*states, given.known, given.content, *given.files_from, *given.pairs_from]
    in_folders = [found for folder in given.crl_dir for found in directly_in(folder)]
    issuers = [*given.issuer, *given.tsa_issuer, *given.intermediate, *given.crl, *in_folders, *given.ocsp, *given.trusted_list]
    beside = [one for name in names for one in stamps.judged_with(name)] if given.stamps else []
    beside += [] if records is None else [one for name in names for one in records.judged_with(name)]
    read = [*lists, *issuers, given.scheme_operator, *names, *filter(None, map(pairs.content_of, names)), *beside]
    if given.log is not None:
        check_kept(given.log, [given.trust, given.write_trust, *read])
    if given.write_trust is not None:
        check_kept(given.write_trust, read)


def sum_of(content: File) -> bytes:
    """The SHA-256 of a content, computed in a process of its own, which ends where the file is cut while it is mapped there."""
    import hashlib

    with Workers(1, lambda _: hashlib.sha256(content.octets).digest()) as workers:
        (found,) = workers.results([""], lambda *_: b"")
    if not found:
        raise Stop(FAILED, f"failed read {shown(content.name)}: it was changed while it was read")
    return bytes(found)


def resumed(tool: str, given: Any, stack: ExitStack, work: Work, known: Known | None) -> tuple[Resume | None, Work]:
    """The state, if one is named, and the work with what is noted for it."""
    if given.state is None:
        return None, work
    import hashlib

    from cmsproof_tools.resuming import Resume
    from cmsproof_tools.rows import Noting, keys_of
    from cmsproof_tools.state import Basis, State

    content = b""
    if isinstance(work.content, Unread):
        raise Stop(FAILED, str(work.content))
    if work.content is not None:
        content = sum_of(work.content)
    trusted = work.trust.text
    state = stack.enter_context(State(given.state))
    words = [f"--{name}" for name in ("sha1", "partial", "stamps") if getattr(given, name)]
    policy = " ".join([*words, *(work.records.words() if work.records is not None else [])])
    basis = Basis(hashlib.sha256(trusted).hexdigest(), content.hex(), policy, module("versions").versions_kept())
    state.judge_by(basis, trusted)
    return Resume(tool, state, given, work, known), work._replace(noting=Noting(keys_of(trusted), content, {}))


def outcomes(tool: str, given: Any, work: Work, names: Sequence[str], stack: ExitStack) -> Iterable[list[Told]]:
    """What is said of each file, of some at a time, by workers of this machine or of others."""
    line_of, is_known = json_lines if given.json else text_lines, given.known is not None
    told = partial(told_of, line_of=line_of, is_kept=work.noting is not None, is_known=is_known)
    if given.dask is None:
        # What names a descriptor is opened before there are workers, which have others.
        work.opened.update({name: opened_now(name) for name in own_among(chain(names, work.pairs.named.values()))})
        done, judge = partial(all_told, work, line_of, is_known=is_known), partial(outcomes_of_several, work)
        workers = Workers(min(given.jobs, len(names)), partial(outcomes_of, work), done, judge)
        return stack.enter_context(workers).batches(names, lambda name, by: told(lost(name, by)))
    check_elsewhere(chain(names, work.pairs.named.values()))
    cluster = module("cluster")
    terms = cluster.terms_of(work)._replace(json=given.json, known=is_known)
    if not names:
        return []
    others = stack.enter_context(cluster.Cluster(tool, given.dask, cluster.Checks(work.trust.text, terms, work.contents)))
    found: Iterable[list[Told]] = cluster.batches(others, names, told)
    return found


def run(tool: str, given: Any, work: Work, due: Sequence[str], resume: Resume | None, known: Known | None) -> int:
    """Checks the files of these names, which are due, and answers the worst status of all, or with what is acknowledged that of the run."""
    asked = given.progress or given.dask is not None
    progress = Progress(tool, len(due), asked, given.log, None if resume is None else resume.kept)
    with ExitStack() as stack:
        found = outcomes(tool, given, work, due, stack)
        worst = checked(tool, found if resume is None else resume.kept_of(due, found), progress, known)
    worst = worst if resume is None else max(worst, resume.worst)
    return worst if known is None else known.status(worst)


def judged(tool: str, given: Any, parser: Words) -> int:
    """Checks the files that the words name, and answers the tool's exit status."""
    # (what a person wrote is read first, so that a mistake in it costs no time)
    known = None if given.known is None else module("known").Known(given.known)
    check_behind(parser, given.behind)
    # A missing library ends the tool here, and not in a worker.
    module("verifying")
    if not os.path.isdir(path_of("")):
        raise Stop(FAILED, f"failed open {path_of('')}: the files are read by descriptors there")
    # (a list that is none is told before a name is read)
    named = None if given.trust is None else trust_list(given.trust, given.explain)
    content = None if given.content is None else content_named(given.content)
    pairs, records = pairs_of(given), records_of(given)
    names, contents = names_of(tool, given, pairs, records)
    check_outputs(parser, given, names, pairs, records)
    trust = trust_by(tool, given, named, names, known)
    work = Work(trust, content, given.sha1, given.explain, {}, pairs, contents, given.partial, given.stamps, None, records)
    if not names and (given.only is None or given.trust is None):
        parser.error("no file is named")
    # (what each worker would read is read once)
    beside = [*(["recording"] if given.state is not None else []), *(["stamping"] if given.stamps else [])]
    beside += ["evidencing"] if records is not None else []
    beside += ["explaining_records"] if given.explain and records is not None else []
    more = [*(["explaining", "cures"] if given.explain else []), *beside]
    for name in (*(READ if len(names) > 1 else []), *more):
        module(name)
    with ExitStack() as stack:
        resume, work = resumed(tool, given, stack, work, known)
        meant = names if resume is None else resume.named(names)
        due, count = meant if resume is None else resume.due(meant), len(meant)
        # (the names are let go: workers would have them)
        if count >= MANY:
            due = module("names").kept(due)
        del names, meant
        worst = run(tool, given, work, due, resume, known)
    for line in () if known is None else known.left_to_tell(given.only is None):
        tell(tool, line)
    if given.json:
        last = last_line(given.trust or given.write_trust or "", trust.text, resume, known, count, worst)
        write("-", last.encode() + b"\n")
    return worst
