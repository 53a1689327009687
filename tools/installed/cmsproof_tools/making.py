"""How `cmsproof-archive stamp` goes on: from the files of an archive that have no evidence record to their records.

A batch (batches.py) is what one time-stamp is over: its `sums` are the digests of these files, which stand there before the request, and `left`
what was said of the files that are left out of it. Only the program `cmsproof` makes a record.
"""
from __future__ import annotations

import hashlib
import json
import os
from contextlib import ExitStack
from functools import partial
from typing import Any, Iterator, Optional, Sequence
from urllib.parse import SplitResult

from cmsproof_tools import summing
from cmsproof_tools.batches import CHOSEN, DONE_FILE, NEW, OWN, POSITIVE, REQUEST, TERMS, TOKEN, Batch
from cmsproof_tools.batches import answered, check_room, check_writable, held, judge, kept_as, last_in, made, program_of
from cmsproof_tools.batches import put_in_place, run_program, settle
from cmsproof_tools.evidenced import ENDING, NOTHING, records_in
from cmsproof_tools.folders import files_under
from cmsproof_tools.progress import Progress
from cmsproof_tools.rows import seen_here
from cmsproof_tools.running import DONE, FAILED, REFUSED, USAGE, Started, Stop
from cmsproof_tools.running import module, one_line, shown, tell, write
from cmsproof_tools.state import told
from cmsproof_tools.summing import Names, Summed, Sums
from cmsproof_tools.workers import Workers
from cmsproof_tools.writing import written

SUMS, LEFT = "sums", "left"


class Left:
    """The files that are left out of a batch: their names, and what is said of each."""

    def __init__(self, tool: str, folder: str) -> None:
        self.tool, self.folder, self.names, self.lines = tool, folder, set[str](), list[str]()

    def put(self, name: str, reason: str) -> None:
        """Leaves a file out, and says why."""
        self.names.add(name)
        self.lines.append(f"{shown(os.path.join(self.folder, name))}: {reason}")
        tell(self.tool, self.lines[-1])


def terms_of(given: Any) -> dict[str, str]:
    """What a batch is of: the archive's folder, the digest algorithm, and the policy."""
    return {"folder": os.path.realpath(given.folder), "alg": given.alg, "policy": given.policy or ""}


def batch_in(given: Any) -> Batch:
    """The batch that is to be gone on with, or a new one. Ends the tool where it is one of other words."""
    terms = terms_of(given)
    last = last_in(given.state, terms, "folder")
    if not last.has(SUMS):
        last.sweep(SUMS)
        last.put(TERMS, json.dumps(terms).encode() + b"\n")
    elif last.begun_with() != terms:
        where = shown(last.path)
        raise Stop(USAGE, f"{where} is a batch of another FOLDER, --alg or --policy: go on with that, or remove it")
    return last


def files_of(tool: str, given: Any, left: Left) -> Iterator[str]:
    """The names of the regular files under the archive's folder, below that. What is none has a line. What cannot be looked into is left
    out, also where a record is in its place: files may be in it."""
    top = os.path.join(given.folder, "")

    def skip(name: str, kind: str) -> None:
        tell(tool, f"{shown(name)}: skipped: it is {kind}")

    def unseen(name: str, error: OSError) -> None:
        listed = "it is a folder that cannot be listed"
        left.put(name[len(top) :], listed if os.path.isdir(name) else f"it cannot be read: {error.strerror}")

    for name in files_under(top, skip, unseen):
        if name == top or not name.startswith(top):
            raise Stop(FAILED, f"failed open {shown(given.folder)}")
        yield name[len(top) :]


def in_the_way(place: str) -> str:
    """Why nothing can be put in a place where nothing is, "" if it can."""
    try:
        os.lstat(place)
    except FileNotFoundError:
        return summing.taken_beside(place)
    except NotADirectoryError:
        return "a file is in the place of its record's folder"
    except OSError as error:
        return f"its record would have no place: {error.strerror}"
    return ""


def is_empty(place: str) -> bool:
    """Whether a file is there that has no octets, and so is no record."""
    try:
        return os.lstat(place).st_size == 0
    except OSError:
        return False


def named(tool: str, given: Any, left: Left) -> list[str]:
    """The names of the files that have no record and can have one. Those that can have none are left out: where the record of one has the place
    of the folder of another's, that other one."""
    records, fit = records_in(given.into, given.folder), Names(given.into)
    names, kept = list[str](), 0
    for name in files_of(tool, given, left):
        place = os.path.join(given.into, name + ENDING)
        fault, lacking = fit.fault(name), records.lacking(place)
        if lacking == "" and not is_empty(place):
            kept += 1
            continue
        lacking = lacking or "an empty file"
        if not fault:
            fault = in_the_way(place) if lacking == NOTHING else f"in the place of its record is {lacking}"
        if fault:
            left.put(name, f"it can have no record: {fault}")
        else:
            names.append(name)
    for name, other in fit.hindered(names):
        where = shown(os.path.join(given.folder, other))
        left.put(name, f"it can have no record: that of {where} is in the place of its record's folder")
    if kept:
        tell(tool, f"{kept} files have a record already, which is not looked at")
    return [name for name in names if name not in left.names]


def lost(_: str, by: int = 0) -> Summed:
    """What is said of a file whose worker was ended."""
    return Summed("", False, b"", f"its worker was ended by signal {by}" if by else "its worker ended")


def sum_elsewhere(tool: str, given: Any, top: int, sums: Sums, names: Sequence[str]) -> list[str]:
    """Has the workers of Dask compute digests, and answers the names of the files that must be read here. What is kept of a file is how this machine
    saw it before its name was handed out, and only if the worker that read it saw the same, but for the device, which differs by machine."""
    handing, seen, here = module("handing"), dict[str, Summed](), list[str]()
    progress = Progress(tool, len(names), given.progress)

    def look(some: list[str]) -> None:
        seen.update((name, summing.seen_below(top, name)) for name in some)

    folder, versions = os.path.abspath(given.folder), module("versions").versions_text()
    terms = summing.Terms(hashlib.sha256(b"").hexdigest(), versions, folder, given.alg)
    with handing.Cluster(tool, given.dask, handing.Each(b"", terms, lost, look)) as others:
        for name, one in zip(names, (one for several in others.batches(names) for one in several)):
            own = seen.pop(name)
            if is_summed := not one.fault and seen_here(one.mark, own.mark) != "":
                sums.put(name, own._replace(digest=one.digest))
            else:
                here.append(name)
            progress.steps(["summed" if is_summed else "not summed"])
    progress.end()
    if here:
        tell(tool, f"{len(here)} files are read here, which no worker read as they are here")
    return here


def sum_here(tool: str, given: Any, top: int, sums: Sums, due: list[str], left: Left) -> None:
    """Computes digests. A file that cannot be read is left out."""
    progress = Progress(tool, len(due), given.progress)
    names = module("names").kept(due) if due else due
    with Workers(min(given.jobs, len(due)), lambda name: summing.summed(top, given.alg, name)) as workers:
        for name, one in zip(names, workers.results(names, lost)):
            if one.fault:
                progress.put("")
                left.put(name, one.fault)
            else:
                sums.put(name, one)
            progress.steps(["unread" if one.fault else "summed"])
    progress.end()


def sum_all(tool: str, given: Any, top: int, sums: Sums, names: Sequence[str], left: Left) -> None:
    """Computes the digests that are not known."""
    due = sums.due(top, names)
    if given.dask is not None and due:
        due = sum_elsewhere(tool, given, top, sums, due)
    if given.dask is None or due:
        sum_here(tool, given, top, sums, due, left)
    with told(sums.path):
        sums.commit()


def write_sums(batch: Batch, top: int, sums: Sums, names: Sequence[str], left: Left) -> int:
    """Writes the digests of all files that are not left out, and answers how many they are. One that is not as it was when its digest was computed
    is left out too."""
    count = 0
    try:
        with written(batch.place(SUMS + NEW), Started.descriptors) as file:
            for name in names:
                if name in left.names:
                    continue
                kept = sums.of_file(name)
                if kept is None or kept.mark != summing.mark_below(top, name):
                    left.put(name, "it was changed while the others were read")
                else:
                    file.write(summing.line_of(name, kept.digest))
                    count += 1
    except OSError as error:
        raise Stop(FAILED, f"failed write {shown(batch.place(SUMS))}: {error.strerror}") from error
    return count


def begin(tool: str, given: Any, batch: Batch, top: int) -> int:
    """Begins a batch of the files that have no record, if there are any that are not left out, and answers how many are."""
    left = Left(tool, given.folder)
    names, count = named(tool, given, left), 0
    if names:
        check_writable(given.into)
        with Sums(os.path.join(given.state, "sums.db"), given.alg) as sums:
            sum_all(tool, given, top, sums, names, left)
            count = write_sums(batch, top, sums, names, left)
    if count:
        batch.put(LEFT, "".join(line + "\n" for line in left.lines).encode())
        put_in_place(batch, SUMS)
    else:
        batch.remove(SUMS + NEW)
    tell_left(tool, len(left.lines))
    return len(left.lines)


def tell_left(tool: str, count: int) -> None:
    """Says how many files are left out, if there are any."""
    if count:
        tell(tool, f"{count} files without a record are left out")


def left_before(tool: str, batch: Batch) -> int:
    """Says again which files were left out when a batch was begun, and answers how many they are."""
    lines = batch.read(LEFT).decode("utf-8", "backslashreplace").split("\n")[:-1] if batch.has(LEFT) else []
    for line in lines:
        tell(tool, line)
    tell_left(tool, len(lines))
    return len(lines)


def ask(given: Any, batch: Batch) -> None:
    """Makes the request, with a number that the answer must repeat."""
    nonce = POSITIVE + os.urandom(CHOSEN).hex()
    policy = ["--policy", given.policy] if given.policy else []
    run_program(given, batch, "request", "--alg", given.alg, *policy, "--nonce", nonce, "--cert", SUMS, REQUEST + NEW)
    put_in_place(batch, REQUEST)


def is_as_it_was(top: int, algorithm: str, line: bytes, kept: Optional[Summed]) -> bool:
    """Whether the file of a line of digests is as it was. It is read again where nothing says so, as if it had just been changed when it was
    read: it may have been changed once more within the same tick of the file system's clock."""
    name = summing.name_in(line)
    if kept is not None and kept.steady and kept.mark == summing.mark_below(top, name):
        if line == summing.line_of(name, kept.digest):
            return True
    return line == summing.line_of(name, summing.summed(top, algorithm, name).digest)


def changed_since(tool: str, given: Any, batch: Batch, top: int) -> int:
    """Names the files of a batch that were changed since their digests were computed, or are gone, and answers how many they are."""
    found = 0
    with Sums(os.path.join(given.state, "sums.db"), given.alg) as sums, open(batch.place(SUMS), "rb") as lines:
        for line in lines:
            name = summing.name_in(line)
            if not is_as_it_was(top, given.alg, line, sums.of_file(name)):
                found += 1
                tell(tool, f"{shown(os.path.join(given.folder, name))}: it was changed since: its record is of what it was")
    return found


def places_of(given: Any, batch: Batch) -> Iterator[str]:
    """The places of the records of a batch."""
    with open(batch.place(SUMS), "rb") as lines:
        for line in lines:
            yield os.path.join(given.into, summing.name_in(line) + ENDING)


def help_of(given: Any, batch: Batch) -> str:
    """What helps where records of a batch are there, in whose places the program puts none by another token, "" where none is."""
    try:
        is_there = any(map(os.path.lexists, places_of(given, batch)))
    except OSError:
        is_there = False
    return f"records by it are there: {by_another(batch)}" if is_there else ""


def by_another(batch: Batch) -> str:
    """What to do for another token."""
    return f"remove {shown(batch.path)} to have the files without a record stamped by another one"


def make(given: Any, batch: Batch, count: int) -> None:
    """Has the program make the records, which are so many."""
    try:
        check_room(batch, given.into, count, lambda: sum(not os.path.lexists(place) for place in places_of(given, batch)))
    except Stop as stop:
        raise Stop(stop.status, stop.line + kept_as(batch, help_of(given, batch))) from stop
    try:
        run_program(given, batch, "make", "--alg", given.alg, "--token", TOKEN, "--into", os.path.abspath(given.into), SUMS)
    except Stop as stop:
        is_there = stop.line.startswith("cmsproof evidence make: failed replace ")
        helps = f"; move that away, or {by_another(batch)}" if is_there else summing.said_taken(places_of(given, batch))
        raise Stop(stop.status, stop.line + helps) from stop


def finish(tool: str, given: Any, batch: Batch, top: int, address: SplitResult, trust: Any) -> int:
    """Goes on from the digests to the records, and answers the exit status."""
    check_writable(given.into)
    if not batch.has(REQUEST):
        ask(given, batch)
    moment = answered(tool, given, batch, address, partial(judge, tool, given, trust), partial(help_of, given, batch))
    count = sum(1 for _ in places_of(given, batch))
    make(given, batch, count)
    changed = changed_since(tool, given, batch, top)
    settle(given.into)
    batch.put(DONE_FILE, b"")
    write("-", f"{shown(given.folder)}: {count} records of {one_line(moment)}\n".encode())
    return REFUSED if changed else DONE


def run(tool: str, given: Any, address: SplitResult) -> int:
    """Has the files of an archive stamped, and answers the exit status."""
    trust = None if given.trust is None else module("archive").trust_list(given.trust, False)
    program_of(given)
    made(given.state, OWN)
    made(given.into)
    with ExitStack() as stack:
        stack.enter_context(held(given.state))
        try:
            top = os.open(given.folder, os.O_RDONLY | os.O_DIRECTORY | os.O_CLOEXEC)
        except OSError as error:
            raise Stop(FAILED, f"failed open {shown(given.folder)}: {error.strerror}") from error
        stack.callback(os.close, top)
        batch = batch_in(given)
        left = left_before(tool, batch) if batch.has(SUMS) else begin(tool, given, batch, top)
        if batch.has(SUMS):
            status = finish(tool, given, batch, top, address, trust)
        else:
            nothing = f"nothing was sent: all {left} files without a record are left out"
            write("-", f"{shown(given.folder)}: {nothing if left else 'no file is without a record'}\n".encode())
            status = DONE
    return max(status, REFUSED) if left else status
