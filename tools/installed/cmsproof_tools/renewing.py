"""How `cmsproof-archive renew` goes on: from the records under a folder that are due to those that have another time-stamp.

A batch (batches.py) is what one time-stamp is for: records whose last chains are by one digest algorithm. The program makes the tree over their last
time-stamps, of which records that were made or renewed together have the same one. A command can name some ten thousand records, so there are several
of a large batch: each names one record of each last time-stamp, and so has the same tree, and some of the others. Only the program writes a record.
What is done here says which are renewed, and by which token, and can only refuse more: the program compares the token with the tree each time.

`records` are the names, first those of one record of each last time-stamp; they stand there before the request.
"""
from __future__ import annotations

import hashlib
import json
import os
import resource
import time
from array import array
from collections import Counter
from contextlib import ExitStack, contextmanager
from functools import partial
from typing import Any, Callable, Iterable, Iterator, NamedTuple, Optional, Sequence
from urllib.parse import SplitResult

import cmsproof
from cmsproof.making import Unmade, renewal_algorithm
from cmsproof.octets import COPIED, Buffer
from cmsproof_tools import due
from cmsproof_tools.batches import CHOSEN, DONE_FILE, NEW, OWN, POSITIVE, READING, REQUEST, RESPONSE, TERMS, TOKEN, Batch
from cmsproof_tools.batches import answered, check_room, closing_descriptor, held, last_in, later_of, made, program_of
from cmsproof_tools.batches import request_in, run_program, served_until, settle, time_of
from cmsproof_tools.evidenced import ENDING, first_ends, records_in
from cmsproof_tools.lasting import By, Last, Unjudged, last_and_end
from cmsproof_tools.progress import Progress
from cmsproof_tools.rows import time_text
from cmsproof_tools.running import DONE, FAILED, MALFORMED, REFUSED, USAGE, Stop
from cmsproof_tools.running import module, one_line, shown, tell, write
from cmsproof_tools.summing import BESIDE, LONGEST_NAME, LONGEST_PATH, said_taken, taken_beside
from cmsproof_tools.texts import in_order, is_moment
from cmsproof_tools.timelines import NAMES
from cmsproof_tools.trees import Undrawn, way_in
from cmsproof_tools.workers import Workers

RECORDS, ROOT = "records", "root.tsq"
# how many octets the words of a command may have (execve(2)): a quarter of the stack, of which these are asked for, at most three quarters of
# 8 MiB, and never less than the next; what a word takes beside its own octets, and what is left for other words
STACK, MOST, LEAST, BESIDE_WORD, LEFT = 32 << 20, 6 << 20, 128 << 10, 9, 16 << 10
# how many octets of a digest tell the octets of time-stamps apart
KEPT = 16
# how many octets at the end of a record tell whether it has a token already
ENDS = 64
TOLD = "the token of the authority: "


class Standing(NamedTuple):
    """What the renewal of a record stands on: the digest algorithm of its last chain, the time of its last time-stamp, and the last moment at which
    that serves; what tells its octets from others; and how many values its first list has, if it needs another chain."""

    algorithm: str
    after: str
    until: str
    stamp: bytes = b""
    values: int = 0


class Judged(NamedTuple):
    """What is said of a record: that it lasts, that it is due and can be renewed, or that it is left as it is, with a status and a line."""

    word: str
    status: int = DONE
    line: bytes = b""
    standing: Standing = Standing("", "", "")


class Group:
    """Records of one batch: the numbers of one for each last time-stamp, and those of the others; the algorithm of their last chains, the last of
    their times, the first of their ends, and how many octets of words for other last time-stamps it can have."""

    def __init__(self, first: Standing, room: int) -> None:
        self.algorithm, self.after, self.until = first[:3]
        self.firsts, self.others, self.room = array("L"), array("L"), room

    def add(self, one: Standing) -> None:
        """Puts one more into it."""
        self.after = later_of(self.after, one.after)
        self.until = one.until if in_order(one.until, self.until) else self.until


class Groups:
    """All groups, that of each last time-stamp, and the last one of each algorithm, which can have more."""

    def __init__(self, room: int) -> None:
        """Groups in whose commands so many octets of words have room. (One record of each last time-stamp takes at most half.)"""
        self.all, self.room = list[Group](), room // 2
        self.by_stamp, self.last = dict[tuple[str, bytes], Group](), dict[str, Group]()

    def put(self, number: int, one: Standing, size: int) -> None:
        """Puts a record with a word of this size into the group of its last time-stamp."""
        key = one.algorithm, one.stamp
        if (group := self.by_stamp.get(key)) is not None:
            group.others.append(number)
        else:
            group = self.by_stamp[key] = self.with_room(one, size)
            group.firsts.append(number)
            group.room -= size
        group.add(one)

    def with_room(self, one: Standing, size: int) -> Group:
        """The last group of an algorithm, or a new one where that has no room."""
        group = self.last.get(one.algorithm)
        if group is None or group.room < size:
            group = self.last[one.algorithm] = Group(one, self.room)
            self.all.append(group)
        return group


class Plan(NamedTuple):
    """What is to be done: the names of all records, the groups that are renewed, how many there are of each kind, and the worst status of those that
    are left."""

    names: Sequence[str]
    groups: list[Group]
    counts: Counter[str]
    worst: int


# ---- which records


def algorithm_of(last: Last, octets: Buffer) -> str:
    """The algorithm by which the program renews a record, which is that of the first archive time-stamp of its last chain. Raises Unjudged where
    it renews it by none, or the last one has another algorithm, by which no check accepts it."""
    try:
        of_chain = renewal_algorithm(octets)
    except Unmade as error:
        raise last.failing(error.line.removeprefix("refused ")) from error
    try:
        is_same = renewal_algorithm(last.without_lists) == of_chain
    except Unmade:
        is_same = False
    if not is_same:
        raise last.failing("W1 Algorithm")
    return of_chain


def is_ending(by: By, algorithm: str) -> bool:
    """Whether a digest algorithm ends before the moment up to which records are to serve."""
    last = by.ends.get(algorithm, "")
    return bool(last) and not in_order(by.moment, last)


def first_values(octets: Buffer) -> int:
    """How many values the first list of a record has, which may be those of several files (RFC 4998 4.2); 0 where it has none that is read."""
    try:
        return len(way_in(octets).lists[0])
    except (Undrawn, IndexError):
        return 0


def standing_of(by: By, octets: Buffer) -> Standing:
    """What the renewal of a record stands on; of one that is not due only its end. Raises Unjudged where nobody can say it."""
    last, until = last_and_end(octets, by)
    if in_order(by.moment, until):
        return Standing("", "", until)
    algorithm = algorithm_of(last, octets)
    values = first_values(octets) if is_ending(by, algorithm) else 0
    return Standing(algorithm, last.time, until, hashlib.sha256(last.token).digest()[:KEPT], values)


def not_replaced(path: str, longest: int) -> str:
    """Why the program cannot replace the record at this path, "" if it can, as far as that is seen before."""
    octets = os.fsencode(path)
    try:
        octets.decode("utf-8")
    except UnicodeDecodeError:
        return "its name is not UTF-8"
    if len(os.path.basename(octets) + BESIDE.encode()) > longest or len(octets) + len(BESIDE) > LONGEST_PATH:
        return f"its name is too long to have {BESIDE} behind it"
    if not os.access(path, os.W_OK) or not os.access(os.path.dirname(path), os.W_OK | os.X_OK):
        return "it may not be replaced"
    return taken_beside(path)


def hindrance(by: By, now: str, one: Standing) -> str:
    """Why a record that is due would not be mended by a time-stamp, "" if it would."""
    if not in_order(now, one.until):
        return "it ended before now, and no later time-stamp mends that: a copy that was renewed before is needed"
    if not in_order(one.after, now):
        return f"its last time-stamp is of {one.after}, later than the clock here"
    if is_ending(by, one.algorithm):
        of_all = f"; its first list has {one.values} values, each of a file that it may cover" if one.values > 1 else ""
        return f"{one.algorithm} ends then, of which all time-stamps of its last chain are: another chain is needed, by another one{of_all}"
    return ""


class Looked(NamedTuple):
    """By what records are looked at: as `due` does, the moment of the run, the folder as it is named and as it is, what in it is no regular file,
    how long a name can be there, and the folder of relative names."""

    by: By
    now: str
    top: str
    real: str
    unfit: dict[str, str]
    longest: int
    folder: str = ""

    def path_of(self, name: str) -> str:
        """The path of a record by which the program gets it."""
        return os.path.join(self.real, name[len(self.top) :])


def left(name: str, at: str, reason: str, status: int = REFUSED) -> Judged:
    """A record that is due and is left as it is."""
    return Judged("left", status, due.line_of(name, status, at, reason, False))


def seen(looked: Looked, name: str) -> Judged:
    """What is said of a record, wherever it is looked at."""
    try:
        if name not in looked.unfit and os.lstat(os.path.join(looked.folder, name)).st_size > COPIED:
            return left(name, "now", f"it has more than {COPIED} octets")
    except OSError:
        pass  # (which is said where it is opened)
    try:
        one = due.said_of(looked.unfit, name, partial(standing_of, looked.by), looked.folder)
    except Unjudged as error:
        return left(name, "now", str(error), error.status)
    if not one.algorithm:
        return Judged("lasting")
    reason = hindrance(looked.by, looked.now, one)
    return left(name, one.until, reason) if reason else Judged("due", standing=one)


def seen_here(looked: Looked, name: str, one: Judged) -> Judged:
    """What is said of a record of which this was said, by this machine, where the program is to replace it."""
    reason = not_replaced(looked.path_of(name), looked.longest) if one.word == "due" else ""
    return left(name, one.standing.until, reason) if reason else one


def judged(looked: Looked, name: str) -> Judged:
    """What is said of a record."""
    return seen_here(looked, name, seen(looked, name))


def lost(name: str, by: int = 0) -> Judged:
    """What is said of a record whose worker was ended."""
    return left(name, "now", f"failed worker: it was ended by signal {by}" if by else "failed worker: it ended", FAILED)


class Terms(NamedTuple):
    """By what workers elsewhere look at records (handing.py): as those of `due`, and the moment of the run."""

    trust: str
    versions: str
    of_due: due.Terms
    now: str

    @contextmanager
    def task(self, trusted: bytes, unfit: dict[str, str]) -> Iterator[Callable[[str], Judged]]:
        """What is done for a name."""
        yield partial(seen, Looked(self.of_due.by(trusted), self.now, "", "", unfit, 0, self.of_due.folder))

    def is_said(self, one: Any) -> bool:
        """Whether a worker can say this of a record: that it lasts, what its renewal stands on, or a status and a line."""
        if not isinstance(one, Judged) or not isinstance(one.standing, Standing):
            return False
        if one.word == "left":
            return due.is_status(one.status, due.STATUSES["unjudged"]) and due.is_line(one.line)
        is_whole = one.word == "lasting" or (one.word == "due" and is_standing(one.standing))
        return is_whole and due.is_status(one.status, (DONE,)) and one.line == b""


def is_standing(one: Standing) -> bool:
    """Whether a batch can stand on this, whatever a worker says."""
    is_stamp = isinstance(one.stamp, bytes) and len(one.stamp) == KEPT
    return is_stamp and one.algorithm in NAMES.values() and is_moment(one.after) and is_moment(one.until)


def all_judged(tool: str, given: Any, looked: Looked, names: Sequence[str], stack: ExitStack) -> Iterable[Judged]:
    """What is said of all records, by workers of this machine or of others."""
    if given.dask is None or not names:
        workers = stack.enter_context(Workers(min(given.jobs, len(names)), partial(judged, looked)))
        return workers.results(names, lost)
    handing, terms = module("handing"), due.terms_of(looked.by)
    of_names = partial(due.unfit_among, looked.unfit)
    task = handing.Each(looked.by.trust.text, Terms(terms.trust, terms.versions, terms, looked.now), lost, of_names)
    others = stack.enter_context(handing.Cluster(tool, given.dask, task))
    said = (one for several in others.batches(names) for one in several)
    return (seen_here(looked, name, one) for name, one in zip(names, said))


def words_room() -> int:
    """How many octets all words of a command can have here, beside the surroundings."""
    soft, hard = resource.getrlimit(resource.RLIMIT_STACK)
    stack = max(soft, STACK if hard == resource.RLIM_INFINITY else min(hard, STACK))
    most = MOST if soft == resource.RLIM_INFINITY else max(LEAST, min(MOST, stack // 4))
    return most - sum(len(name) + len(value) + BESIDE_WORD + 1 for name, value in os.environb.items()) - LEFT


def size_of(path: str) -> int:
    """How many octets a path takes as a word."""
    return len(os.fsencode(path)) + BESIDE_WORD


def give_stack() -> None:
    """Lets the stack of a process that runs another program grow, by which its words may be more."""
    soft, hard = resource.getrlimit(resource.RLIMIT_STACK)
    wanted = STACK if hard == resource.RLIM_INFINITY else min(hard, STACK)
    if soft != resource.RLIM_INFINITY and soft < wanted:
        resource.setrlimit(resource.RLIMIT_STACK, (wanted, hard))


def planned(tool: str, given: Any, by: By) -> Plan:
    """Looks at all records, says what is left as it is, and which records are renewed together."""
    found = due.Named([], {}, 0)
    due.named_under(tool, given.records, found)
    try:
        longest = os.pathconf(given.records, "PC_NAME_MAX")
    except (OSError, ValueError):
        longest = LONGEST_NAME
    top, real = os.path.join(given.records, ""), os.path.realpath(given.records)
    looked = Looked(by, time_text(int(time.time())), top, real, found.unfit, longest)
    many, counts, worst = len(found.names) >= module("archive").MANY, Counter[str](), DONE
    names = module("names").kept(found.names) if many else list(found.names)
    found.names.clear()
    for name in ("checking", "verifying"):
        module(name)
    progress, groups = Progress(tool, len(names), given.progress), Groups(words_room())
    with ExitStack() as stack:
        for number, (name, one) in enumerate(zip(names, all_judged(tool, given, looked, names, stack))):
            counts[one.word] += 1
            worst = max(worst, one.status)
            if one.line:
                progress.put("")
                write("-", one.line)
            elif one.word == "due":
                groups.put(number, one.standing, size_of(looked.path_of(name)))
            progress.steps([one.word])
    progress.put("")
    return Plan(names, groups.all, counts, worst)


# ---- a batch


def check_policy(given: Any) -> None:
    """Ends the tool where no request can name the policy."""
    try:
        cmsproof.request(digest=bytes(32), policy=given.policy or "")
    except ValueError as error:
        raise Stop(USAGE, f"--policy: {error}") from error


def asked_of(given: Any) -> dict[str, str]:
    """What all batches of a run are of: the folder of the records, the ends of algorithms, and the policy."""
    ends = " ".join(f"{name}={last}" for name, last in first_ends(given.end))
    return {"records": os.path.realpath(given.records), "ends": ends, "policy": given.policy or ""}


def sum_of(trust: Any) -> str:
    """The SHA-256 of a trust list."""
    return hashlib.sha256(trust.text).hexdigest()


def names_in(batch: Batch) -> list[str]:
    """The names of the records of a batch below their folder. Ends the tool where they are none."""
    names = [os.fsdecode(name) for name in batch.read(RECORDS).split(b"\0")[:-1]]
    for name in names:
        if not name.endswith(ENDING) or {"", ".", ".."} & set(name.split("/")):
            raise Stop(FAILED, f"failed state {shown(batch.place(RECORDS))}: it is damaged")
    return names


def paths_of(batch: Batch) -> list[str]:
    """The paths of the records of a batch. Ends the tool where one is not there, or where a link leads to it."""
    folder, paths = batch.terms["records"], list[str]()
    records = records_in(folder, folder)
    for name in names_in(batch):
        path = os.path.join(folder, name)
        if lacking := records.lacking(path):
            raise Stop(FAILED, f"{shown(path)}: {lacking} is in its place since it was asked for")
        paths.append(path)
    return paths


def parts_of(batch: Batch) -> Iterator[list[str]]:
    """The paths for each command: one record of each last time-stamp, and as many others as have room."""
    paths = paths_of(batch)
    at = min(int(batch.terms["stamps"]), len(paths))
    firsts = paths[:at]
    room = words_room() - sum(map(size_of, firsts))
    while True:
        rest, begin = room, at
        while at < len(paths) and (rest := rest - size_of(paths[at])) >= 0:
            at += 1
        if at == begin < len(paths):
            where = shown(batch.path)
            raise Stop(FAILED, f"{where}: the words of a command have no room for its records: ulimit -s gives more")
        yield [*firsts, *paths[begin:at]]
        if at == len(paths):
            return


def renew(given: Any, batch: Batch, part: list[str], *words: str) -> None:
    """Runs `evidence renew` on some records of a batch."""
    run_program(given, batch, "renew", *words, *part, prepare=give_stack)


def replace(given: Any, batch: Batch, part: list[str]) -> None:
    """Has the program replace some records of a batch by those with its token."""
    try:
        renew(given, batch, part, "--token", TOKEN)
    except Stop as stop:
        raise Stop(stop.status, stop.line + said_taken(part)) from stop


def root_of(given: Any, batch: Batch) -> dict[str, str]:
    """The request over the last time-stamps of a batch, as it is shown, as the records are now. Ends the tool where that of one command is another
    one than that of the others."""
    found = list[dict[str, str]]()
    for part in parts_of(batch):
        batch.remove(ROOT + NEW)
        renew(given, batch, part, "--request", ROOT + NEW)
        said = cmsproof.show("request", batch.read(ROOT + NEW))
        batch.remove(ROOT + NEW)
        if said not in (found or [said]):
            raise Stop(FAILED, "records were changed meanwhile: nothing was sent; run this again")
        found = [said]
    return found[0]


def ask(given: Any, batch: Batch) -> None:
    """Makes the request: that of the program, with a number that the answer must repeat, and asking for the certificate."""
    said = root_of(given, batch)
    if NAMES.get(said["algorithm"]) != batch.terms["algorithm"]:
        raise Stop(FAILED, f"failed state {shown(batch.path)}: its records are by another algorithm")
    nonce, digest = bytes.fromhex(POSITIVE) + os.urandom(CHOSEN), bytes.fromhex(said["digest"])
    words: dict[str, Any] = {"algorithm": batch.terms["algorithm"], "policy": given.policy or ""}
    batch.put(REQUEST, cmsproof.request(digest=digest, nonce=nonce, certificate=True, **words))


def begun(tool: str, given: Any, trust: Any) -> Optional[Batch]:
    """The batch that is to be gone on with, if there is one. Ends the tool where it is one of other words, or has a token that is not to be used:
    by another trust list the last time-stamp of a record may have ended before it, which no time-stamp mends."""
    asked = asked_of(given)
    last = last_in(given.state, asked, "records")
    if not last.has(REQUEST):
        return None
    terms = last.begun_with()
    if not asked.items() <= terms.items():
        where = shown(last.path)
        raise Stop(USAGE, f"{where} is a batch of another --records, --end or --policy: go on with that, or remove it")
    is_whole = all(is_moment(terms.get(one, "")) for one in ("after", "until")) and terms.get("stamps", "").isdecimal()
    if not is_whole or terms.get("algorithm") not in NAMES.values():
        raise Stop(FAILED, f"failed state {shown(last.place(TERMS))}: it is damaged")
    batch = last._replace(terms=terms)
    request_in(batch)
    is_by_list = terms.get("trust") == sum_of(trust)
    if last.has(RESPONSE):
        if not is_by_list:
            raise Stop(USAGE, f"{shown(last.path)} has a token by another --trust: go on with that, or remove it")
        return batch
    if reason := is_void(given, batch) if is_by_list else "its records were looked at by another trust list":
        tell(tool, f"{shown(batch.path)}: {reason}: its request is given up")
        batch.remove(REQUEST)
        return None
    return batch


def is_void(given: Any, batch: Batch) -> str:
    """Why a time-stamp would no longer serve a batch that was asked for and has none, "" if it would."""
    if not in_order(time_text(int(time.time())), batch.terms["until"]):
        return "one of its records ended meanwhile"
    try:
        said = root_of(given, batch)
    except Stop as stop:
        return stop.line
    asked = cmsproof.show("request", batch.read(REQUEST))
    is_same = (said.get("digest"), said.get("algorithm")) == (asked.get("digest"), asked.get("algorithm"))
    return "" if is_same else "one of its records was changed"


def new_batch(given: Any, plan: Plan, group: Group, trust: Any) -> Batch:
    """A new batch of a group of records, which has no request yet."""
    batch = last_in(given.state, asked_of(given), "records")
    more = {"algorithm": group.algorithm, "after": group.after, "until": group.until, "stamps": str(len(group.firsts))}
    batch = batch._replace(terms={**batch.terms, **more, "trust": sum_of(trust)})
    batch.sweep(RECORDS)
    for name in (REQUEST, RESPONSE, TOKEN):
        batch.remove(name)
    batch.put(TERMS, json.dumps(batch.terms).encode() + b"\n")
    top = len(os.path.join(given.records, ""))
    numbers = (*group.firsts, *group.others)
    batch.put(RECORDS, b"".join(os.fsencode(plan.names[number][top:]) + b"\0" for number in numbers))
    return batch


def judge(given: Any, batch: Batch, trust: Any, token: bytes) -> None:
    """Ends the tool where a token does not count, or would not serve as the next time-stamp of the records of a batch."""
    now, said = time_text(int(time.time())), time_of(token)
    moment = later_of(later_of(now, said), given.by)
    end, after, until = served_until(given, trust, token, moment), batch.terms["after"], batch.terms["until"]
    if not in_order(moment, end):
        raise Stop(REFUSED, f"{TOLD}it serves until {end} alone: its records would be due again by {moment}")
    if in_order(said, after):
        raise Stop(REFUSED, f"{TOLD}it is of {said}, and a record has a time-stamp of {after} already")
    if not in_order(said, until):
        raise Stop(REFUSED, f"{TOLD}it is of {said}, and the time-stamp of a record served until {until} alone")


def ending_of(path: str) -> bytes:
    """The last octets of a file, none where they cannot be read."""
    try:
        descriptor = os.open(path, READING | os.O_NONBLOCK)
        with closing_descriptor(descriptor):
            return os.pread(descriptor, ENDS, max(0, os.fstat(descriptor).st_size - ENDS))
    except OSError:
        return b""


def without_token(batch: Batch) -> int:
    """How many records of a batch do not end in its token, as those do that are renewed by it."""
    last = batch.read(TOKEN)[-ENDS:]
    return sum(ending_of(path) != last for path in paths_of(batch))


def finish(tool: str, given: Any, batch: Batch, address: SplitResult, trust: Any) -> int:
    """Goes on from the request of a batch to its records, and answers how many they are."""
    moment = answered(tool, given, batch, address, partial(judge, given, batch, trust))
    try:
        check_room(batch, batch.terms["records"], len(names_in(batch)), partial(without_token, batch))
        for part in parts_of(batch):
            replace(given, batch, part)
    except Stop as stop:
        more = f"; {shown(batch.path)} has its token: run this again, or remove that to have what is still due renewed by another one"
        raise Stop(stop.status, stop.line + more) from stop
    settle(batch.terms["records"])
    batch.put(DONE_FILE, b"")
    count = len(names_in(batch))
    write("-", f"{shown(given.records)}: {count} records have a time-stamp of {one_line(moment)}\n".encode())
    return count


def refusal_of(path: str, algorithm: str) -> str:
    """Why the program renews a record by no time-stamp for records of this algorithm, "" where nothing is known of that."""
    try:
        found = renewal_algorithm(path)
    except (Unmade, OSError, ValueError) as error:
        return str(error)
    return "" if found == algorithm else f"its last chain is by {found}"


def tell_refused(tool: str, batch: Batch) -> None:
    """Names the records for which the program refuses those of a batch: they are not what they were when they were looked at."""
    for path in paths_of(batch):
        if reason := refusal_of(path, batch.terms["algorithm"]):
            tell(tool, f"{shown(path)}: {reason}")


def renewed_all(tool: str, given: Any, plan: Plan, address: SplitResult, trust: Any) -> tuple[int, int]:
    """Has all groups renewed, each once the one before is done, and answers how many records were, and the worst status: where the program
    refuses those of a group, the others are renewed still."""
    renewed, worst = 0, plan.worst
    for number, group in enumerate(plan.groups):
        count = len(group.firsts) + len(group.others)
        if len(plan.groups) > 1:
            tell(tool, f"batch {number + 1} of {len(plan.groups)}: {count} records by {group.algorithm}")
        batch = new_batch(given, plan, group, trust)
        try:
            ask(given, batch)
        except Stop as stop:
            if stop.status not in (REFUSED, MALFORMED):
                raise
            tell(tool, f"{stop.line}: no record of this batch is renewed")
            tell_refused(tool, batch)
            worst = max(worst, stop.status)
            plan.counts["left"] += count
        else:
            renewed += finish(tool, given, batch, address, trust)
    return renewed, worst


def counted(plan: Plan, renewed: int, moment: str) -> str:
    """How many records there are, how many were due, and what was done."""
    left_there = plan.counts["left"]
    done = [f"{renewed} renewed"] if renewed else []
    done += [f"{left_there} left as they are"] if left_there else []
    text = f"{len(plan.names)} records: {renewed + left_there} due by {moment}"
    return text + (f": {', '.join(done)}" if done else "")


def run(tool: str, given: Any, address: SplitResult) -> int:
    """Has the records renewed that are due, and answers the exit status."""
    trust = module("archive").trust_list(given.trust, False)
    program_of(given)
    check_policy(given)
    made(given.state, OWN)
    with held(given.state):
        batch = begun(tool, given, trust)
        renewed = 0 if batch is None else finish(tool, given, batch, address, trust)
        plan = planned(tool, given, By(trust, dict(first_ends(given.end)), given.by))
        more, worst = renewed_all(tool, given, plan, address, trust)
    tell(tool, counted(plan, renewed + more, given.by))
    return worst
