"""`cmsproof-archive due`: which evidence records (RFC 4998) must be renewed by a moment. No file is read whose record one is."""
from __future__ import annotations

import argparse
import json
import os
import time
from _thread import get_ident
from calendar import monthrange
from collections import Counter
from contextlib import ExitStack, contextmanager
from functools import lru_cache, partial
from typing import TYPE_CHECKING, Any, Callable, Iterable, Iterator, NamedTuple, Sequence, TypeVar

from cmsproof_tools.archive_words import add_dask, add_ends, jobs_of, time_of
from cmsproof_tools.evidenced import ENDING, first_ends
from cmsproof_tools.outcomes import named
from cmsproof_tools.pairs import is_regular
from cmsproof_tools.progress import Progress
from cmsproof_tools.running import DONE, FAILED, MALFORMED, REFUSED, Words, module, one_line, shown, tell, write
from cmsproof_tools.texts import in_order

if TYPE_CHECKING:
    from cmsproof.octets import Buffer

ABOUT = """Lists the evidence records (RFC 4998) that must be renewed by a moment: those whose last time-stamp does not serve until then, since
its authority's certificate or entry in the trust list ends before, or a digest algorithm does.

    cmsproof-archive due records --trust trust.txt --end sha256=20350101000000Z --months 12

There is one line for each, in the order of the names: `due TIME NAME`, TIME being the last moment at which the time-stamp serves. A record
of which nobody can say that, as one that cannot be read, or of an authority that is not in the list, is due now: `due now NAME: REASON`.
The others have no line, and standard error counts all.

In a list that was made with revocation lists an entry ends with what these know. A time-stamp must have been made before that, as in a
check. But the line above the entry, `# known until TIME, serves until TIME` (cmsproof-lists(5)), says until when it serves: as long as the
certificate does, if nobody revokes it.

Only records are read, and not their files. So it is not said that a record is right: `cmsproof-archive --records` says that. What that accepts
is accepted with `--at` this moment and the same ends, by the same list in which each entry that held at the time-stamp ends when it serves,
exactly if it is not due.

In a folder the files that end in .ers are records. A record named `-` is a list of names on standard input, one on each line.

Exit status: 0 none is due; 1 one is; 2 one is malformed, or the trust list is; 3 wrong words; 4 a file or the library failed.
"""
# the last year that a moment has
LAST_YEAR = 9999
# the statuses of the records that are counted by each word
STATUSES = {"lasting": (DONE,), "due": (REFUSED,), "unjudged": (REFUSED, MALFORMED, FAILED)}
Said = TypeVar("Said")


class Told(NamedTuple):
    """What is said of some records: the word of each by which it is counted, the worst status, and the lines with their ends."""

    words: list[str]
    status: int
    lines: bytes


def months_of(text: str) -> int:
    """The number of `--months`."""
    if not text.isdecimal() or len(text) > 6:
        raise argparse.ArgumentTypeError(f"{text} is no number of months")
    return int(text)


def add_moment(parser: Words) -> None:
    """The words by which records are due."""
    parser.add_argument("--trust", action="once", required=True, metavar="LIST", help="the trust list, which is read once")
    parser.add_argument("--months", action="once", type=months_of, metavar="N", help="those that are due within so many months from now")
    parser.add_argument("--by", action="once", type=time_of, metavar="TIME", help="those that are due by this moment")
    add_ends(parser, "")


def parser_of(tool: str) -> Words:
    """The parser of the words."""
    parser = Words(tool, description=ABOUT)
    add_moment(parser)
    jobs = "records that are judged at a time; as many as there are processors by default"
    parser.add_argument("--jobs", type=jobs_of, default=len(os.sched_getaffinity(0)), metavar="N", help=jobs)
    add_dask(parser, "judge the records")
    json_help = "a line of JSON for each record that is due, and a last one about all"
    parser.add_argument("--json", action="store_true", help=json_help)
    parser.add_argument("--files-from", action="append", default=[], metavar="FILE", help="a list of names, one on each line")
    parser.add_argument("--null", action="store_true", help="names in lists end in an octet 00, as find -print0 writes them")
    progress = "say how far the work is, also where standard error is not a terminal"
    parser.add_argument("--progress", action="store_true", help=progress)
    parser.add_argument("files", nargs="*", metavar="RECORD", help="an evidence record, a folder of records, or `-`")
    return parser


def months_on(now: float, months: int) -> str:
    """The moment so many months behind another one, on the last day of a month that is shorter."""
    found = time.gmtime(now)
    years, month = divmod(found.tm_mon - 1 + months, 12)
    year = found.tm_year + years
    if year > LAST_YEAR:
        return f"{LAST_YEAR}1231235959Z"
    day = min(found.tm_mday, monthrange(year, month + 1)[1])
    return f"{year:04}{month + 1:02}{day:02}{time.strftime('%H%M%S', found)}Z"


class Named(NamedTuple):
    """What was named: the records, in their order, what those are that are no regular files, and how many files of folders are none."""

    names: list[str]
    unfit: dict[str, str]
    others: int


def named_under(tool: str, folder: str, found: Named) -> int:
    """Adds the records under a folder to those that were named, and answers how many other files are there."""
    from cmsproof_tools.folders import files_under

    before, others = len(found.names), 0

    def skip(name: str, kind: str) -> None:
        if name.endswith(ENDING):
            found.names.append(name)
            found.unfit[name] = kind
        else:
            tell(tool, f"{shown(name)}: skipped: it is {kind}")

    for below in files_under(folder, skip):
        # (what cannot be looked into is no regular file)
        if below.endswith(ENDING) or not is_regular(below):
            found.names.append(below)
        else:
            others += 1
    if len(found.names) == before:
        tell(tool, f"{shown(folder)}: no record is in it")
    return others


def records_named(tool: str, given: Any) -> Named:
    """The records that the words name, and those in folders."""
    archive, found, others = module("archive"), Named([], {}, 0), 0
    for name in given.files:
        if name == "-" or name.startswith(archive.PLACES) or not os.path.isdir(name):
            found.names.extend(archive.names_in("-", given.null) if name == "-" else [name])
        else:
            others += named_under(tool, name, found)
    found.names.extend(name for path in given.files_from for name in archive.names_in(path, given.null))
    return found._replace(others=others)


def line_of(name: str, status: int, at: str, reason: str, is_json: bool) -> bytes:
    """The line of a record that is due at a moment, or now for a reason."""
    line = one_line(f"due {at} {shown(name)}" + (f": {reason}" if reason else ""))
    if not is_json:
        return line.encode() + b"\n"
    said = {**named(name), "status": status, "line": line, "due": at, **({"reason": one_line(reason)} if reason else {})}
    return json.dumps(said).encode() + b"\n"


def said_of(unfit: dict[str, str], name: str, judge: Callable[[Buffer], Said], folder: str = "") -> Said:
    """What is said of the octets of a record, whose name is one in a folder, by default in that of this process. Raises Unjudged, with the status
    and the reason, where nothing can be said."""
    lasting, checking = module("lasting"), module("checking")
    try:
        if name in unfit:
            raise lasting.Unjudged(FAILED, f"it is {unfit[name]}, and is not read")
        with checking.opened(os.path.join(folder, name) if name else name) as file:
            return judge(file.octets)
    except lasting.Unjudged:
        raise
    except MemoryError as error:
        raise lasting.Unjudged(FAILED, "failed memory") from error
    except checking.Unread as error:
        line = str(error).replace(shown(os.path.join(folder, name)), shown(name), 1)
        raise lasting.Unjudged(FAILED, line) from error
    except Exception as error:  # a fault of the tool itself
        raise lasting.Unjudged(FAILED, f"failed due: {type(error).__name__}: {error}") from error


def judged(by: Any, unfit: dict[str, str], is_json: bool, name: str, folder: str = "") -> Told:
    """What is said of a record, whose name is one in this folder."""
    lasting = module("lasting")
    try:
        end = said_of(unfit, name, lambda octets: str(lasting.end_of(octets, by)), folder)
    except lasting.Unjudged as error:
        return Told(["unjudged"], error.status, line_of(name, error.status, "now", str(error), is_json))
    if in_order(by.moment, end):
        return Told(["lasting"], DONE, b"")
    return Told(["due"], REFUSED, line_of(name, REFUSED, end, "", is_json))


def failed(is_json: bool, name: str, reason: str) -> Told:
    """What is said of a record that could not be judged."""
    return Told(["unjudged"], FAILED, line_of(name, FAILED, "now", reason, is_json))


def joined(several: list[Told]) -> list[tuple[int, Told]]:
    """What is said of several records, said of all at once."""
    words, statuses, lines = zip(*several)
    return [(len(several), Told([word for one in words for word in one], max(statuses), b"".join(lines)))]


def lost(is_json: bool, name: str, by: int) -> Told:
    """What is said of a record whose worker was ended."""
    return failed(is_json, name, f"failed worker: it was ended by signal {by}" if by else "failed worker: it ended")


@lru_cache(maxsize=64)
def by_of(trusted: bytes, ends: tuple[tuple[str, str], ...], moment: str, _thread: int) -> Any:
    """By what records are judged, made once in each thread of a worker elsewhere, since it keeps what was said last."""
    from cmsproof import TrustList

    return module("lasting").By(TrustList(trusted), dict(ends), moment)


class Terms(NamedTuple):
    """By what workers elsewhere judge records (handing.py): the SHA-256 of the trust list, the versions, the folder of relative names, and what was
    said of ends, of the moment and of lines."""

    trust: str
    versions: str
    folder: str
    ends: tuple[tuple[str, str], ...]
    moment: str
    is_json: bool = False

    def by(self, trusted: bytes) -> Any:
        """By what this thread judges."""
        return by_of(trusted, self.ends, self.moment, get_ident())

    @contextmanager
    def task(self, trusted: bytes, unfit: dict[str, str]) -> Iterator[Callable[[str], Told]]:
        """What is done for a name."""
        yield partial(judged, self.by(trusted), unfit, self.is_json, folder=self.folder)

    def is_said(self, one: Any) -> bool:
        """Whether a worker can say this of a record: one word, a status that goes with it, and a line unless it lasts."""
        if not isinstance(one, Told) or not isinstance(one.words, list) or len(one.words) != 1:
            return False
        (word,) = one.words
        return is_status(one.status, STATUSES.get(word, ())) and (one.lines == b"" if word == "lasting" else is_line(one.lines))


def is_status(status: Any, some: tuple[int, ...]) -> bool:
    """Whether this is one of some statuses, whatever a worker says."""
    return type(status) is int and status in some


def is_line(said: Any) -> bool:
    """Whether this is one line with its end, whatever a worker says."""
    return isinstance(said, bytes) and said.endswith(b"\n") and said.count(b"\n") == 1


def terms_of(by: Any, is_json: bool = False) -> Terms:
    """The terms of workers elsewhere. (They have another folder: names are those from the root there.)"""
    import hashlib

    versions, ends = module("versions").versions_text(), tuple(by.ends.items())
    return Terms(hashlib.sha256(by.trust.text).hexdigest(), versions, os.getcwd(), ends, by.moment, is_json)


def unfit_among(unfit: dict[str, str], names: Iterable[str]) -> dict[str, str]:
    """What is said of those of some names that are no regular files."""
    return {name: unfit[name] for name in names if name in unfit}


def batches(tool: str, given: Any, by: Any, names: Sequence[str], found: Named, stack: ExitStack) -> Iterable[list[Told]]:
    """What is said of all records, of some at a time, by workers of this machine or of others."""
    from cmsproof_tools.workers import Workers

    if given.dask is None:
        workers = Workers(min(given.jobs, len(names)), partial(judged, by, found.unfit, given.json), joined)
        return stack.enter_context(workers).batches(names, partial(lost, given.json))
    module("archive").check_elsewhere(names)
    handing = module("handing")
    lost_there, unfit = partial(lost, given.json, by=0), partial(unfit_among, found.unfit)
    task = handing.Each(by.trust.text, terms_of(by, given.json), lost_there, unfit)
    several: Iterable[list[Told]] = stack.enter_context(handing.Cluster(tool, given.dask, task)).batches(names)
    return ([joined(some)[0][1]] for some in several)


def told(tool: str, given: Any, by: Any, names: Sequence[str], found: Named) -> int:
    """Writes the line of each record that is due, says how many there are of each kind, and answers the worst status."""
    progress, worst = Progress(tool, len(names), given.progress), DONE
    with ExitStack() as stack:
        for several in batches(tool, given, by, names, found, stack):
            progress.put("")
            write("-", b"".join(one.lines for one in several))
            progress.steps([word for one in several for word in one.words])
            worst = max([worst, *(one.status for one in several)])
    progress.put("")
    tell(tool, counted(progress.counts, by.moment, found.others))
    if given.json:
        counts = {word: progress.counts[word] for word in ("lasting", "due", "unjudged")}
        last = {"by": by.moment, "files": len(names), **counts, "worst": worst}
        write("-", json.dumps(last).encode() + b"\n")
    return worst


def counted(counts: Counter[str], moment: str, others: int) -> str:
    """How many records were judged, and how."""
    text = f"{sum(counts.values())} records: {counts['due']} due by {moment}"
    text += f", {counts['unjudged']} due now, which cannot be judged" if counts["unjudged"] else ""
    return text + (f"; {others} other files in the folders do not end in {ENDING}" if others else "")


def moment_by(parser: Words, given: Any) -> str:
    """The moment by which records are due. Ends the tool where it is not said, or twice."""
    if (given.months is None) is (given.by is None):
        parser.error("by when? --months N counts from now, --by TIME is a moment: say one of both")
    return given.by or months_on(time.time(), given.months)


def main(tool: str, words: list[str]) -> int:
    """Runs the tool with these words and answers its exit status."""
    parser = parser_of(tool)
    given = parser.parse_args(words)
    moment = moment_by(parser, given)
    archive, lasting = module("archive"), module("lasting")
    by = lasting.By(archive.trust_list(given.trust, False), dict(first_ends(given.end)), moment)
    found = records_named(tool, given)
    if not found.names:
        parser.error("no record is named")
    for name in ("checking", "verifying"):
        module(name)
    names = module("names").kept(found.names) if len(found.names) >= archive.MANY else list(found.names)
    found.names.clear()
    return told(tool, given, by, names, found)
