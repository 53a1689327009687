"""`cmsproof-archive stamp`: one time-stamp for all files of an archive that have no evidence record, and their records."""
from __future__ import annotations

import argparse
import os
from typing import Any

from cmsproof_tools.archive_words import add_dask, add_ends, jobs_of
from cmsproof_tools.running import Words, module, shown

ABOUT = """Has an authority stamp all files under a folder that have no evidence record (RFC 4998), by one time-stamp, and makes their records.

    cmsproof-archive stamp letters --tsa http://tsa.example/stamp --trust trust.txt

The digest of each file is computed, the program asked for a request of the root of the tree over them (`cmsproof evidence request`), the
authority for a time-stamp of that (RFC 3161 3.4), and once its answer is judged the program makes the records (`cmsproof evidence make`):
that of FOLDER/NAME is FOLDER.records/NAME.ers, or below the folder of --into. The authority gets only the root over them.

The answer must be to the very request, and by --trust the token must count under an authority of the list now. Without --trust its signature
must hold, nobody looks whose it is, and a line says so.

The folder FOLDER.stamps, or that of --state, has all that was done, so that a run that was stopped is gone on with by the same words: the
digests are not computed again, and a request that may have been sent is sent again. A file that was changed since its digest was computed is
named: its record is of what it was. A link, a pipe or a device has no record, and a line says so. A file that can have no record, has more
than 2^40 octets, cannot be read, or changes while it is read is named and left out, and the others are stamped; a later run stamps it once that is
mended.

Exit status: 0 all files have records; 1 a file is left out or was changed, or the answer is refused; 2 the answer is malformed, or the trust
list is; 3 wrong words; 4 a file, the authority, the program or the library failed.
"""


# the digest algorithms (docs/FORMAT.md, section 5) that a tree is made by: those that hold for long
ALGORITHMS = ("sha256", "sha384", "sha512")
# what stands behind the name of the archive's folder in the names of those that are made for it
RECORDS, STAMPS = ".records", ".stamps"


def seconds_of(text: str) -> float:
    """How many seconds an answer may take."""
    if not text.isdecimal() or not 1 <= int(text) <= 3600:
        raise argparse.ArgumentTypeError(f"{text} is no number of seconds from 1 to 3600")
    return float(text)


def add_authority(parser: Words, beside: str) -> None:
    """The words that say which authority is asked, and how, and where is kept what was done, by default in a folder of this name."""
    parser.add_argument("--tsa", action="once", required=True, metavar="URL", help="the address of the authority, http or https")
    state = f"a folder with what was done so far, {beside} by default, which is made if it is not there"
    parser.add_argument("--state", action="once", metavar="DIR", help=state)
    parser.add_argument("--policy", action="once", metavar="OID", help="the policy under which the authority is asked to stamp")
    took = "how many seconds the authority may take, 60 by default"
    parser.add_argument("--timeout", type=seconds_of, default=60.0, metavar="N", help=took)
    program = "the program cmsproof, by default the one beside this tool or on PATH"
    parser.add_argument("--program", metavar="FILE", help=program)
    progress = "say how far the work is, also where standard error is not a terminal"
    parser.add_argument("--progress", action="store_true", help=progress)


def parser_of(tool: str) -> Words:
    """The parser of the words."""
    parser = Words(tool, description=ABOUT)
    into = f"the folder of the records, FOLDER{RECORDS} by default, which is made if it is not there"
    parser.add_argument("--into", action="once", metavar="DIR", help=into)
    add_authority(parser, f"FOLDER{STAMPS}")
    parser.add_argument("--trust", action="once", metavar="LIST", help="the trust list that has the authority")
    add_ends(parser, ", with --trust")
    digest = "the digest algorithm, sha256 by default"
    parser.add_argument("--alg", action="once", choices=ALGORITHMS, default="sha256", metavar="NAME", help=digest)
    jobs = "files that are read at a time; as many as there are processors by default"
    parser.add_argument("--jobs", type=jobs_of, default=len(os.sched_getaffinity(0)), metavar="N", help=jobs)
    add_dask(parser, "read the files")
    parser.add_argument("folder", metavar="FOLDER", help="the folder of the archive")
    return parser


def is_within(path: str, folder: str) -> bool:
    """Whether a path leads into a folder, or is it."""
    inner, outer = os.path.realpath(path), os.path.realpath(folder)
    return inner == outer or inner.startswith(outer.rstrip("/") + "/")


def put_beside(parser: Words, given: Any, called: str, folder: str, **endings: str) -> None:
    """Has what is made stand beside a folder, by its name with one of these endings, where no word says where. Ends the tool where the folder
    has no name."""
    path = folder.rstrip("/")
    lacking = [word for word in endings if getattr(given, word) is None]
    if lacking and os.path.basename(path) in ("", os.curdir, os.pardir):
        words = " and ".join(f"--{word}" for word in lacking)
        parser.error(f"{words} must be given where {called} ends in no name, as {shown(folder)}")
    for word in lacking:
        setattr(given, word, path + endings[word])


def check_folders(parser: Words, given: Any) -> None:
    """Ends the tool where the folders do not go together: what it makes would be files of the archive."""
    if "-" in (given.into, given.state):
        parser.error("- is no name for --into and --state: write ./-")
    if not os.path.isdir(given.folder):
        parser.error("FOLDER is no folder")
    for word, path in (("--into", given.into), ("--state", given.state)):
        if is_within(path, given.folder):
            parser.error(f"{word} is in FOLDER, and would be stamped with the files")
        if is_within(given.folder, path):
            parser.error(f"FOLDER is in that of {word}: they must stand apart")
    if is_within(given.state, given.into) or is_within(given.into, given.state):
        parser.error("--state is in --into, or it in that: they must stand apart")
    try:
        os.fsencode(given.into).decode("utf-8")
    except UnicodeDecodeError:
        parser.error("--into is not UTF-8, which the program takes alone")
    if given.end and given.trust is None:
        parser.error("--end goes with --trust")


def main(tool: str, words: list[str]) -> int:
    """Runs the tool with these words and answers its exit status."""
    parser = parser_of(tool)
    given = parser.parse_args(words)
    put_beside(parser, given, "FOLDER", given.folder, into=RECORDS, state=STAMPS)
    check_folders(parser, given)
    address = module("authority").address_of(given.tsa)
    return int(module("making").run(tool, given, address))
