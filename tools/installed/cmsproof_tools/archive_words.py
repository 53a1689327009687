"""The words of cmsproof-archive. Help, and a wrong word, wait for nothing that a run reads."""
from __future__ import annotations

import argparse
import importlib
import os

from cmsproof_tools.issuer_words import add_words, behind, goes_with_issuers, names_issuers
from cmsproof_tools.pairs import ending_of
from cmsproof_tools.running import VERDICTS, Words
from cmsproof_tools.texts import is_moment

# the digest algorithms by their names (docs/FORMAT.md, section 5)
ALGORITHMS = ("sha1", "sha224", "sha256", "sha384", "sha512", "sha512-224", "sha512-256")
ABOUT = """Checks signed files: has the library libcmsproof say what must be verified, as `cmsproof questions` does, verifies it as
cmsproof-verify does, and hands the answers to the library, which says what `cmsproof check` says. There is one line for each file,
in the order of the names: the name, and the line of `check`.

    cmsproof-archive --trust trust.txt letters/*.p7s
    find letters -name '*.p7s' -print0 | cmsproof-archive --trust trust.txt --null -

With an issuer in place of a list, the list is made of what issuers issued, as cmsproof-trust does, and used:

    cmsproof-archive --issuer ca.pem --tsa-issuer tsa-ca.pem --write-trust trust.txt letters/*.p7s

A file named `-` is a list of names on standard input, one on each line. A signature whose algorithm cannot be judged is not
vouched for, and a line on standard error says so.

The files that are not accepted, whatever their names are:

    cmsproof-archive --trust trust.txt letters/*.p7s | grep -vE ': accepted [0-9.]+Z$'

--state keeps a row for each file. The next run judges what is new, changed, or was judged by another list, policy or version, and has
no lines for the others. The first word `report`, `evidence`, `due`, `stamp` or `renew` stands for another tool:

    cmsproof-archive --trust trust.txt --state archive.state --files-from names.txt
    cmsproof-archive report archive.state --html archive.html
    cmsproof-archive evidence --trust trust.txt letter.p7s --to letter.zip

A file of such a name is ./report, for one.

With --known a refusal that the text FILE acknowledges counts no longer for the status. FILE has the code of each and the name of its
file, as it is printed, as `S10 letter.p7s`, on a line of their own, and lines of comments that begin with #.

With --records each file must have an evidence record of it, in a folder of such; the line is `evidenced TIME` where nothing is signed:

    cmsproof-archive --trust trust.txt --records records --end sha1=20160101000000Z letters

With --by-records a signed file in DER is judged by its record, as `cmsproof check --evidence` does, and what is signed in PDF, PEM, mails and
the like is refused (F16).

Exit status: the worst that a file had: 0 all are accepted, `stamped` or `evidenced`; 1 one is refused; 2 one is malformed, or the trust list is;
3 wrong words; 4 a file or a library failed; 5 not all are accepted, but with --known nothing is new.
"""


def jobs_of(text: str) -> int:
    """How many files are checked at a time, at least one."""
    if not text.isdecimal() or int(text) == 0:
        raise argparse.ArgumentTypeError(f"{text} is no number from 1 on")
    return int(text)


def pair_of(text: str) -> tuple[str, str]:
    """The endings of `--pair`."""
    try:
        return ending_of(text)
    except ValueError as error:
        raise argparse.ArgumentTypeError(str(error)) from error


def moment_of(text: str) -> int:
    """The moment of `--since`, in seconds since 1970."""
    return int(importlib.import_module("cmsproof_tools.resuming").moment_of(text))


def add_contents(parser: Words) -> None:
    """The words that say which files are contents, and what a signature may leave out."""
    parser.add_argument("--content", action="once", metavar="FILE", help="the content, where the files do not hold it")
    usual = "the content of a file that ends in SUFFIX is beside it and ends in ENDING; `.p7s=`, `.p7m=` and `.sig=` by default"
    parser.add_argument("--pair", action="append", default=[], type=pair_of, metavar="SUFFIX=ENDING", help=usual)
    alone = "no file beside another one is its content, unless a list says so"
    parser.add_argument("--no-pairs", action="store_true", help=alone)
    listed = "a list of files and their contents, with a TAB between"
    parser.add_argument("--pairs-from", action="append", default=[], metavar="FILE", help=listed)
    parser.add_argument("--sha1", action="store_true", help="allow SHA-1 as a digest of contents and stamped signatures")
    parser.add_argument("--partial", action="store_true", help="allow signatures that do not cover the whole file, with a note")
    stamps = "allow time-stamps without an accepted signature, in a file, or beside it as FILE.tsr or FILE.tst"
    parser.add_argument("--stamps", action="store_true", help=stamps)


def end_of(text: str) -> tuple[str, str]:
    """The algorithm and the moment of `--end`."""
    name, equals, time = text.partition("=")
    if not equals or name not in ALGORITHMS or not is_moment(time):
        raise argparse.ArgumentTypeError(
            f"{text} is not ALG=TIME, as sha256=20350101000000Z, ALG one of {', '.join(ALGORITHMS)}"
        )
    return name, time


def time_of(text: str) -> str:
    """The moment of `--at`."""
    if not is_moment(text):
        raise argparse.ArgumentTypeError(f"{text} is no moment like 20261125080648Z")
    return text


def add_ends(parser: Words, by: str) -> None:
    """The word that says until when digest algorithms hold, which goes with another one."""
    end = f"the last moment at which a digest algorithm holds{by}: sha1 holds at none without"
    parser.add_argument("--end", action="append", default=[], type=end_of, metavar="ALG=TIME", help=end)


def add_judging(parser: Words, by: str) -> None:
    """The words by which evidence records are judged, which go with another one."""
    add_ends(parser, f", with {by}")
    at = f"until when the last time-stamp of a record must serve, with {by}: by default its own time"
    parser.add_argument("--at", action="once", type=time_of, metavar="TIME", help=at)
    whole = f"the first list of a record may have no other hash value than its file's, with {by}"
    parser.add_argument("--whole", action="store_true", help=whole)


def add_records(parser: Words) -> None:
    """The words that go with evidence records."""
    records = "each file must have an evidence record (RFC 4998): DIR/PATH.ers, PATH being its path in the archive"
    parser.add_argument("--records", action="once", metavar="DIR", help=records)
    under = "the archive's folder, with --records: by default the one where the tool runs"
    parser.add_argument("--under", action="once", metavar="DIR", help=under)
    add_judging(parser, "--records")
    shown = "judge a signed file in DER at the moment that its record shows, with --records: as `check --evidence` does"
    parser.add_argument("--by-records", action="store_true", help=shown)


def add_dask(parser: Words, done: str) -> None:
    """The word by which others do the work."""
    parser.add_argument("--dask", metavar="ADDRESS", help=f"let the workers of this scheduler of Dask {done}")


def add_state(parser: Words) -> None:
    """The words that go with a state."""
    kept = "a file with a row for each file: only what changed is judged again"
    parser.add_argument("--state", action="once", metavar="FILE", help=kept)
    since = "with --state: judge again what was judged before this time"
    parser.add_argument("--since", action="once", type=moment_of, metavar="TIME", help=since)
    parser.add_argument("--only", action="once", choices=VERDICTS, metavar="VERDICT", help="with --state: only files of this verdict")
    parser.add_argument("--recheck", action="store_true", help="with --state: judge all files again")
    known = "with --state: a text of refusals that are known, a code and a name on each line: the status is that of what is new"
    parser.add_argument("--known", action="once", metavar="FILE", help=known)


def parser_of(tool: str) -> Words:
    """The parser of the words."""
    parser = Words(tool, description=ABOUT)
    parser.add_argument("--trust", action="once", metavar="LIST", help="the trust list, which is read once")
    add_words(parser, several=False)
    parser.add_argument("--write-trust", action="once", metavar="FILE", help="with an issuer: the list that was made and used")
    add_contents(parser)
    add_records(parser)
    jobs = "files that are checked at a time; as many as there are processors by default"
    parser.add_argument("--jobs", type=jobs_of, default=len(os.sched_getaffinity(0)), metavar="N", help=jobs)
    parser.add_argument("--json", action="store_true", help="a line of JSON for each file, and a last one about all")
    parser.add_argument("--explain", action="store_true", help="a second line for each refusal: its cause and cure")
    parser.add_argument("--files-from", action="append", default=[], metavar="FILE", help="a list of names, one on each line")
    parser.add_argument("--null", action="store_true", help="names in lists end in an octet 00, as find -print0 writes them")
    add_state(parser)
    add_dask(parser, "check the files")
    progress = "say how far the work is, also where standard error is not a terminal"
    parser.add_argument("--progress", action="store_true", help=progress)
    parser.add_argument("--log", metavar="FILE", help="add a line of JSON to this file for each thousand files")
    parser.add_argument("--program", help=argparse.SUPPRESS)
    parser.add_argument("files", nargs="*", metavar="FILE", help="a signed file, a folder of files, or `-`")
    return parser


def check_issuers(parser: Words, given: argparse.Namespace) -> None:
    """Ends the tool where nobody is trusted, or words are missing that go with others."""
    if given.trust is None and not names_issuers(given):
        parser.error("the following arguments are required: --trust")
    if (given.write_trust or goes_with_issuers(given)) and not names_issuers(given):
        parser.error("no issuer is named: --issuer FILE or --tsa-issuer FILE")


def check_words(parser: Words, given: argparse.Namespace) -> None:
    """Ends the tool where words do not go together."""
    if given.program is not None:
        parser.error("there is no --program any more: the library libcmsproof is asked, and no program is run")
    if "-" in (given.state, given.log, given.known):
        parser.error("- is no name for --state, --known and --log: write ./-")
    if given.state is None and (given.recheck or {given.since, given.only, given.known} != {None}):
        parser.error("--since, --only, --recheck and --known need --state")
    if given.records is None and (given.end or given.whole or {given.under, given.at} != {None}):
        parser.error("--under, --end, --at and --whole need --records")
    if given.by_records and given.records is None:
        parser.error("--by-records needs --records")
    if given.by_records and (given.sha1 or given.whole):
        parser.error("--by-records goes with none of --sha1 and --whole: `check --evidence` has neither, and SHA-1 goes by --end")
    if given.dask is not None and (given.content is not None or given.pairs_from):
        parser.error("--content and --pairs-from cannot be said with --dask")


def command_of(words: list[str]) -> str | None:
    """The tool that the first word stands for, if it does: what names a file of this name has never had these words."""
    asked = {word.partition("=")[0] for word in words[1:]}
    if words[:1] == ["report"] and not asked & {"--trust", "--issuer", "--tsa-issuer"}:
        return "report"
    if words[:1] == ["due"] and asked & {"--months", "--by", "--help", "-h"}:
        return "due"
    if words[:1] in (["stamp"], ["renew"]) and asked & {"--tsa", "--help", "-h"}:
        return words[0]
    return "evidence" if words[:1] == ["evidence"] and asked & {"--to", "--verify", "--help", "-h"} else None


def main(tool: str, words: list[str]) -> int:
    """Runs the tool with these words and answers its exit status."""
    if (command := command_of(words)) is not None:
        return int(importlib.import_module(f"cmsproof_tools.{command}").main(f"{tool} {command}", words[1:]))
    parser = parser_of(tool)
    given = parser.parse_args(words)
    check_words(parser, given)
    check_issuers(parser, given)
    given.behind = behind(words, ("--crl", "--ocsp"))
    return int(importlib.import_module("cmsproof_tools.archive").judged(tool, given, parser))
