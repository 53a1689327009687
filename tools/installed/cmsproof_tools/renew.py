"""`cmsproof-archive renew`: time-stamps for the evidence records that are due, one for very many, before the last ones no longer serve."""
from __future__ import annotations

import argparse
import os
from typing import Any

from cmsproof_tools.archive_words import add_dask, jobs_of
from cmsproof_tools.due import add_moment, moment_by
from cmsproof_tools.running import Words, module
from cmsproof_tools.stamp import add_authority, is_within, put_beside

ABOUT = """Renews the evidence records under a folder that are due by a moment, by one time-stamp for very many (RFC 4998 5.2), before the last one of each no
longer serves. Which are due `cmsproof-archive due` says.

    cmsproof-archive renew --records records --months 12 --trust trust.txt --tsa http://tsa.example/stamp

The program is asked for a request of the root of the tree over their last time-stamps (`cmsproof evidence renew --request`), the authority for a
time-stamp of that (RFC 3161 3.4), and once its answer is judged the program renews the records (`cmsproof evidence renew --token`), each in its place,
the old or the new one whole at any moment. It is one time-stamp for all records of one digest algorithm, unless these have some ten thousand
different last time-stamps. No file is read whose record one is.

The answer must be to the very request, and its token count under an authority of the list, be made while the last time-stamp of each record serves,
and serve itself until that moment: else its records would be due again at once. Until when one serves `due` says: as long as its certificate does, also
where revocation lists know less; but these must know something of the moment when the token is made.

A record that is due and stays as it is has a line, `due TIME NAME: REASON`: nobody can judge it; it ended before now, which no time-stamp mends; its
digest algorithm ends, and it needs another chain; or it cannot be replaced.

The folder RECORDS.renewals, or that of --state, has all that was done, so that a run that was stopped is gone on with by the same words: a request
that may have been sent is sent again, as long as its records and the trust list are as they were, and a token that is there is used, by that
list alone.

Exit status: 0 all that were due are renewed; 1 one is not, or the answer is refused; 2 one is malformed, or the answer or the trust list is; 3 wrong
words; 4 a file, the authority, the program or the library failed.
"""

# what stands behind the name of the records' folder in that of the state
RENEWALS = ".renewals"


def parser_of(tool: str) -> Words:
    """The parser of the words."""
    parser = Words(tool, description=ABOUT)
    parser.add_argument("--records", action="once", required=True, metavar="DIR", help="the folder of the records, which end in .ers")
    add_moment(parser)
    add_authority(parser, f"that of --records with {RENEWALS} behind it")
    jobs = "records that are judged at a time; as many as there are processors by default"
    parser.add_argument("--jobs", type=jobs_of, default=len(os.sched_getaffinity(0)), metavar="N", help=jobs)
    add_dask(parser, "judge the records")
    return parser


def check_words(parser: Words, given: argparse.Namespace) -> None:
    """Ends the tool where the folders do not go together, or a value is none."""
    if "-" in (given.records, given.state):
        parser.error("- is no name for --records and --state: write ./-")
    if not os.path.isdir(given.records):
        parser.error("--records is no folder")
    if is_within(given.state, given.records) or is_within(given.records, given.state):
        parser.error("--state is in --records, or it in that: they must stand apart")
    try:
        os.fsencode(os.path.realpath(given.records)).decode("utf-8")
    except UnicodeDecodeError:
        parser.error("--records is not UTF-8, which the program takes alone")


def main(tool: str, words: list[str]) -> int:
    """Runs the tool with these words and answers its exit status."""
    parser = parser_of(tool)
    given: Any = parser.parse_args(words)
    given.by = moment_by(parser, given)
    put_beside(parser, given, "--records", given.records, state=RENEWALS)
    check_words(parser, given)
    address = module("authority").address_of(given.tsa)
    return int(module("renewing").run(tool, given, address))
