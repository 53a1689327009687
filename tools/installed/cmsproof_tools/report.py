"""`cmsproof-archive report`: what a state holds, as a page, as CSV and as lines of JSON."""
from __future__ import annotations

import csv
import io
import json
import os
import re
from typing import Any, Iterator

from cmsproof_tools.evidenced import ENDING, records_in
from cmsproof_tools.known import Known
from cmsproof_tools.outcomes import named
from cmsproof_tools.lines import counts_as, parts_of
from cmsproof_tools.rows import Row, time_text
from cmsproof_tools.running import DONE, USAGE, Stop, Words, check_kept, module, one_line, shown, tell, write
from cmsproof_tools.stamp import is_within
from cmsproof_tools.state import VERDICTS, Basis, State, beside, grounds_in

ABOUT = """Shows what a state of cmsproof-archive holds.

    cmsproof-archive --trust trust.txt --state archive.state --files-from names.txt
    cmsproof-archive report archive.state --html archive.html

On the page certificates last until they serve no more, also where it is known for a shorter time that nobody revoked them
(cmsproof-lists(5)). With --records it has the hash trees of evidence records, which are read again.

With --known it tells what is new: what is not accepted, and not acknowledged in this text, as cmsproof-archive --known reads it. The page needs no other file and no network. OUT may be `-`, standard output. A state is a record and no evidence: it says what
its writer put there. `cmsproof-archive evidence` makes a bundle that shows a verdict again.

Exit status: 0 done; 3 wrong words; 4 the state is none or is damaged, or OUT cannot be written.
"""
COLUMNS = (
    "file",
    "part",
    "verdict",
    "code",
    "time",
    "line",
    "status",
    "signer",
    "token",
    "authority",
    "certificate",
    "sha256",
    "content",
    "size",
    "changed",
    "judged",
    "trust",
    "policy",
)
# how a cell of CSV may begin that no program of tables takes for a formula
PLAIN, PART = re.compile(r"[A-Za-z0-9/._]"), re.compile(r"(?:[A-Za-z0-9/._].*)?")


def deciding(row: Row, parts: dict[str, str]) -> dict[str, str]:
    """Which signer and token decided, by their numbers, and the SHA-256 of the certificates under which both hold: of an accepted
    file as its state has them, of another one as its line has the numbers. Several are there with a space between."""
    decided = grounds_in(row.grounds).decided if row.status == DONE else ()
    found = {name: parts.get(name, "") for name in ("signer", "token")}
    if decided:
        found = {name: " ".join(str(number) for one in decided if (number := getattr(one, name))) for name in found}
    found["authority"] = " ".join(dict.fromkeys(sum_of for one in decided for sum_of in one.authorities))
    found["certificate"] = " ".join(dict.fromkeys(sum_of for one in decided for sum_of in one.certificates))
    return found


def members(row: Row, basis: Basis | None) -> dict[str, Any]:
    """What is known of a row, by names."""
    parts = parts_of(row.status, row.line) or {}
    return {
        **named(row.name),
        "part": one_line(row.part),
        "status": row.status,
        "line": row.line,
        "verdict": counts_as(row.line, row.part),
        **{name: parts.get(name, "") for name in ("code", "time")},
        **deciding(row, parts),
        "sha256": row.sha256.hex(),
        "content": row.content.hex(),
        "size": row.size,
        "changed": time_text(row.time),
        "judged": time_text(row.judged),
        "trust": basis.trust if basis else "",
        "policy": basis.policy if basis else "",
        "grounds": [ground._asdict() for ground in grounds_in(row.grounds).holds],
    }


def whole(text: str) -> str:
    """A name or a part, as it is shown, without a semicolon, which in many countries ends a cell: what is behind it would be another
    one, as a verdict."""
    return text.replace(";", "\\x3b")


def cell(text: str) -> str:
    """A name as a cell that no program of tables takes for a formula: a relative one is the same with `./` before it."""
    return text if PLAIN.match(text) else "./" + text


def csv_line(values: list[Any]) -> str:
    """A line of CSV."""
    text = io.StringIO()
    csv.writer(text, lineterminator="\r\n").writerow(values)
    return text.getvalue()


def csv_text(state: State, only: str, known: Known | None) -> Iterator[str]:
    """All rows as CSV (RFC 4180), with a line of the columns' names before them."""
    bases = state.bases()
    columns = [*COLUMNS, *([] if known is None else ["new"])]
    yield csv_line(columns)
    for row, basis in state.rows(only):
        part = whole(shown(row.part))
        said = {
            **members(row, bases.get(basis)),
            "file": cell(whole(shown(row.name))),
            "line": whole(row.line),
            "part": part if PART.fullmatch(part) else "'" + part,
            "new": "yes" if is_new(state, row, known) else "no",
        }
        yield csv_line([said[name] for name in columns])


def json_text(state: State, only: str, known: Known | None) -> Iterator[str]:
    """All rows as lines of JSON."""
    bases = state.bases()
    for row, basis in state.rows(only):
        new = {} if known is None else {"new": is_new(state, row, known)}
        yield json.dumps({**members(row, bases.get(basis)), **new}) + "\n"


def is_new(state: State, row: Row, known: Known | None) -> bool:
    """Whether a row is not accepted, and not acknowledged."""
    return row.status != DONE and not (known is not None and known.covers(row.status, row.line, state.called(row)))


def main(tool: str, words: list[str]) -> int:
    """Runs the tool with these words and answers its exit status."""
    parser = parser_of(tool)
    given = parser.parse_args(words)
    asked = [(name, out) for name in ("html", "csv", "json") if (out := getattr(given, name)) is not None]
    if not asked:
        raise Stop(USAGE, f"--html, --csv or --json is missing (see {tool} --help)")
    for number, (_, out) in enumerate(asked):
        check_kept(out, [*beside(given.state), given.known, *(other for _, other in asked[:number] if other != "-")])
        if out in [other for _, other in asked[:number]]:
            parser.error(f"two of --html, --csv and --json are written into {shown(out)}")
        if given.records is not None and os.path.realpath(out).endswith(ENDING) and is_within(out, given.records):
            raise Stop(USAGE, f"{shown(out)} would be written into the place of a record of --records")
    if given.known == "-":
        parser.error("- is no name for --known: write ./-")
    if given.under is not None and given.records is None:
        parser.error("--under goes with --records")
    if given.records is not None and given.html is None:
        parser.error("--records goes with --html")
    known = None if given.known is None else Known(given.known)
    records = None if given.records is None else records_in(given.records, given.under or "")
    with State(given.state, is_new=False) as state:
        for name, out in asked:
            try:
                if name == "html":
                    text = module("page").page(state, given.only or "", known, records)
                else:
                    text = "".join((csv_text if name == "csv" else json_text)(state, given.only or "", known))
            except Stop:
                # (a part of what is written meanwhile can look damaged)
                state.check_unwritten()
                raise
            state.check_unwritten()
            write(out, text.encode("utf-8", "backslashreplace"))
    for line in () if known is None else known.left_to_tell(given.only is None):
        tell(tool, line)
    return DONE


def parser_of(tool: str) -> Words:
    """The parser of the words."""
    parser = Words(tool, description=ABOUT)
    parser.add_argument("state", metavar="STATE", help="the file that cmsproof-archive --state wrote")
    parser.add_argument("--html", action="once", metavar="OUT", help="write a page")
    parser.add_argument("--csv", action="once", metavar="OUT", help="write a table, a line for each row")
    parser.add_argument("--json", action="once", metavar="OUT", help="write a line of JSON for each row")
    known = "a text of refusals that are known: it is told what is new beside them"
    parser.add_argument("--known", action="once", metavar="FILE", help=known)
    records = "the folder of evidence records: the page has the hash trees of those that must be renewed first"
    parser.add_argument("--records", action="once", metavar="DIR", help=records)
    under = "the archive's folder, with --records: by default the one where the tool runs"
    parser.add_argument("--under", action="once", metavar="DIR", help=under)
    only = "only rows of this verdict: " + ", ".join(VERDICTS)
    parser.add_argument("--only", action="once", choices=VERDICTS, metavar="VERDICT", help=only)
    return parser
