#!/usr/bin/env python3
"""under_rows.py: compares what the rows of crates/vectors_run/data/commands/under.rows want, which are about signed files beside evidence
records, with what evidence.py and expected.py work out, apart from the program and from the judges of the rows, and prints those that
differ. Not told by it: command lines (`run`).

    python3 tools/oracle/under_rows.py
"""
from __future__ import annotations

import sys
from pathlib import Path
from typing import Optional

TOOLS = Path(__file__).resolve().parent.parent
sys.path.insert(0, str(TOOLS))
from oracle import evidence, expected, lists, rows, rules  # noqa: E402
from oracle.rows import blobs_of  # noqa: E402
from oracle.stamps_rows import text_of  # noqa: E402

DATA = TOOLS.parent / "crates" / "vectors_run" / "data"
BLOBS = [f"commands/{name}.blobs" for name in ("commands", "stamps", "evidence", "records", "under")]
ROWS = DATA / "commands" / "under.rows"


def options(row: rows.Row) -> dict[str, list[str]]:
    """The options of a row with their values, one list of each."""
    words = row.values.get("words", "").split("+") if "words" in row.values else []
    found: dict[str, list[str]] = {}
    while words:
        option = words.pop(0)
        found.setdefault(option, []).extend([words.pop(0)] if option != "--sha1" else [])
    return found


def answers_to(row: rows.Row, trust: list[lists.Entry]) -> list[str]:
    """The lines of all questions of the file and of the record, but those with the word `silent`."""
    asking, silent = rules.Terms(trust, []), row.values.get("silent", "")
    texts = [expected.questions(row.octets("file"), asking)]
    texts += [evidence.questions(row.octets("record"), asking)] if row.kind == "under" else []
    lines = [line for text, status in texts if status == 0 for line in text.splitlines()[1:]]
    return [line for line in lines if silent not in line.split(" ")]


def said(row: rows.Row) -> Optional[str]:
    """What is said of a file, None of a row that is not told here."""
    if row.kind not in ("under", "check"):
        return None
    row.takes("trust file content record words silent")
    trust = lists.entries_of(("cmsproof trust " + text_of(row.text("trust"), row.blobs)).encode())
    given, content = options(row), row.given("content")
    room = int(given.get("--buffer", [str(1 << 26)])[0])
    terms = rules.Terms(trust, answers_to(row, trust), "--sha1" in given)
    if row.kind == "check":
        line, status = expected.check(row.octets("file"), terms, content, room)
    else:
        pairs = [end.split("=") for end in given.get("--end", [])]
        ends = [(name, lists.end_of_period(last.encode()) or "") for name, last in pairs]
        at = lists.end_of_period(given["--at"][0].encode()) if "--at" in given else None
        policy = evidence.Policy(ends, at)
        line, status = evidence.under(row.octets("record"), row.octets("file"), terms, policy, content, room)
    return f"{status} " + line.replace("\n", "\\n")


def main() -> int:
    """Compares all rows."""
    blobs: dict[str, bytes] = {}
    for name in BLOBS:
        blobs = blobs_of((DATA / name).read_text(), blobs)
    told, untold, wrong = 0, 0, 0
    for number, line in enumerate(ROWS.read_text().splitlines(), start=1):
        if not line or line.startswith("#"):
            continue
        row = rows.Row(line, blobs)
        found = said(row)
        told, untold = told + (found is not None), untold + (found is None)
        if found is not None and found != row.wanted:
            wrong += 1
            print(f"{ROWS.name}:{number}: wants `{row.wanted}`, the rules say `{found}`")
    print(f"{told} rows told, {wrong} differ; not told: {untold}")
    return 1 if wrong or not told else 0


if __name__ == "__main__":
    sys.exit(main())
