#!/usr/bin/env python3
"""Writes the tables of codes in docs/REFUSALS.md from the table of the tools, tools/installed/cmsproof_tools/cures.py:

    python3 tools/refusals.py [--check]

--check writes nothing: its status is 1 if the page has another table than would be written.
"""
from __future__ import annotations

import sys
from pathlib import Path

TOP = Path(__file__).resolve().parent.parent
sys.path[:0] = [str(TOP / "tools" / "installed")]
from cmsproof_tools.cures import CODE, ROWS  # noqa: E402

PAGE = TOP / "docs" / "REFUSALS.md"
# A cure of more words stands once in the page: later rows name the code whose cure it is.
LONG = 7
HEAD = ("| Code | When, and who causes it | Cure |", "|---|---|---|")


def rows() -> list[tuple[str, str]]:
    """The section and the line of each row."""
    lines: list[tuple[str, str]] = []
    first: dict[str, str] = {}
    for row in ROWS:
        code = CODE.findall(row.codes)[0]
        said = first.setdefault(row.cure, code)
        cure = row.cure if said == code or len(row.cure.split()) <= LONG else f"as {said}"
        lines.append((row.section, f"| {row.codes} | {row.when} | {cure} |"))
    return lines


def tables(text: str) -> str:
    """The page with the rows of each section in its table, in the place of those that stand there."""
    lines, section, inside = [], "", False
    for line in text.splitlines():
        if line.startswith("## "):
            section = line.split()[1]
        inside = inside and line.startswith("|")
        if not inside:
            lines.append(line)
        if line == HEAD[0]:
            inside = True
            lines.append(HEAD[1])
            lines += [row for where, row in rows() if where == section]
    return "\n".join(lines) + "\n"


def main() -> int:
    """Writes the page, or compares it."""
    text = PAGE.read_text(encoding="utf-8")
    made = tables(text)
    if sys.argv[1:] == ["--check"]:
        return 0 if made == text else 1
    PAGE.write_text(made, encoding="utf-8")
    return 0


if __name__ == "__main__":
    sys.exit(main())
