#!/usr/bin/env python3
"""beside.py CHANGED ANSWERS EVERY FILE ..: the library beside the command on changed copies of real files.

CHANGED, the program of changed.c, asks the library about each change of each FILE and keeps every EVERY-th changed file; the command
./cmsproof is asked about those that it keeps. Each line must be the same. It prints how many verdicts there were and how many were
compared, and the status is 1 at the first that differs.
"""
from __future__ import annotations

import subprocess
import sys
import tempfile
from pathlib import Path

TOP = Path(__file__).resolve().parent.parent.parent.parent
REAL = TOP / "data" / "real"


def told(answers: str, file: Path, content: list[str]) -> str:
    """What the command says of a file."""
    words = [TOP / "cmsproof", "check", "--trust", REAL / "trust.txt", "--answers", answers, *content, file]
    return subprocess.run(list(map(str, words)), capture_output=True, text=True, check=False).stdout


def compared(changed: str, answers: str, every: str, file: str) -> int:
    """How many changed copies of a file the command was asked about. Ends the program if a line differs."""
    content = ["--content", str(REAL / "blob.bin")] if "detached" in Path(file).name else []
    with tempfile.TemporaryDirectory() as folder:
        words = [changed, REAL / "trust.txt", answers, REAL / "blob.bin", folder, every, file]
        done = subprocess.run(list(map(str, words)), stdout=subprocess.PIPE, text=True, check=False)
        if done.returncode != 0:
            sys.exit(f"{file}: the library failed a test, with status {done.returncode}")
        *kept, verdicts = done.stdout.splitlines()
        for name, _, line in (text.partition(": ") for text in kept):
            said = told(answers, Path(folder, name), content)
            if said != line + "\n":
                sys.exit(f"{file}, changed as {name}: the library says {line!r}, the command {said!r}")
    print(f"{Path(file).name}: {verdicts}; {len(kept)} lines are the command's")
    return len(kept)


def main() -> None:
    """Compares for each file."""
    changed, answers, every, *files = sys.argv[1:]
    if sum(compared(changed, answers, every, file) for file in files) == 0:
        sys.exit("beside.py: nothing was compared")


if __name__ == "__main__":
    main()
