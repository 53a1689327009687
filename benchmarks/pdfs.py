#!/usr/bin/env python3
"""Times cmsproof-archive on PDF beside poppler's pdfsig: `python3 benchmarks/pdfs.py [--files N] [--jobs N]`.

It makes, in a temporary folder, N files (1,000 by default) of some 100,000 octets, each with one signature (ECDSA, SHA-256) and a
time-stamp token, and times in one run, twice in turn,

  cmsproof-archive --jobs N    all of them, with one job (or as many as are named)
  pdfsig -nocert               one file after the other, in a loop of the shell: it takes one file. It reads no token, and -nocert
                               has it leave the certificate's path out
"""
from __future__ import annotations

import argparse
import os
import sys
import tempfile
from pathlib import Path

from timing import TOP, timed

sys.path.insert(0, str(TOP / "tools"))
from samples import containers  # noqa: E402

ARCHIVE = TOP / "tools" / "installed" / "cmsproof-archive"
ROOM = 100_000


def measured(words):
    """The seconds on the clock that a command takes, those of processors, which other work on the machine changes less, and how it
    ended."""
    before = os.times()
    seconds, done = timed(words)
    after = os.times()
    return seconds, sum(after[2:4]) - sum(before[2:4]), done


def main():
    """Reads the words and times both."""
    parser = argparse.ArgumentParser()
    parser.add_argument("--files", default=1000, type=int)
    parser.add_argument("--jobs", default=1, type=int)
    given = parser.parse_args()
    with tempfile.TemporaryDirectory() as temporary:
        folder = Path(temporary)
        maker = containers.Maker(folder, TOP / "cmsproof")
        text = containers.TEXT + b" " * (ROOM - len(containers.TEXT))
        pdf = containers.pdf_signed(maker.signed, text=text, room=4000)
        (folder / "files").mkdir()
        names = [folder / "files" / f"{number}.pdf" for number in range(given.files)]
        for name in names:
            name.write_bytes(pdf)
        print(f"{given.files} files of {len(pdf)} octets")
        for _ in range(2):
            words = [sys.executable, ARCHIVE, "--jobs", given.jobs, "--trust", folder / "trust.txt", folder / "files"]
            ours, busy, done = measured(words)
            if done.stdout.count(b": accepted ") != given.files:
                raise SystemExit("a file was not accepted")
            theirs, their_busy, done = measured(
                ["sh", "-c", 'for file; do pdfsig -nocert "$file" || exit 1; done', "sh", *names]
            )
            if done.stdout.count(b"Signature is Valid") != given.files:
                raise SystemExit("pdfsig says something else")
            print(f"clock       cmsproof-archive {ours:6.1f} s   pdfsig {theirs:6.1f} s   ratio {ours / theirs:.2f}")
            print(
                f"processors  cmsproof-archive {busy:6.1f} s   pdfsig {their_busy:6.1f} s   ratio {busy / their_busy:.2f}",
                flush=True,
            )


if __name__ == "__main__":
    main()
