#!/usr/bin/env python3
"""Times the tools that are installed beside the program:

    python3 benchmarks/archiving.py [--program FILE] [--files N] [--loop N] [--questions N] [--jobs N]

It copies data/real/rsa_attached_ts.p7s, a file of 7,010 octets with one signer and one time-stamp token, into N files (10,000
by default) of a temporary folder, and times in one run

  cmsproof-archive     all of them, with as many jobs as there are processors (or as are named), and with one
  openssl cms          `openssl cms -verify -noverify` in a loop of the shell, one file after the other (the first --loop files,
                       1,000 by default). It verifies the signer's signature, and reads no token
  cmsproof-verify      a text of 6,000 questions (--questions), which are those of the repository's real files in turn

Each line has the seconds on the clock, and how many files or questions that is a second.
"""
from __future__ import annotations

import argparse
import os
import shutil
import sys
import tempfile
from pathlib import Path

from timing import REAL, TOP, timed

TOOLS = TOP / "tools" / "installed"
FILE = REAL / "rsa_attached_ts.p7s"
STAMPED = ["rsa_attached_ts.p7s", "ec_attached_ts.p7s", "two_attached_ts.p7s", "gnutls_time_ts.p7s", "rsa_detached_ts.p7s"]


def shown(what, count, words):
    """Runs the words, and prints how long that took: what they print."""
    seconds, done = timed(words)
    print(f"{what:32} {count:6} in {seconds:6.1f} s  {count / seconds:7.0f} a second", flush=True)
    return done.stdout


def questions_text(program, count):
    """A questions text with this many lines."""
    asked = []
    for name in STAMPED:
        words = [program, "questions", "--trust", REAL / "trust.txt", REAL / name]
        asked += timed(words)[1].stdout.splitlines(keepends=True)[1:]
    return b"cmsproof questions 1\n" + b"".join(asked[n % len(asked)] for n in range(count))


def time_files(folder, count, loop, jobs):
    """Times the checks of the files, and openssl's."""
    names = [folder / f"{number}.p7s" for number in range(count)]
    for name in names:
        shutil.copyfile(FILE, name)
    (folder / "names").write_text("".join(f"{name}\n" for name in names))
    words = [sys.executable, TOOLS / "cmsproof-archive", "--trust", REAL / "trust.txt"]
    words += ["--files-from", folder / "names"]
    for workers in dict.fromkeys([jobs, 1]):
        said = shown(f"cmsproof-archive --jobs {workers}", count, [*words, "--jobs", workers])
        if said.count(b": accepted ") != count:
            raise SystemExit("a file was not accepted")
    verify = 'openssl cms -verify -noverify -binary -inform DER -in "$file" -out /dev/null 2> /dev/null'
    script = f"for file; do {verify} || exit 1; done"
    shown("openssl cms -verify in a loop", min(loop, count), ["sh", "-c", script, "sh", *names[:loop]])


def time_questions(program, folder, count):
    """Times the verification of a questions text."""
    (folder / "questions").write_bytes(questions_text(program, count))
    answers = shown("cmsproof-verify", count, [sys.executable, TOOLS / "cmsproof-verify", folder / "questions"])
    if answers.count(b"\n") != count + 1:
        raise SystemExit("a signature was not vouched for")


def main():
    """Reads the words and times all."""
    parser = argparse.ArgumentParser()
    parser.add_argument("--program", default=TOP / "cmsproof", type=Path)
    parser.add_argument("--files", default=10000, type=int)
    parser.add_argument("--loop", default=1000, type=int)
    parser.add_argument("--questions", default=6000, type=int)
    parser.add_argument("--jobs", default=len(os.sched_getaffinity(0)), type=int)
    given = parser.parse_args()
    program = given.program.resolve()
    print(f"{FILE.stat().st_size} octets a file, {given.jobs} jobs")
    with tempfile.TemporaryDirectory() as temporary:
        time_files(Path(temporary), given.files, given.loop, given.jobs)
        time_questions(program, Path(temporary), given.questions)


if __name__ == "__main__":
    main()
