#!/usr/bin/env python3
"""How small a stack may be with which each command of the built program runs to its end. Prints for each command the greatest stack,
in steps of 4 KiB, with which none of 20 runs says what it says with 8 MiB, and the least with which all do. Between these the system
decides, which puts the stack at another address in each run. The environment is empty: its text and the words are on the stack, too.
Then it prints both for each row of ROWS; docs/RELIABILITY.md has the second.

    python3 tools/trying/stacks.py [PROGRAM] [--runs N] [--only WORD ..] [--most KIB]

With --only those commands alone that begin with such a word; with --most the status is 1 if a command needs more than that.
"""
from __future__ import annotations

import argparse
import os
import resource
import shutil
import subprocess
import sys
import tempfile
from pathlib import Path

sys.path.insert(0, str(Path(__file__).resolve().parent.parent))
from trying import hostile_devices, hostile_sizes  # noqa: E402
from trying.failing import write_long  # noqa: E402
from trying.hostile_inputs import CHECK, QUESTIONS, STAMP_CHECK, STAMP_QUESTIONS, write  # noqa: E402
from trying.record_inputs import EVIDENCE_CHECK, EVIDENCE_QUESTIONS, SAID  # noqa: E402

STEP, MOST = 4, 1024
NAMES = ["f%03d" % number for number in range(256)]
PIPE = "/dev/stdin"
# the row of the table, and its commands
ROWS = {
    "`--version`, `--help`, words that are none; `fit`": [
        ["--version"],
        ["--help"],
        ["fit", "--frob"],
        ["fit", "missing"],
        ["fit", "file"],
        ["fit", "file", "unstamped"],
    ],
    "`fit --content`": [["fit", "--content", "content", "detached"]],
    "`show`, `cert`, `compare`, `match`": [
        ["show", "signed", "file"],
        ["show", "request", "request"],
        ["show", "response", "response"],
        ["show", "tst", "stamp"],
        ["show", "evidence", "record"],
        ["cert", "signer"],
        ["compare", "unstamped", "file"],
        ["match", "request", "response"],
    ],
    "`request`, `attach`, `migrate`, `match` with OUT": [words for words, _ in hostile_devices.MAKING],
    "`questions` of one file, also through a pipe": [QUESTIONS + [name] for name in ("file", "signers", "cut", PIPE)],
    "`questions` of two files and of 256": [QUESTIONS + ["file", "unstamped"], QUESTIONS + NAMES],
    "`check` of one file, also through a pipe": [CHECK + [name] for name in ("file", "signers", "cut", PIPE)],
    "`check` of two files and of 256": [CHECK + ["file", "unstamped"], CHECK + NAMES],
    "`stamp check`, also of data through a pipe": [
        STAMP_CHECK + words for words in (["token", "content"], ["response", "content"], ["token", PIPE])
    ],
    "`stamp questions` of one file and of 256": [STAMP_QUESTIONS + ["response"], STAMP_QUESTIONS + NAMES],
    "`evidence check`, also of data through a pipe and of a group of 256": [
        *(
            EVIDENCE_CHECK + words
            for words in ([*SAID, "of-old", "content"], ["tree", PIPE], ["--whole", "of-group", "content", "other"])
        ),
        EVIDENCE_CHECK + ["tree", *NAMES],
    ],
    "`evidence questions` of one record and of 256": [EVIDENCE_QUESTIONS + ["of-old"], EVIDENCE_QUESTIONS + NAMES],
    "`check --content`": [CHECK + ["--content", "content", name] for name in ("detached", "long-detached")],
}


class Stacks:
    def __init__(self, program, folder, runs):
        self.program, self.folder, self.runs = os.path.abspath(program), folder, runs
        self.piped = Path(folder, "file").read_bytes()

    def run(self, words, kib):
        """Exit status, both streams and the output file of a run with a stack of so many KiB."""

        def limit():
            resource.setrlimit(resource.RLIMIT_STACK, (kib << 10, kib << 10))

        out = Path(self.folder, "out")
        out.unlink(missing_ok=True)
        piped = {"input": self.piped} if words[-1] == PIPE else {"stdin": subprocess.DEVNULL}
        try:
            done = subprocess.run(
                [self.program, *words], cwd=self.folder, capture_output=True, env={}, preexec_fn=limit, timeout=60, **piped
            )
        except (OSError, subprocess.SubprocessError):
            return None
        return done.returncode, done.stdout, done.stderr, out.read_bytes() if out.exists() else None

    def least(self, good):
        """The least stack of which `good` holds, as it does of all greater ones."""
        low, high = 0, MOST // STEP
        while high - low > 1:
            middle = (low + high) // 2
            low, high = (low, middle) if good(middle * STEP) else (middle, high)
        return high * STEP

    def of(self, words):
        """The greatest stack with which no run says what it should, and the least with which all do."""
        whole = self.run(words, 8 << 10)
        runs = range(self.runs)
        always = self.least(lambda kib: all(self.run(words, kib) == whole for _ in runs))
        once = self.least(lambda kib: any(self.run(words, kib) == whole for _ in runs))
        return once - STEP, always


def named(words):
    """The words as the line has them: without the lists, and of many files their number."""
    text = " ".join(words if len(words) < 99 else [*words[: -len(NAMES)], "%d files" % len(NAMES)])
    return text.replace(" --trust trust", "").replace(" --answers answers", "")


def main():
    parser = argparse.ArgumentParser(description=__doc__, formatter_class=argparse.RawDescriptionHelpFormatter)
    parser.add_argument("program", nargs="?", default="./cmsproof")
    parser.add_argument("--runs", type=int, default=20)
    parser.add_argument("--only", nargs="*", default=[])
    parser.add_argument("--most", type=int)
    said = parser.parse_args()
    table = []
    with tempfile.TemporaryDirectory() as folder:
        write(folder)
        write_long(folder)
        Path(folder, "signers").write_bytes(hostile_sizes.signers(1_000))
        for name in NAMES:
            shutil.copyfile(os.path.join(folder, "file"), os.path.join(folder, name))
        stacks = Stacks(said.program, folder, said.runs)
        for row, commands in ROWS.items():
            chosen = [words for words in commands if not said.only or words[0] in said.only]
            found = [stacks.of(words) for words in chosen]
            for words, (none, always) in zip(chosen, found):
                print("%-50s none of %d with %4d KiB, all with %4d" % (named(words)[:50], said.runs, none, always), flush=True)
            if found:
                table.append((row, min(none for none, _ in found), max(always for _, always in found)))
    for row in table:
        print("| %s | %d | %d |" % row)
    greatest = max(always for *_, always in table)
    print("%d KiB are enough for all" % greatest)
    sys.exit(1 if said.most is not None and greatest > said.most else 0)


if __name__ == "__main__":
    main()
