#!/usr/bin/env python3
"""Times `cmsproof-archive` with issuers beside the same with a list:

    python3 benchmarks/issuing.py [--files N] [--runs N] [--signers N]

It makes N files (1,000 by default), each signed by one of thirty signers below one issuer and stamped by one authority at a time of
its own, and checks them in turn under a list of all signers and under their issuers, which makes the list first. One job each. A
line has the medians of the runs, and one the least, which other processes disturb less: processor seconds, of OpenSSL too, and seconds
on the clock; behind both are the ratios.
"""
from __future__ import annotations

import argparse
import os
import resource
import statistics
import sys
import tempfile
from pathlib import Path

from timing import TOP, timed

from samples import hierarchy

TOOL = TOP / "tools" / "installed" / "cmsproof-archive"


def make(folder, count, signers):
    """Makes the files, their issuers and the list: the words of both commands."""
    root, clocks = hierarchy.root(), hierarchy.root("Clocks")
    sub, clock = hierarchy.issue("Sub", root, hierarchy.authority(0)), hierarchy.issue("Clock", clocks, [hierarchy.STAMPING])
    people = [hierarchy.issue(f"Person {number}", sub) for number in range(signers)]
    for number in range(count):
        who = people[number % signers]
        at = f"202405{1 + number % 28:02}{number % 24:02}{number % 60:02}{number * 7 % 60:02}Z"
        (folder / f"{number}.p7s").write_bytes(hierarchy.signed(who, [(clock, at)], [who.octets, sub.octets]))
    (folder / "names").write_text("".join(f"{folder}/{number}.p7s\n" for number in range(count)))
    entries = [("tsa", clock), *(("signer", who) for who in people)]
    listed = "".join(f"{role} - - {who.octets.hex()}\n" for role, who in entries)
    (folder / "trust.txt").write_text("cmsproof trust 2\n" + listed)
    for name, who in (("root", root), ("clocks", clocks)):
        (folder / name).write_bytes(who.octets)
    words = [sys.executable, TOOL, "--jobs", "1", "--files-from", folder / "names"]
    return [
        [*words, "--trust", folder / "trust.txt"],
        [*words, "--issuer", folder / "root", "--tsa-issuer", folder / "clocks"],
    ]


def costs(words, count):
    """What a command takes: processor seconds, and seconds on the clock."""
    before = resource.getrusage(resource.RUSAGE_CHILDREN)
    clock, done = timed(words)
    after = resource.getrusage(resource.RUSAGE_CHILDREN)
    if done.stdout.count(b": accepted ") != count:
        raise SystemExit("a file was not accepted")
    return after.ru_utime + after.ru_stime - before.ru_utime - before.ru_stime, clock


def main():
    """Reads the words and times both."""
    parser = argparse.ArgumentParser()
    parser.add_argument("--files", default=1000, type=int)
    parser.add_argument("--runs", default=5, type=int)
    parser.add_argument("--signers", default=30, type=int)
    given = parser.parse_args()
    with tempfile.TemporaryDirectory() as folder:
        commands = make(Path(folder), given.files, given.signers)
        runs = [[costs(words, given.files) for words in commands] for _ in range(given.runs)]
    for name, of in (("median", statistics.median), ("least", min)):
        found = [[of(run[which][kind] for run in runs) for kind in (0, 1)] for which in (0, 1)]
        for what, (processor, clock) in zip(("under a list", "with issuers"), found):
            print(f"{name:7} {what:14} {given.files:6} files  {processor:6.2f} s of processor  {clock:6.2f} s on the clock")
        ratios = [found[1][kind] / found[0][kind] for kind in (0, 1)]
        print(
            f"{name:7} times          {ratios[0]:.2f} of processor, {ratios[1]:.2f} on the clock; load {os.getloadavg()[0]:.0f}"
        )


if __name__ == "__main__":
    main()
