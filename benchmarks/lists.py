#!/usr/bin/env python3
"""Measures how long `cmsproof` takes to read trust lists of 100,000 entries (`check`), and to read and write them (`migrate`), beside
`wc -l` and a few lines of Python that decode the last word of each line: `lists.py [PROGRAM]`. And how long `check` takes with an
answers list of 100,000 questions.

The file that is checked has a signer and an authority that no entry is of. The entries are all of `crates/cmsproof/data/authority.der`, a certificate of 847 octets. The questions have one key, and
tails and signatures of their own, of 77 and 256 octets; nothing in them is signed. Each row's commands run in turn, five
times, and the medians are printed, in seconds, process start included.
"""

from __future__ import annotations

import os
import random
import sys
import tempfile

from timing import TOP, medians

COUNT = 100_000
RUNS = 5
DATA = TOP / "crates" / "cmsproof" / "data"

DECODING = """
import sys
for line in open(sys.argv[1], "rb"):
    words = line.rstrip(b"\\n").split(b" ")
    if words[0] != b"cmsproof":
        bytes.fromhex(words[-1].decode())
"""


def trust_list(version, period):
    """A trust list of so many entries."""
    certificate = (DATA / "authority.der").read_bytes().hex()
    return f"cmsproof trust {version}\n" + f"signer {period}{certificate}\n" * COUNT


def answers_list():
    """An answers list of so many questions."""
    numbers = random.Random(5652)
    key = "30820122300d06092a864886f70d01010105000382010f00" + "ab" * 270
    algorithms = "300b0609608648016503040201 300d06092a864886f70d0101010500"
    lines = (f"{key} {algorithms} 4b30{numbers.randbytes(75).hex()} {numbers.randbytes(256).hex()}\n" for _ in range(COUNT))
    return "cmsproof answers 1\n" + "".join(lines)


def row(name, path, command):
    """Measures a command on a list, and prints its row."""
    # a check that refuses is one too
    times = medians([command, ["wc", "-l", path], [sys.executable, "-c", DECODING, path]], RUNS, (0, 1))
    print(f"{name:<20} {os.path.getsize(path):>11} " + " ".join(f"{taken:>9.2f}" for taken in times))


def main():
    """Measures all."""
    program = os.path.abspath(sys.argv[1] if len(sys.argv) > 1 else "./cmsproof")
    print(f"{'list':<20} {'octets':>11} {'cmsproof':>9} {'wc -l':>9} {'Python':>9}  seconds")
    with tempfile.TemporaryDirectory() as folder:
        path, written, answers = (os.path.join(folder, name) for name in ("list", "written", "answers"))
        signed = DATA / "stamped.p7s"
        with open(answers, "w") as file:
            file.write("cmsproof answers 1\n")
        for version, period in ((1, ""), (2, "20240115100000Z 20340115095959.5Z ")):
            with open(path, "w") as file:
                file.write(trust_list(version, period))
            row(f"trust {version}, check", path, [program, "check", "--trust", path, "--answers", answers, signed])
            row(f"trust {version}, migrate", path, [program, "migrate", path, written])
        with open(path, "w") as file:
            file.write("cmsproof trust 2\n")
        with open(answers, "w") as file:
            file.write(answers_list())
        row("answers, check", answers, [program, "check", "--trust", path, "--answers", answers, signed])


if __name__ == "__main__":
    main()
