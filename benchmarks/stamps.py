#!/usr/bin/env python3
"""Times `stamp check` beside openssl: `python3 benchmarks/stamps.py [PROGRAM] [MIB ..]`.

It makes, in a temporary folder, an authority with openssl, files of random octets of 64 MiB (or as many as are named), and for each
by `openssl ts` a response with a token on it by SHA-256 (ECDSA), which has no certificate. Then, in one run and alternating, the
median of seven of

  stamp check      cmsproof stamp check of the response, with a trust list of 1 entry and the answer to its question
  token            the same of the token by itself
  pipe             the same of the response, with the file through a pipe, as `- < <(cat FILE)`
  ts               openssl ts -verify of the response over the same file, which checks the signature too
  verify and check cmsproof stamp questions, cmsproof-verify and cmsproof stamp check: all that the first needs
  dgst             openssl dgst -sha256 of the file, the digest alone

PROGRAM is ./cmsproof by default; cmsproof-verify is the one of tools/installed.
"""
from __future__ import annotations

import os
import sys
import tempfile
from pathlib import Path

from timing import TOP, medians, timed

from samples import authority

RUNS = 7
# all that is done of a folder, with a program, a response, a file and cmsproof-verify
WHOLE = """cd "$0"; "$1" stamp questions --trust trust "$2" > asked; "$4" asked said
"$1" stamp check --trust trust --answers said "$2" "$3\""""


def make_stamp(folder, mebibytes):
    """The file, a response with a token on it, and the token."""
    path = folder / f"{mebibytes}.data"
    with path.open("wb") as out:
        for _ in range(mebibytes):
            out.write(os.urandom(1 << 20))
    request, response, token = (folder / f"{mebibytes}.{ending}" for ending in ("tsq", "tsr", "tok"))
    authority.openssl(folder, "ts", "-query", "-data", path, "-sha256", "-out", request)
    authority.openssl(folder, "ts", "-reply", "-config", "tsa.cnf", "-queryfile", request, "-out", response)
    authority.openssl(folder, "ts", "-reply", "-config", "tsa.cnf", "-in", response, "-token_out", "-out", token)
    return path, response, token


def answers(folder, program, response):
    """The answers to the questions of the response; the signature must hold."""
    asked, answered = folder / "questions", folder / "answers"
    _, done = timed([program, "stamp", "questions", "--trust", folder / "trust", response])
    asked.write_bytes(done.stdout)
    timed([TOP / "tools" / "installed" / "cmsproof-verify", asked, answered])
    if len(answered.read_text().splitlines()) != 2:
        sys.exit("the signature of the token does not hold")
    return answered


def measure(folder, program, mebibytes):
    """Times the ways for a file of so many MiB."""
    path, response, token = make_stamp(folder, mebibytes)
    check = [program, "stamp", "check", "--trust", folder / "trust", "--answers", answers(folder, program, response)]
    verify = TOP / "tools" / "installed" / "cmsproof-verify"
    ways = {
        "stamp check": [*check, response, path],
        "token": [*check, token, path],
        "pipe": ["sh", "-c", 'cat "$0" | exec "$@" -', path, *check, response],
        "ts": ["openssl", "ts", "-verify", "-data", path, "-in", response, "-CAfile", folder / "tsa.pem"],
        "verify and check": ["sh", "-ec", WHOLE, folder, program, response, path, verify],
        "dgst": ["openssl", "dgst", "-sha256", path],
    }
    ways["ts"] += ["-untrusted", folder / "tsa.pem"]
    times = dict(zip(ways, medians(list(ways.values()), RUNS)))
    row = "  ".join(f"{name} {taken:.3f} ({taken / times['ts']:.2f})" for name, taken in times.items())
    print(f"{mebibytes} MiB: {row}  {mebibytes * 1.048576 / times['stamp check']:.0f} MB a second")


def main():
    """Times all."""
    program = str(Path(sys.argv[1] if len(sys.argv) > 1 else "cmsproof").resolve())
    sizes = [int(word) for word in sys.argv[2:]] or [64]
    with tempfile.TemporaryDirectory() as temporary:
        folder = Path(temporary)
        authority.make_authorities(folder)
        tsa = authority.certificate(folder, "tsa").hex()
        (folder / "trust").write_text(f"cmsproof trust 1\ntsa {tsa}\n")
        for size in sizes:
            measure(folder, program, size)


if __name__ == "__main__":
    main()
