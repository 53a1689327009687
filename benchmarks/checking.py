#!/usr/bin/env python3
"""Times `check` beside openssl: `python3 benchmarks/checking.py [PROGRAM] [SIGNERS ..]`.

It makes, in a temporary folder, an authority and a signer with openssl, and files of some 3,000 octets of content with 1, 300 and
3,000 signers (or as many as are named): each signer has a signature of its own (ECDSA, so no two are the same), and on it a
time-stamp token of its own, made by `openssl ts`. Then, in one run and alternating, the median of five of

  check          cmsproof check, with a trust list of 2 entries and an answers list of all questions
  check 2000     the same with a trust list of 2,000 entries
  cms            openssl cms -verify, which reads no token
  cms and ts     the same, and one openssl ts -verify for each token (once, for files of more than one signer)

PROGRAM is ./cmsproof by default.
"""
from __future__ import annotations

import hashlib
import sys
import tempfile
from pathlib import Path

from timing import medians, timed

from samples import authority
from samples.building import signed_data

CONTENT = b"archive " * 375


def make_file(folder, signers, path):
    """A file of so many signers, each with a signature and a token of its own."""
    certificate, digest = authority.certificate(folder, "signer"), hashlib.sha256(CONTENT).digest()
    infos = [authority.signer_info(folder, certificate, digest) for _ in range(signers)]
    path.write_bytes(signed_data(infos, CONTENT, certificates=certificate))


def measure(folder, program, signers):
    """Times the ways for a file of so many signers."""
    path = folder / f"{signers}.p7s"
    make_file(folder, signers, path)
    signer, tsa = (authority.certificate(folder, name).hex() for name in ("signer", "tsa"))
    (folder / "two").write_text(f"cmsproof trust 1\nsigner {signer}\ntsa {tsa}\n")
    (folder / "many").write_text(
        "cmsproof trust 1\n" + f"signer {tsa}\n" * 999 + f"tsa {signer}\n" * 999 + f"signer {signer}\ntsa {tsa}\n"
    )
    _, asked = timed([program, "questions", "--trust", folder / "two", path])
    (folder / "answers").write_bytes(asked.stdout.replace(b"cmsproof questions 1", b"cmsproof answers 1"))
    ways = {
        "check": [program, "check", "--trust", folder / "two", "--answers", folder / "answers", path],
        "check 2000": [program, "check", "--trust", folder / "many", "--answers", folder / "answers", path],
        "cms": ["openssl", "cms", "-verify", "-noverify", "-binary", "-inform", "DER", "-in", path, "-out", "/dev/null"],
    }
    times = dict(zip(ways, medians(list(ways.values()), 5)))
    # the tokens hold no certificate
    words = ["-CAfile", folder / "tsa.pem", "-untrusted", folder / "tsa.pem"]
    one, _ = timed(["openssl", "ts", "-verify", "-data", folder / "signature", "-in", folder / "token", "-token_in", *words])
    row = "  ".join(f"{name} {m:.3f} ({m / times['cms']:.2f})" for name, m in times.items())
    print(
        f"{signers} signers, {path.stat().st_size} octets: {row}  cms and ts {times['cms'] + signers * one:.3f}, one ts {one:.4f}"
    )


def main():
    """Times all."""
    program = str(Path(sys.argv[1] if len(sys.argv) > 1 else "cmsproof").resolve())
    counts = [int(word) for word in sys.argv[2:]] or [1, 300, 3000]
    with tempfile.TemporaryDirectory() as temporary:
        folder = Path(temporary)
        authority.make_authorities(folder)
        for count in counts:
            measure(folder, program, count)


if __name__ == "__main__":
    main()
