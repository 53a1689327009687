#!/usr/bin/env python3
"""Times and weighs `check` and `questions` on large files: `python3 benchmarks/streaming.py [PROGRAM] [MIB ..]`.

It makes, in a temporary folder, an authority and a signer with openssl, and files of one signer (SHA-256, ECDSA) with a token of
`openssl ts` and a content of 1, 512 and 2,560 MiB (or as many as are named), attached and detached. Then, in one run and alternating,
the median time of three and the greatest resident memory of

  check attached   cmsproof check, of the file with the content in it
  check detached   cmsproof check --content, of the file without it
  questions        cmsproof questions, of the file with the content in it
  cms              openssl cms -verify of the attached file, which reads no token and fails where the content is too large for it

PROGRAM is ./cmsproof by default. GNU time must be at /usr/bin/time. The folder is made where TMPDIR says; it needs twice the size of
the greatest content.
"""
from __future__ import annotations

import hashlib
import statistics
import sys
import tempfile
from pathlib import Path

from timing import timed

from oracle.der import OCTETS, SEQUENCE, SET, element, header, number, oid
from oracle.identifiers import DATA, SIGNED_DATA
from samples import authority
from samples.building import digest_alg

PIECE = hashlib.shake_256(b"archive").digest(1 << 20)


def content_digest(mebibytes):
    """The SHA-256 of a content of so many MiB."""
    digest = hashlib.sha256()
    for _ in range(mebibytes):
        digest.update(PIECE)
    return digest.digest()


def write_file(path, certificate, info, mebibytes):
    """The file with a content of so many MiB, or with none, written without holding it in memory."""
    front = number(1) + element(SET, digest_alg())
    behind = element(0xA0, certificate) + element(SET, info)
    size, kind = mebibytes << 20, oid(DATA)
    holders = [header(OCTETS, size)] if mebibytes else []
    if mebibytes:
        holders.insert(0, header(0xA0, size + len(holders[0])))
    held = sum(map(len, holders)) + size
    encapsulated = header(SEQUENCE, len(kind) + held) + kind + b"".join(holders)
    inside = len(front) + len(encapsulated) + size + len(behind)
    data = header(SEQUENCE, inside)
    explicit = header(0xA0, len(data) + inside)
    outer = header(SEQUENCE, len(oid(SIGNED_DATA)) + len(explicit) + len(data) + inside)
    with path.open("wb") as out:
        out.write(outer + oid(SIGNED_DATA) + explicit + data + front + encapsulated)
        for _ in range(mebibytes):
            out.write(PIECE)
        out.write(behind)


def write_content(path, mebibytes):
    """That content."""
    with path.open("wb") as out:
        for _ in range(mebibytes):
            out.write(PIECE)


def weighed(words):
    """Seconds, KiB of resident memory, and whether the command accepted."""
    seconds, done = timed(["/usr/bin/time", "-f", "%M", *words], range(256))
    return seconds, int(done.stderr.split()[-1]), done.returncode == 0


def lists(folder, program, path):
    """A trust list and the answers to all questions of a file."""
    signer, tsa = (authority.certificate(folder, name).hex() for name in ("signer", "tsa"))
    (folder / "trust").write_text(f"cmsproof trust 1\nsigner {signer}\ntsa {tsa}\n")
    _, asked = timed([program, "questions", "--trust", folder / "trust", path])
    (folder / "answers").write_bytes(asked.stdout.replace(b"cmsproof questions 1", b"cmsproof answers 1"))


def measure(folder, program, mebibytes):
    """Measures the ways for a content of so many MiB."""
    attached, detached, content = folder / "attached.p7s", folder / "detached.p7s", folder / "content"
    certificate = authority.certificate(folder, "signer")
    info = authority.signer_info(folder, certificate, content_digest(mebibytes))
    write_file(attached, certificate, info, mebibytes)
    write_file(detached, certificate, info, 0)
    write_content(content, mebibytes)
    lists(folder, program, detached)
    check = [program, "check", "--trust", folder / "trust", "--answers", folder / "answers"]
    ways = {
        "check attached": [*check, attached],
        "check detached": [*check, "--content", content, detached],
        "questions": [program, "questions", "--trust", folder / "trust", attached],
        "cms": ["openssl", "cms", "-verify", "-noverify", "-binary", "-inform", "DER", "-in", attached, "-out", "/dev/null"],
    }
    runs = {name: [] for name in ways}
    for _ in range(3):
        for name, words in ways.items():
            runs[name].append(weighed(words))
    print(f"{mebibytes} MiB")
    for name, done in runs.items():
        seconds = statistics.median(run[0] for run in done)
        memory = max(run[1] for run in done)
        print(f"  {name:16} {seconds:8.3f} s  {memory:9,} KiB  {'accepted' if all(run[2] for run in done) else 'refused'}")


def main():
    """Measures all."""
    program = str(Path(sys.argv[1] if len(sys.argv) > 1 else "cmsproof").resolve())
    sizes = [int(word) for word in sys.argv[2:]] or [1, 512, 2560]
    with tempfile.TemporaryDirectory() as temporary:
        folder = Path(temporary)
        authority.make_authorities(folder)
        for size in sizes:
            measure(folder, program, size)


if __name__ == "__main__":
    main()
