#!/usr/bin/env python3
"""Measures how fast `cmsproof fit --content` reads and hashes, beside `sha256sum` and its like and `openssl dgst`:
`hashing.py [PROGRAM [ALGORITHM ..]]`, by default by each algorithm. SHA-512/224 and SHA-512/256 have no command of coreutils.

Makes a content of 256 MiB of random octets and detached SignedData about it (RFC 5652, DER), one with a signer for each
digest algorithm, one with a signer for each of the seven, and one with five signers of the same algorithm. Each row's
commands run in turn, seven times, and the medians are printed, in MB a second, process start included.
"""

from __future__ import annotations

import hashlib
import os
import shutil
import sys
import tempfile

from timing import medians

from oracle.der import number, sequence
from oracle.identifiers import DATA
from samples.building import NAME_A, Signer, digest_alg, digest_attribute, signed_data, type_attribute

SIZE = 256 * 1024 * 1024
PIECE = 1024 * 1024

RUNS = 7
# the names of the command openssl; hashlib has them with a low line
ALGORITHMS = ["sha1", "sha224", "sha256", "sha384", "sha512", "sha512-224", "sha512-256"]


def algorithm(name):
    """The AlgorithmIdentifier of a digest."""
    return digest_alg(name.replace("-", "_"))


def detached(names, digests):
    """A SignedData without content, with a signer for each of these algorithms."""
    signers = []
    for at, name in enumerate(names, 1):
        attributes = [type_attribute(DATA), digest_attribute(digests[name])]
        signers.append(Signer(sequence(NAME_A, number(at)), attributes, b"abc", algorithm(name)).stamped())
    return signed_data(signers, None, algorithms=b"".join(map(algorithm, names)))


def make_content(path):
    """Writes the content, and gives its digest by each algorithm."""
    hashers = {name: hashlib.new(name.replace("-", "_")) for name in ALGORITHMS}
    with open(path, "wb") as file:
        for _ in range(SIZE // PIECE):
            piece = os.urandom(PIECE)
            file.write(piece)
            for hasher in hashers.values():
                hasher.update(piece)
    return {name: hasher.digest() for name, hasher in hashers.items()}


def rates(times):
    """The megabytes that are hashed in a second."""
    return " ".join(f"{SIZE / 1e6 / taken:>9.1f}" for taken in times)


def main():
    """Measures all."""
    program = os.path.abspath(sys.argv[1] if len(sys.argv) > 1 else "./cmsproof")
    alone = sys.argv[2:] or ALGORITHMS
    print(f"{'signers':>10} {'cmsproof':>9} {'coreutils':>9} {'openssl':>9}  MB/s")
    with tempfile.TemporaryDirectory() as folder:
        content, signed = os.path.join(folder, "content"), os.path.join(folder, "signed.p7s")
        digests = make_content(content)
        fit = [program, "fit", "--sha1", "--content", content, signed]
        for name in alone:
            with open(signed, "wb") as file:
                file.write(detached([name], digests))
            openssl = ["openssl", "dgst", f"-{name}", content]
            if shutil.which(f"{name}sum") is None:
                times = medians([fit, openssl], RUNS)
                print(f"{name:>10} {rates(times[:1])} {'':>9} {rates(times[1:])}")
                continue
            times = medians([fit, [f"{name}sum", content], openssl], RUNS)
            print(f"{name:>10} {rates(times)}  time over {name}sum {times[0] / times[1]:.3f}")
        for label, names in (("all seven", ALGORITHMS), ("5 x sha256", ["sha256"] * 5)):
            with open(signed, "wb") as file:
                file.write(detached(names, digests))
            print(f"{label:>10} {rates(medians([fit], RUNS))}")


if __name__ == "__main__":
    main()
