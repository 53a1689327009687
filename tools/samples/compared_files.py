#!/usr/bin/env python3
"""Prints files of which two are compared, as crates/vectors_run/data/rules/rules.blobs has them by the same names. They are built
of the parts of building.py.

    python3 tools/samples/compared_files.py
"""
from __future__ import annotations

import sys
from pathlib import Path

sys.path.insert(0, str(Path(__file__).resolve().parent.parent))
from oracle.der import element, number, sequence  # noqa: E402
from samples.building import NAME_A, Signer, Token, attribute, signed_data, signer, stamped, stamps  # noqa: E402

PLAIN, SECOND, ID = signer(), signer(6, b"abd"), sequence(NAME_A, number(5))
UNSIGNED = Signer(ID, [], b"abc")
FILES = [
    ("file", "The content `abc`, and one signer.", signed_data([PLAIN.stamped()])),
    ("file_stamped", "The same with a token.", stamped(Token())),
    (
        "file_by_two_stamped",
        "The same content with two signers, both with a token.",
        signed_data([PLAIN.stamped(stamps(Token())), SECOND.stamped(stamps(Token("20240115110000Z", b"abd")))]),
    ),
    ("file_of_abd", "The content `abd`, and one signer.", signed_data([signer(content=b"abd").stamped()], b"abd")),
    (
        "file_by_sha_512",
        "The content `abc`, and one signer, whose digest is by SHA-512.",
        signed_data([signer(alg="sha512").stamped()]),
    ),
    ("file_by_sha_1", "The same by SHA-1.", signed_data([signer(alg="sha1").stamped()])),
    (
        "file_with_more",
        "A signer with one attribute more.",
        signed_data([signer(more=[attribute("2.999.9", element(5))]).stamped()]),
    ),
    ("file_detached", "The content is not in the file.", signed_data([PLAIN.stamped()], None)),
    ("file_old_digest", "The content `abd`, and a signer with the digest of `abc`.", signed_data([PLAIN.stamped()], b"abd")),
    ("file_unsigned", "A signer without signed attributes.", signed_data([UNSIGNED.stamped()])),
    ("file_unsigned_detached", "The same without the content.", signed_data([UNSIGNED.stamped()], None)),
    (
        "file_two_unlike",
        "Two signers, the second of which has no signed attributes.",
        signed_data([PLAIN.stamped(), UNSIGNED.stamped()]),
    ),
    ("file_empty", "A content of no octet.", signed_data([signer(content=b"").stamped()], b"")),
]


def main():
    for name, about, octets in FILES:
        print("# %s" % about)
        digits = octets.hex()
        print("%s =" % name, *(digits[at : at + 128] for at in range(0, len(digits), 128)), sep="\n ")


if __name__ == "__main__":
    main()
