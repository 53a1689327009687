#!/usr/bin/env python3
"""Writes a SignedData of many signers (RFC 5652, DER).

    python3 tools/samples/many_signers.py COUNT FILE

Each signer has a serial number of its own, two signed attributes, a signature of three octets and an unsigned attribute of the
type id-aa-timeStampToken with a value of some 330 octets, some 480 octets in all. Nothing in it is signed: the file serves to
measure reading.
"""
from __future__ import annotations

import sys
from pathlib import Path

sys.path.insert(0, str(Path(__file__).resolve().parent.parent))
from oracle.der import number, sequence  # noqa: E402
from samples.building import NAME_A, signed_data, signer, stamp_attribute  # noqa: E402

# in the place of a token
VALUE = sequence(bytes(326))


def many_signed(count):
    """A SignedData of so many signers."""
    return signed_data(signer(sid=sequence(NAME_A, number(at))).stamped(stamp_attribute(VALUE)) for at in range(1, count + 1))


def main():
    """Writes the file."""
    count, path = int(sys.argv[1]), sys.argv[2]
    Path(path).write_bytes(many_signed(count))


if __name__ == "__main__":
    main()
