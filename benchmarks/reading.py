#!/usr/bin/env python3
"""Measures how long `cmsproof show signed` takes beside OpenSSL on the same files: `reading.py [PROGRAM]`.

For 1, 300, 3,000 and 30,000 signers it makes a file (tools/samples/many_signers.py), runs each command on it in turn, and prints the
median of the times of the runs, process start included.
"""

from __future__ import annotations

import os
import sys
import tempfile

from timing import medians

from samples.many_signers import many_signed

RUNS = 7


def main():
    """Measures all."""
    program = os.path.abspath(sys.argv[1] if len(sys.argv) > 1 else "./cmsproof")
    print(f"{'signers':>7} {'octets':>10} {'cmsproof':>9} {'cms':>9} {'asn1parse':>9}  milliseconds")
    with tempfile.TemporaryDirectory() as folder:
        path, copy = os.path.join(folder, "many.p7s"), os.path.join(folder, "copy.p7s")
        for count in (1, 300, 3000, 30000):
            octets = many_signed(count)
            with open(path, "wb") as file:
                file.write(octets)
            ours, cms, asn1parse = medians(
                [
                    [program, "show", "signed", path],
                    ["openssl", "cms", "-cmsout", "-inform", "DER", "-in", path] + ["-outform", "DER", "-out", copy],
                    ["openssl", "asn1parse", "-inform", "DER", "-in", path],
                ],
                RUNS,
            )
            print(
                f"{count:>7} {len(octets):>10} {ours * 1000:>9.1f} {cms * 1000:>9.1f} {asn1parse * 1000:>9.1f}"
                f"  ratio to cms {ours / cms:.2f}, to asn1parse {ours / asn1parse:.3f}"
            )


if __name__ == "__main__":
    main()
