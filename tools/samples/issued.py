#!/usr/bin/env python3
"""Makes the files on which docs/GUIDE.md shows trust by issuer, in the folder where it is run: the certificates of an office and of
who issues those of time authorities, a letter of Ada that is signed and stamped under them, and what both revoked.

    python3 tools/samples/issued.py

All moments are fixed, and the keys are new each time.
"""
from __future__ import annotations

import sys
from pathlib import Path

from cryptography import x509
from cryptography.hazmat.primitives.serialization import Encoding

sys.path.insert(0, str(Path(__file__).resolve().parent.parent))
from oracle.identifiers import DATA  # noqa: E402
from samples import hierarchy  # noqa: E402
from samples.building import digest_attribute, names_2, sha, signed_data, stamp_attribute, type_attribute  # noqa: E402

LETTER = b"Dear archive,\nthe house on the hill is sold.\n"
STAMPED_AT = "20261125204538Z"
NO_ISSUER = x509.BasicConstraints(False, None), True
BEFORE = {"this": "2026-11-26", "next": "2026-12-26"}
AFTER = {"this": "2026-12-04", "next": "2027-01-03"}
LOST = "2026-12-03 09:30:00", "keyCompromise", None


def letter_of(who, clock):
    """The letter, signed under a certificate that the signed attributes name, and stamped by an authority."""
    signer = hierarchy.signed_by(who, [type_attribute(DATA), digest_attribute(sha(LETTER)), names_2(sha(who.octets))])
    stamp = stamp_attribute(hierarchy.token(clock, signer.signature, STAMPED_AT))
    return signed_data([signer.stamped(stamp)], LETTER, DATA, who.octets)


def main():
    """Makes office.pem, times.pem, ada.p7s, office.crl and times.crl, and later.crl, in which the office revoked Ada's certificate."""
    office, times = hierarchy.root("Office"), hierarchy.root("Times")
    signs = [NO_ISSUER, hierarchy.usage("digital_signature")]
    ada = hierarchy.issue("Ada", office, signs, first="2026-01-01", last="2028-01-01")
    clock = hierarchy.issue("Clock", times, [*signs, hierarchy.STAMPING], first="2025-01-01", last="2035-01-01")
    files = {
        "office.pem": office.certificate.public_bytes(Encoding.PEM),
        "times.pem": times.certificate.public_bytes(Encoding.PEM),
        "ada.p7s": letter_of(ada, clock),
        "office.crl": hierarchy.revocation_list(office, **BEFORE),
        "times.crl": hierarchy.revocation_list(times, **BEFORE),
        "later.crl": hierarchy.revocation_list(office, [(ada, *LOST)], **AFTER),
    }
    for name, octets in files.items():
        Path(name).write_bytes(octets)


if __name__ == "__main__":
    main()
