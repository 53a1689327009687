"""What OpenSSL says of the form of octets, as a judge apart from the program and from forms.py: for hostile.py and fuzz.py."""
from __future__ import annotations

import subprocess
from typing import Optional

from oracle import forms
from oracle.der import Fault, Opaque

# Faults that no octets have which OpenSSL reads as a ContentInfo and writes again as they were: those of DER's lengths, of ends
# and of contents. The others come of rules that this profile or RFC 5652 adds: identifiers, versions, sets that are empty.
NOT_OF_DER = ("M1 ", "M3 ", "M4 ", "M5 ", "M7 ", "M8 ", "M9 ", "M14 ")


def openssl(words: str, octets: bytes) -> subprocess.CompletedProcess[bytes]:
    """What openssl says of octets on its standard input."""
    return subprocess.run(["openssl", *words.split()], input=octets, capture_output=True, close_fds=False)


def asn1parse(octets: bytes) -> bool:
    """Whether `openssl asn1parse` reads the octets to their end."""
    return openssl("asn1parse -inform DER -noout", octets).returncode == 0


def cms(octets: bytes) -> Optional[bytes]:
    """The octets that `openssl cms -cmsout` writes of the ContentInfo that it read, or None where it reads none."""
    done = openssl("cms -cmsout -inform DER -outform DER", octets)
    return done.stdout if done.returncode == 0 else None


def opaque_parts(octets: bytes) -> Optional[set[Opaque]]:
    """The parts of a SignedData that the grammar leaves opaque, each with the identifiers that it allows there; None of other
    octets."""
    parts: list[Opaque] = []
    try:
        forms.read_signed_data(octets, parts)
    except (Fault, forms.NotSignedData):
        return None
    return set(parts)


def is_read_into(identifier: int) -> bool:
    """Whether OpenSSL looks at the contents of a value of any type that begins so: not at those of a SEQUENCE, a SET and what has
    a tag of its own, but at the pieces of a string in constructed form, which DER does not allow (X.690 10.2)."""
    return not identifier & 0x20 or identifier < 0x40 and identifier not in (0x30, 0x31)


def differs(octets: bytes, line: str, known: set[Opaque]) -> Optional[str]:
    """What OpenSSL says against this line of `show signed`, or None. A file that is read is judged where its opaque parts are
    among those known, of files that OpenSSL reads; it reads into some of them, and the program into none."""
    if line.startswith("signed"):
        parts = opaque_parts(octets) or set()
        if parts <= known and not asn1parse(octets):
            return "openssl asn1parse does not read it"
        read_into = {(tags, whole) for tags, whole in parts if tags or is_read_into(whole[0])}
        if read_into <= known and cms(octets) is None:
            return "openssl cms -cmsout does not read it"
        return None
    if line.startswith("malformed") and line.split(" ", 1)[1].startswith(NOT_OF_DER) and cms(octets) == octets:
        return "openssl cms -cmsout reads it and writes it as it is"
    return None
