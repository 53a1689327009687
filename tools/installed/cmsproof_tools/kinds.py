"""What kind of file it is, and what to do with it, for files that are no signed file: by its first octets, and if it is in DER by what the
proved library reads in it."""
from __future__ import annotations

import importlib
import re
from typing import Any

from cmsproof_tools.found import BEGINNING as BEGINNING

# of how many octets the library is asked what they are
MOST_SHOWN = 1 << 20
CMS = "openssl cms -cmsout -inform {} -in FILE -outform DER -out FILE.der makes a file in DER of it"
AUTHENTICODE = (
    "a signature in it is Authenticode, in CMS whose content is no OCTET STRING (RFC 5652 5.2.1), which is not read: osslsigncode verify "
    "checks it"
)
AUTHENTICODE_ALONE = (
    "a signature of Authenticode, or a catalogue of Windows (.cat): its content is no OCTET STRING (RFC 5652 5.2.1), which is not read: "
    "osslsigncode verify checks it with its file"
)
# the fields of a mail's head, up to one that only a mail has
FIELDS = rb"(?:[!-9;-~]+:[^\n]*\n(?:[ \t][^\n]*\n)*)*?(?:MIME-Version|Content-Type|Received|Subject):"
MAIL = re.compile(rb"\A(?:From |" + FIELDS + rb")", re.IGNORECASE)
# the labels of PEM that a SignedData has: those of RFC 7468 8 and 9, of OpenSSL, and of gpgsm
LABELS = rb"(?:CMS|PKCS7|PKCS #7 SIGNED DATA|SIGNED MESSAGE)"
# the first octets, and what such a file is; the first that fits counts
KINDS = [
    (re.compile(rb"\A[^\n]{0,1000}%PDF-"), "a PDF: a signature in it is a field, whose octets another program must take out"),
    (re.compile(rb"\APK\x03\x04"), "a zip file, as an office document or ASiC is: unpack it, and check the *.p7s in it"),
    (re.compile(rb"\A\x1f\x8b"), "a file that is compressed: gzip -d unpacks it"),
    (re.compile(rb"\A\s*-----BEGIN PGP "), "a file of OpenPGP, which is no CMS: gpg checks it"),
    (re.compile(rb"\A\s*-----BEGIN (?:X509 )?CERTIFICATE-----"), "a certificate in PEM: cmsproof-trust lists it"),
    (re.compile(rb"-----BEGIN " + LABELS + rb"-----"), "PEM: " + CMS.format("PEM")),
    (re.compile(rb"-----BEGIN "), "PEM, but neither CMS nor PKCS7"),
    (re.compile(rb"\A(?:\xef\xbb\xbf)?\s*<"), "XML or HTML: signatures in XML (XAdES) are no CMS; another program checks them"),
    (MAIL, "a mail, S/MIME: " + CMS.format("SMIME")),
    (re.compile(rb"\AM[A-Za-z0-9+/\s]{60,}"), "base64: openssl base64 -d -in FILE -out FILE.der decodes it"),
    (re.compile(rb"\Acmsproof trust [0-9]"), "a trust list of cmsproof, which --trust names"),
    (re.compile(rb"\Acmsproof questions [0-9]"), "a questions text of cmsproof: cmsproof-verify writes answers for it"),
    (re.compile(rb"\Acmsproof answers [0-9]"), "an answers list of cmsproof, which cmsproof check --answers names"),
    (re.compile(rb"\AMZ"), "a program of Windows: " + AUTHENTICODE),
    (re.compile(rb"\AMSCF"), "a cabinet of Windows: " + AUTHENTICODE),
    (re.compile(rb"\A\xd0\xcf\x11\xe0\xa1\xb1\x1a\xe1"), "an MSI or an older office document, in OLE: " + AUTHENTICODE),
    (re.compile(rb"# SIG # Begin signature block"), "a script of Windows: " + AUTHENTICODE),
    (re.compile(rb"\A\x30\x80"), "BER, with open lengths: " + CMS.format("DER")),
]


# what checks a stamp that is not over a signature
BESIDE = "; what is over a file that stands beside it, `x.tsr` or `x.tst` over `x`, cmsproof-archive --stamps checks"
# what each kind of file in DER is that the library reads, in the words of its call `show`
SHOWN = {
    "request": "a request for a time-stamp (RFC 3161 2.4.1), and no signed file: `cmsproof match` compares it with the response",
    "response": (
        "a response of a time-stamping authority (RFC 3161 2.4.2), and no signed file: `cmsproof match` takes the token out, `cmsproof "
        "attach` puts that into the file whose signature it stamps, and this one is checked" + BESIDE
    ),
    "tst": "the content of a time-stamp token (RFC 3161 2.4.2) alone: nobody signed it. `cmsproof show tst` shows it",
    "certificate": "a certificate: `cmsproof cert` shows it, and cmsproof-trust lists it",
    "evidence": "an evidence record (RFC 4998), and no signed file: `cmsproof show evidence` shows it",
}
TST_INFO, INDIRECT, TRUST_LIST = "1.2.840.113549.1.9.16.1.4", "1.3.6.1.4.1.311.2.1.4", "1.3.6.1.4.1.311.10.1"
STAMP = (
    "a time-stamp token by itself (RFC 3161 2.4.2), and no signed file: `cmsproof attach` puts it into the file whose signature it "
    "stamps, and that one is checked" + BESIDE
)
BUNDLE = (
    "a bundle of certificates or revocation lists, which nobody signed (PKCS #7 without signers): openssl pkcs7 -inform DER -in FILE "
    "-print_certs lists it"
)
# how other files in DER begin: behind the first header (X.690 8.1); a SignedData by its version and digestAlgorithms (RFC 5652 5.1), a
# private key by its version and an algorithm, a modulus, or the octets of the key (RFC 5958 2, 8017 A.1.2, 5915 3)
LENGTH = rb"(?:[\x00-\x7f]|\x81.|\x82..|\x83...|\x84....)"
HEADER = rb"\A\x30" + LENGTH
SIGNED = HEADER + rb"\x02\x01[\x01\x03-\x05]\x31(?:\x00|" + LENGTH + rb"\x30" + LENGTH + rb"\x06)"
KEY = HEADER + rb"\x02\x01(?:[\x00\x01]\x30" + LENGTH + rb"\x06|[\x00\x01]\x02|\x01\x04)"
OCSP = re.compile(HEADER + rb"\x0a\x01", re.DOTALL)
OTHERS = [
    (
        re.compile(HEADER + rb"\x02\x01\x03\x30", re.DOTALL),
        "a file of PKCS #12, with a key: whoever signs needs it, and nobody who checks; openssl pkcs12 -nokeys -in FILE writes its "
        "certificates",
    ),
    (
        re.compile(SIGNED, re.DOTALL),
        "a SignedData without the ContentInfo around it (RFC 5652 3, 5.1), which is not read: ask whoever made it for the file with that",
    ),
    (re.compile(KEY, re.DOTALL), "a private key: whoever signs needs it, and nobody who checks"),
    (OCSP, "a response of OCSP: cmsproof-trust --ocsp reads it"),
]
# how CMS begins, also in BER, of whichever type (RFC 5652 3), and what is said of it where a certificate is wanted
CMS_BEGINS = re.compile(rb"\A\x30(?:\x80|" + LENGTH + rb")\x06\x09\x2a\x86\x48\x86\xf7\x0d\x01\x07", re.DOTALL)
CMS_INSTEAD = (
    "it looks like CMS, as a signed file or a bundle of certificates: openssl cms -verify -noverify -signer takes out the certificate under "
    "which the signature verifies, openssl pkcs7 -print_certs those of a bundle"
)
EMPTY, CERTIFICATE = "it is empty", f"it is {SHOWN['certificate']}"


def says_stamp(kind: str) -> bool:
    """Whether this is said of a file that is a time-stamp by itself, a token or a response."""
    return kind in (f"it is {STAMP}", f"it is {SHOWN['response']}")


def kind_of(beginning: bytes) -> str:
    """What a file with this beginning is, and what to do with it; no text where that is not known."""
    if not beginning:
        return EMPTY
    return next((f"it looks like {text}" for pattern, text in KINDS if pattern.search(beginning)), "")


def kind_in_der(octets: Any) -> str:
    """What octets are that the checker finds malformed, and what to do with them: first what the library reads in them; no text where that
    is not known."""
    if len(octets) > MOST_SHOWN:
        return ""
    whole = bytes(octets)
    try:
        show = importlib.import_module("cmsproof").show
        found = [f"it is {text}" for kind, text in SHOWN.items() if "line" not in show(kind, whole)]
    except ImportError:
        found = []  # (a list of certificates is made without the library too)
    return next(iter([*found, *(f"it looks like {text}" for pattern, text in OTHERS if pattern.search(whole))]), "")


def kind_instead(octets: bytes) -> str:
    """What octets are that were named as a certificate, a list or a response; no text where that is not known."""
    return CMS_INSTEAD if CMS_BEGINS.match(octets) else kind_of(octets[:BEGINNING]) or kind_in_der(octets)


def kind_of_signed(octets: Any, malformed: bool) -> str:
    """What a file is that is handed to the checker and not accepted, if it is no signed file, or one that is not read; no text of any
    other."""
    parts = importlib.import_module("cmsproof_tools.signed_parts")
    named = parts.content_type_of(octets)
    if named == TST_INFO:
        return f"it is {STAMP}"
    if named in (INDIRECT, TRUST_LIST):
        return f"it is {AUTHENTICODE_ALONE}"
    if named and not parts.signers_there(octets):
        return f"it is {BUNDLE}"
    beginning = bytes(octets[:BEGINNING])
    return (kind_of(beginning) or ("" if named else kind_in_der(octets))) if malformed else ""
