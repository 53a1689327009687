"""The parts of which signed files are built: certificates, signers, tokens, by the forms of RFC 5280, RFC 5652, RFC 3161 and RFC 5035,
with the digests of Python's `hashlib`. The signatures are any octets: whoever reads the files is told which of them are good."""
from __future__ import annotations

import hashlib

from oracle.der import element, number, octets, oid, sequence
from oracle.identifiers import CONTENT_TYPE, DATA, DIGEST_OIDS, EXTENDED_KEY_USAGE, MESSAGE_DIGEST, SIGNED_DATA
from oracle.identifiers import SIGNING_CERTIFICATE, SIGNING_CERTIFICATE_V2, TIME_STAMP_TOKEN, TIME_STAMPING, TST_INFO


def sha(body, name="sha256"):
    """The digest of octets."""
    return hashlib.new(name, body).digest()


def common_name(text):
    """A Name (RFC 5280 4.1.2.4) with this text as its common name."""
    return sequence(element(0x31, sequence(oid("2.5.4.3"), element(0x0C, text))))


NAME_A, NAME_T = common_name(b"A"), common_name(b"T")
SIGNING = sequence(oid("2.999.1"))
JANUARY = "240101000000Z", "240131235959Z"


def digest_alg(name="sha256"):
    """The AlgorithmIdentifier of a digest, by its name, or by its identifier where it has none here."""
    return sequence(oid(DIGEST_OIDS.get(name, name)))


def key(n):
    """A SubjectPublicKeyInfo, which no algorithm has."""
    return sequence(sequence(oid("2.999.2")), element(3, bytes([0, n])))


def time(text):
    """A UTCTime of 13 characters, or a GeneralizedTime."""
    return element(0x17 if len(text) == 13 else 0x18, text.encode())


def extension(of, value, critical=True):
    """An Extension (RFC 5280 4.1)."""
    return sequence(oid(of), element(1, b"\xff") if critical else b"", octets(value))


def purposes(*of, critical=True):
    """The extended key usage of these purposes."""
    return extension(EXTENDED_KEY_USAGE, sequence(*map(oid, of)), critical)


def certificate(serial, name, public, period=JANUARY, extensions=b""):
    """A Certificate (RFC 5280 4.1) that its subject issued."""
    version, rest = (element(0xA0, number(2)), element(0xA3, sequence(extensions))) if extensions else (b"", b"")
    return sequence(
        sequence(version, number(serial), SIGNING, name, sequence(*map(time, period)), name, public, rest),
        SIGNING,
        element(3, b"\0\0"),
    )


def attribute(of, *values):
    """An Attribute (RFC 5652 5.3)."""
    return sequence(oid(of), element(0x31, *values))


def type_attribute(of):
    """The content-type attribute (RFC 5652 11.1)."""
    return attribute(CONTENT_TYPE, oid(of))


def digest_attribute(digest):
    """The message-digest attribute (RFC 5652 11.2)."""
    return attribute(MESSAGE_DIGEST, octets(digest))


def names_1(digest):
    """The signing-certificate attribute of version 1 (RFC 2634 5.4)."""
    return attribute(SIGNING_CERTIFICATE, sequence(sequence(sequence(octets(digest)))))


def names_2(digest, alg=b"", issuer_serial=b""):
    """The one of version 2 (RFC 5035 3)."""
    return attribute(SIGNING_CERTIFICATE_V2, sequence(sequence(sequence(alg, octets(digest), issuer_serial))))


def issuer_serial(serial, *names):
    """An IssuerSerial (RFC 5035 5)."""
    return sequence(sequence(*names), number(serial))


class Signer:
    """A SignerInfo: its signed attributes are put into DER order, unless `swapped`."""

    def __init__(self, sid, attributes, signature, digests=None, swapped=False):
        digests = digests or digest_alg()
        body = b"".join(sorted(attributes, reverse=swapped))
        signed = element(0xA0, body) if attributes else b""
        self.tail = signed[1:]
        self.signature, self.digests = signature, digests
        self.front = number(3 if sid[0] == 0x80 else 1) + sid + digests + signed + SIGNING + octets(signature)

    def stamped(self, *attributes):
        """The SignerInfo with these unsigned attributes."""
        return sequence(self.front, element(0xA1, *attributes) if attributes else b"")

    def question(self, public):
        """What a verifier is asked about it, under a key."""
        return " ".join(x.hex() for x in (public, self.digests, SIGNING, self.tail, self.signature))


def signed_data(signers, content=b"abc", of=DATA, certificates=b"", version=1, crls=b"", algorithms=b""):
    """A ContentInfo with a SignedData (RFC 5652 5.1), which lists SHA-256 if no other algorithms are handed in."""
    held = element(0xA0, octets(content)) if content is not None else b""
    sets = (element(0xA0, certificates) if certificates else b"") + (element(0xA1, crls) if crls else b"")
    listed = element(0x31, algorithms or digest_alg())
    data = sequence(number(version), listed, sequence(oid(of), held), sets, element(0x31, *signers))
    return sequence(oid(SIGNED_DATA), element(0xA0, data))


def signer(serial=5, signature=b"abc", content=b"abc", more=(), sid=None, alg="sha256", **rest):
    """A signer of a content, with more attributes than it must have."""
    digest = sha(content, alg if alg in DIGEST_OIDS else "sha256")
    attributes = [type_attribute(DATA), digest_attribute(digest), *more]
    return Signer(sid or sequence(NAME_A, number(serial)), attributes, signature, digest_alg(alg), **rest)


CS, CT = certificate(5, NAME_A, key(1)), certificate(7, NAME_T, key(2), extensions=purposes(TIME_STAMPING))


class Token:
    """A time-stamp token, whose one signer names a certificate."""

    def __init__(
        self,
        at="20240115100000Z",
        of=b"abc",
        names=None,
        imprint=None,
        extensions=b"",
        certificates=b"",
        spoiled=False,
        alg="sha256",
    ):
        stamp = sequence(
            number(1),
            oid("2.999.3"),
            imprint_of(sha(of, alg) if imprint is None else imprint, alg),
            number(9),
            element(0x18, at.encode()),
            element(0xA1, extensions) if extensions else b"",
        )
        names = [names_2(sha(CT))] if names is None else names
        self.signer = Signer(
            sequence(NAME_T, number(7)), [type_attribute(TST_INFO), digest_attribute(sha(stamp)), *names], b"tsa"
        )
        stamp = stamp[:-1] + bytes([stamp[-1] ^ 1]) if spoiled else stamp
        self.octets = signed_data([self.signer.stamped()], stamp, TST_INFO, certificates, 3)


def stamp_attribute(*values):
    """The attribute of time-stamp tokens (RFC 3161, appendix A), with these values."""
    return attribute(TIME_STAMP_TOKEN, *values)


def stamps(*tokens):
    """The attribute of these tokens."""
    return stamp_attribute(*(t.octets for t in tokens))


def stamped(*tokens, of=None, **rest):
    """A SignedData of one signer, with an attribute for each token."""
    return signed_data([(of or signer()).stamped(*map(stamps, tokens))], **rest)


def imprint_of(digest, alg="sha256"):
    """A MessageImprint (RFC 3161 2.4.1), with the parameters NULL."""
    return sequence(sequence(oid(DIGEST_OIDS[alg]), element(5)), octets(digest))


def request_of(digest, cert=False):
    """A TimeStampReq (RFC 3161 2.4.1)."""
    return sequence(number(1), imprint_of(digest), element(1, b"\xff") if cert else b"")
