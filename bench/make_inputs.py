#!/usr/bin/env python3
"""make_inputs.py: writes parts.txt, of which the program `workloads` makes signed files and trust lists.

Nobody needs to run it again: the file is kept beside it, and new keys give another one of the same kind. It needs Python's library
`cryptography`. The certificates are real X.509 certificates of RSA-2048 and P-256 keys; signatures are random octets, which the
program fills in: the checker takes a verifier's word for them. Digests are filled in by the program, so that all of them are true.

A file consists of a front, the content, a back and signers (RFC 5652 5.1). A line is a word and its values:

    front|back|item HEX          octets of the template that the last line `template NAME ALG` began, in this order
    ends AT SIZE                 in the front or back: the length, of SIZE octets, of an element that ends with the file
    holds AT SIZE                in the front: the length of an element that ends with the content
    kept AT                      in the item: the digest of the content by ALG
    random AT LEN                in the item: any octets
    digest AT FROM LEN           in the item: the SHA-256 of octets of the item, after what stands above it was filled in
    entry ROLE HEX AT LEN        an entry of trust lists, of which LEN octets from AT on can be exchanged for others
    token HEX                    a token on three octets 'abc'
    unstamped HEX                a file of one signer without a token, whose signature is 'abc'
"""
import datetime
import hashlib
import itertools
import sys
from pathlib import Path

sys.path.insert(0, str(Path(__file__).resolve().parent.parent / "tools"))
from cryptography import x509  # noqa: E402
from cryptography.hazmat.primitives import hashes, serialization  # noqa: E402
from cryptography.hazmat.primitives.asymmetric import ec, rsa  # noqa: E402
from cryptography.x509.oid import AuthorityInformationAccessOID, ExtendedKeyUsageOID, NameOID  # noqa: E402

from oracle.der import element, number, octets, oid, sequence  # noqa: E402
from oracle.identifiers import DATA, SIGNED_DATA, TST_INFO  # noqa: E402
from samples.building import digest_alg, digest_attribute, names_2, stamp_attribute, type_attribute  # noqa: E402

RSA, ECDSA = sequence(oid("1.2.840.113549.1.1.11"), element(5)), sequence(oid("1.2.840.10045.4.3.2"))
BEGIN, END = datetime.datetime(2024, 1, 1), datetime.datetime(2034, 1, 1)
AT, LATE = "20260115100000Z", "20400115100000Z"
lines, counter = [], itertools.count()


def name(of):
    """A name of an organization."""
    parts = [(NameOID.COUNTRY_NAME, "AT"), (NameOID.ORGANIZATION_NAME, "Archive of Signed Documents"), (NameOID.COMMON_NAME, of)]
    return x509.Name([x509.NameAttribute(*part) for part in parts])


def make(kind, of, stamping=False):
    """A certificate by an authority, in DER: with the extensions that such certificates have."""
    issuer_key = rsa.generate_private_key(65537, 2048) if kind == "rsa" else ec.generate_private_key(ec.SECP256R1())
    key = rsa.generate_private_key(65537, 2048) if kind == "rsa" else ec.generate_private_key(ec.SECP256R1())
    site = "http://pki.archive.example/"
    builder = (
        x509.CertificateBuilder()
        .subject_name(name(of))
        .issuer_name(name(f"{kind.upper()} Issuing Authority 7"))
        .public_key(key.public_key())
        .serial_number(int.from_bytes(b"\x41" + hashlib.sha256(of.encode()).digest()[:15], "big"))
        .not_valid_before(BEGIN)
        .not_valid_after(END)
        .add_extension(x509.SubjectKeyIdentifier.from_public_key(key.public_key()), False)
        .add_extension(x509.AuthorityKeyIdentifier.from_issuer_public_key(issuer_key.public_key()), False)
        .add_extension(x509.KeyUsage(True, True, False, False, False, False, False, False, False), True)
        .add_extension(
            x509.AuthorityInformationAccess(
                [x509.AccessDescription(AuthorityInformationAccessOID.OCSP, x509.UniformResourceIdentifier(site + "ocsp"))]
            ),
            False,
        )
        .add_extension(
            x509.CRLDistributionPoints(
                [x509.DistributionPoint([x509.UniformResourceIdentifier(site + "list7.crl")], None, None, None)]
            ),
            False,
        )
        .add_extension(
            x509.CertificatePolicies([x509.PolicyInformation(x509.ObjectIdentifier("2.999.1.7"), [site + "policy.pdf"])]), False
        )
    )
    if stamping:
        builder = builder.add_extension(x509.ExtendedKeyUsage([ExtendedKeyUsageOID.TIME_STAMPING]), True)
    signed = builder.sign(issuer_key, hashes.SHA256())
    return signed.public_bytes(serialization.Encoding.DER), sequence(signed.issuer.public_bytes(), number(signed.serial_number))


class Parts:
    """Octets that are put together, with the places of what the program fills in."""

    def __init__(self, octets_, marks=()):
        self.octets, self.marks = octets_, list(marks)

    @staticmethod
    def of(*parts):
        """The parts one after another."""
        joined, marks = b"", []
        for part in parts:
            part = part if isinstance(part, Parts) else Parts(part)
            marks += [(word, at + len(joined), *rest) for word, at, *rest in part.marks]
            joined += part.octets
        return Parts(joined, marks)

    def within(self, tag):
        """The element of this tag whose contents they are."""
        head = element(tag, self.octets)[: len(element(tag, self.octets)) - len(self.octets)]
        return Parts.of(head, self)

    def marked(self, label):
        """The whole of them, which is filled in or hashed under this label."""
        return Parts(self.octets, self.marks + [(label, 0, len(self.octets))])


def random(length, label):
    """Octets that the program fills in."""
    return Parts(bytes(length), [("random", 0, length), (label, 0, length)])


def digest_of(label, size=32):
    """The place of a digest of what has this label."""
    return Parts(bytes(size), [("digest", 0, label)])


def attributes(*parts):
    """Signed attributes, in DER order: those whose values are filled in have an own length, which orders them."""
    ordered = sorted(parts, key=lambda part: part.octets if isinstance(part, Parts) else part)
    return Parts.of(*ordered).within(0xA0)


def digest_place(mark):
    """The message-digest attribute, whose digest is filled in."""
    whole = digest_attribute(bytes(len(mark.octets)))
    return Parts.of(whole[: -len(mark.octets)], mark)


def token(tsa, sid, alg, size, at, certificates):
    """A token on the signature (RFC 3161 2.4.2)."""
    tag = f"stamp {next(counter)}"
    stamp = Parts.of(
        number(1), oid("2.999.3"),
        Parts.of(digest_alg_null(), element(4, bytes(32))[:2], digest_of("signature")).within(0x30),
        number(0x1234567890ABCD), element(0x18, at.encode()), element(0x30, number(1)), number(0x4142434445464748),
    ).within(0x30).marked(tag)
    signed = attributes(type_attribute(TST_INFO), digest_place(digest_of(tag)), names_2(hashlib.sha256(tsa).digest()))
    info = Parts.of(number(1), sid, digest_alg(), signed, alg, Parts.of(random(size, "none")).within(4)).within(0x30)
    data = Parts.of(
        number(3), element(0x31, digest_alg()),
        Parts.of(oid(TST_INFO), stamp.within(4).within(0xA0)).within(0x30),
        element(0xA0, tsa) if certificates else b"",
        info.within(0x31),
    ).within(0x30)
    return Parts.of(oid(SIGNED_DATA), data.within(0xA0)).within(0x30)


def digest_alg_null():
    """SHA-256 with the parameters NULL."""
    return sequence(oid("2.16.840.1.101.3.4.2.1"), element(5))


def signer(cert, sid, alg, size, tokens, digest="sha256"):
    """A SignerInfo (RFC 5652 5.3) with tokens on its signature, whose certificate it names."""
    length = hashlib.new(digest).digest_size
    time = sequence(oid("1.2.840.113549.1.9.5"), element(0x31, element(0x17, b"260115095500Z")))
    signed = attributes(
        type_attribute(DATA), time, digest_place(Parts(bytes(length), [("kept", 0)])),
        names_2(hashlib.sha256(cert).digest()),
    )
    unsigned = Parts.of(*(Parts.of(stamp_type(), t.within(0x31)).within(0x30) for t in tokens)).within(0xA1)
    return Parts.of(
        number(1), sid, digest_alg(digest), signed, alg, random(size, "signature").within(4), unsigned
    ).within(0x30)


def stamp_type():
    """The identifier of the attribute of tokens (RFC 3161, appendix A)."""
    return oid("1.2.840.113549.1.9.16.2.14")


def write_template(of, digest, certificates, items, listed="sha256", whole=2, content=2, signers=2):
    """A template: of signed files whose signers are made like these items, in turn. The last are the sizes of lengths."""
    lines.append(f"template {of} {digest}")
    front, marks = b"", []

    def begin(tag, word, wide):
        nonlocal front
        marks.append((word, len(front) + 2, wide))
        front += bytes([tag, 0x80 + wide]) + bytes(wide)

    begin(0x30, "ends", whole)
    front += oid(SIGNED_DATA)
    begin(0xA0, "ends", whole)
    begin(0x30, "ends", whole)
    front += number(1) + element(0x31, digest_alg(listed))
    begin(0x30, "holds", content)
    front += oid(DATA)
    begin(0xA0, "holds", content)
    begin(0x04, "holds", content)
    lines.append(f"front {front.hex()}")
    lines.extend(f"{word} {at} {size}" for word, at, size in marks)
    back = element(0xA0, certificates) if certificates else b""
    lines.append(f"back {(back + bytes([0x31, 0x80 + signers]) + bytes(signers)).hex()}")
    lines.append(f"ends {len(back) + 2} {signers}")
    for item in items:
        lines.append(f"item {item.octets.hex()}")
        places = {mark[0]: mark for mark in item.marks if mark[0] not in ("random", "digest", "kept", "none")}
        steps = [f"random {at} {size}" for word, at, *rest in item.marks if word == "random" for size in rest]
        steps += [f"kept {at}" for word, at, *rest in item.marks if word == "kept"]
        digests = [(at, rest[0]) for word, at, *rest in item.marks if word == "digest"]
        # what is hashed inside something that is hashed comes first
        for at, label in sorted(digests, key=lambda d: (d[1] != "signature", d[0])):
            _, start, size = places[label]
            steps.append(f"digest {at} {start} {size}")
        lines.extend(steps)


def entry(role, cert):
    """An entry, of whose certificate the serial number's last octets can be exchanged."""
    at = cert.index(b"\x02\x10\x41") + 4
    lines.append(f"entry {role} {cert.hex()} {at} 14")


def main():
    """Writes parts.txt."""
    rsa_signer, rsa_sid = make("rsa", "Registry Signer 4711")
    rsa_tsa, rsa_tsa_sid = make("rsa", "Time Stamping Unit 3", True)
    ec_signer, ec_sid = make("ec", "Registry Signer 4712")
    ec_tsa, ec_tsa_sid = make("ec", "Time Stamping Unit 4", True)
    for role, cert in (("signer", rsa_signer), ("tsa", rsa_tsa), ("signer", ec_signer), ("tsa", ec_tsa)):
        entry(role, cert)

    def rsa_token(with_certificate=False):
        return token(rsa_tsa, rsa_tsa_sid, RSA, 256, AT, with_certificate)

    def ec_token(at=AT):
        return token(ec_tsa, ec_tsa_sid, ECDSA, 71, at, False)

    rsa_one = signer(rsa_signer, rsa_sid, RSA, 256, [rsa_token(with_certificate=True)])
    ec_one = signer(ec_signer, ec_sid, ECDSA, 71, [ec_token()])
    write_template("rsa", "sha256", rsa_signer, [rsa_one])
    write_template("two", "sha256", rsa_signer + ec_signer, [rsa_one, ec_one])
    write_template("ecdsa", "sha256", ec_signer, [ec_one])
    # whose signer names another digest than the file lists
    other = signer(rsa_signer, rsa_sid, RSA, 256, [rsa_token()], "sha512")
    write_template("other", "sha512", rsa_signer, [other])
    # many signers
    write_template("many_ecdsa", "sha256", ec_signer, [ec_one], whole=3, signers=3)
    write_template("many_rsa", "sha256", rsa_signer, [signer(rsa_signer, rsa_sid, RSA, 256, [rsa_token()])], whole=3, signers=3)
    # twenty tokens, of which the last passes: the others are of a time when the authority's certificate is no more valid
    late = [ec_token(LATE) for _ in range(19)] + [ec_token()]
    write_template("twenty", "sha256", ec_signer, [signer(ec_signer, ec_sid, ECDSA, 71, late)], whole=3, signers=3)
    # large contents
    write_template("large_256", "sha256", rsa_signer, [rsa_one], whole=4, content=4)
    write_template("large_512", "sha512", rsa_signer, [other], listed="sha512", whole=4, content=4)
    write_attached(ec_sid, ec_signer)
    Path(__file__).with_name("parts.txt").write_text("\n".join(lines) + "\n")


def write_attached(sid, cert):
    """A file without a token, and a token on its signature, for `attach`."""
    from samples.building import Signer, Token, signed_data

    signed = [type_attribute(DATA), digest_attribute(hashlib.sha256(b"abc").digest()), names_2(hashlib.sha256(cert).digest())]
    info = Signer(sid, signed, b"abc").stamped()
    lines.append(f"unstamped {signed_data([info], b'abc', certificates=cert).hex()}")
    lines.append(f"token {Token().octets.hex()}")


if __name__ == "__main__":
    main()
