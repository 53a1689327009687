"""Hierarchies of certificates, files that are signed and stamped under them at any time, and revocation lists: made by Python's
library `cryptography`, with the forms of building.py around them."""
from __future__ import annotations

import datetime
from typing import NamedTuple

from cryptography import x509
from cryptography.x509 import ocsp
from cryptography.hazmat.primitives import hashes, serialization
from cryptography.hazmat.primitives.asymmetric import ec

from oracle import forms
from oracle.der import element, number, octets, oid, sequence
from oracle.identifiers import DATA, ECDSA_SHA256, TST_INFO
from samples.building import Signer, digest_alg, digest_attribute, imprint_of, names_2, sha, signed_data, stamp_attribute
from samples.building import type_attribute

USAGES = ("digital_signature", "content_commitment", "key_encipherment", "data_encipherment", "key_agreement", "key_cert_sign")
USAGES += ("crl_sign", "encipher_only", "decipher_only")
STAMPING = (x509.ExtendedKeyUsage([x509.ObjectIdentifier("1.3.6.1.5.5.7.3.8")]), True)


class Issued(NamedTuple):
    """A certificate with its key."""

    key: object
    certificate: x509.Certificate

    @property
    def octets(self):
        """The certificate in DER."""
        return self.certificate.public_bytes(serialization.Encoding.DER)


def time_of(text):
    """The time that a text as 2024-05-01 or 2024-05-01 10:00:00 means."""
    return datetime.datetime.fromisoformat(text)


def usage(*names):
    """A keyUsage with these."""
    return x509.KeyUsage(**{name: name in names for name in USAGES}), True


def key_identifiers(key):
    """The extension of a certificate with this key, and that of those which it issues."""
    public = key.public_key()
    return (x509.SubjectKeyIdentifier.from_public_key(public), False), (
        x509.AuthorityKeyIdentifier.from_issuer_public_key(public),
        False,
    )


def authority(length=None):
    """The extensions of a certification authority."""
    return [(x509.BasicConstraints(True, length), True), usage("key_cert_sign", "crl_sign")]


def name_of(text):
    """A name with this as its common name, below an organization."""
    return x509.Name(
        [x509.NameAttribute(x509.NameOID.ORGANIZATION_NAME, "cmsproof"), x509.NameAttribute(x509.NameOID.COMMON_NAME, text)]
    )


def issue(name, by=None, extensions=(), first="2020-01-01", last="2040-01-01", serial=None, key=None, digest=None):
    """A certificate of this name, issued by another one, or by itself."""
    key = key or ec.generate_private_key(ec.SECP256R1())
    builder = x509.CertificateBuilder().subject_name(name_of(name)).issuer_name(by.certificate.subject if by else name_of(name))
    builder = builder.not_valid_before(time_of(first)).not_valid_after(time_of(last)).public_key(key.public_key())
    builder = builder.serial_number(serial or x509.random_serial_number())
    for value, critical in extensions:
        builder = builder.add_extension(value, critical)
    return Issued(key, builder.sign(by.key if by else key, digest or hashes.SHA256()))


def root(name="Root", **rest):
    """A root."""
    return issue(name, None, authority(), **rest)


def signed_by(who, attributes, sid=None):
    """A signer whose signature is good."""
    signer = Signer(sid or sid_of(who), attributes, b"")
    signature = who.key.sign(element(0x31, b"".join(sorted(attributes))), ec.ECDSA(hashes.SHA256()))
    signer.signature = signature
    signer.front = (
        number(3 if (sid or b"0")[0] == 0x80 else 1)
        + (sid or sid_of(who))
        + digest_alg()
        + element(0xA0, b"".join(sorted(attributes)))
        + sequence(oid(ECDSA_SHA256))
        + octets(signature)
    )
    return signer


def sid_of(who):
    """How a signer names a certificate: by issuer and serial number."""
    of = forms.whole(who.octets, forms.certificate)
    return sequence(of.issuer, element(2, of.serial))


def token(by, stamped, at, bag=None):
    """A token of an authority on these octets, at this time; with its certificate, unless other ones are handed in."""
    info = sequence(number(1), oid("2.999.3"), imprint_of(sha(stamped)), number(9), element(0x18, at.encode()))
    signer = signed_by(by, [type_attribute(TST_INFO), digest_attribute(sha(info)), names_2(sha(by.octets))])
    held = b"".join(sorted([by.octets] if bag is None else bag))
    return signed_data([signer.stamped()], info, TST_INFO, held, 3)


def signed(who, tokens, bag=None, content=b"letter", sid=None):
    """A file that is signed, with a token for each pair of an authority and a time; with the certificate of its signer, unless
    others are handed in."""
    return together([(who, tokens)], bag, content, sid)


def together(pairs, bag=None, content=b"letter", sid=None):
    """A file of several signers, each with its tokens."""
    infos = []
    for who, tokens in pairs:
        signer = signed_by(who, [type_attribute(DATA), digest_attribute(sha(content))], sid)
        stamps = [stamp_attribute(token(*pair[:1], signer.signature, *pair[1:])) for pair in tokens]
        infos.append(signer.stamped(*stamps))
    held = [who.octets for who, _ in pairs] if bag is None else bag
    return signed_data(infos, content, DATA, b"".join(sorted(held)))


def revocation_list(by, revoked=(), this="2024-06-01", next="2024-07-01", extensions=()):
    """A list of an issuer: certificates with the date, the reason and the invalidity date of their revocation, or None."""
    builder = x509.CertificateRevocationListBuilder().issuer_name(by.certificate.subject).last_update(time_of(this))
    builder = builder.next_update(time_of(next))
    for who, date, reason, invalid in revoked:
        entry = x509.RevokedCertificateBuilder().serial_number(who.certificate.serial_number).revocation_date(time_of(date))
        if reason:
            entry = entry.add_extension(x509.CRLReason(x509.ReasonFlags(reason)), False)
        if invalid:
            entry = entry.add_extension(x509.InvalidityDate(time_of(invalid)), False)
        builder = builder.add_revoked_certificate(entry.build())
    for value, critical in extensions:
        builder = builder.add_extension(value, critical)
    return builder.sign(by.key, hashes.SHA256()).public_bytes(serialization.Encoding.DER)


def response(who, issuer, by=None, revoked=None, reason=None, this="2024-06-01", next="2024-07-01", digest=None, bag=()):
    """A stored response (RFC 6960) about a certificate, signed by its issuer or by another one."""
    by, status = by or issuer, ocsp.OCSPCertStatus.REVOKED if revoked else ocsp.OCSPCertStatus.GOOD
    builder = ocsp.OCSPResponseBuilder().add_response(
        who.certificate,
        issuer.certificate,
        digest or hashes.SHA1(),
        status,
        time_of(this),
        time_of(next),
        time_of(revoked) if revoked else None,
        x509.ReasonFlags(reason) if reason else None,
    )
    builder = builder.responder_id(ocsp.OCSPResponderEncoding.HASH, by.certificate)
    builder = builder.certificates([found.certificate for found in bag]) if bag else builder
    return builder.sign(by.key, hashes.SHA256()).public_bytes(serialization.Encoding.DER)
