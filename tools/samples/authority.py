"""Keys, certificates, an authority, and signatures and tokens of theirs, made by openssl in a folder."""
from __future__ import annotations

import subprocess

from oracle import der, forms
from oracle.der import element, number, octets, oid, sequence
from oracle.identifiers import DATA, ECDSA_SHA256
from samples.building import digest_alg, digest_attribute, stamp_attribute, type_attribute

STAMPING = "extendedKeyUsage=critical,timeStamping"
CONFIGURATION = """[tsa]
default_tsa = stamps
[stamps]
serial = serial
signer_cert = {name}.pem
signer_key = {name}.key
crypto_device = builtin
signer_digest = {signer_digest}
default_policy = 2.999.3
digests = {digests}
"""


def openssl(folder, *words):
    """What openssl prints in this folder; it must succeed."""
    done = subprocess.run(["openssl", *map(str, words)], cwd=folder, capture_output=True)
    if done.returncode:
        raise SystemExit(f"openssl {' '.join(map(str, words))}: {done.stderr.decode()}")
    return done.stdout


def make_certificate(folder, name, *extensions, days=30, organization="cmsproof"):
    """NAME.key and NAME.pem: a key, and a certificate of it with these extensions that it signed itself."""
    words = ["-newkey", "ec", "-pkeyopt", "ec_paramgen_curve:P-256", "-nodes", "-keyout", f"{name}.key", "-out", f"{name}.pem"]
    words += ["-days", days, "-subj", f"/O={organization}/CN={name}"]
    openssl(folder, "req", "-x509", *words, *(word for extension in extensions for word in ("-addext", extension)))


def certificate(folder, name):
    """The certificate of this name, in DER."""
    return openssl(folder, "x509", "-in", f"{name}.pem", "-outform", "DER")


def configure(folder, path, name, digests="sha256", signer_digest="sha256", before="", more=""):
    """A configuration of `openssl ts` for the authority NAME, which takes these digests. All count their tokens in one file."""
    if not (folder / "serial").exists():
        (folder / "serial").write_text("01\n")
    text = CONFIGURATION.format(name=name, digests=digests, signer_digest=signer_digest)
    (folder / path).write_text(before + text + more)


def make_authorities(folder):
    """`signer`, who signs files, and `tsa`, an authority, with its configuration."""
    make_certificate(folder, "signer", "keyUsage=digitalSignature")
    make_certificate(folder, "tsa", STAMPING)
    configure(folder, "tsa.cnf", "tsa", more="ess_cert_id_alg = sha256\n")


def stamp(folder, signature):
    """A token of `tsa` on a signature; both are left in the folder, in `token` and `signature`."""
    (folder / "signature").write_bytes(signature)
    openssl(folder, "ts", "-query", "-data", "signature", "-sha256", "-no_nonce", "-out", "request")
    openssl(folder, "ts", "-reply", "-config", "tsa.cnf", "-queryfile", "request", "-token_out", "-out", "token")
    return (folder / "token").read_bytes()


def signed_attributes(digest):
    """The signed attributes of a signer of a content with this digest, in DER order."""
    return b"".join(sorted([type_attribute(DATA), digest_attribute(digest)]))


def signer_info(folder, signer, digest):
    """A SignerInfo of `signer`, whose certificate this is, of a content with this digest, with a token of `tsa`: SHA-256 and
    ECDSA."""
    of, attributes = forms.whole(signer, forms.certificate), signed_attributes(digest)
    (folder / "signed").write_bytes(element(der.SET, attributes))
    signature = openssl(folder, "dgst", "-sha256", "-sign", "signer.key", "signed")
    unsigned = element(0xA1, stamp_attribute(stamp(folder, signature)))
    sid = sequence(of.issuer, element(der.INTEGER, of.serial))
    signature_alg = sequence(oid(ECDSA_SHA256))
    return sequence(number(1), sid, digest_alg(), element(0xA0, attributes), signature_alg, octets(signature), unsigned)
