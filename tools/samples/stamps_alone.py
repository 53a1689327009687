#!/usr/bin/env python3
"""Makes a file and time-stamps of it that docs/COMPARED.md shows to two programs, in the folder where it is run.

    python3 tools/samples/stamps_alone.py

It needs openssl on the PATH. `release.tar` is the file. Its stamps, responses (.tsr) and tokens (.tok), each of its own authority
where that is what differs: good.tsr; trailing.tsr, with an octet behind it; rejected.tsr, which was not granted; issued.tsr, which
has the certificate of an authority that `issuer` issued; ended.tok and late.tok, of 2020 and 2022 by a certificate that ended in
2021; early.tok, of 2020 by one that began today; critical.tok, whose TSTInfo has a critical extension; loose.tok, whose authority
has an extendedKeyUsage that isn't critical. all.pem has the certificates that a user trusts: all but that of `issued`.
"""
from __future__ import annotations

import sys
from datetime import datetime, timezone
from pathlib import Path

sys.path.insert(0, str(Path(__file__).resolve().parent.parent))
from oracle.der import element, number, oid, sequence  # noqa: E402
from oracle.identifiers import TST_INFO  # noqa: E402
from samples.authority import STAMPING, configure, make_certificate, openssl  # noqa: E402
from samples.building import extension, imprint_of, sha  # noqa: E402

HERE = Path(".")
RELEASE = b"release 1.0\n"
NO_ISSUER = "basicConstraints=CA:FALSE"
DATABASE = """[issuer]
database = index.txt
serial = number
new_certs_dir = .
policy = any
default_md = sha256
x509_extensions = more
[more]
{extensions}
[any]
organizationName = optional
commonName = supplied
"""


def certify(name, signer, *more):
    """NAME.pem, a certificate of an authority that `signer` signed, itself or an issuer; by `openssl ca`, which can date it back."""
    made = ["-newkey", "ec", "-pkeyopt", "ec_paramgen_curve:P-256", "-nodes", "-subj", f"/O=Example/CN={name}"]
    openssl(HERE, "req", "-new", *made, "-keyout", f"{name}.key", "-out", f"{name}.csr")
    (HERE / "index.txt").write_text("")
    (HERE / "number").write_text(f"{len(name):02x}\n")
    (HERE / "issuer.cnf").write_text(DATABASE.format(extensions=f"{NO_ISSUER}\n{STAMPING}".replace("=", " = ")))
    by = ["-selfsign"] if signer == name else ["-cert", f"{signer}.pem"]
    files = ["-keyfile", f"{signer}.key", "-in", f"{name}.csr", "-out", f"{name}.pem"]
    openssl(HERE, "ca", "-batch", "-notext", "-config", "issuer.cnf", "-name", "issuer", *by, *files, *more)


def respond(name, authority, digest="-sha256"):
    """NAME.tsr: what `openssl ts` answers to a request for a stamp of the file, with the authority's certificate."""
    configure(HERE, f"{authority}.cnf", authority)
    openssl(HERE, "ts", "-query", "-data", "release.tar", digest, "-cert", "-out", f"{name}.tsq")
    openssl(HERE, "ts", "-reply", "-config", f"{authority}.cnf", "-queryfile", f"{name}.tsq", "-out", f"{name}.tsr")


def sign(name, authority, at, extensions=b""):
    """NAME.tok: a token with this time and these extensions, which `openssl cms` signs, whatever it says."""
    stamp = sequence(
        number(1),
        oid("2.999.3"),
        imprint_of(sha(RELEASE)),
        number(9),
        element(0x18, at.encode()),
        element(0xA1, extensions) if extensions else b"",
    )
    (HERE / "stamp").write_bytes(stamp)
    words = ["-econtent_type", TST_INFO, "-in", "stamp", "-signer", f"{authority}.pem", "-inkey", f"{authority}.key"]
    openssl(HERE, "cms", "-sign", "-cades", "-binary", "-nodetach", "-outform", "DER", *words, "-out", f"{name}.tok")


def make():
    """The file, the authorities and the stamps."""
    now = datetime.now(timezone.utc).strftime("%Y%m%d%H%M%SZ")
    (HERE / "release.tar").write_bytes(RELEASE)
    make_certificate(HERE, "authority", NO_ISSUER, STAMPING, organization="Example")
    make_certificate(HERE, "loose", NO_ISSUER, "extendedKeyUsage=timeStamping", organization="Example")
    make_certificate(HERE, "issuer", "keyUsage=critical,keyCertSign", organization="Example")
    certify("issued", "issuer", "-days", "30")
    certify("ended", "ended", "-startdate", "20190101000000Z", "-enddate", "20211231235959Z")
    respond("good", "authority")
    respond("issued", "issued")
    respond("rejected", "authority", "-sha512")
    (HERE / "trailing.tsr").write_bytes((HERE / "good.tsr").read_bytes() + b"\0")
    sign("ended", "ended", "20200101000000Z")
    sign("late", "ended", "20220101000000Z")
    sign("early", "authority", "20200101000000Z")
    sign("critical", "authority", now, extension("2.999.9", element(5)))
    sign("loose", "loose", now)
    trusted = ("authority", "loose", "ended", "issuer")
    (HERE / "all.pem").write_bytes(b"".join((HERE / f"{name}.pem").read_bytes() for name in trusted))


if __name__ == "__main__":
    make()
