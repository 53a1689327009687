#!/usr/bin/env python3
"""Makes the files that the commands of docs/REFUSALS.md are shown on, in the folder where it is run: a letter, certificates,
signed files of OpenSSL, and two with a token that fails one rule.

    python3 tools/samples/docs_samples.py

It needs openssl and cmsproof on the PATH.
"""
from __future__ import annotations

import subprocess
import sys
from pathlib import Path

sys.path.insert(0, str(Path(__file__).resolve().parent.parent))
from oracle import der  # noqa: E402
from oracle.expected import with_token  # noqa: E402
from samples import authority  # noqa: E402
from samples.authority import STAMPING  # noqa: E402

HERE = Path(".")


def run(line):
    """Runs a command, which must succeed."""
    done = subprocess.run(line, shell=True, capture_output=True, text=True)
    if done.returncode:
        raise SystemExit("%s\n%s%s" % (line, done.stdout, done.stderr))


def write(name, octets):
    """Makes a file."""
    with open(name, "wb") as file:
        file.write(octets)


def read(name):
    """The octets of a file."""
    with open(name, "rb") as file:
        return file.read()


def put_token(name, token):
    """letter.p7s with this value as a time-stamp token, whatever it is."""
    write(name, with_token(read("letter.p7s"), 1, token))


def certificate(name, *more):
    """A certificate that is no issuer's, with more extensions."""
    authority.make_certificate(HERE, name, "basicConstraints=CA:FALSE", *more, days=365, organization="Example")


def answer(name):
    """NAME.tok, the token of the answer to the request NAME.tsq."""
    run("openssl ts -reply -config authority.cnf -queryfile %s.tsq -token_out -out %s.tok" % (name, name))


def sign(name, more="-cades -binary -nodetach"):
    """The letter, signed."""
    run("openssl cms -sign %s -outform DER -in letter.txt -signer signer.pem -inkey signer.key -out %s" % (more, name))


def make_signed():
    """The letter, signed and stamped, and the trust list."""
    write("letter.txt", b"Dear archive,\nthis is my letter.\n")
    certificate("signer")
    certificate("authority", STAMPING)
    authority.configure(HERE, "authority.cnf", "authority")
    sign("letter.p7s")
    sign("text.p7s", "-cades")
    run("cmsproof request --of letter.p7s --cert letter.tsq")
    answer("letter")
    run("cmsproof attach --signer 1 --token letter.tok letter.p7s stamped.p7s")
    run("cmsproof-trust --signer signer.pem --tsa authority.pem > trusted.txt")


def make_stamped():
    """Signed files whose token fails a rule."""
    run("openssl ts -query -data letter.txt -sha256 -cert -out content.tsq")
    answer("content")
    put_token("content_stamped.p7s", read("content.tok"))
    kind, explicit = der.elements(der.only(read("letter.tok")).body())
    put_token("ber_stamped.p7s", der.sequence(kind.whole(), b"\xa0\x80", explicit.body(), b"\0\0"))


if __name__ == "__main__":
    make_signed()
    make_stamped()
