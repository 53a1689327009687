#!/usr/bin/env python3
"""Makes requests, responses and tokens by OpenSSL, in a folder that is removed again, with the parts that its configuration can ask
for, and compares what the program shows of them with what `openssl ts -text` says, and its `match` of each request with each
response with `openssl ts -verify`.

    python3 tools/trying/stamps.py [PROGRAM [FILE ..]]

PROGRAM is ./cmsproof by default. Each FILE is a response (.tsr) or a token (.tok) to compare too. It prints what differs, and how
many were compared; status 1 where one differs.
"""
from __future__ import annotations

import os
import re
import subprocess
import sys
import tempfile
from pathlib import Path

sys.path.insert(0, str(Path(__file__).resolve().parent.parent))
from oracle.openssl_lines import response_lines, said, stamp_lines  # noqa: E402
from samples.authority import STAMPING, configure, make_certificate  # noqa: E402

PARTS = {
    "plain": "",
    "named": "accuracy = secs:1, millisecs:500, microsecs:100\nordering = yes\ntsa_name = yes\n",
    "millis": "accuracy = millisecs:5\n",
    "fine": "accuracy = secs:300\nordering = yes\nclock_precision_digits = 6\n",
}
# What is asked for, and with which of the parts above it is answered.
ASKED = [
    ("plain", "-sha256 -cert"),
    ("plain", "-sha256 -no_nonce"),
    ("plain", "-sha384"),
    ("named", "-sha512 -cert"),
    ("named", "-sha1 -no_nonce"),
    ("millis", "-sha224 -tspolicy 2.999.4"),
    ("fine", "-sha256 -tspolicy 2.999.4 -cert"),
    ("fine", "-sha512-256"),
    ("plain", "-md5"),
    ("plain", "-sha256 -tspolicy 2.999.5"),
]
DIGESTS = "sha1, sha224, sha256, sha384, sha512, sha512-256"
# the name that the configuration gives to an identifier, in the texts that openssl prints
NAMES = {"other": "2.999.4"}
NAMING = "oid_section = oids\n[oids]\nother = 2.999.4\n"


def run(words, **more):
    return subprocess.run(words, capture_output=True, text=True, **more)


def openssl(line, *more):
    done = run(["openssl"] + line.split() + list(more))
    if done.returncode:
        sys.exit("openssl %s: %s" % (line, done.stderr))
    return done.stdout


def make():
    """The authority, and requests with their responses."""
    make_certificate(Path("."), "stamps", STAMPING)
    for name, parts in PARTS.items():
        configure(Path("."), name + ".cnf", "stamps", DIGESTS, before=NAMING, more="other_policies = 2.999.4\n" + parts)
    Path("data").write_text("abc")
    for n, (parts, asked) in enumerate(ASKED):
        openssl("ts -query -data data %s -out %d.tsq" % (asked, n))
        openssl("ts -reply -config %s.cnf -section stamps -queryfile %d.tsq -out %d.tsr" % (parts, n, n))


def tsa_of(octets):
    """The name of the authority in a TSTInfo, a GeneralName: its octets, where `openssl asn1parse` finds them."""
    inside = re.search(r"^ *(\d+):d=1  hl=(\d+) l= *(\d+) cons: cont \[ 0 \]", openssl("asn1parse -inform DER -in tst"), re.M)
    start = int(inside.group(1)) + int(inside.group(2))
    return octets[start : start + int(inside.group(3))]


class Compared:
    def __init__(self, program):
        self.program, self.count, self.wrong = program, 0, 0

    def hold(self, words, expected, status):
        done = run([self.program] + words)
        self.count += 1
        if (done.stdout, done.returncode, done.stderr) != (expected, status, ""):
            self.wrong += 1
            print(
                "cmsproof %s\n  says    %r %d %s\n  and not %r %d"
                % (" ".join(words), done.stdout, done.returncode, done.stderr, expected, status)
            )

    def stamp(self, token, text):
        parts = openssl("asn1parse -inform DER -in", token)
        place = re.search(r"^ *(\d+):d=5  hl=\d+ l= *\d+ prim: OCTET STRING", parts, re.M).group(1)
        openssl("asn1parse -noout -strparse %s -inform DER -out tst -in" % place, token)
        tsa = None if said(text, "TSA") is None else tsa_of(Path("tst").read_bytes())
        self.hold(["show", "tst", "tst"], "\n".join(stamp_lines(text, tsa, NAMES)) + "\n", 0)

    def response(self, path):
        text = openssl("ts -reply -text -config plain.cnf -in", path)
        self.hold(["show", "response", path], "\n".join(response_lines(text)) + "\n", 0)
        if "Not included." not in text:
            openssl("ts -reply -config plain.cnf -token_out -out token -in", path)
            self.stamp("token", text)

    def matched(self, request, response):
        words = "openssl ts -verify -config plain.cnf -CAfile stamps.pem -untrusted stamps.pem -queryfile %s -in %s" % (
            request,
            response,
        )
        good = run(words.split()).returncode == 0
        done = run([self.program, "match", request, response])
        self.count += 1
        # OpenSSL leaves it to who calls it whether a certificate that was asked for is there.
        ours = done.stdout in ("answers\n", "refused P7 CertMissing\n")
        if good != ours or done.stderr or done.returncode != (done.stdout != "answers\n"):
            self.wrong += 1
            print(
                "cmsproof match %s %s\n  says %r %d %s, and openssl ts -verify %s"
                % (request, response, done.stdout, done.returncode, done.stderr, good)
            )


def main():
    compared = Compared(os.path.abspath(sys.argv[1] if len(sys.argv) > 1 else "cmsproof"))
    files = [os.path.abspath(f) for f in sys.argv[2:]]
    with tempfile.TemporaryDirectory() as folder:
        os.chdir(folder)
        make()
        for n in range(len(ASKED)):
            compared.response("%d.tsr" % n)
        for n in range(len(ASKED)):
            for m in range(len(ASKED)):
                compared.matched("%d.tsq" % n, "%d.tsr" % m)
        for path in files:
            if path.endswith(".tsr"):
                compared.response(path)
            else:
                compared.stamp(path, openssl("ts -reply -token_in -text -config plain.cnf -in", path))
        os.chdir("/")
    print("%d compared, %d differ" % (compared.count, compared.wrong))
    return 1 if compared.wrong else 0


if __name__ == "__main__":
    sys.exit(main())
