#!/usr/bin/env python3
"""Stamps signed files with a real authority, from the request to the file with its token, and compares each result.

    python3 tools/trying/attaching.py [PROGRAM]

PROGRAM is ./cmsproof by default. The files are those of data/real and some that `openssl cms -sign` makes on the spot, the
authority is `openssl ts -reply` with a key of its own. For each signer of each file: `request --of` makes the request, `openssl
ts -reply` answers it, `match` takes the token out, `attach` puts it into the file. Then

- the new file is compared, octet by octet, with one that the oracle builds from the old one: the attribute appended, five
  lengths made anew, all else as it was;
- `openssl cms -cmsout -print` reads it and shows one time-stamp token more than before;
- `openssl cms -verify` says of its signatures what it said of those of the old file;
- `openssl ts -verify` says that the token stamps the octets of that signature;
- `compare` says `same` of the old file and the new one.
"""
from __future__ import annotations

import shutil
import subprocess
import sys
import tempfile
from pathlib import Path

TOOLS = Path(__file__).resolve().parent.parent
sys.path.insert(0, str(TOOLS))
from oracle.expected import with_token  # noqa: E402
from oracle.forms import read_signed_data  # noqa: E402
from samples.authority import STAMPING, configure, make_certificate, openssl  # noqa: E402

# file, its content where it is not in it, how many signers it has
FILES = [
    ("rsa_attached.p7s", None, 1),
    ("two_attached.p7s", None, 2),
    ("rsa_detached.p7s", "blob.bin", 1),
    ("rsa_attached_ts.p7s", None, 1),
    ("ec_attached_ts.p7s", None, 1),
    ("two_attached_ts.p7s", None, 2),
    ("noattr.p7s", None, 1),
]
# files that are made here, by these lengths of content: the outer lengths take one octet more somewhere between
MADE = [0, 1, 60, 1000, 64000, 65000, 70000]
DIGESTS = "sha1, sha256, sha384, sha512"


def run(words, folder=None):
    return subprocess.run([str(w) for w in words], capture_output=True, cwd=folder)


class Attaching:
    def __init__(self, program, files, folder):
        self.program, self.files, self.folder, self.count, self.faults = program, files, folder, 0, []

    def hold(self, name, what, good):
        self.count += 1
        if not good:
            self.faults.append(f"{name}: {what}")

    def ours(self, words, line):
        done = run([self.program, *words], self.folder)
        self.hold(
            " ".join(map(str, words)),
            f"{done.stdout} {done.stderr} {done.returncode}",
            (done.stdout.decode(), done.stderr, done.returncode) == (line, b"", 0),
        )

    def verified(self, path, content):
        words = ["openssl", "cms", "-verify", "-noverify", "-binary", "-inform", "DER", "-in", path, "-out", "verified"]
        return run(words + (["-content", content] if content else []), self.folder).returncode

    def printed(self, path):
        done = run(["openssl", "cms", "-cmsout", "-print", "-inform", "DER", "-in", path], self.folder)
        text = done.stdout.decode("latin-1")
        return done.returncode, text.count("id-smime-aa-timeStampToken")

    def stamp(self, name, path, content, number):
        """Stamps one signer of a file, and answers the path of the file with the token."""
        old = Path(path).read_bytes()
        new = self.folder / f"{name}.{number}.new"
        said = f"{name} signer {number}"
        self.ours(["request", "--of", path, "--signer", number, "--cert", "request"], "")
        openssl(self.folder, "ts", "-reply", "-config", "tsa.cnf", "-queryfile", "request", "-out", "response")
        self.ours(["match", "request", "response", "token"], "answers\n")
        self.ours(["attach", "--signer", number, "--token", "token", path, new], "")
        whole = with_token(old, number, (self.folder / "token").read_bytes())
        self.hold(said, "another file than the one expected", new.exists() and new.read_bytes() == whole)
        if not new.exists():
            return path
        before, after = self.printed(path), self.printed(new)
        self.hold(said, f"openssl shows {before} before and {after} after", after == (0, before[1] + 1))
        self.hold(said, "openssl cms -verify changed", self.verified(path, content) == self.verified(new, content))
        (self.folder / "signature").write_bytes(read_signed_data(old).signers[number - 1].signature)
        words = "ts -verify -token_in -in token -data signature -CAfile tsa.pem -untrusted tsa.pem"
        self.hold(said, "openssl ts -verify", run(["openssl", *words.split()], self.folder).returncode == 0)
        if "noattr" not in name and content is None:
            self.ours(["compare", "--first", number, "--second", number, path, new], "same\n")
        return new

    def file(self, name, path, content, signers):
        for number in range(1, signers + 1):
            path = self.stamp(name, path, content, number)
        self.stamp(name + ".again", path, content, 1)


def make(folder):
    """The authority, and files of a signer with contents of these lengths."""
    make_certificate(folder, "tsa", STAMPING)
    make_certificate(folder, "signer")
    configure(folder, "tsa.cnf", "tsa", DIGESTS, more="ess_cert_id_alg = sha256\n")
    for length in MADE:
        (folder / "content").write_bytes(b"a" * length)
        words = "-cades -binary -nodetach -outform DER -in content -signer signer.pem -inkey signer.key".split()
        openssl(folder, "cms", "-sign", *words, "-out", f"made_{length}.p7s")


def main():
    program = Path(sys.argv[1] if len(sys.argv) > 1 else "cmsproof").resolve()
    files = TOOLS.parent / "data" / "real"
    if shutil.which("openssl") is None:
        raise SystemExit("attaching.py: openssl is not there")
    with tempfile.TemporaryDirectory() as temporary:
        folder = Path(temporary)
        make(folder)
        attaching = Attaching(program, files, folder)
        for name, content, signers in FILES:
            attaching.file(name, files / name, files / content if content else None, signers)
        for length in MADE:
            attaching.file(f"made_{length}.p7s", folder / f"made_{length}.p7s", None, 1)
    for fault in attaching.faults:
        print("DIFFERS", fault)
    print(f"{attaching.count} compared, {len(attaching.faults)} differ")
    raise SystemExit(1 if attaching.faults else 0)


if __name__ == "__main__":
    main()
