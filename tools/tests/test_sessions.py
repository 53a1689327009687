"""Tests of the sessions in README.md and docs/GUIDE.md: nobody is listed whose fingerprint was not shown before."""
import re
import subprocess
import unittest

from making import INSTALLED, TOP, Keys, need_tools, openssl

need_tools()

TEXTS = {name: (TOP / name).read_text() for name in ("README.md", "docs/GUIDE.md")}


def commands(name, block="console"):
    """The commands of a document that are run, in their order; of a loop over names, the command of each name."""
    blocks = re.findall(rf"^```(?:{block}) run.*?\n(.*?)^```", TEXTS[name], re.M | re.S)
    found = re.findall(r"^\$ ((?:.*\\\n)*.*)$", "".join(blocks), re.M)
    for line in found:
        loop = re.fullmatch(r"for name in (.*); do (.*); done", line)
        yield from (loop[2].replace("$name", word) for word in loop[1].split()) if loop else [line]


class Sessions(unittest.TestCase):
    """A file that Mallory signed, in which the certificate of Anna is the first."""

    @classmethod
    def setUpClass(cls):
        cls.keys = Keys()
        cls.addClassCleanup(cls.keys.close)
        cls.folder = cls.keys.folder
        # the certificates of a file are in the order of their octets (X.690 11.6), by which the shorter one is the first
        cls.anna, cls.mallory = cls.keys.certificate("P-256.anna"), cls.keys.certificate("rsa.mallory")
        (cls.folder / "content").write_bytes(b"I owe a million\n")
        words = ["-signer", cls.mallory, "-inkey", cls.keys.private("rsa.mallory"), "-certfile", cls.anna, "-nodetach"]
        words += ["-in", cls.folder / "content", "-outform", "DER", "-out", cls.folder / "letter.p7s"]
        openssl("cms", "-sign", "-cades", "-binary", *words)
        (cls.folder / "stamped.p7s").write_bytes((cls.folder / "letter.p7s").read_bytes())

    def fingerprint(self, path):
        """What OpenSSL says of the first certificate in a file."""
        return openssl("x509", "-in", path, "-noout", "-fingerprint", "-sha256").decode().strip().partition("=")[2]

    def test_anna_is_the_first_in_the_file(self):
        found = openssl("pkcs7", "-inform", "DER", "-in", self.folder / "letter.p7s", "-print_certs")
        (self.folder / "all.pem").write_bytes(found)
        self.assertEqual(found.count(b"BEGIN CERTIFICATE"), 2)
        self.assertEqual(self.fingerprint(self.folder / "all.pem"), self.fingerprint(self.anna))

    def test_who_is_listed_is_who_was_shown(self):
        for name, file in (("README.md", "signer.pem"), ("docs/GUIDE.md", "found.pem")):
            taken = [line for line in commands(name) if file in line and " -in " in line and "-CAfile" not in line]
            out = subprocess.run(["sh", "-ec", "\n".join(taken)], cwd=self.folder, capture_output=True, check=False)
            self.assertIn(b"CMS Verification successful", out.stderr + out.stdout, taken)
            self.assertEqual(self.fingerprint(self.folder / file), self.fingerprint(self.mallory), name)
            listed = subprocess.run(
                [INSTALLED / "cmsproof-trust", "--signer", file], cwd=self.folder, capture_output=True, check=True
            ).stdout.decode()
            self.assertEqual(re.findall("^# sha256 (.*)$", listed, re.M), [self.fingerprint(self.mallory)])
            self.assertEqual(len(re.findall("^signer ", listed, re.M)), 1)

    def test_each_is_compared_before_it_is_listed(self):
        for name in TEXTS:
            # the guide makes second.pem itself, from nobody's file
            compared, listed = {"second.pem"}, set()
            for line in commands(name, "console|shell"):
                compared |= set(re.findall(r"openssl x509 -in (\S+) -noout -fingerprint -sha256", line))
                if line.startswith(("cmsproof-trust", "cmsproof-archive")):
                    # (--tsa of `stamp` and `renew` is an address)
                    trusted = set(re.findall(r"--(?:signer|tsa|issuer|tsa-issuer) (?!https?://)(\S+)", line))
                    self.assertLessEqual(trusted, compared, f"{name}: {line}")
                    listed |= trusted
            self.assertLessEqual({"signer.pem", "authority.pem"}, listed, name)
            if name != "README.md":
                self.assertLessEqual({"office.pem", "times.pem"}, listed)


if __name__ == "__main__":
    unittest.main()
