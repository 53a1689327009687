"""What the tests of trust by issuer share: a hierarchy, its files, and lists that are made of them in this process."""
import subprocess
import sys
from pathlib import Path

from making import INSTALLED, PROGRAM, need_tools, openssl

need_tools()
from samples import hierarchy as h

AT, CLOCK_AT = "20240501100000Z", "2024-05-01 10:00:00"
ALWAYS = "20200101000000Z", "20400101000000Z"


class World:
    """A root with an issuer below it and Anna, a signer; another root with Clock, an authority. All are valid from 2020 to 2040."""

    def __init__(self, folder):
        self.folder = Path(folder)
        self.root, self.clocks = h.root(), h.root("Clocks")
        self.sub = h.issue("Sub", self.root, h.authority(0))
        self.anna, self.clock = h.issue("Anna", self.sub), h.issue("Clock", self.clocks, [h.STAMPING])
        self.names = {}

    def put(self, name, octets):
        """The path of a file of these octets."""
        path = self.folder / name
        path.write_bytes(octets.octets if isinstance(octets, h.Issued) else octets)
        return str(path)

    def file(self, who=None, between=None, times=(AT,), **rest):
        """A file of a signer, with the certificates of issuers, and stamps of Clock at these times."""
        who = who or self.anna
        bag = [found.octets for found in [who, *([self.sub] if between is None else between)]]
        return h.signed(who, [(self.clock, at) for at in times], bag, **rest)

    def made(self, files, issuers=None, tsa_issuers=None, lists=(), between=(), given=(), responses=(), **rest):
        """The entries of the list for these files, as role, certificate and period, and the lines that were told. Those for no time, which
        trust nobody, are in `barred`, as role and certificate."""
        from cmsproof_tools import issuing
        from cmsproof_tools.issuer_words import Asked

        named = [self.put(f"file{at}.p7s", octets) for at, octets in enumerate(files)]
        rows = {
            "issuer": issuers or [self.root],
            "tsa": tsa_issuers or [self.clocks],
            "between": between,
            "list": lists,
            "response": responses,
        }
        paths = {kind: [self.put(f"{kind}{at}", octets) for at, octets in enumerate(found)] for kind, found in rows.items()}
        told = []
        words = {"issuers": paths["issuer"], "tsa_issuers": paths["tsa"], "between": paths["between"], "lists": paths["list"]}
        words["responses"] = paths["response"]
        self.text, self.status = issuing.list_text(Asked(**{**words, **rest}), given, named, told.append)
        lines = [line.split(" ") for line in self.text.decode().split("\n")[1:] if line and not line.startswith("#")]
        found = [(role, first, last, bytes.fromhex(octets)) for role, first, last, octets in lines]
        no_time = [row for row in found if row[1] == row[2] and row[1].endswith(".999999999Z")]
        self.barred = [(role, octets) for role, *_, octets in no_time]
        return [row for row in found if row not in no_time], told

    def periods(self, who, *words, role="signer", **rest):
        """The periods that a certificate has in the list, and the lines."""
        entries, told = self.made(*words, **rest)
        return [(first, last) for kind, first, last, octets in entries if kind == role and octets == who.octets], told

    def by_sha1(self, by):
        """A certificate that is signed by SHA-1, which Python's library does not do any more."""
        return self.by_openssl(h.issue("A"), by, "-sha1")

    def by_openssl(self, issued, by, *more):
        """The certificate, signed by an issuer as OpenSSL does it with these words."""
        key = by.key.private_bytes(
            h.serialization.Encoding.PEM, h.serialization.PrivateFormat.PKCS8, h.serialization.NoEncryption()
        )
        words = ["-CA", self.put("by.pem", pem(by)), "-CAkey", self.put("by.key", key), *more, "-preserve_dates"]
        octets = openssl("x509", "-in", self.put("of.pem", pem(issued)), *words, "-outform", "DER")
        return h.Issued(issued.key, h.x509.load_der_x509_certificate(octets))

    def checked(self, octets):
        """What the commands say of a file under the list that was made last."""
        trust, file, answers = self.put("trust.txt", self.text), self.put("checked.p7s", octets), self.folder / "answers.txt"
        asked = subprocess.run([PROGRAM, "questions", "--trust", trust, file], capture_output=True, check=False).stdout
        verify = [sys.executable, INSTALLED / "cmsproof-verify", "-", answers]
        subprocess.run(verify, input=asked or b"cmsproof questions 1\n", capture_output=True, check=True)
        words = [PROGRAM, "check", "--trust", trust, "--answers", answers, file]
        return subprocess.run(words, capture_output=True, check=False).stdout.decode().strip()

    def openssl(self, octets, roots, moment, *words, lists=()):
        """Whether `openssl cms -verify -attime` takes a file, which it reads no token of, at a moment, with these lists."""
        file, trusted = self.put("openssl.p7s", octets), self.folder / "roots.pem"
        trusted.write_bytes(b"".join(map(pem, roots)) + b"".join(map(list_pem, lists)))
        at = str(int(h.time_of(moment).replace(tzinfo=h.datetime.timezone.utc).timestamp()))
        command = [
            "openssl",
            "cms",
            "-verify",
            "-binary",
            "-inform",
            "DER",
            "-in",
            file,
            "-CAfile",
            trusted,
            "-no-CApath",
            "-no-CAstore",
        ]
        command += [
            "-purpose",
            "any",
            "-policy_check",
            "-policy",
            "anyPolicy",
            "-attime",
            at,
            "-out",
            self.folder / "read",
            *words,
        ]
        return subprocess.run(command, capture_output=True, check=False).returncode == 0


def pem(issued):
    """A certificate in PEM."""
    return issued.certificate.public_bytes(h.serialization.Encoding.PEM)


def list_pem(octets):
    """A revocation list in PEM."""
    return h.x509.load_der_x509_crl(octets).public_bytes(h.serialization.Encoding.PEM)
