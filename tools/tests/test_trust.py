"""Tests of cmsproof-trust, over certificates that openssl makes and those of the repository's trust list."""
import subprocess
import tempfile
import unittest
from base64 import b64encode
from pathlib import Path

from making import PROGRAM, REAL, need_tools, openssl, processor_seconds, run_tool, without_library

need_tools()

STAMPING = "extendedKeyUsage=critical,timeStamping"
STAMPER = "for time-stamping alone (RFC 3161 2.3): it is an authority's, and signs no files: --tsa lists it"
WARNING = "not for time-stamping alone (RFC 3161 2.3): tokens under it are refused"
# the rows are parted by |
NO_TIMES = (
    "2024|20240101|20240101000000|20240101000000z|20230229000000Z|21000229000000Z|19000229000000Z|00010229000000Z|"
    "20241301000000Z|20240100000000Z|20240132000000Z|20240101240000Z|20240101006000Z|20240101000060Z|20240101000061Z|"
    "20240101000000.Z|20240101000000.50Z|20240101000000.1234567891Z|20240101000000,5Z|20240101000000+0100|"
    "|-|2024-01-01|٢٠٢٤0101000000Z|20240101000000Z "
)
NO_TIME = "cmsproof-trust: argument --{}: {} is no time, as 20351231235959Z is one (see cmsproof-trust --help)\n"


def entries(text):
    """The lines of a trust list that are no comments, without the first."""
    lines = text.split("\n")
    assert (lines[0], lines[-1]) == ("cmsproof trust 2", "")
    return [line for line in lines[1:-1] if line and not line.startswith("#")]


class Trusting(unittest.TestCase):
    """Lists of certificates that are made here."""

    @classmethod
    def setUpClass(cls):
        temporary = tempfile.TemporaryDirectory()
        cls.addClassCleanup(temporary.cleanup)
        cls.folder = Path(temporary.name)
        openssl("genpkey", "-algorithm", "EC", "-pkeyopt", "ec_paramgen_curve:P-256", "-out", cls.folder / "key")
        cls.alice, cls.bob = cls.certificate("alice"), cls.certificate("bob")
        cls.authority = cls.certificate("authority", STAMPING)
        cls.bundle = cls.folder / "bundle.pem"
        key = (cls.folder / "key").read_bytes()
        cls.bundle.write_bytes(
            b"0 of alice:\n" + cls.pem("alice") + key + b"and of bob\n" + cls.pem("bob").replace(b"\n", b"\r\n")
        )

    @classmethod
    def certificate(cls, name, *extensions, subject=None):
        """The octets of a certificate, which stands in NAME.pem and NAME.der."""
        pem = cls.folder / f"{name}.pem"
        if not any(extension.startswith("basicConstraints") for extension in extensions):
            extensions = ["basicConstraints=CA:FALSE", *extensions]
        words = [word for extension in extensions for word in ("-addext", extension)]
        openssl(
            "req",
            "-x509",
            "-key",
            cls.folder / "key",
            "-days",
            "30",
            "-set_serial",
            "0x80ff",
            "-utf8",
            "-out",
            pem,
            "-subj",
            f"/O=cmsproof/CN={subject or name}",
            *words,
        )
        octets = openssl("x509", "-in", pem, "-outform", "DER")
        (cls.folder / f"{name}.der").write_bytes(octets)
        return octets

    @classmethod
    def pem(cls, name):
        """The octets of NAME.pem."""
        return (cls.folder / f"{name}.pem").read_bytes()

    def made(self, *words, err=""):
        """The list of these words, which the program reads, with this on standard error."""
        status, out, told = run_tool("cmsproof-trust", *words)
        told = "".join(line for line in told.splitlines(True) if STAMPER not in line)
        self.assertEqual((status, told), (0, err))
        if PROGRAM.exists():
            (self.folder / "list").write_bytes(out)
            done = subprocess.run(
                [PROGRAM, "migrate", self.folder / "list", self.folder / "again"], capture_output=True, check=False
            )
            self.assertEqual((done.returncode, done.stdout, done.stderr), (0, b"", b""))
            self.assertEqual(entries((self.folder / "again").read_text()), entries(out.decode()))
        return out.decode()

    def refused(self, status, line, *words):
        """Asserts that the tool ends with this status, this line and nothing on standard output."""
        self.assertEqual(run_tool("cmsproof-trust", *words), (status, b"", line), words)

    def test_files_in_their_order(self):
        f, alice, bob, authority = self.folder, self.alice.hex(), self.bob.hex(), self.authority.hex()
        rows = [
            (["--signer", f / "alice.pem"], [f"signer - - {alice}"]),
            (["--signer", f / "alice.der"], [f"signer - - {alice}"]),
            (["--tsa", f / "authority.der"], [f"tsa - - {authority}"]),
            (["--all", "--signer", self.bundle], [f"signer - - {alice}", f"signer - - {bob}"]),
            (
                ["--tsa", f / "authority.pem", "--signer", f / "bob.der", "--signer", f / "alice.pem"],
                [f"tsa - - {authority}", f"signer - - {bob}", f"signer - - {alice}"],
            ),
            (
                ["--signer", f / "authority.pem", "--tsa", f / "authority.pem"],
                [f"signer - - {authority}", f"tsa - - {authority}"],
            ),
        ]
        for words, expected in rows:
            self.assertEqual(entries(self.made(*words)), expected, words)

    def test_a_certificate_is_listed_once(self):
        again = f"cmsproof-trust: {self.folder}/alice.der: certificate 1 is in the list already\n"
        lines = entries(self.made("--all", "--signer", self.bundle, "--signer", self.folder / "alice.der", err=again))
        self.assertEqual(lines, [f"signer - - {self.alice.hex()}", f"signer - - {self.bob.hex()}"])

    def test_comments(self):
        text = self.made("--tsa", self.folder / "authority.pem")
        said = openssl("x509", "-in", self.folder / "authority.pem", "-noout", "-dates", "-dateopt", "iso_8601").decode()
        first, last = ("".join(c for c in line if c.isdigit()) + "Z" for line in said.splitlines())
        self.assertEqual(
            text.split("\n")[1:8],
            [
                "",
                f"# {self.folder}/authority.pem",
                "# subject CN=authority,O=cmsproof",
                "# issuer CN=authority,O=cmsproof",
                "# serial 0080ff",
                f"# valid {first} to {last}",
                f"# sha256 {self.fingerprint('authority')}",
            ],
        )

    def fingerprint(self, name):
        """What OpenSSL says."""
        said = openssl("x509", "-in", self.folder / f"{name}.pem", "-noout", "-fingerprint", "-sha256").decode()
        return said.rstrip("\n").partition("=")[2]

    def test_one_certificate_in_a_file_unless_all_are_asked_for(self):
        choice = "name a file with the one that you trust, or trust all of them by --all"
        f, several = self.folder, "{} certificates are in it: " + choice
        first, second, trusted = self.pem("alice"), self.pem("bob"), f / "trusted.pem"
        openssl("x509", "-in", f / "alice.pem", "-trustout", "-addtrust", "clientAuth", "-out", trusted)
        hidden = "another certificate begins in it, which is not read here, but is elsewhere"
        # (of a certificate in DER with one in PEM behind it `openssl x509` shows the first one, and `keytool` looks at no label)
        beside = "another certificate may be in it, in DER or under another label, which is not read here, but is elsewhere"
        rows = [
            (self.alice + second, 2, beside),
            (second + self.alice, 2, beside),
            (bytes([0x30, 0x80]) + self.alice[4:] + bytes(2) + second, 2, beside),
            *((block + second, 2, beside) for block in self.labelled_otherwise()),
            (first + second, 1, several.format(2)),
            (second + b"x" + first, 1, several.format(2)),
            (first + second + self.pem("authority") + second, 1, several.format(3)),
            (first + first, 0, None),
            (trusted.read_bytes() + second, 2, hidden),
            (second + trusted.read_bytes(), 2, hidden),
        ]
        path = f / "some.pem"
        for octets, status, line in rows:
            path.write_bytes(octets)
            for role in ("--signer", "--tsa"):
                found, out, err = run_tool("cmsproof-trust", "--signer", f / "bob.der", role, path)
                self.assertEqual(found, status, octets)
                if line:
                    self.assertEqual((out, err), (b"", f"cmsproof-trust: {path}: {line}\n"))
            if status == 1:
                self.assertEqual(len(entries(run_tool("cmsproof-trust", "--all", "--signer", path)[1].decode())), int(line[0]))

    def labelled_otherwise(self):
        """Certificates as `keytool` shows them: under any label, also one with a hyphen, whatever ends a line, in BER, without the signs `=` at
        the end, and in a SignedData."""
        first = self.pem("alice").replace(b" CERTIFICATE", b" LETTER")
        padded = next(octets for octets in map(self.certificate, ("a", "ab", "abc")) if len(octets) % 3)
        return (
            first,
            first.replace(b" LETTER", b" A-B"),
            first.replace(b" LETTER", b" A-B").replace(b"\n", b"\r"),
            b"-----BEGIN A-----\n" + b64encode(bytes([0x30, 0x80]) + self.alice[4:] + bytes(2)) + b"\n-----END A-----\n",
            b"-----BEGIN A-----\n" + b64encode(padded).rstrip(b"=") + b"\n-----END A-----\n",
            openssl("crl2pkcs7", "-nocrl", "-certfile", self.folder / "alice.pem"),
        )

    def test_many_certificates_that_do_not_end(self):
        """A megabyte of first lines took minutes, as did one of their beginnings in one line."""
        from cmsproof_tools import certificates, revocation

        many = b"-----BEGIN CERTIFICATE-----\n" * 40_000
        for octets in (many, many + self.pem("alice"), self.pem("alice") + b"-----BEGIN " * 100_000 + b"CERTIFICATE-----"):
            began = processor_seconds()
            with self.assertRaises(ValueError):
                certificates.certificates_in(octets)
            with self.assertRaises(ValueError):
                list(revocation.lists_in("many.crl", octets.replace(b"CERTIFICATE", b"X509 CRL")))
            self.assertLess(processor_seconds() - began, 10)

    def test_a_warning_of_an_issuer(self):
        line = "an issuer's certificate (CA:TRUE): those that it issued are not trusted by it"
        self.certificate("issuer", "basicConstraints=CA:TRUE", STAMPING)
        path = self.folder / "issuer.pem"
        err = f"cmsproof-trust: warning: {path}: subject CN=issuer,O=cmsproof: {line}\n"
        for role in ("--signer", "--tsa"):
            self.assertIn(f"# warning: {line}\n", self.made(role, path, err=err))
            self.assertNotIn(line, self.made(role, self.folder / "authority.pem"))

    def test_a_name_makes_no_line_of_its_own(self):
        forged = f"bob\nsigner - - {self.bob.hex()[:20]}"
        certificate = self.certificate("forged", subject=forged)
        text = self.made("--signer", self.folder / "forged.der")
        self.assertEqual(entries(text), [f"signer - - {certificate.hex()}"])
        self.assertIn(f"CN=bob\\nsigner - - {self.bob.hex()[:20]}", text)
        other = self.folder / "two\nlines.der"
        other.write_bytes(self.alice)
        self.assertEqual(entries(self.made("--signer", other)), [f"signer - - {self.alice.hex()}"])

    def test_periods(self):
        rows = [
            ("20240101000000Z", None),
            (None, "20240101000000Z"),
            ("20240229235959.5Z", "20240229235959.51Z"),
            ("20240101000000.000000001Z", "20240101000000.000000001Z"),
            ("20240101000000Z", "20240101000000.1Z"),
            ("00000229000000Z", "99991231235959.999999999Z"),
            ("20000229000000Z", "20000229000000Z"),
        ]
        for first, last in rows:
            words = [*(["--from", first] if first else []), *(["--until", last] if last else [])]
            line = f"signer {first or '-'} {last or '-'} {self.alice.hex()}"
            self.assertEqual(entries(self.made("--signer", self.folder / "alice.pem", *words)), [line])

    def test_times_that_are_none(self):
        for text in NO_TIMES.split("|"):
            for option in ("from", "until"):
                self.refused(3, NO_TIME.format(option, text), "--signer", self.folder / "alice.pem", f"--{option}={text}")

    def test_a_period_that_ends_before_it_begins(self):
        line = "cmsproof-trust: --from is later than --until (see cmsproof-trust --help)\n"
        for first, last in (
            ("20240101000001Z", "20240101000000Z"),
            ("20240101000000.5Z", "20240101000000Z"),
            ("20240101000000.5Z", "20240101000000.49Z"),
            ("20240101000000.51Z", "20240101000000.5Z"),
        ):
            self.refused(3, line, "--signer", self.folder / "alice.pem", "--from", first, "--until", last)

    def test_warnings(self):
        rows = [
            (True, [STAMPING]),
            (False, []),
            (False, ["extendedKeyUsage=timeStamping"]),
            (False, ["extendedKeyUsage=critical,codeSigning"]),
            (False, ["extendedKeyUsage=critical,timeStamping,codeSigning"]),
            (False, ["extendedKeyUsage=critical,codeSigning,timeStamping"]),
            (True, [STAMPING, "keyUsage=critical,digitalSignature"]),
        ]
        for number, (good, extensions) in enumerate(rows):
            name = f"usage{number}"
            self.certificate(name, *extensions)
            path = self.folder / f"{name}.pem"
            err = "" if good else f"cmsproof-trust: warning: {path}: subject CN={name},O=cmsproof: {WARNING}\n"
            text = self.made("--tsa", path, "--signer", path, err=err)
            self.assertEqual(text.count(f"# warning: {WARNING}\n"), 0 if good else 1)
            self.as_the_program_says(self.folder / f"{name}.der", good)

    def test_an_authority_is_no_signer(self):
        """A certificate for time-stamping alone that is listed as a signer's has a warning."""
        for name, role, warned in (("authority", "signer", 1), ("authority", "tsa", 0), ("alice", "signer", 0)):
            status, out, told = run_tool("cmsproof-trust", "--" + role, self.folder / f"{name}.pem")
            self.assertEqual((status, told.count(STAMPER), out.decode().count(f"# warning: {STAMPER}\n")), (0, warned, warned))

    def test_names_that_the_library_does_not_know(self):
        """An x400Address as an alternative name (RFC 5280 4.2.1.6)."""
        line = "an issuer's certificate (CA:TRUE): those that it issued are not trusted by it"
        other = "subjectAltName=DER:3004a3023000"
        self.certificate("bare", "basicConstraints=DER:05", STAMPING)
        self.made("--tsa", self.folder / "bare.pem")
        self.certificate("x400", other, STAMPING)
        self.certificate("x400ca", other, STAMPING, "basicConstraints=critical,CA:TRUE")
        for role in ("--signer", "--tsa"):
            self.made(role, self.folder / "x400.der")
            path = self.folder / "x400ca.pem"
            self.made(role, path, err=f"cmsproof-trust: warning: {path}: subject CN=x400ca,O=cmsproof: {line}\n")

    def as_the_program_says(self, path, good):
        """Asserts that the program says the same of the certificate."""
        if PROGRAM.exists():
            shown = subprocess.run([PROGRAM, "cert", path], capture_output=True, check=True).stdout.decode()
            self.assertEqual("stamping yes\n" in shown, good)

    def test_files_that_hold_none(self):
        alice, key = self.alice, (self.folder / "key").read_bytes()
        trusted = openssl("x509", "-in", self.folder / "alice.pem", "-trustout", "-addtrust", "clientAuth")
        one = b"-----BEGIN CERTIFICATE-----\n%s\n-----END CERTIFICATE-----\n"
        rows = [
            (b"", "it is no certificate in PEM or DER: "),
            (b"no certificate", "it is no certificate in PEM or DER: "),
            (alice + b"\0", "it is no certificate in PEM or DER: "),
            (alice[:-1], "it is no certificate in PEM or DER: "),
            (alice + alice, "it is no certificate in PEM or DER: "),
            (key, "no certificate is in it, but other PEM\n"),
            (
                alice.replace(bytes.fromhex("a003020102"), bytes.fromhex("a003020105"), 1),
                "it is no certificate in PEM or DER: ",
            ),
            (trusted, "no certificate is in it, but other PEM\n"),
            (self.pem("alice")[:-8], "no certificate is in it, but other PEM\n"),
            (one % b"MIIB", "certificate 1 is none: "),
            (one % b"!", "certificate 1 is none: "),
            (self.pem("alice") + one % b"", "certificate 2 is none: "),
            (self.pem("alice").replace(b"-----END CERTIFICATE-----\n", b"") + self.pem("bob"), "certificate 1 is none: "),
        ]
        path = self.folder / "none"
        for octets, line in rows:
            path.write_bytes(octets)
            status, out, err = run_tool("cmsproof-trust", "--signer", self.folder / "bob.pem", "--tsa", path)
            self.assertEqual((status, out, len(err.splitlines())), (2, b"", 1), octets[:60])
            self.assertIn(f"cmsproof-trust: {path}: {line}", err)

    def test_words_and_files(self):
        missing = self.folder / "missing"
        self.refused(4, f"cmsproof-trust: failed open {missing}: No such file or directory\n", "--signer", missing)
        self.refused(3, "cmsproof-trust: no certificate is named: --signer FILE or --tsa FILE (see cmsproof-trust --help)\n")
        self.refused(3, "cmsproof-trust: argument --tsa: expected at least one argument (see cmsproof-trust --help)\n", "--tsa")
        self.refused(3, f"cmsproof-trust: unrecognized arguments: {missing} (see cmsproof-trust --help)\n", missing)
        for words in (["--help"], ["--version"]):
            status, out, err = run_tool("cmsproof-trust", *words)
            self.assertEqual((status, out.startswith((b"usage: cmsproof-trust", b"cmsproof-trust ")), err), (0, True, ""))

    def test_the_library_is_missing(self):
        with tempfile.TemporaryDirectory() as folder:
            status, out, err = run_tool("cmsproof-trust", "--signer", self.folder / "alice.pem", env=without_library(folder))
        self.assertEqual((status, out, len(err.splitlines())), (4, b"", 1))
        self.assertIn("install Debian's python3-cryptography", err)


class Real(unittest.TestCase):
    """The certificates of the repository's trust list."""

    def test_the_same_list_comes_of_its_certificates(self):
        listed = [
            line.split(" ") for line in (REAL / "trust.txt").read_text().splitlines()[1:] if line and not line.startswith("#")
        ]
        with tempfile.TemporaryDirectory() as folder:
            words = []
            for number, (role, _, _, octets) in enumerate(listed):
                (Path(folder) / str(number)).write_bytes(bytes.fromhex(octets))
                words += ["--" + role, str(Path(folder) / str(number))]
            status, out, err = run_tool("cmsproof-trust", *words)
        self.assertEqual((status, entries(out.decode())), (0, [" ".join(entry) for entry in listed]), err)


if __name__ == "__main__":
    unittest.main()
