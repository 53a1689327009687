"""Tests of what a user is told where a file is not what it was named as, and of how files count that are not signed."""
import csv
import json
import os
import time
import unittest
from base64 import encodebytes

from issuing_world import World, h, pem
from making import REAL, TOP, as_nobody, element, folder_of, need_tools, openssl, run_tool

need_tools()

from cmsproof_tools.rows import STEP

TRUST, FILES = REAL / "trust.txt", TOP / "crates" / "real_files" / "data"
GOOD, BARE = (REAL / "rsa_attached_ts.p7s").read_bytes(), (REAL / "rsa_attached.p7s").read_bytes()


class Unsigned(unittest.TestCase):
    """Files that have no signature count by themselves; one that was meant as a signed file, and is none, is refused."""

    # (the boundaries of a mail that lacks its signature are broken, and of an mbox each mail is a part)
    BROKEN = b"MIME-Version: 1.0\nContent-Type: multipart/signed; boundary=b\n\n--b\n\nx\n--b--\n"
    TABLE = (
        ("text", "", b"a text\n", "refused F1 UnknownForm", "unsigned"),
        ("mail", "", b"Subject: x\n\nhello\n", "refused F1 UnknownForm", "unsigned"),
        ("encrypted", "", (FILES / "enveloped.p7m").read_bytes(), "refused C2 NotSignedData", "unsigned"),
        ("bundle", "", (FILES / "no_signer.p7s").read_bytes(), "refused C3 NoSigner", "refused"),
        ("unstamped", "", BARE, "refused signer 1 S10 NoToken", "refused"),
        ("broken", "", BROKEN, "refused F3 Broken", "refused"),
        ("box", "mail 1", b"From a b\nSubject: x\n\nhello\n", "refused F1 UnknownForm", "refused"),
        ("cut", "", b"\x30", "malformed M1 End at 1", "malformed"),
        ("good", "", GOOD, "accepted 20261122071759Z", "accepted"),
    )
    TOTALS = "1 accepted, 1 malformed, 4 refused, 3 unsigned"

    def run_on(self, *words):
        """What a run says: its lines, and the last one on standard error."""
        _, out, told = run_tool("cmsproof-archive", "--trust", TRUST, "--state", "state", *words, cwd=self.folder)
        return out.decode().splitlines(), told.splitlines()[-1].removeprefix("cmsproof-archive: ")

    def report(self, *words):
        """What a report says."""
        return run_tool("cmsproof-archive", "report", "state", *words, cwd=self.folder)[1].decode()

    def test_runs_and_reports(self):
        self.folder = folder_of(self)
        (self.folder / "files").mkdir()
        for name, _, octets, _, _ in self.TABLE:
            (self.folder / "files" / name).write_bytes(octets)
        expected = {(f"files/{name}", part, line, verdict) for name, part, _, line, verdict in self.TABLE}
        time.sleep(STEP / 1e9 + 0.1)
        lines, told = self.run_on("--json", "files")
        rows = [json.loads(line) for line in lines[:-1]]
        self.assertEqual({(row["file"], row.get("part", ""), row["line"], row["verdict"]) for row in rows}, expected)
        self.assertEqual(told, f"9 of 9 files: {self.TOTALS}")
        self.assertEqual(self.run_on("files"), ([], f"0 files; 9 are as before: {self.TOTALS}"))
        for verdict, count in (("unsigned", 3), ("refused", 4)):
            lines, told = self.run_on("--recheck", "--only", verdict)
            self.assertEqual((len(lines), told), (count, f"{count} of {count} files: {count} {verdict}"))
        (self.folder / "known").write_text("F1 files/text\n")
        _, told = self.run_on("--known", "known", "files")
        self.assertEqual(told.partition("; 1 acknowledged")[2], "; new: 1 malformed, 4 refused, 2 unsigned")
        rows = [json.loads(line) for line in self.report("--json", "-").splitlines()]
        self.assertEqual({(row["file"], row["part"], row["line"], row["verdict"]) for row in rows}, expected)
        rows = csv.DictReader(self.report("--csv", "-", "--only", "unsigned").splitlines())
        self.assertEqual({row["file"] for row in rows}, {"files/text", "files/mail", "files/encrypted"})
        page = self.report("--html", "-")
        self.assertIn('<li class="unsigned"><strong>3</strong>unsigned, 33.3 %</li>', page)
        self.assertIn('<li class="refused"><strong>4</strong>refused, 44.4 %</li>', page)
        data = json.loads(page.partition('id="data">')[2].partition("</script>")[0])
        counted = {(name, data["verdicts"][line]) for name, line, *_ in data["rows"]}
        self.assertEqual(counted, {(" ".join(filter(None, [name, part])), verdict) for name, part, _, verdict in expected})


class Unread(unittest.TestCase):
    """What cannot be read has the system's reason: a file that is not there, a folder, and a file that may not be read."""

    def assert_told(self, name, line, **who):
        """Asserts that each tool ends with this line where it is to read what has this name."""
        (self.folder / "list").write_text(f"{name}\n")
        for file, *words in ([name, "--files-from", "list"], ["list", "--content", name, "list"]):
            found = run_tool("cmsproof-archive", "--trust", TRUST, *words, cwd=self.folder, **who)
            self.assertEqual(found, (4, f"{file}: {line}\n".encode(), ""))
        for tool, *words in (["cmsproof-archive", "--trust", name, "x"], ["cmsproof-extract", name]):
            self.assertEqual(run_tool(tool, *words, cwd=self.folder, **who), (4, b"", f"{tool}: {line}\n"))

    def test_reasons(self):
        self.folder = folder_of(self)
        (self.folder / "folder").mkdir()
        self.assert_told("none", "failed open none: No such file or directory")
        self.assert_told("folder", "failed read folder: Is a directory")

    def test_a_file_that_may_not_be_read(self):
        who, self.folder = as_nobody(), folder_of(self)
        (self.folder / "secret").write_bytes(GOOD)
        os.chmod(self.folder, 0o777), os.chmod(self.folder / "secret", 0)
        self.assert_told("secret", "failed open secret: Permission denied", **who)


class Instead(unittest.TestCase):
    """What was named as a list, as questions, as a certificate or as what is known of revocations, and is something else: the line says
    what it is, and has no words of the library's language."""

    def assert_said(self, line, text, *words):
        """Asserts that a tool ends with this line, in which this is said of the file."""
        status, out, told = run_tool(*words, cwd=self.folder)
        self.assertEqual((status, out, len(told.splitlines())), (2, b"", 1), told)
        self.assertTrue(told.startswith(f"{words[0]}: file: {line}"), told)
        self.assertIn(text, told[len(f"{words[0]}: file: {line}") :])
        self.assertNotIn("ParseError", told)

    def test_what_it_is(self):
        self.folder = folder_of(self)
        words = ["-x509", "-newkey", "rsa:2048", "-nodes", "-keyout", "key", "-out", "ca", "-subj", "/CN=A", "-days", "30"]
        openssl("req", *words, cwd=self.folder)
        openssl("pkcs12", "-export", "-inkey", "key", "-in", "ca", "-passout", "pass:x", "-out", "p12", cwd=self.folder)
        damaged = bytearray((FILES / "cert_tsa.der").read_bytes())
        damaged[damaged.index(b"\x17\x0d") + 2] ^= 0x55
        no_list = "trust L1 Version at line 1: "
        no_questions = "no questions text: the first line is not `cmsproof questions 1`; "
        no_certificate, no_crl = "it is no certificate in PEM or DER: ", "it is no revocation list: "
        no_response = "it is no response of OCSP: "
        for octets, line, text in (
            (b"", no_list, "it is empty; cmsproof-trust writes trust lists"),
            (b"cmsproof answers 1\n", no_list, "it looks like an answers list of cmsproof"),
            (b"cmsproof questions 1\n", no_list, "it looks like a questions text of cmsproof"),
            ((self.folder / "ca").read_bytes(), no_list, "it looks like a certificate in PEM: cmsproof-trust lists it"),
            (GOOD, no_list, "it looks like CMS, as a signed file"),
            (b"", no_questions, "it is empty"),
            (b"cmsproof answers 1\n", no_questions, "it looks like an answers list of cmsproof"),
            (TRUST.read_bytes(), no_questions, "it looks like a trust list of cmsproof"),
            (b"", no_certificate, "it is empty"),
            ((self.folder / "p12").read_bytes(), no_certificate, "it looks like a file of PKCS #12"),
            (GOOD, no_certificate, "it looks like CMS, as a signed file"),
            ((REAL / "bc_attached_default.p7s").read_bytes(), no_certificate, "it looks like CMS, as a signed file"),
            (bytes(damaged), no_certificate, "its ASN.1 cannot be read (InvalidValue at Time::UtcTime)"),
            (b"", no_crl, "it is empty"),
            ((FILES / "cert_tsa.der").read_bytes(), no_crl, "it is a certificate"),
            (GOOD, no_crl, "it looks like CMS, as a signed file, and each FILE behind --crl is a list"),
            ((self.folder / "p12").read_bytes(), no_response, "it looks like a file of PKCS #12"),
            (GOOD, no_response, "it looks like CMS, as a signed file"),
        ):
            (self.folder / "file").write_bytes(octets)
            issuer = ["cmsproof-trust", "--issuer", "ca", "--from-files", "x"]
            for words in {
                no_list: [["cmsproof-archive", "--trust", "file", "x"], ["cmsproof-trust", "--explain", "file"]],
                no_questions: [["cmsproof-verify", "file"]],
                no_certificate: [["cmsproof-trust", "--signer", "file"], ["cmsproof-archive", "--issuer", "file", "x"]],
                no_crl: [[*issuer, "--crl", "file"], ["cmsproof-archive", "--issuer", "ca", "--crl", "file", "x"]],
                no_response: [[*issuer, "--ocsp", "file"]],
            }[line]:
                with self.subTest(line=line, text=text, words=words):
                    self.assert_said(line, text, *words)

    def test_an_empty_file(self):
        """The checker says that it ends (M1), and the tools that it is empty; there is nothing in it to be written."""
        folder = folder_of(self)
        (folder / "empty").write_bytes(b"")
        found = run_tool("cmsproof-archive", "--trust", TRUST, "empty", cwd=folder)
        self.assertEqual(found, (2, b"empty: malformed M1 End at 0\n", "cmsproof-archive: empty: it is empty\n"))
        status, out, told = run_tool("cmsproof-extract", "empty", cwd=folder)
        said = json.loads(out)
        self.assertEqual((status, said["line"], said["reason"], told), (1, "refused F1 UnknownForm", "it is empty", ""))
        self.assertEqual([path.name for path in folder.iterdir()], ["empty"])


class Issuers(unittest.TestCase):
    """What is said where issuers are named, or one stands in the place of a signer."""

    def setUp(self):
        self.world = world = World(folder_of(self))
        for name in ("root", "clocks", "sub", "anna", "clock"):
            world.put(name, getattr(world, name))
        world.put("letter", world.file())
        self.damaged = world.anna.octets.replace(b"\x17\x0d20", b"\x17\x0d2x", 1)
        self.issuers = ["--issuer", "root", "--tsa-issuer", "clocks"]

    def run_in(self, tool, *words):
        """What a tool says in the folder, without the way to its help."""
        status, out, told = run_tool(tool, *words, cwd=self.world.folder)
        return status, out, [line.removeprefix(f"{tool}: ").removesuffix(f" (see {tool} --help)") for line in told.splitlines()]

    def test_a_certificate_that_cannot_be_read_is_left_out(self):
        self.world.put("letter", self.world.file(between=[]))
        fault = "its ASN.1 cannot be read (InvalidValue at Time::UtcTime): it is left out"
        block = b"-----BEGIN CERTIFICATE-----\n%s-----END CERTIFICATE-----\n" % encodebytes(self.damaged)
        for octets, more, told in (
            (pem(self.world.sub) + block, [], [f"between: certificate 2 is none: {fault}"]),
            (self.damaged, ["sub"], [f"between: it is no certificate in PEM or DER: {fault}"]),
        ):
            self.world.put("between", octets)
            words = [*self.issuers, "--intermediate", "between", *more, "--from-files", "letter"]
            status, out, found = self.run_in("cmsproof-trust", *words)
            self.assertEqual((status, out.count(b"\nsigner "), found), (0, 1, told))
        # (whom a user trusts is read, or nobody is trusted)
        for words in (["--issuer", "between", *self.issuers[2:]], [*self.issuers, "--intermediate", "letter"]):
            self.assertEqual(self.run_in("cmsproof-trust", *words, "--from-files", "letter")[:2], (2, b""))

    def test_lists_behind_one_another(self):
        """cmsproof-trust takes several behind one word, and cmsproof-archive, to which they are signed files, none without its word."""
        world, octets = self.world, h.revocation_list(self.world.root)
        world.put("a.crl", octets), world.put("b.crl", octets), world.put("c.ocsp", h.response(world.anna, world.sub))
        world.put("d.crl", b"-----BEGIN X509 CRL-----\n%s-----END X509 CRL-----\n" % encodebytes(octets))
        # (an answer that was granted with changes has the beginning of such a list, but for a name of CMS)
        world.put("mods", element(0x30, element(0x30, element(2, b"\1")), (FILES / "rsa_attached.1.tok").read_bytes()))
        other = "{} is a {}, and would be checked as a signed file: --crl and --ocsp are said before each one".format
        for words, told in (
            (["--crl", "a.crl", "b.crl", "letter"], other("b.crl", "revocation list")),
            (["--crl=a.crl", "letter", "d.crl"], other("d.crl", "revocation list")),
            (["--ocsp", "c.ocsp", "letter", "b.crl"], other("b.crl", "revocation list")),
            (["--crl", "a.crl", "c.ocsp"], other("c.ocsp", "response of OCSP")),
            (["--crl", "a.crl", "--crl", "b.crl", "letter"], None),
            (["--crl", "a.crl", "letter", "mods", "none"], None),
            (["--crl", "a.crl", "--", "b.crl", "letter"], None),
            (["letter", "b.crl", "--crl", "a.crl"], None),
        ):
            status, out, found = self.run_in("cmsproof-archive", *self.issuers, *words)
            if told is None:
                self.assertEqual((status == 3, b"letter: " in out), (False, True), (words, found))
            else:
                self.assertEqual((status, out, found), (3, b"", [told]))
        words = [*self.issuers, "--from-files", "letter", "--crl", "a.crl"]
        self.assertIn(self.run_in("cmsproof-trust", *words, "b.crl", "d.crl")[0], (0, 1))
        status, out, (told,) = self.run_in("cmsproof-trust", *words, "letter")
        self.assertEqual((status, out, told.startswith("letter: it is no revocation list: ")), (2, b"", True))

    def test_a_list_without_an_entry_is_none(self):
        none = "no certificate of these files gets an entry: no list is written"
        (self.world.folder / "folder").mkdir()
        for issuers, file, status, first in (
            (self.issuers, "folder", 4, "failed read folder: Is a directory"),
            (self.issuers, "missing", 4, "failed open missing: No such file or directory"),
            (["--issuer", "clocks", "--tsa-issuer", "root"], "letter", 1, "letter: no path for CN=Clock"),
            (self.issuers, "root", 1, "root: it is no SignedData in DER: no entry"),
        ):
            found, out, told = self.run_in("cmsproof-trust", *issuers, "--from-files", file)
            self.assertEqual((found, out, told[-1], told[0][: len(first)]), (status, b"", none, first))
        found, out, told = self.run_in("cmsproof-trust", *self.issuers, "--from-files", "folder", "letter")
        self.assertEqual((found, out.count(b"\nsigner "), told), (4, 1, ["failed read folder: Is a directory"]))

    def test_many_lists_of_strangers(self):
        strangers = [h.revocation_list(h.root("Clocks")) for _ in range(6)]
        _, told = self.world.made([self.world.file()], lists=[*strangers[:3], *strangers])
        lines = [line for line in told if "not a list of" in line]
        self.assertEqual(len(lines), 4, told)
        self.assertTrue(all(": not a list of CN=Clocks,O=cmsproof: " in line for line in lines[:3]))
        more = "6 more lines as `not a list of` above: lists with the name of an issuer that are not that one's"
        self.assertEqual(lines[3], more)
        _, told = self.world.made([self.world.file()], lists=strangers[:3])
        self.assertEqual(len([line for line in told if "not a list of" in line]), 3)

    def test_an_issuer_in_the_place_of_whom_it_issued(self):
        """The cure is to name the issuer by its word; without one the list has nothing of who is named."""
        for role, other, text, word in (
            ("sub", "clock", "is the issuer of the signer that is named", "--issuer"),
            ("anna", "clocks", "is the issuer of the tsa that is named", "--tsa-issuer"),
            ("clocks", "clock", "no signer of the list is the one that is named", None),
        ):
            status, out, _ = self.run_in("cmsproof-trust", "--signer", role, "--tsa", other)
            (self.world.folder / "list").write_bytes(out)
            status, out, _ = self.run_in("cmsproof-archive", "--explain", "--trust", "list", "letter")
            line, explanation = out.decode().splitlines()
            self.assertEqual((status, text in explanation), (1, True), explanation)
            self.assertEqual(f"name the issuer by {word} of" in explanation, word is not None, explanation)
