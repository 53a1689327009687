"""Tests of what cmsproof-archive adds to a line: what stands behind a refusal, and what kind of file it is."""
import json
import subprocess
import tempfile
import unittest
from pathlib import Path

from archiving import WithFiles
from making import PROGRAM, REAL, Keys, openssl, run_tool

NOT_LISTED = "no {} of the list is the one that is named (serial {}, issuer CN=Anchor Root,O=anchors), the time in its token is {}. Cure: find"
LISTED = "it names line {} of the list, subject CN={},O=anchors, valid {} to 20350208071756Z, trusted {} to {}; the time in its token is {}."
PERIOD = " Cure: the certificate was valid then, but its entry is for another time"


def lines_of_list():
    """The lines of the repository's trust list that are entries: role, both ends, which are open, and certificate."""
    return [line.split(" ") for line in (REAL / "trust.txt").read_text().splitlines()[1:] if line and not line.startswith("#")]


def trust_list(*entries):
    """A trust list of version 2: the numbers of lines of the repository's list, with their periods."""
    lines = [f"{lines_of_list()[n][0]} {first} {last} {lines_of_list()[n][3]}" for n, first, last in entries]
    return "\n".join(["cmsproof trust 2", *lines, ""]).encode()


class Explanations(unittest.TestCase):
    """What is said of real files, without the program. What OpenSSL says of them stands in data/real/README.md."""

    def explained(self, name, trusted, code, **parts):
        """The explanation of this refusal of a file in data/real."""
        from cmsproof_tools.explaining import explanation

        return explanation((REAL / f"{name}.p7s").read_bytes(), trusted, {"code": code, **parts})

    def test_what_openssl_says(self):
        """The serial numbers and ends of validity that the other tests expect."""
        with tempfile.TemporaryDirectory() as folder:
            certificate = Path(folder) / "certificate"
            for entry, serial, end in ((0, "2b", "20350208071756Z"), (5, "30", "20350208071757Z")):
                certificate.write_bytes(bytes.fromhex(lines_of_list()[entry][3]))
                words = ["-noout", "-serial", "-enddate", "-dateopt", "iso_8601", "-issuer", "-nameopt", "RFC2253"]
                said = openssl("x509", "-in", certificate, *words).decode().splitlines()
                self.assertEqual(said[0].lower(), "serial=6d1c05658474a5840ce97e37f4ead3e16cefe6" + serial)
                self.assertEqual("".join(c for c in said[1] if c.isdigit()) + "Z", end)
                self.assertEqual(said[2], "issuer=CN=Anchor Root,O=anchors")

    def test_a_signer(self):
        serial, time = "6d1c05658474a5840ce97e37f4ead3e16cefe62b", "20261122071759Z"
        listed = ("rsa_signer", "20261122071756Z")
        rows = [
            ((), NOT_LISTED.format("signer", serial, time)),
            (((1, "-", "-"), (2, "-", "-")), NOT_LISTED.format("signer", serial, time)),
            (((5, "-", "-"),), NOT_LISTED.format("signer", serial, time)),
            (((1, "-", "-"), (0, "20270101000000Z", "-")), LISTED.format(3, *listed, "20270101000000Z", "-", time) + PERIOD),
            (((0, "-", "20261122071758Z"),), LISTED.format(2, *listed, "-", "20261122071758Z", time) + PERIOD),
            (((0, "-", "20261122071759Z"),), LISTED.format(2, *listed, "-", "20261122071759Z", time)),
            (((0, "20261122071759.1Z", "-"),), LISTED.format(2, *listed, "20261122071759.1Z", "-", time) + PERIOD),
        ]
        for entries, begin in rows:
            found = self.explained("rsa_attached_ts", trust_list(*entries), "S7", signer="1")
            self.assertEqual(found[: len(begin)], begin)
            self.assertEqual("Cure" in found, "Cure" in begin)

    def test_the_second_signer_and_a_list_of_version_1(self):
        found = self.explained("two_attached_ts", (REAL / "trust.txt").read_bytes(), "S7", signer="2")
        named = "it names line [0-9]+ of the list, subject CN=rsa_signer,O=anchors, valid .*"
        self.assertRegex(found, rf"^{named}; the time in its token is 2026112207180.Z\.$")

    def test_an_authority(self):
        serial, time = "6d1c05658474a5840ce97e37f4ead3e16cefe630", "20261122071759Z"
        for entries in ((), ((0, "-", "-"), (6, "-", "-"))):
            found = self.explained("rsa_attached_ts", trust_list(*entries), "K10", signer="1", token="1")
            self.assertTrue(found.startswith(NOT_LISTED.format("tsa", serial, time)), found)
        found = self.explained("rsa_attached_ts", trust_list((5, "-", "20261122071758Z")), "K13", signer="1", token="1")
        said = "it names line 2 of the list, subject CN=tsa,O=anchors, valid 20261122071757Z to 20350208071757Z, "
        self.assertTrue(
            found.startswith(said + f"trusted - to 20261122071758Z; the time in its token is {time}.{PERIOD}"), found
        )

    def test_an_entry_of_an_issuer(self):
        """What issuers issued ends for a reason, mostly a revocation: no cure says to trust it longer."""
        by_hand = trust_list((5, "-", "20261122071758Z"))
        by_issuers = by_hand.replace(b"\n", b"\n# paths were judged by OpenSSL\n", 1)
        for trusted, longer in ((by_hand, True), (by_issuers, False)):
            found = self.explained("rsa_attached_ts", trusted, "K13", signer="1", token="1")
            self.assertEqual(
                ("give it another period" in found, "If it was revoked, that stays so" in found), (longer, not longer)
            )

    def test_when_an_entry_holds(self):
        from cmsproof_tools.certificates import Certificate
        from cmsproof_tools.explaining import CURES, fault_at
        from cmsproof_tools.texts import trust_entries

        rows = [
            ("20261122071755Z", "-", "-", "early"),
            ("20261122071755.999999999Z", "-", "-", "early"),
            ("20261122071756Z", "-", "-", None),
            ("20350208071756Z", "-", "-", None),
            ("20350208071756.1Z", "-", "-", "late"),
            ("20400101000000Z", "20200101000000Z", "20200101000000Z", "late"),
            ("20300101000000Z", "20300101000000Z", "20300101000000Z", None),
            ("20300101000000.5Z", "20300101000000Z", "20300101000000Z", "period"),
            ("20291231235959.9Z", "20300101000000Z", "-", "period"),
        ]
        for time, first, last, fault in rows:
            (entry,) = trust_entries(trust_list((0, first, last)))
            self.assertEqual(fault_at(entry, Certificate(entry.octets), time), fault, time)
            self.assertTrue(fault is None or CURES[fault])

    def test_other_refusals_have_cause_and_cure(self):
        for code in ("C4", "S1", "S6", "S9", "S10", "K9", "K14", "Q2", "M6", "F6", "X3"):
            said = self.explained("rsa_attached_ts", b"cmsproof trust 2\n", code, signer="1", token="1")
            self.assertRegex(said, "^Cause: .+\\. Cure: .+ \\(REFUSALS.md, section [0-9]+\\)\\.$")
        self.assertEqual(self.explained("rsa_attached_ts", b"cmsproof trust 2\n", "Z1"), "")

    def test_the_fault_behind(self):
        from cmsproof_tools.explaining import of_code

        self.assertIn(
            " Behind it: a length is left open: BER", of_code("K1", "refused signer 1 token 1 K1 M3 Indefinite at 16")
        )
        self.assertIn(
            " Behind it: its digest algorithm is SHA-1", of_code("K5", "refused signer 1 token 1 K5 S5 DigestAlgorithm")
        )
        self.assertNotIn("Behind it", of_code("K1", "refused signer 1 token 1 K1 NotSignedData"))


# those that a front end reads
READ = ("PEM: ", "a mail", "base64", "a PDF", "a zip", "BER")


class Kinds(WithFiles):
    """Files that are no signed files in DER, made by openssl and others."""

    def kinds(self):
        """Files, by what is said of them first."""
        made, letter, keys = self.folder, REAL / "rsa_attached_ts.p7s", Keys()
        self.addCleanup(keys.close)
        rows = {"PEM: openssl cms -cmsout -inform PEM": ["PEM"], "a mail, S/MIME: openssl cms -cmsout -inform SMIME": ["SMIME"]}
        found = {
            text: openssl("cms", "-cmsout", "-inform", "DER", "-in", letter, "-outform", *form) for text, form in rows.items()
        }
        openssl("base64", "-in", letter, "-out", made / "base64")
        subprocess.run(["gzip", "-k", "base64"], cwd=made, check=True)
        found["base64: openssl base64 -d"] = (made / "base64").read_bytes()
        found["a file that is compressed: gzip -d"] = (made / "base64.gz").read_bytes()
        found["a PDF: "] = b"%PDF-1.7\n%\xe2\xe3\xcf\xd3\n1 0 obj\n"
        found["a zip file, "] = b"PK\x03\x04\x14\x00"
        found["XML or HTML: "] = b'\xef\xbb\xbf<?xml version="1.0"?>\n'
        found["a mail"] = b"Return-Path: <a@example.org>\nX-A: b\n\tc\nReceived: from b\nMIME-Version: 1.0\n\n"
        found["a file of OpenPGP"] = b"-----BEGIN PGP SIGNATURE-----\n"
        found["a certificate in PEM"] = keys.certificate("P-256").read_bytes()
        found["a trust list of cmsproof"] = b"cmsproof trust 2\n"
        found["a questions text of cmsproof"] = b"cmsproof questions 1\n"
        found["an answers list of cmsproof"] = b"cmsproof answers 1\n"
        found["BER, with open lengths: openssl cms -cmsout -inform DER"] = (REAL / "bc_attached_default.p7s").read_bytes()
        found["PEM, but neither CMS"] = openssl("genpkey", "-algorithm", "ED25519")
        return found

    def test_kinds(self):
        for number, (text, octets) in enumerate(self.kinds().items()):
            if text.startswith(READ):
                continue
            (self.folder / str(number)).write_bytes(octets)
            status, lines, err = self.run_archive(str(number))
            self.assertEqual((status, lines), (1, [f"{number}: refused F1 UnknownForm"]))
            self.assertTrue(err.startswith(f"cmsproof-archive: {number}: it looks like {text}"), err)
            self.assertEqual(len(err.splitlines()), 1)
            status, lines, _ = self.run_archive("--json", str(number))
            self.assertTrue(json.loads(lines[0])["notes"][0].startswith(f"it looks like {text}"))
        for octets, line in ((b"", "malformed M1"), (b"\x30\x82\x01\x00", "malformed M5"), (b"hello\n", "refused F1 ")):
            (self.folder / "other").write_bytes(octets)
            self.assertEqual(self.run_archive("other")[1][0][: 7 + len(line)], f"other: {line}")

    def test_the_other_tools(self):
        kinds = self.kinds()
        rows = [text for text in kinds if text.startswith(("a PDF", "a zip", "XML"))]
        for text in rows:
            (self.folder / "file").write_bytes(kinds[text])
            for words in (["cmsproof-trust", "--signer", "file"], ["cmsproof-verify", "file"]):
                status, out, err = run_tool(*words, cwd=self.folder)
                self.assertEqual((status, out, len(err.splitlines())), (2, b"", 1))
                self.assertIn(f"it looks like {text}", err)


@unittest.skipUnless(PROGRAM.exists(), "the program is not built")
class Real(unittest.TestCase):
    """With the program: the verdict's line is the same with --explain, and the explanation is behind it."""

    def test_lines(self):
        serial = "6d1c05658474a5840ce97e37f4ead3e16cefe6"
        rows = [
            ("rsa_attached_ts", (), "S7", f"no signer of the list is the one that is named (serial {serial}2b"),
            ("rsa_attached_ts", ((0, "20270101000000Z", "-"), (5, "-", "-")), "S7", "it names line 2 of the list"),
            ("rsa_attached_ts", ((0, "-", "-"),), "K10", f"no tsa of the list is the one that is named (serial {serial}30"),
            ("rsa_attached_ts", ((0, "-", "-"), (5, "20270101000000Z", "-")), "K13", "it names line 3 of the list"),
            ("rsa_attached", ((0, "-", "-"),), "S10", "Cause: no unsigned attribute has a time-stamp token."),
        ]
        with tempfile.TemporaryDirectory() as folder:
            for name, entries, code, begin in rows:
                (Path(folder) / "list").write_bytes(trust_list(*entries))
                words = ["--trust", "list", REAL / f"{name}.p7s"]
                plain = run_tool("cmsproof-archive", *words, cwd=folder)
                status, out, err = run_tool("cmsproof-archive", "--explain", *words, cwd=folder)
                first, *second = out.decode().splitlines()
                self.assertEqual((status, first + "\n", err), (1, plain[1].decode(), ""))
                self.assertIn(f" {code} ", first)
                self.assertEqual(len(second), 1 if begin else 0)
                if begin:
                    self.assertEqual(second[0][: len(begin) + 4], "    " + begin)
                said = json.loads(run_tool("cmsproof-archive", "--explain", "--json", *words, cwd=folder)[1].splitlines()[0])
                self.assertEqual(said.get("explanation"), second[0][4:] if begin else None)


if __name__ == "__main__":
    unittest.main()
