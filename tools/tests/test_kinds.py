"""Tests of files as they are in the world: what is said of those that are no signed files, or signed in a form that is not read; and that
one kind of file has one answer."""
import io
import json
import os
import subprocess
import tempfile
import unittest
import zipfile

from containing import PDF, PYTHON, WithMaker, made
from issuing_world import AT, World, h, pem
from making import PROGRAM, REAL, TOP, Keys, element, folder_of, oid, openssl, run_tool

import cmsproof
from cmsproof_tools.explaining import token_fault
from oracle import der

FILES = TOP / "crates" / "real_files" / "data"
# the types of content that a signature of Authenticode and a catalogue of Windows have, which are SEQUENCEs
INDIRECT, CATALOGUE = "1.3.6.1.4.1.311.2.1.4", "1.3.6.1.4.1.311.10.1"
BY_PIKEPDF = """import io, pikepdf, sys
pdf = pikepdf.new()
pdf.add_blank_page()
if sys.argv[1:]:
    rights = pikepdf.Dictionary(Type=pikepdf.Name.Sig, Filter=pikepdf.Name("/Adobe.PPKLite"), SubFilter=pikepdf.Name("/adbe.pkcs7.detached"))
    pdf.Root.Perms = pikepdf.Dictionary({sys.argv[1]: pdf.make_indirect(rights)})
out = io.BytesIO()
pdf.save(out)
sys.stdout.buffer.write(out.getvalue())
"""


def real(name):
    """The octets of another program's file."""
    return (FILES / name).read_bytes()


def with_content(octets, kind, content):
    """A SignedData with another type of content, and another element as its content."""
    name, explicit = der.elements(der.only(octets).body())
    version, digests, _, *rest = [part.whole() for part in der.elements(der.only(explicit.body()).body())]
    inside = element(0x30, version, digests, element(0x30, oid(kind), element(0xA0, content)), *rest)
    return element(0x30, name.whole(), element(0xA0, inside))


class Alone(unittest.TestCase):
    """Files in DER that are no signed files: the line is that of the proved program, and standard error says what it is."""

    def setUp(self):
        self.folder = folder_of(self)
        (self.folder / "list").write_bytes((REAL / "trust.txt").read_bytes())

    def said(self, octets, *words):
        """The status, the lines, and what is said on standard error, of a file."""
        (self.folder / "file").write_bytes(octets)
        status, out, err = run_tool("cmsproof-archive", "--trust", "list", *words, "file", cwd=self.folder)
        return status, out.decode().splitlines(), err

    def rows(self):
        """What each kind of file is said to be, and its octets."""
        keys = Keys()
        self.addCleanup(keys.close)
        certificate, tst = keys.certificate("P-256"), self.folder / "tst"
        (self.folder / "tok").write_bytes(real("rsa_attached.1.tok"))
        openssl("cms", "-verify", "-noverify", "-binary", "-inform", "DER", "-in", self.folder / "tok", "-out", tst)
        key = keys.private("P-256")
        yield "it is a request for a time-stamp", real("rsa_attached.1.tsq")
        yield "it is a response of a time-stamping authority", real("rsa_attached.1.tsr")
        yield "it is a response of a time-stamping authority", real("refused.tsr")
        yield "it is a time-stamp token by itself", real("rsa_attached.1.tok")
        yield "it is the content of a time-stamp token", tst.read_bytes()
        yield "it is a certificate", real("cert_tsa.der")
        yield "it is a certificate", openssl("x509", "-in", certificate, "-outform", "DER")
        yield "it is an evidence record", bytes.fromhex("300d0201013000 3006300430023000")
        yield "it is a bundle of certificates", real("no_signer.p7s")
        yield "it is a bundle of certificates", openssl("crl2pkcs7", "-nocrl", "-certfile", certificate, "-outform", "DER")
        yield "it looks like a private key", openssl("pkey", "-in", key, "-outform", "DER")
        words = ["-export", "-inkey", key, "-in", certificate, "-passout", "pass:x"]
        yield "it looks like a file of PKCS #12", openssl("pkcs12", *words)
        for kind in (INDIRECT, CATALOGUE):
            yield "it is a signature of Authenticode", with_content(
                real("rsa_attached.p7s"), kind, element(0x30, element(2, b"\1"))
            )
        yield "", real("rsa_attached.p7s")
        for words in (["rsa", "-traditional"], ["pkey"]):
            yield "it looks like a private key", openssl(words[0], *words[1:], "-in", keys.private("rsa"), "-outform", "DER")
        yield "it looks like a SignedData without the ContentInfo", der.elements(der.only(real("two_attached_ts.p7s")).body())[1].body()
        yield "", b"\x30\x03\x02\x01\x05"
        yield "it is empty", b""

    def test_kinds(self):
        for text, octets in self.rows():
            with self.subTest(text):
                status, (line,), err = self.said(octets)
                self.assertEqual(err[len("cmsproof-archive: file: ") :][: len(text)] if err else "", text)
                self.assertEqual(len(err.splitlines()), 1 if text else 0)
                (self.folder / "none").write_bytes(b"cmsproof answers 1\n")
                words = ["check", "--trust", "list", "--answers", "none", "file"]
                if PROGRAM.exists() and not line.endswith("NoToken"):
                    done = subprocess.run([PROGRAM, *words], cwd=self.folder, capture_output=True, check=False)
                    self.assertEqual((status, line), (done.returncode, f"file: {done.stdout.decode().strip()}"))
                if text:
                    kind = json.loads(self.said(octets, "--json")[1][0])["kind"]
                    self.assertTrue(kind.startswith(text), kind)

    def test_authenticode_in_files(self):
        for octets in (
            b"MZ\x90\0",
            b"MSCF\0\0\0\0",
            bytes.fromhex("d0cf11e0a1b11ae1"),
            b"x\r\n# SIG # Begin signature block\r\n",
        ):
            status, lines, err = self.said(octets)
            self.assertEqual((status, lines), (1, ["file: refused F1 UnknownForm"]))
            self.assertIn("a signature in it is Authenticode, in CMS whose content is no OCTET STRING (RFC 5652 5.2.1)", err)

    def test_the_token_of_a_response(self):
        _, lines, _ = self.said(real("rsa_attached.1.tsr"), "--explain")
        self.assertIn("The token in the response has its form.", lines[1])
        response = der.elements(der.only(real("rsa_attached.1.tsr")).body())
        bad = element(0x30, response[0].whole(), real("rsa_attached.p7s"))
        request = real("rsa_attached.1.tsq")
        self.assertEqual(cmsproof.match(request, bad).code, "P3")
        self.assertIn(
            "Of the token in the response: its content has the type 1.2.840.113549.1.7.1", self.said(bad, "--explain")[1][1]
        )

    def test_what_a_token_lacks(self):
        """Against what `attach` says of the same tokens, by A3."""
        good, file = real("rsa_attached.1.tok"), real("rsa_attached.p7s")
        tst = "1.2.840.113549.1.9.16.1.4"
        rows = [
            ("", good),
            ("it is malformed M5 Overrun at 0", good[:-1]),
            ("it is malformed M6 Tag at 4", real("rsa_attached.1.tsr")),
            ("it is refused NotSignedData", real("enveloped.p7m")),
            ("its content has the type 1.2.840.113549.1.7.1,", file),
            ("its TSTInfo is malformed M6 Tag at 0", with_content(good, tst, element(4, b"\x04\0"))),
            ("its TSTInfo is malformed M1 End at 0", with_content(good, tst, element(4, b""))),
        ]
        for text, token in rows:
            self.assertEqual(token_fault(token)[: len(text)] if text else token_fault(token), text)
            self.assertEqual(cmsproof.attach(file, token).code, "A3" if text else None, text)
        self.assertEqual(token_fault(real("two_attached_ts.p7s"))[:27], "its content has the type 1.")

    def test_how_many_signers_a_token_has(self):
        """Against what `match` says of them in a response, by P3 (RFC 3161 2.4.2)."""
        request = real("rsa_attached.1.tsq")
        status, token = der.elements(der.only(real("rsa_attached.1.tsr")).body())
        name, explicit = der.elements(der.only(token.whole()).body())
        *parts, signers = [part.whole() for part in der.elements(der.only(explicit.body()).body())]
        for count in range(3):
            several = element(0x31, der.only(signers).body() * count)
            made = element(0x30, name.whole(), element(0xA0, element(0x30, *parts, several)))
            code = cmsproof.match(request, element(0x30, status.whole(), made)).code
            self.assertEqual(
                (token_fault(made), code), ("", None) if count == 1 else (f"it has {count} signers, and not one", "P3")
            )


class OneAnswer(unittest.TestCase):
    """One kind of file, one answer: in BER and in DER, wherever a file of a zip file stands, by each version of the library."""

    def line(self, octets, trust="cmsproof trust 2\n", name="file"):
        """The line of a file, and what is said on standard error."""
        folder = folder_of(self)
        (folder / "list").write_text(trust)
        (folder / name).write_bytes(octets)
        _, out, err = run_tool("cmsproof-archive", "--trust", "list", name, cwd=folder)
        return out.decode().partition(": ")[2].strip(), err

    def test_other_cms_in_ber(self):
        """Each type of CMS that openssl makes in both forms. In DER it is refused by its type, in BER by the tool too; the program says of
        BER that it is, and after the cure of that, `openssl cms -cmsout`, the type."""
        keys, content = Keys(), REAL / "blob.bin"
        self.addCleanup(keys.close)
        folder, to = folder_of(self), keys.certificate("P-256")
        for what, words, last in (
            ("enveloped", ["-encrypt", "-binary", "-aes-256-cbc"], [to]),
            ("authenticated", ["-encrypt", "-binary", "-aes-256-gcm"], [to]),
            ("encrypted", ["-EncryptedData_encrypt", "-secretkey", "00" * 16, "-aes128"], []),
            ("digested", ["-digest_create"], []),
            ("bare", ["-data_create"], []),
        ):
            with self.subTest(what):
                create = ["cms", *words, "-in", content, "-outform", "DER"]
                in_der, in_ber = (openssl(*create, *form, *last) for form in ([], ["-stream"]))
                self.assertEqual([octets[:2] == b"\x30\x80" for octets in (in_der, in_ber)], [False, True])
                (folder / "ber").write_bytes(in_ber)
                cured = openssl("cms", "-cmsout", "-inform", "DER", "-in", folder / "ber", "-outform", "DER")
                body = der.only(in_der).body()
                long = b"\x30\x84" + len(body).to_bytes(4, "big") + body
                for octets in (in_der, in_ber, cured, long):
                    self.assertEqual(self.line(octets)[0], "refused C2 NotSignedData")
                said = [cmsproof.fit(octets) for octets in (in_der, in_ber, cured)]
                self.assertEqual([found.code for found in said], ["C2", "M3", "C2"])
                self.assertEqual(self.line(in_ber[:-2])[0], "refused F3 Broken")
        for octets in (b"\x30\x80\0\0", b"\x30\x80\x06\x01\x2a\0\0", b"\x30\x80\x02\x01\x05\xa0\x80\0\0\0\0"):
            self.assertEqual(self.line(octets)[0], "refused F3 Broken")

    def test_open_documents(self):
        """The type stands first and not packed (ODF 1.2, part 3, 3.3), or it does not."""
        kind, text = "application/vnd.oasis.opendocument.text", ("content.xml", b"<office/>")
        for first, method in ((True, zipfile.ZIP_STORED), (True, zipfile.ZIP_DEFLATED), (False, zipfile.ZIP_STORED)):
            octets = io.BytesIO()
            with zipfile.ZipFile(octets, "w") as file:
                for name, inside in [("mimetype", kind), text] if first else [text, ("mimetype", kind)]:
                    file.writestr(name, inside, method if name == "mimetype" else zipfile.ZIP_DEFLATED)
            line, err = self.line(octets.getvalue())
            self.assertEqual(line, "refused F1 UnknownForm")
            self.assertIn(f"an office document of the type {kind}: a signature in it is XML, which is no CMS", err)

    def test_keys_with_a_curve_that_is_spelled_out(self):
        """RFC 5480 2.1.1 allows a name of the curve alone; versions of the library differ."""
        folder = folder_of(self)
        key, certificate = folder / "key", folder / "certificate"
        openssl("ecparam", "-name", "prime256v1", "-genkey", "-noout", "-param_enc", "explicit", "-out", key)
        openssl(
            "req", "-x509", "-key", key, "-subj", "/CN=spelled", "-addext", "basicConstraints=CA:FALSE", "-out", certificate
        )
        words = ["-binary", "-nodetach", "-outform", "DER", "-in", REAL / "blob.bin", "-signer", certificate, "-inkey", key]
        signed = openssl("cms", "-sign", *words)
        (folder / "signed").write_bytes(signed)
        openssl("cms", "-verify", "-noverify", "-binary", "-inform", "DER", "-in", folder / "signed", "-out", os.devnull)
        octets = openssl("x509", "-in", certificate, "-outform", "DER")
        line, err = self.line(signed, f"cmsproof trust 2\nsigner - - {octets.hex()}\n")
        self.assertEqual(line, "refused signer 1 S9 SignatureFails")
        self.assertIn("its curve is not named by an object identifier, but spelled out or left out (RFC 5480 2.1.1)", err)


class Authorities(unittest.TestCase):
    """An authority below an issuer that is for documents alone, by a purpose of Adobe's."""

    def test_the_way_round(self):
        with tempfile.TemporaryDirectory() as folder:
            w = World(folder)
            purpose = h.x509.ExtendedKeyUsage([h.x509.ObjectIdentifier("1.2.840.113583.1.1.5")]), False
            documents = h.issue("Documents", w.clocks, [*h.authority(), purpose])
            clock = h.issue("Clock of documents", documents, [h.STAMPING])
            stamp = (clock, AT, [clock.octets, documents.octets])
            name = w.put("file.p7s", file := h.signed(w.anna, [stamp], [w.anna.octets, w.sub.octets]))
            _, told = w.made([file])
            self.assertIn("CN=Documents,O=cmsproof: it is for issuing other certificates (extendedKeyUsage)", "".join(told))
            self.assertIn(
                "`cmsproof-trust --tsa FILE` lists the authority's own certificate, once you compared its SHA-256",
                "".join(told),
            )
            words = ["--tsa", w.put("clock.pem", pem(clock)), "--issuer", w.put("root.pem", w.root), "--from-files", name]
            status, w.text, err = run_tool("cmsproof-trust", *words)
            self.assertEqual((status, err, w.checked(file)), (0, "", "accepted " + AT))


@unittest.skipUnless(PDF, "pikepdf is missing")
class InPdf(WithMaker):
    """Signatures of a PDF that are not read are named."""

    def made_by_pikepdf(self, *words):
        """A PDF without a signature field."""
        return subprocess.run([PYTHON, "-c", BY_PIKEPDF, *words], capture_output=True, check=True).stdout

    def test_names(self):
        self.put("plain.pdf", self.made_by_pikepdf())
        self.put("rights.pdf", self.made_by_pikepdf("/UR3"))
        self.put("older.pdf", self.made_by_pikepdf("/UR"))
        self.put("stamp.pdf", made.pdf_signed(self.maker.token, b"/ETSI.RFC3161"))
        lines = self.lines()
        self.assertEqual(set(lines.values()), {"refused F1 UnknownForm"})
        for name, text in (
            ("plain.pdf", "a PDF in which no signature field is signed\n"),
            (
                "rights.pdf",
                "no signature field is signed; the signature of usage rights (/UR3) is not looked at: the maker of a program",
            ),
            (
                "older.pdf",
                "no signature field is signed; the signature of usage rights (/UR) is not looked at: the maker of a program",
            ),
            ("stamp.pdf", "a document time-stamp (ETSI.RFC3161) of /Type /Sig and not /DocTimeStamp"),
        ):
            said = "".join(line + "\n" for line in self.err.splitlines() if name in line)
            self.assertIn(text, said)


if __name__ == "__main__":
    unittest.main()
