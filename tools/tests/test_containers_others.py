"""Tests of containers that other tools make, each of which is passed over where it is missing: OpenSSL, GnuTLS, gpgsm, mutt, Python's
email, pikepdf, LibreOffice, pdfsig and jarsigner. And that the lines of tokens have the names that the program has."""
import base64
import email.mime.application
import email.mime.message
import email.mime.multipart
import email.mime.text
import http.server
import json
import os
import pty
import re
import select
import shutil
import subprocess
import threading
import time
import unittest

from containing import PDF, PYTHON, WithMaker, made
from making import TOP, openssl

NO_TOKEN = "refused signer 1 S10 NoToken"
BY_PIKEPDF = """import io, pikepdf, sys
pdf = pikepdf.new()
pdf.add_blank_page()
value = pikepdf.Dictionary(Type=pikepdf.Name.Sig, Filter=pikepdf.Name("/Adobe.PPKLite"), SubFilter=pikepdf.Name("/ETSI.CAdES.detached"))
value.ByteRange = pikepdf.Array([0, 9999999999, 9999999999, 9999999999])
value.Contents = pikepdf.String(bytes(8000))
field = pikepdf.Dictionary(FT=pikepdf.Name.Sig, T="By pikepdf", V=pdf.make_indirect(value))
pdf.Root.AcroForm = pdf.make_indirect(pikepdf.Dictionary(Fields=pikepdf.Array([pdf.make_indirect(field)]), SigFlags=3))
out = io.BytesIO()
pdf.save(out, object_stream_mode=pikepdf.ObjectStreamMode.disable)
sys.stdout.buffer.write(out.getvalue())
"""


# how mutt is told to sign each mail, with a key that has no passphrase, and to hand it to a program that keeps it
MUTT = """set crypt_use_gpgme=no smime_is_default=yes crypt_autosmime=yes crypt_autosign=yes crypt_autoencrypt=no
set smime_certificates="{home}/certificates" smime_keys="{home}/keys" smime_default_key="one.0" smime_sign_digest_alg="sha256"
set smime_sign_command="openssl smime -sign -md %d -signer %c -inkey %k -passin stdin -in %f -outform DER"
set sendmail="{home}/send" record="" realname="Ada" from="ada@example" folder="{home}" spoolfile="{home}/spool"
set editor=true autoedit=yes edit_headers=yes abort_unmodified=no abort_noattach=no copy=no sleep_time=0 wait_key=no
"""
# a store of keys of NSS, which has the signer's
STORE = (
    "mkdir nss && certutil -N -d sql:nss --empty-password",
    "openssl pkcs12 -export -inkey signer.key -in signer.pem -name signer -passout pass: -out signer.p12",
    "pk12util -i signer.p12 -d sql:nss -W ''",
)
HAS_STORE = shutil.which("certutil") and shutil.which("pk12util")


class Authority(http.server.BaseHTTPRequestHandler):
    """A time-stamping authority (RFC 3161 3.4), by openssl in the folder `folder`."""

    folder = None

    def do_POST(self):
        """Answers a request."""
        (self.folder / "asked.tsq").write_bytes(self.rfile.read(int(self.headers["Content-Length"])))
        response = openssl(*"ts -reply -config tsa.cnf -queryfile asked.tsq".split(), cwd=self.folder)
        self.send_response(200)
        self.send_header("Content-Type", "application/timestamp-reply")
        self.end_headers()
        self.wfile.write(response)

    def log_message(self, *_):
        """Says nothing."""


def in_terminal(words, answers, **rest):
    """Runs a command in a terminal, and answers by `answers`, once each, where it says what they are for."""
    mine, there = pty.openpty()
    with subprocess.Popen(words, stdin=there, stdout=there, stderr=there, start_new_session=True, **rest) as process:
        os.close(there)
        said, end = b"", time.monotonic() + 30
        while process.poll() is None and time.monotonic() < end:
            if not select.select([mine], [], [], 0.1)[0]:
                continue
            try:
                said += os.read(mine, 4096)
            except OSError:
                break
            for asked in [asked for asked in answers if asked in said]:
                os.write(mine, answers.pop(asked))
        if process.poll() is None and time.monotonic() >= end:
            process.kill()
    os.close(mine)
    return said


class Others(WithMaker):
    """What other tools make. A signature without a time-stamp that is S10 was read, and it holds: S1 to S9 come first."""

    def run_all(self, *lines, env=None):
        """Runs commands in the folder; they must succeed."""
        for line in lines:
            done = subprocess.run(
                line, shell=True, cwd=self.folder, capture_output=True, timeout=120, env={**os.environ, **(env or {})}
            )
            self.assertEqual(done.returncode, 0, (line, done.stderr))

    def test_openssl(self):
        (self.folder / "text").write_bytes(b"a letter\n")
        sign = "openssl cms -sign -cades -in text -signer signer.pem -inkey signer.key -out archive/"
        self.run_all(sign + "clear.eml", sign + "opaque.eml -nodetach", sign + "stream.p7s -stream -nodetach -outform DER")
        self.run_all(sign + "text.pem -nodetach -outform PEM", sign + "a.p7s -binary -outform PEM", "cp text archive/a")
        self.run_all("openssl smime -sign -in text -signer signer.pem -inkey signer.key -out archive/smime.eml")
        names = {"clear.eml", "opaque.eml", "stream.p7s", "text.pem", "a.p7s", "smime.eml"}
        self.assertEqual(self.lines(), {name: NO_TOKEN for name in names}, self.err)

    @unittest.skipUnless(shutil.which("certtool"), "there is no certtool")
    def test_gnutls(self):
        (self.folder / "text").write_bytes(b"a letter\n")
        words = "--p7-time --load-privkey signer.key --load-certificate signer.pem --infile text --outfile"
        self.run_all(f"certtool --p7-sign {words} archive/in.pem", f"certtool --p7-detached-sign {words} archive/b.p7s")
        self.run_all("cp text archive/b")
        self.assertEqual(self.lines(), {"in.pem": NO_TOKEN, "b.p7s": NO_TOKEN})

    @unittest.skipUnless(shutil.which("gpgsm"), "there is no gpgsm")
    def test_gpgsm(self):
        home = self.folder / "home"
        home.mkdir(mode=0o700)
        env = {"GNUPGHOME": str(home)}
        self.addCleanup(subprocess.run, ["gpgconf", "--kill", "all"], env={**os.environ, **env}, capture_output=True)
        (home / "gpgsm.conf").write_text("disable-crl-checks\ndisable-policy-checks\n")
        openssl(
            *"req -x509 -newkey rsa:2048 -nodes -keyout rsa.key -out rsa.pem -days 30 -subj /CN=rsa".split(), cwd=self.folder
        )
        openssl(*"pkcs12 -export -legacy -in rsa.pem -inkey rsa.key -out rsa.p12 -passout pass:".split(), cwd=self.folder)
        fingerprint = openssl("x509", "-in", self.folder / "rsa.pem", "-noout", "-fingerprint", "-sha1").decode()
        fingerprint = fingerprint.split("=")[1].strip()
        (home / "trustlist.txt").write_text(f"{fingerprint} S relax\n")
        certificate = openssl("x509", "-in", self.folder / "rsa.pem", "-outform", "DER").hex()
        with open(self.folder / "trust.txt", "a") as trust:
            trust.write(f"signer - - {certificate}\n")
        (self.folder / "archive" / "c").write_bytes(b"a letter\n")
        sign = "gpgsm --batch --pinentry-mode loopback --passphrase-fd 0 --output archive/"
        made_by = ["c.p7s --detach-sign archive/c", "d.p7s --sign archive/c", "e.pem --armor --sign archive/c"]
        self.run_all("gpgsm --batch --pinentry-mode loopback --passphrase-fd 0 --import rsa.p12 < /dev/null", env=env)
        self.run_all(*(f"{sign}{words} < /dev/null" for words in made_by), env=env)
        self.assertEqual(self.lines(), {name: NO_TOKEN for name in ("c.p7s", "d.p7s", "e.pem")}, self.err)

    def test_python_email(self):
        text = email.mime.text.MIMEText("I owe you 1 euro: \u00fc.\n", "plain", "utf-8")
        octets = re.sub(rb"\r?\n", b"\r\n", text.as_bytes())
        signature = email.mime.application.MIMEApplication(self.maker.signed(octets), "pkcs7-signature")
        mail = email.mime.multipart.MIMEMultipart("signed", protocol="application/pkcs7-signature", micalg="sha-256")
        mail.attach(text), mail.attach(signature)
        around = email.mime.multipart.MIMEMultipart("mixed")
        around.attach(email.mime.message.MIMEMessage(mail))
        self.put("a.eml", mail.as_bytes()), self.put("b.eml", around.as_bytes())
        found = self.lines()
        self.assertEqual(set(found), {"a.eml", "b.eml part 1.1"})
        self.assertEqual({line.split()[0] for line in found.values()}, {"accepted"}, found)

    @unittest.skipUnless(PDF, "pikepdf is missing")
    def test_pikepdf(self):
        pdf = subprocess.run([PYTHON, "-c", BY_PIKEPDF], capture_output=True, check=True).stdout
        old = b"[ 0 9999999999 9999999999 9999999999 ]"
        ranges = b"[0 %s %s %s]" % (made.HOLE, made.HOLE, made.HOLE)
        self.put("a.pdf", made.filled(pdf.replace(old, ranges.ljust(len(old))), self.maker.signed))
        self.assertRegex(self.lines()["a.pdf By pikepdf"], "^accepted ", self.err)

    def stamped(self, name):
        """The signature of a file, in DER, with a token on it."""
        (row,) = self.extracted(name)
        shutil.copy(self.folder / row["signed"], self.folder / "made")
        return self.maker.stamped()

    def stamped_pdf(self, name):
        """A PDF with a token in the room that is left behind its signature."""
        pdf = (self.folder / "archive" / name).read_bytes()
        begin, after = (int(text) for text in re.search(rb"/ByteRange *\[ *0 (\d+) (\d+)", pdf).groups())
        digits = self.stamped(name).hex().encode()
        self.assertLess(len(digits), after - begin - 2)
        return pdf[: begin + 1] + digits.ljust(after - begin - 2, b"0") + pdf[after - 1 :]

    @unittest.skipUnless(PDF and HAS_STORE and shutil.which("soffice"), "there is no LibreOffice")
    def test_libreoffice(self):
        self.run_all(*STORE)
        (self.folder / "letter.txt").write_text("I owe you 1 euro.\n")
        Authority.folder = self.folder
        server = http.server.ThreadingHTTPServer(("127.0.0.1", 0), Authority)
        self.addCleanup(server.server_close), self.addCleanup(server.shutdown)
        threading.Thread(target=server.serve_forever, daemon=True).start()
        options = {"SignPDF": ("boolean", "true"), "SignCertificateSubjectName": ("string", "CN=signer,O=cmsproof")}
        stamping = {**options, "SignatureTSA": ("string", f"http://127.0.0.1:{server.server_port}/")}
        env = {"MOZILLA_CERTIFICATE_FOLDER": f"sql:{self.folder}/nss", "HOME": str(self.folder)}
        for name, said in (("plain", options), ("stamped", stamping)):
            types = {key: {"type": kind, "value": value} for key, (kind, value) in said.items()}
            convert = f"soffice --headless --convert-to 'pdf:writer_pdf_Export:{json.dumps(types)}' letter.txt"
            self.run_all(convert, f"mv letter.pdf archive/{name}.pdf", env=env)
        # (what LibreOffice has stamped is not the signature, RFC 3161 appendix A)
        self.assertEqual(
            self.lines(),
            {"plain.pdf Signature1": NO_TOKEN, "stamped.pdf Signature1": "refused signer 1 token 1 K9 ImprintDiffers"},
        )
        self.put("plain.pdf", self.stamped_pdf("plain.pdf")), self.put("stamped.pdf", self.stamped_pdf("stamped.pdf"))
        found = self.lines()
        self.assertEqual({line.split()[0] for line in found.values()}, {"accepted"}, found)

    @unittest.skipUnless(PDF and HAS_STORE and shutil.which("pdfsig"), "there is no pdfsig")
    def test_pdfsig(self):
        self.run_all(*STORE)
        empty = made.field(b"Signature1", 6).replace(b"/V 6 0 R", b"/P 3 0 R")
        (self.folder / "in.pdf").write_bytes(
            made.revision(b"%PDF-1.7\n%\xe2\xe3\xcf\xd3\n", {**made.objects_of([5]), 5: empty})
        )
        # (it fails by itself where two signatures of one key differ in length)
        words = "pdfsig -nssdir sql:nss in.pdf archive/a.pdf -sign Signature1 -nick signer"
        self.run_all(f"for n in $(seq 20); do rm -f archive/a.pdf; {words} && exit; done; exit 1")
        self.assertEqual(self.lines(), {"a.pdf Signature1": NO_TOKEN}, self.err)

    @unittest.skipUnless(shutil.which("mutt"), "there is no mutt")
    def test_mutt(self):
        home = self.folder / "home"
        for name in ("certificates", "keys"):
            (home / name).mkdir(parents=True)
        shutil.copy(self.folder / "signer.pem", home / "certificates" / "one.0")
        shutil.copy(self.folder / "signer.key", home / "keys" / "one.0")
        (home / "send").write_text(f"#!/bin/sh\ncat > {self.folder}/archive/a.eml\n")
        (home / "send").chmod(0o755), (home / "spool").touch(), (home / "rc").write_text(MUTT.format(home=home))
        (home / "body").write_text("I owe you 1 euro.\n\nFrom me: \u00fc  \n-- \nAda \n", encoding="utf-8")
        words = f"mutt -n -F {home}/rc -i {home}/body -s subject bob@example"
        env = {**os.environ, "HOME": str(home), "TERM": "xterm", "LANG": "C.UTF-8"}
        said = in_terminal(words.split(), {b"y:Send": b"y", b"passphrase": b"x\n"}, env=env)
        self.assertEqual(self.lines(), {"a.eml": NO_TOKEN}, said)
        mail = (self.folder / "archive" / "a.eml").read_bytes()
        old = re.search(rb"\nMII[A-Za-z0-9+/=\n]+", mail)[0]
        self.put("a.eml", mail.replace(old, b"\n" + base64.encodebytes(self.stamped("a.eml"))))
        self.assertRegex(self.lines()["a.eml"], "^accepted ", self.err)

    @unittest.skipUnless(shutil.which("jarsigner") and shutil.which("keytool"), "there is no jarsigner")
    def test_a_jar_is_known_and_not_read(self):
        self.put("a.jar", made.zipped([("META-INF/MANIFEST.MF", b"Manifest-Version: 1.0\r\n\r\n"), ("a.class", b"a")]))
        store = "-keystore store -storepass secret -keypass secret"
        self.run_all(f"keytool -genkeypair -keyalg EC -alias a -dname CN=a {store}", f"jarsigner {store} archive/a.jar a")
        self.assertEqual(self.lines(), {"a.jar": "refused F1 UnknownForm"})
        self.assertIn("jarsigner -verify", self.err)


class Names(unittest.TestCase):
    """The names of rules in the lines of tokens."""

    def test_they_are_those_of_the_program(self):
        from cmsproof.tokens import KINDS, RULES, SIGNER_RULES

        faults = (TOP / "crates/der_core/src/fault.rt").read_text()
        rules = (TOP / "crates/check_fit/src/rules.rt").read_text()
        for letter, names, text in (("M", KINDS, faults), ("S", SIGNER_RULES, rules), ("K", RULES, rules)):
            found = dict(re.findall(rf'=> "({letter}[0-9]+) ([A-Za-z]+)"', text))
            for number, name in enumerate(names, 1):
                self.assertTrue(name == "." or f'"{letter}{number} {name}"' in text, (letter, number))
            self.assertLessEqual({name for name in names if name != "."}, {*found.values(), "NotSignedData"})


if __name__ == "__main__":
    unittest.main()
