"""Containers with signatures in them: PEM, S/MIME, PDF and ASiC, made of signed files that openssl makes in a folder. As a script it
makes those that the documents show, in the folder where it is run:

    python3 tools/samples/containers.py

With the name of a file behind it makes a PDF alone, which signer.pem signs there by signer.key, without a stamp.
"""
from __future__ import annotations

import base64
import hashlib
import io
import re
import shutil
import subprocess
import sys
import tempfile
import zipfile
from pathlib import Path

sys.path.insert(0, str(Path(__file__).resolve().parent.parent))
from oracle import der  # noqa: E402
from samples import authority  # noqa: E402
from samples.authority import openssl  # noqa: E402

HOLE = b"0000000000"
PAGES = {
    1: b"<< /Type /Catalog /Pages 2 0 R /AcroForm << /Fields [%s] /SigFlags 3 >> >>",
    2: b"<< /Type /Pages /Kids [3 0 R] /Count 1 >>",
    3: b"<< /Type /Page /Parent 2 0 R /MediaBox [0 0 300 100] /Contents 4 0 R >>",
    4: b"<< /Length %d >>\nstream\n%s\nendstream",
}
TEXT = b"BT /F1 12 Tf 20 50 Td (I owe you 1 euro) Tj ET"


class Maker:
    """A signer and an authority, whose keys and files are in a folder, and a trust list of both."""

    def __init__(self, folder, program):
        self.folder, self.program = Path(folder), program
        authority.make_authorities(self.folder)
        entries = [("signer", "signer"), ("tsa", "tsa")]
        lines = [f"{role} - - {authority.certificate(self.folder, name).hex()}\n" for role, name in entries]
        (self.folder / "trust.txt").write_text("cmsproof trust 2\n" + "".join(lines))

    def signed(self, content, *words, stamped=True):
        """A SignedData of openssl over a content that is not in it, with a token, unless further words say something else."""
        (self.folder / "content").write_bytes(content)
        made = ["-sign", "-cades", "-binary", "-outform", "DER", "-in", "content", "-out", "made", "-signer", "signer.pem"]
        openssl(self.folder, "cms", *made, "-inkey", "signer.key", *words)
        return self.stamped() if stamped else (self.folder / "made").read_bytes()

    def attached(self, content, stamped=True):
        """The same with the content in it."""
        return self.signed(content, "-nodetach", stamped=stamped)

    def stamped(self):
        """The file `made` with a token on its signature."""
        self.run("request", "--of", "made", "request.tsq")
        openssl(self.folder, "ts", "-reply", "-config", "tsa.cnf", "-queryfile", "request.tsq", "-out", "response.tsr")
        self.run("match", "request.tsq", "response.tsr", "made.tok")
        self.run("attach", "--signer", "1", "--token", "made.tok", "made", "made.stamped")
        return (self.folder / "made.stamped").read_bytes()

    def token(self, content):
        """A time-stamp token on a content."""
        return authority.stamp(self.folder, content)

    def run(self, *words):
        """Runs the program, which must succeed."""
        subprocess.run([self.program, *words], cwd=self.folder, check=True, capture_output=True)

    def converted(self, octets, form):
        """What openssl writes of a SignedData in another form."""
        (self.folder / "octets").write_bytes(octets)
        words = ["-cmsout", "-inform", "DER", "-in", "octets", "-outform", form, "-out", "converted"]
        openssl(self.folder, "cms", *words)
        return (self.folder / "converted").read_bytes()


def in_ber(octets):
    """A SignedData with open lengths around its parts, as Bouncy Castle writes it: ContentInfo, [0], SignedData."""

    def opened(identifier, inside):
        return bytes([identifier, 0x80]) + inside + b"\0\0"

    kind, explicit = der.elements(der.only(octets).body())
    signed = der.only(explicit.body())
    return opened(0x30, kind.whole() + opened(0xA0, opened(0x30, signed.body())))


# --- PDF (ISO 32000-1 7.5): objects, a table of where they are, and a trailer


def revision(before, objects, more=b""):
    """A file with one more revision, of these objects."""
    out, places = before, {}
    for number, body in sorted(objects.items()):
        places[number] = len(out)
        out += b"%d 0 obj\n%s\nendobj\n" % (number, body)
    table = b"".join(b"%d 1\n%010d 00000 n \n" % (number, place) for number, place in sorted(places.items()))
    if not before.count(b"startxref"):
        table = b"0 1\n0000000000 65535 f \n" + table
    else:
        more += b" /Prev %d" % int(re.findall(rb"startxref\n(\d+)", before)[-1])
    at, size = len(out), 1 + max(int(found) for found in re.findall(rb"(?m)^(\d+) 0 obj", out))
    return out + b"xref\n%strailer\n<< /Size %d /Root 1 0 R%s >>\nstartxref\n%d\n%%%%EOF\n" % (table, size, more, at)


def objects_of(fields, text=TEXT):
    """The objects of a file with one page and these fields, by their numbers."""
    found = dict(PAGES)
    found[1] = PAGES[1] % b" ".join(b"%d 0 R" % number for number in fields)
    found[4] = PAGES[4] % (len(text), text)
    return found


def field(name, value):
    """A signature field whose value is the object of this number."""
    return b"<< /FT /Sig /Type /Annot /Subtype /Widget /Rect [0 0 0 0] /T (%s) /V %d 0 R >>" % (name, value)


def value(subfilter, kind=b"/Sig", room=8000):
    """A signature dictionary with room for a signature."""
    ranges = b"[0 %s %s %s]" % (HOLE, HOLE, HOLE)
    return b"<< /Type %s /Filter /Adobe.PPKLite /SubFilter %s /ByteRange %s /Contents <%s> >>" % (
        kind,
        subfilter,
        ranges,
        b"0" * (2 * room),
    )


def filled(pdf, sign):
    """The file with a signature in the last room for one: `sign` gives it for the octets outside of the room."""
    begin = pdf.rindex(b"/Contents <0000") + len(b"/Contents ")
    after = pdf.index(b">", begin) + 1
    ranges = b"[0 %s %s %s]" % (HOLE, HOLE, HOLE)
    real = b"[0 %d %d %d]" % (begin, after, len(pdf) - after)
    at = pdf.rindex(ranges)
    pdf = pdf[:at] + real.ljust(len(ranges)) + pdf[at + len(ranges) :]
    digits = sign(pdf[:begin] + pdf[after:]).hex().encode()
    return pdf[: begin + 1] + digits.ljust(after - begin - 2, b"0") + pdf[after - 1 :]


def pdf_signed(sign, subfilter=b"/ETSI.CAdES.detached", kind=b"/Sig", text=TEXT, name=b"Signature1", room=8000):
    """A file with one field, signed."""
    objects = {**objects_of([5], text), 5: field(name, 6), 6: value(subfilter, kind, room)}
    return filled(revision(b"%PDF-1.7\n%\xe2\xe3\xcf\xd3\n", objects), sign)


def signed_again(pdf, sign, name=b"Signature2", subfilter=b"/ETSI.CAdES.detached", kind=b"/Sig"):
    """The file with one more revision, in which another field is signed."""
    objects = {1: objects_of([5, 7])[1], 7: field(name, 8), 8: value(subfilter, kind)}
    return filled(revision(pdf, objects), sign)


# --- zip files of ASiC (ETSI EN 319 162-1)

ASIC_S, ASIC_E = b"application/vnd.etsi.asic-s+zip", b"application/vnd.etsi.asic-e+zip"
SHA256 = "http://www.w3.org/2001/04/xmlenc#sha256"


def zipped(entries, method=zipfile.ZIP_STORED):
    """A zip file of these names with their octets, in this order; `mimetype` is not packed."""
    out = io.BytesIO()
    with zipfile.ZipFile(out, "w") as file:
        for name, octets in entries:
            entry = zipfile.ZipInfo(name, (2026, 1, 1, 0, 0, 0))
            file.writestr(entry, octets, zipfile.ZIP_STORED if name == "mimetype" else method)
    return out.getvalue()


def manifest(signature, files, algorithm=SHA256):
    """An ASiCManifest over these files (EN 319 162-1, A.4)."""
    references = "".join(
        f'<asic:DataObjectReference URI="{name}"><ds:DigestMethod Algorithm="{algorithm}"/><ds:DigestValue>'
        f"{base64.b64encode(hashlib.sha256(octets).digest()).decode()}</ds:DigestValue></asic:DataObjectReference>"
        for name, octets in files
    )
    spaces = 'xmlns:asic="http://uri.etsi.org/02918/v1.2.1#" xmlns:ds="http://www.w3.org/2000/09/xmldsig#"'
    text = f'<asic:ASiCManifest {spaces}><asic:SigReference URI="{signature}"/>{references}</asic:ASiCManifest>'
    return b'<?xml version="1.0" encoding="UTF-8"?>\n' + text.encode()


def asic_s(sign, content=b"a letter", name="letter.txt", signature="META-INF/signature.p7s"):
    """An ASiC-S: one file, and its signature."""
    return zipped([("mimetype", ASIC_S), (name, content), (signature, sign(content))])


def asic_e(sign, files, more=(), signature="META-INF/signature1.p7s"):
    """An ASiC-E: files, a manifest with their digests, and the manifest's signature."""
    text = manifest(signature, files)
    return zipped([("mimetype", ASIC_E), *files, ("META-INF/ASiCManifest1.xml", text), (signature, sign(text)), *more])


# --- mail (RFC 8551)


def mail_signed(
    sign, text=b"Content-Type: text/plain\r\n\r\nI owe you 1 euro.\r\n", ends=b"\r\n", head=b"From: ada@example\r\n"
):
    """A mail of multipart/signed, whose lines have these ends."""
    body = base64.encodebytes(sign(text)).replace(b"\n", b"\r\n")
    kind = b'multipart/signed; protocol="application/pkcs7-signature"; micalg=sha-256; boundary="cut"'
    out = head + b"MIME-Version: 1.0\r\nContent-Type: %s\r\n\r\n--cut\r\n%s\r\n--cut\r\n" % (kind, text)
    out += b"Content-Type: application/pkcs7-signature\r\nContent-Transfer-Encoding: base64\r\n\r\n%s--cut--\r\n" % body
    return out.replace(b"\r\n", ends)


def one_of_each(maker):
    """Files of each kind that is read, by their names, with one that is of none."""
    return {
        "contract.pdf": pdf_signed(maker.signed),
        "files.asice": asic_e(maker.signed, [("a.txt", b"first"), ("b.txt", b"second")]),
        "letter.txt": b"a letter\n",
        "letter.txt.p7s": maker.signed(b"a letter\n"),
        "mail.eml": mail_signed(maker.signed),
        "note.pem": maker.converted(maker.attached(b"a note\n"), "PEM"),
        "open.p7s": in_ber(maker.attached(b"a letter\n")),
        "plain.p7s": maker.attached(b"a letter\n"),
        "table.xml": b"<?xml version='1.0'?><table/>\n",
    }


def make_pdf(name):
    """Makes a PDF that is signed, and not stamped, by the signer in this folder."""

    def sign(content):
        words = ["-sign", "-cades", "-binary", "-outform", "DER", "-signer", "signer.pem", "-inkey", "signer.key"]
        return subprocess.run(["openssl", "cms", *words], input=content, capture_output=True, check=True).stdout

    Path(name).write_bytes(pdf_signed(sign))


def main():
    """Makes what the documents show: the folder `letters` with one of each, `later.pdf`, and the trust list `letters.txt`."""
    folder = Path("letters")
    folder.mkdir()
    with tempfile.TemporaryDirectory() as temporary:
        maker = Maker(temporary, shutil.which("cmsproof"))
        shutil.copy(Path(temporary) / "trust.txt", "letters.txt")
        files = one_of_each(maker)
        for name, octets in files.items():
            (folder / name).write_bytes(octets)
        evil = TEXT.replace(b"1 euro", b"9 euro")
        Path("later.pdf").write_bytes(revision(files["contract.pdf"], {4: PAGES[4] % (len(evil), evil)}))


if __name__ == "__main__":
    main() if len(sys.argv) == 1 else make_pdf(sys.argv[1])
