"""Tests of containers that somebody made who wants to be accepted: nothing is, that nobody signed.

The attacks on PDF are made here from their descriptions: universal signature forgery, incremental saving and signature wrapping
(Mladenov and others, 2019), shadow attacks (Mainka and others, 2021).
"""
import io
import os
import re
import shutil
import struct
import unittest
import zipfile
import zlib
from unittest import mock

from containing import PDF, WithMaker, made
from making import processor_seconds

EVIL = b"BT /F1 12 Tf 20 50 Td (I owe you 9 euro) Tj ET"
ACCEPTED = r"^accepted [0-9]{14}Z$"


def page(text):
    """The octets of the stream of a page."""
    return made.PAGES[4] % (len(text), text)


def with_gap(pdf, name, new):
    """The file with another value of /ByteRange or /Contents."""
    return re.sub(rb"/%s (\[[^]]*\]|<[0-9a-fA-F]*>)" % name, lambda _: b"/%s %s" % (name, new), pdf, count=1)


def in_place(pdf, name, new):
    """The same, as long as before."""
    old = re.search(rb"/%s (\[[^]]*\] *)" % name, pdf)[1]
    assert len(new) <= len(old)
    return pdf.replace(old, new.ljust(len(old)), 1)


def ranges_of(pdf):
    """The four numbers of /ByteRange."""
    return [int(number) for number in re.search(rb"/ByteRange \[(\d+) (\d+) (\d+) (\d+)", pdf).groups()]


def wrapped(pdf):
    """Signature wrapping: the second signed range stands at the end of the file. Where it stood are a second /ByteRange, which leaves
    out all before it, another page, and a table of objects at the place that the signed end of the file names."""
    _, begin, after, rest = ranges_of(pdf)
    table, signed = int(re.findall(rb"startxref\n(\d+)", pdf)[-1]), re.match(rb"<[0-9a-f]*?(?=0*>)", pdf[begin:after])[0]
    own = b"%s> /ByteRange [0 %d %010d %d] >>\nendobj\n" % (signed + b"0" * (len(signed) % 2 == 0), begin, 0, rest)
    evil = begin + len(own)
    body = (own + b"4 0 obj\n" + page(EVIL) + b"\nendobj\n").ljust(table - begin)
    places = dict(re.findall(rb"(?m)^(\d+) 1\n(\d{10}) 00000 n", pdf[table:]))
    lines = b"".join(
        b"%s 1\n%s 00000 n \n" % (number, b"%010d" % evil if number == b"4" else at) for number, at in places.items()
    )
    trailer = b"xref\n0 1\n0000000000 65535 f \n" + lines + pdf[pdf.rindex(b"trailer") :]
    found = pdf[:begin] + body + trailer
    return (found + pdf[after:]).replace(b"%010d" % 0 + b" %d] >>" % rest, b"%010d %d] >>" % (len(found), rest))


def two_with_one_gap(pdf):
    """Two fields whose values leave out the same octets: the second one was added."""
    value = re.search(rb"6 0 obj\n(.*?)\nendobj", pdf, re.DOTALL)[1]
    objects = {1: made.objects_of([5, 7])[1], 7: made.field(b"Other", 8), 8: value}
    return made.revision(pdf, objects)


def streamed(maker):
    """A signature dictionary inside an object stream."""
    import pikepdf

    pdf, out = pikepdf.open(io.BytesIO(made.pdf_signed(maker.signed))), io.BytesIO()
    pdf.save(out, object_stream_mode=pikepdf.ObjectStreamMode.generate)
    return out.getvalue()


def packed():
    """A table of objects of 300 MB that is packed into 300 KB."""
    table = zlib.compress(bytes(300 << 20))
    words = b"/Type /XRef /Size 6 /W [1 2 1] /Root 1 0 R /Filter /FlateDecode /Length %d" % len(table)
    return b"%%PDF-1.7\n5 0 obj\n<< %s >>\nstream\n%s\nendstream\nendobj\nstartxref\n9\n%%%%EOF\n" % (words, table)


def pdf_attacks(maker):
    """By its name each attack, and the code with which it is refused."""
    pdf = made.pdf_signed(maker.signed)
    numbers = ranges_of(pdf)
    size = len(pdf)
    rows = {
        # incremental saving, with all that belongs to it, without a table, and with octets that mean nothing
        "saved": (made.revision(pdf, {4: page(EVIL)}), "F6"),
        "appended": (pdf + b"4 0 obj\n" + page(EVIL) + b"\nendobj\n", "F6"),
        "feed": (pdf + b"\n", "F6"),
        # shadow attacks: what was there and hidden is shown, replaced, or hides what was there
        "shadow_replace": (made.revision(pdf, {2: made.PAGES[2].replace(b"3 0 R", b"9 0 R"), 9: made.PAGES[3]}), "F6"),
        "shadow_overlay": (made.revision(pdf, {5: made.field(b"Signature1", 6).replace(b"[0 0 0 0]", b"[0 0 300 100]")}), "F6"),
        "wrapped": (wrapped(pdf), "F10"),
        # universal forgery: /ByteRange or /Contents missing, null or senseless
        "no_range": (pdf.replace(b"/ByteRange", b"/BiteRange"), "F7"),
        "null_range": (with_gap(pdf, b"ByteRange", b"null"), None),
        "negative": (in_place(pdf, b"ByteRange", b"[0 -1 %d %d]" % (numbers[2], numbers[3])), "F7"),
        "falling": (in_place(pdf, b"ByteRange", b"[0 %d %d %d]" % (numbers[2], numbers[1], numbers[3])), "F7"),
        "from_one": (in_place(pdf, b"ByteRange", b"[1 %d %d %d]" % (numbers[1] - 1, *numbers[2:])), "F7"),
        "three": (in_place(pdf, b"ByteRange", b"[0 %d %d]" % (numbers[1], numbers[2])), "F7"),
        "six": (in_place(pdf, b"ByteRange", b"[0 1 1 1 2 %d]" % (size - 2)), "F7"),
        "reals": (in_place(pdf, b"ByteRange", b"[0 %d.0 %d %d]" % tuple(numbers[1:])), "F7"),
        "beyond": (in_place(pdf, b"ByteRange", b"[0 %d %d %d]" % (numbers[1], numbers[2], numbers[3] + 9)), "F7"),
        "no_gap": (in_place(pdf, b"ByteRange", b"[0 %d %d %d]" % (numbers[1], numbers[1] + 1, size - numbers[1] - 1)), "F7"),
        "wide_gap": (in_place(pdf, b"ByteRange", b"[0 %d %d %d]" % (numbers[1] - 1, *numbers[2:])), "F7"),
        "no_contents": (pdf.replace(b"/Contents <", b"/Contants <"), "F7"),
        "empty": (with_gap(pdf, b"Contents", b"<>"), None),
        "behind_the_signature": (pdf[: numbers[2] - 9] + b"61616161>" + pdf[numbers[2] :], "F3"),
        "one_gap": (two_with_one_gap(pdf), "F8"),
        "before": (b"octets\n" + pdf, "F10"),
        "sha1": (made.pdf_signed(maker.signed, b"/adbe.pkcs7.sha1"), "F1"),
        "stamp_as_signature": (made.pdf_signed(maker.token, b"/ETSI.RFC3161"), "F1"),
        "attached": (made.pdf_signed(maker.attached), "C5"),
        "cut": (pdf[:-100], "F3"),
        "packed": (packed(), "F3|F4"),
        "other_text": (pdf.replace(b"owe you 1", b"owe you 9"), "S6"),
    }
    return rows


@unittest.skipUnless(PDF, "pikepdf is missing")
class Pdf(WithMaker):
    """PDF."""

    def test_attacks(self):
        rows = pdf_attacks(self.maker)
        for name, (octets, _) in rows.items():
            self.put(name + ".pdf", octets)
        found = self.lines()
        lines = {}
        for name, line in found.items():
            lines.setdefault(name.partition(".pdf")[0], set()).add(line)
        for name, (_, code) in rows.items():
            self.assertNotIn("accepted", str(lines[name]), name)
            if code is not None:
                self.assertTrue(all(re.search(rf"\b{code}\b", line) for line in lines[name]), (name, lines[name]))
        # what is allowed by an option is a note, and is said; all else stays refused
        loose = self.lines("--partial")
        accepted = {name.partition(".pdf")[0] for name, line in loose.items() if line.startswith("accepted")}
        self.assertEqual(accepted, {"saved", "appended", "feed", "shadow_replace", "shadow_overlay"})
        notes = {row["file"].split("/")[1]: row["notes"] for row in self.rows if row["verdict"] == "accepted"}
        self.assertRegex(notes["saved.pdf"][0], r"^covers 1\.\.[0-9]+ of [0-9]+, 1 later revision$")
        self.assertRegex(notes["feed.pdf"][0], r"^covers 1\.\.[0-9]+ of [0-9]+, 0 later revisions$")
        self.assertIn("saved.pdf Signature1: covers 1..", self.err)

    def test_several_signatures(self):
        first = made.pdf_signed(self.maker.signed)
        self.put("two.pdf", made.signed_again(first, self.maker.signed))
        stamped = made.signed_again(first, self.maker.token, b"Stamp", b"/ETSI.RFC3161", b"/DocTimeStamp")
        self.put("stamped.pdf", stamped)
        begin = len(first)
        self.put("changed.pdf", stamped[:begin] + stamped[begin:].replace(b"/Rect [0 0 0 0]", b"/Rect [0 0 0 1]"))
        self.put("earlier.pdf", stamped.replace(b"owe you 1", b"owe you 9"))
        found = self.lines("--partial")
        for name in ("two.pdf Signature1", "two.pdf Signature2", "stamped.pdf Signature1", "changed.pdf Signature1"):
            self.assertRegex(found[name], ACCEPTED, name)
        self.assertRegex(found["stamped.pdf Stamp"], r"^stamped [0-9]{14}Z$")
        self.assertEqual(found["changed.pdf Stamp"], "refused K9 ImprintDiffers")
        self.assertEqual(found["earlier.pdf Signature1"], "refused signer 1 S6 DigestDiffers")
        self.assertEqual(found["earlier.pdf Stamp"], "refused K9 ImprintDiffers")
        found = self.lines()
        self.assertEqual(found["two.pdf Signature1"], "refused F6 Uncovered")
        self.assertRegex(found["two.pdf Signature2"], ACCEPTED)

    def test_a_time_stamp_alone_is_not_accepted(self):
        self.put("alone.pdf", made.pdf_signed(self.maker.token, b"/ETSI.RFC3161", b"/DocTimeStamp"))
        self.put("alone.asics", made.asic_s(self.maker.token, signature="META-INF/timestamp.tst"))
        status, rows, err = self.run_tool("cmsproof-archive", "--trust", "trust.txt", "--json", "archive")
        self.assertEqual((status, [row["line"] for row in rows[:-1]]), (1, ["refused F15 StampAlone"] * 2))
        self.assertEqual(err.count("a time-stamp of 20"), 2, err)
        status, rows, err = self.run_tool("cmsproof-archive", "--trust", "trust.txt", "--json", "--stamps", "archive")
        self.assertEqual((status, [row["verdict"] for row in rows[:-1]], err), (0, ["stamped"] * 2, ""))

    @unittest.skipUnless(PDF and __import__("importlib").util.find_spec("pikepdf"), "this Python has no pikepdf")
    def test_what_pikepdf_makes(self):
        import pikepdf

        self.put("streams.pdf", streamed(self.maker))
        pdf, out = pikepdf.open(io.BytesIO(made.pdf_signed(self.maker.signed))), io.BytesIO()
        pdf.save(out, encryption=pikepdf.Encryption(owner="a", user=""))
        self.put("encrypted.pdf", out.getvalue())
        found = self.lines()
        self.assertEqual(found["encrypted.pdf"], "refused F9 Encrypted")
        self.assertRegex(found["streams.pdf Signature1"], "^refused F(7|10) ")


def asic_attacks(maker):
    """By its name each attack, and the code with which it is refused."""
    files = [("a.txt", b"first"), ("b.txt", b"second")]
    one, two = made.asic_s(maker.signed), made.asic_e(maker.signed, files)
    signature, text = maker.signed(b"a letter"), made.manifest("META-INF/signature1.p7s", files)
    kind = ("mimetype", made.ASIC_E)
    rest = [("META-INF/ASiCManifest1.xml", text), ("META-INF/signature1.p7s", maker.signed(text))]

    def signed_manifest(xml):
        return [kind, *files, (rest[0][0], xml), (rest[1][0], maker.signed(xml))]

    bomb = io.BytesIO()
    with zipfile.ZipFile(bomb, "w", zipfile.ZIP_DEFLATED) as file:
        file.writestr(zipfile.ZipInfo("mimetype"), made.ASIC_S)
        file.writestr("zeros", bytes(300 << 20))
        file.writestr("META-INF/signature.p7s", signature)
    doubled = made.zipped(
        [
            ("mimetype", made.ASIC_S),
            ("letter.txt", b"a letter"),
            ("letter.txX", b"another!"),
            ("META-INF/signature.p7s", signature),
        ]
    ).replace(b"letter.txX", b"letter.txt")
    local = one.replace(b"letter.txt", b"latter.txt", 1)
    # (of the entry of `mimetype`, whose name has 8 octets)
    place = one.index(b"PK\1\2")
    many = one[place : place + 54] * 1_000_000
    crowd = one[:place] + many + struct.pack("<4sHHHHLLH", b"PK\5\6", 0, 0, 1, 1, len(many), place, 0)
    entity = text.replace(b"?>\n", b'?>\n<!DOCTYPE a [<!ENTITY b "c">]>\n', 1)
    lies = text.replace(b"a.txt", b"c.txt")
    return {
        "more_files": (made.asic_e(maker.signed, files, [("c.txt", b"third")]), "F6"),
        "changed_file": (made.zipped([kind, ("a.txt", b"First"), files[1], *rest]), "F13"),
        "missing_file": (made.zipped([kind, files[0], *rest]), "F13"),
        "changed_manifest": (made.zipped([kind, ("c.txt", b"first"), files[1], (rest[0][0], lies), rest[1]]), "S6"),
        "no_manifest": (made.zipped([kind, *files, rest[1]]), "F12"),
        "other_signature": (made.zipped([kind, *files, *rest, ("META-INF/signature2.p7s", signature)]), "F13"),
        "two_files": (
            made.zipped(
                [
                    ("mimetype", made.ASIC_S),
                    ("letter.txt", b"a letter"),
                    ("evil.txt", b"evil"),
                    ("META-INF/signature.p7s", signature),
                ]
            ),
            "F10",
        ),
        "entity": (made.zipped(signed_manifest(entity)), "F3"),
        "no_xml": (made.zipped(signed_manifest(b"<a")), "F3"),
        "weak": (made.zipped(signed_manifest(text.replace(b"xmlenc#sha256", b"xmldsig#sha1"))), "F3"),
        "twice_in_manifest": (made.zipped(signed_manifest(made.manifest(rest[1][0], [files[0], *files]))), "F10"),
        "bomb": (bomb.getvalue(), "F4"),
        "crowd": (crowd, "F4"),
        "doubled": (doubled, "F10"),
        "case": (made.zipped([kind, *files, ("A.TXT", b"evil"), *rest]), "F10"),
        "local_name": (local, "F10"),
        "before": (b"octets" + one, "F1"),
        "behind": (one + b"octets", "F10"),
        "up": (made.zipped([kind, *files, ("../up.txt", b"evil"), *rest]), "F11"),
        "root": (made.zipped([kind, *files, ("/etc/x", b"evil"), *rest]), "F11"),
        "backslash": (made.zipped([kind, *files, ("x\\y", b"evil"), *rest]), "F11"),
        "override": (made.zipped([kind, *files, ("txt.\u202eexe", b"evil"), *rest]), "F11"),
        "late_type": (made.zipped([*files, *rest, kind]), "F12"),
        "wrong_type": (made.zipped([("mimetype", made.ASIC_S), *files, *rest]), "F12"),
        "xades": (made.zipped([kind, *files, *rest, ("META-INF/signatures001.xml", b"<a/>")]), None),
        "other_text": (two.replace(b"first", b"First"), "F3"),
        "jar": (made.zipped([("META-INF/MANIFEST.MF", b"a"), ("META-INF/A.RSA", signature)]), "F1"),
        "hidden": (hidden(one), "F10"),
        "in_the_folder": (made.asic_e(maker.signed, files, [("META-INF/letter.txt", b"evil")]), "F6"),
        # (MuPDF 1.21 shows the file that it names)
        "rootfile": (made.asic_e(maker.signed, files, [("META-INF/container.xml", b"evil")]), "F6"),
        # (for `re` without ASCII a long s is an s)
        "long_s": (made.asic_e(maker.signed, files, [("META-INF/a\u017ficmanifest.xml", b"evil")]), "F6"),
        "other_folder": (made.asic_e(maker.signed, files, [("meta-inf/evidencerecord.txt", b"evil")]), "F6"),
        "other_ending": (made.asic_e(maker.signed, files, [("META-INF/ASiCManifest.XML", b"evil")]), "F3"),
        "full_folder": (made.zipped([kind, *files, ("folder/", b"evil"), *rest]), "F10"),
        "other_size": (one.replace(struct.pack("<LL", 8, 8), struct.pack("<LL", 8, 7), 1), "F10"),
    }


def hidden(octets):
    """The zip file with another entry between its entries and their directory, which only some programs see."""
    place = octets.index(b"PK\1\2")
    other = made.zipped([("letter.txt", b"evil")])
    entry = other[: other.index(b"PK\1\2")]
    end = octets.rindex(b"PK\5\6")
    at = struct.unpack("<L", octets[end + 16 : end + 20])[0] + len(entry)
    return octets[:place] + entry + octets[place : end + 16] + struct.pack("<L", at) + octets[end + 20 :]


class Asic(WithMaker):
    """ASiC."""

    # what has files beside those that are covered, or other signatures
    LOOSE = ("more_files", "in_the_folder", "long_s", "other_folder", "rootfile", "other_signature", "other_ending", "xades")

    def test_attacks(self):
        rows = asic_attacks(self.maker)
        for name, (octets, _) in rows.items():
            self.put(name + ".zip", octets)
        found = self.lines()
        for name, (_, code) in rows.items():
            lines = [line for part, line in found.items() if part.startswith(name + ".zip")]
            if code is None:
                self.assertEqual([line for line in lines if "F1 " in line], ["refused F1 UnknownForm"], lines)
            else:
                refused = [line for line in lines if not line.startswith("accepted")]
                self.assertTrue(any(re.search(rf"\b{code}\b", line) for line in refused), (name, lines))
                self.assertEqual(len(lines) - len(refused), name in ("other_signature", "other_ending"), (name, lines))
        loose = {name for name, line in self.lines("--partial").items() if line.startswith("accepted")}
        more = {f"{name}.zip META-INF/signature1.p7s" for name in self.LOOSE}
        self.assertEqual(loose, more)


def mail_attacks(maker):
    """By its name each attack, and the code with which it is refused."""
    mail = made.mail_signed(maker.signed)
    head, _, body = mail.partition(b"\r\n\r\n")
    text = b"Content-Type: text/plain\r\n\r\nI owe you 9 euro.\r\n"
    beside = b"MIME-Version: 1.0\r\nContent-Type: multipart/mixed; boundary=out\r\n\r\n--out\r\n" + text + b"\r\n--out\r\n"
    inner = b"\r\n".join(line for line in head.split(b"\r\n") if line.startswith(b"Content-Type")) + b"\r\n\r\n" + body
    return {
        "beside": (beside + inner + b"\r\n--out--\r\n", "F6"),
        "footer": (beside[: beside.index(text)] + inner + b"\r\n--out\r\n" + text + b"\r\n--out--\r\n", "F6"),
        "forwarded": (beside + b"Content-Type: message/rfc822\r\n\r\n" + mail + b"\r\n--out--\r\n", "F6"),
        "lone_return": (b"From: a\r" + mail.replace(b"MIME-V", b"Subject: I owe you 9 euro\rMIME-V"), "F10"),
        "other_text": (mail.replace(b"you 1 euro", b"you 9 euro"), "S6"),
        "third": (mail.replace(b"--cut--", b"--cut\r\n" + text + b"\r\n--cut--"), "F3"),
        "before": (mail.replace(b"--cut\r\n", b"--cut\r\n" + text + b"\r\n--cut\r\n", 1), "F3"),
        "two_types": (mail.replace(b"MIME-V", b"Content-Type: text/html\r\nMIME-V", 1), "F10"),
        "two_boundaries": (mail.replace(b'; boundary="cut"', b'; boundary="cut"; boundary="other"'), "F10"),
        "no_end": (mail.replace(b"--cut--", b"--cat--"), "F3"),
        "two_ends": (mail + mail[mail.index(b"--cut") :], "F3"),
        "base64": (mail.replace(b"base64\r\n\r\n", b"base64\r\n\r\n!"), "F3"),
        "pgp": (mail.replace(b"application/pkcs7-signature\r\n", b"application/pgp-signature\r\n"), "F1"),
        "space": (mail.replace(b"euro.\r\n", b"euro. \r\n"), "S6"),
    }


class Mail(WithMaker):
    """Mails."""

    def test_a_mail_before_one_that_is_signed(self):
        mail = made.mail_signed(self.maker.signed, ends=b"\n")
        self.put("box", b"From a Mon\nSubject: evil\n\nI owe you 9 euro.\n\nFrom b Tue\n" + mail)
        found = self.lines()
        self.assertEqual(found["box mail 1"], "refused F1 UnknownForm")
        self.assertRegex(found["box mail 2"], ACCEPTED)

    def test_attacks(self):
        rows = mail_attacks(self.maker)
        for name, (octets, _) in rows.items():
            self.put(name + ".eml", octets)
        found = self.lines()
        for name, (_, code) in rows.items():
            (line,) = [line for part, line in found.items() if part.startswith(name + ".eml")]
            self.assertRegex(line, rf"^refused (signer 1 )?{code} ", name)
        loose = {name.split()[0] for name, line in self.lines("--partial").items() if line.startswith("accepted")}
        self.assertEqual(loose, {"beside.eml", "footer.eml", "forwarded.eml"})


class Texts(WithMaker):
    """PEM, base64 and BER."""

    def test_attacks(self):
        attached = self.maker.attached(b"a letter")
        pem, ber = self.maker.converted(attached, "PEM"), made.in_ber(attached)
        second = self.maker.converted(self.maker.attached(b"another", stamped=False), "PEM")
        rows = {
            "no_end.pem": (pem.replace(b"-----END CMS-----", b""), {"": "refused F3 Broken"}),
            "other_end.pem": (pem.replace(b"-----END CMS", b"-----END PKCS7"), {"": "refused F3 Broken"}),
            "letters.pem": (pem.replace(b"MII", b"M!I", 1), {"": "refused F3 Broken"}),
            "before.pem": (b"I owe you 9 euro.\n" + pem, {"": "refused F6 Uncovered"}),
            "behind.pem": (pem + b"I owe you 9 euro.\n", {"": "refused F6 Uncovered"}),
            "between.pem": (pem + b"I owe you 9 euro.\n" + second, {"block 1": "refused F6 Uncovered"}),
            "two.pem": (pem + second, {"block 1": None, "block 2": "refused signer 1 S10 NoToken"}),
            "behind.ber": (ber + b"\0\0", {"": "refused F3 Broken"}),
            "cut.ber": (ber[:-2], {"": "refused F3 Broken"}),
            "deep.ber": (b"\x30\x80" * 100 + b"\0\0" * 100, {"": "refused F4 TooLarge"}),
            "none.ber": (b"\x30\x80\x02\x01\x01\0\0", {"": "refused F3 Broken"}),
            "order.ber": (disordered(ber), {"": "refused F5 NotInDer"}),
            "last.b64": (b"M" * 100 + b"=", {"": "refused F3 Broken"}),
        }
        for name, (octets, _) in rows.items():
            self.put(name, octets)
        found = self.lines()
        for name, (_, lines) in rows.items():
            for part, line in lines.items():
                said = found[f"{name} {part}".strip()]
                self.assertTrue(said == line if line else re.match(ACCEPTED, said), (name, part, said))


def disordered(ber):
    """BER whose first two signed attributes are exchanged: in DER they would be other octets than in the file."""
    from oracle import der

    at = ber.index(der.oid("1.2.840.113549.1.9.3")) - 2
    first = ber[at : at + 2 + ber[at + 1]]
    second = ber[at + len(first) : at + len(first) + 2 + ber[at + len(first) + 1]]
    return ber.replace(first + second, second + first)


MAGICS = [b"%PDF-1.7\n", b"PK\3\4", b"-----BEGIN CMS-----\n", b"From a\n", b"MIME-Version: 1.0\n", b"\x30\x80", b"\x30", b"MII"]
MULTIPART = b"Content-Type: multipart/signed; boundary=a\n\n--a\n"


class Hostile(WithMaker):
    """Octets that mean nothing, and what is missing."""

    @unittest.skipUnless(PDF, "pikepdf is missing")
    def test_random_octets_behind_each_beginning(self):
        import random

        numbers = random.Random(7)
        for magic in [*MAGICS, MULTIPART]:
            for number in range(100):
                self.put(
                    f"{MAGICS.index(magic) if magic in MAGICS else 'm'}.{number}",
                    magic + numbers.randbytes(numbers.randrange(3000)),
                )
        began = processor_seconds()
        found = self.lines()
        self.assertLess(processor_seconds() - began, 2 * len(found))
        self.assertEqual(len(found), 100 * (len(MAGICS) + 1))
        self.assertEqual({line.split()[0] for line in found.values()}, {"refused", "malformed"}, found)

    def test_long_ones_end_soon(self):
        rows = {
            "a.eml": b"Subject: a\n" + b"a: b\n" * 300000,
            "b.eml": b"From a\n\n" * 200000,
            "c.eml": b"Content-Type: multipart/mixed; boundary=a\n\n" + b"--a\n\n" * 100000 + b"--a--\n",
            "d.eml": b"".join(b"Content-Type: multipart/mixed; boundary=a%d\n\n--a%d\n" % (n, n) for n in range(3000)),
            "e.pem": b"-----BEGIN CMS-----\n" * 50000,
            "f.b64": b"M" * 3000000,
            "g.ber": b"\x30\x80" + b"\x30\x00" * 1000000 + b"\0\0",
        }
        for name, octets in rows.items():
            self.put(name, octets)
        began = processor_seconds()
        found = self.lines("--jobs", "1")
        self.assertLess(processor_seconds() - began, 30)
        self.assertEqual({line.split()[0] for line in found.values()} - {"malformed"}, {"refused"}, found)

    def test_how_long_openssl_may_take(self):
        """So long by the processor's time, and not by the clock, by which a busy machine would refuse honest files."""
        from cmsproof_tools.containers import ber
        from cmsproof_tools.containers.refusals import Refused

        attached, program = self.maker.attached(b"c"), self.folder / "bin" / "openssl"
        program.parent.mkdir()
        path = {"PATH": f"{program.parent}:{os.environ['PATH']}"}
        for waits, wanted in ((f'sleep 2; exec {shutil.which("openssl")} "$@"', attached), ("while :; do :; done", "F4")):
            program.write_text(f"#!/bin/sh\n{waits}\n")
            program.chmod(0o755)
            with mock.patch.object(ber, "SECONDS", 1), mock.patch.dict(os.environ, path):
                try:
                    found = ber.in_der(memoryview(made.in_ber(attached)))
                except Refused as refused:
                    found = refused.code
            self.assertEqual(found, wanted)

    def test_what_is_missing_stops_its_container_alone(self):
        (self.folder / "gone").mkdir()
        (self.folder / "gone" / "pikepdf.py").write_text("raise ImportError('none')\n")
        self.put("a.pdf", made.pdf_signed(self.maker.signed)), self.put("b.p7s", self.maker.attached(b"b"))
        self.put("c.ber", made.in_ber(self.maker.attached(b"c")))
        found = self.lines(env={"PYTHONPATH": str(self.folder / "gone"), "PATH": str(self.folder / "gone")})
        self.assertEqual((found["a.pdf"], found["c.ber"]), ("failed F2 ToolMissing", "failed F2 ToolMissing"))
        self.assertRegex(found["b.p7s"], ACCEPTED)
        self.assertIn("install Debian's python3-pikepdf", self.err)


if __name__ == "__main__":
    unittest.main()
