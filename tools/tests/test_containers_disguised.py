"""Tests of files of CMS and mails that other programs open as a file of another kind, by octets that are not signed, or by their
name: none is accepted. What those programs find in them is looked at with Python's libraries, and with others that are there."""
import base64
import io
import shutil
import struct
import subprocess
import sys
import tarfile
import unittest
import wave
import xml.etree.ElementTree
import zipfile
import zlib
from pathlib import Path

sys.path.insert(0, str(Path(__file__).resolve().parent))
from containing import WithMaker, made  # noqa: E402
from test_containers_twofold import ACCEPTED, EVIL, GOOD, Entry, end, opened, with_more, with_tar, zipped  # noqa: E402

from oracle.der import element  # noqa: E402

AMBIGUOUS = "refused F10 Ambiguous"
# whether Perl has its library of tar, which some systems leave out
PERL = shutil.which("perl") and not subprocess.run(["perl", "-MArchive::Tar", "-e", "1"], capture_output=True).returncode


def block(name, text, filling=b"\0"):
    """The head of a file in a tar, and its octets."""
    found = bytearray(name.ljust(100, filling) + b" " * 56 + b"0" + filling * 172 + b" " * 16 + filling * 167)
    found[124:136] = b"%011o " % len(text)
    found[148:156] = b"%06o  " % sum(found)
    return bytes(found) + text


class Packed(WithMaker):
    """Zip files whose parts stand in a file of CMS or a mail."""

    def test_ber_whose_heads_are_a_part_of_another_file(self):
        """Strings in pieces of 80 octets, whose length is the letter P: `PK` of a directory and of its end stands in BER alone."""
        first = b"MIME-Version: 1.0\r\nContent-Type: application/pkcs7-mime; smime-type=signed-data\r\nContent-Transfer-Encoding: "
        attached, entry = self.maker.attached(b"a letter"), Entry(b"letter.txt", EVIL)

        def in_ber(at, place, behind):
            directory = bytearray(entry.second(at))
            directory[32:34] = struct.pack("<H", 26)
            last = end(1, len(directory) + 26, place)[:-2] + struct.pack("<H", behind)
            pieces = entry.first(), bytes(directory[1:]).ljust(80), last[1:].ljust(80)
            return with_more(attached, b"".join(element(4, piece) for piece in pieces), wrapped=opened, pieces=opened)

        places, head = (0, 0, 0), first + b"binary\r\n\r\n"
        for _ in range(2):
            ber = in_ber(*places)
            mail = head + ber
            places = mail.index(b"PK\3\4"), mail.index(b"PK\1\2"), len(mail) - mail.index(b"PK\5\6") - 22
        with zipfile.ZipFile(io.BytesIO(mail)) as file:
            self.assertEqual(file.read("letter.txt"), EVIL)
        text = base64.encodebytes(ber)
        rows = {
            "binary.eml": mail,
            "base64.eml": first + b"base64\r\n\r\n" + text,
            "a.pem": b"-----BEGIN CMS-----\n%b-----END CMS-----\n" % text,
            "a.b64": text,
            "a.p7m": ber,
        }
        for name, octets in rows.items():
            self.put(name, octets)
        good = with_more(attached, element(4, b"a") + element(4, b"b"), wrapped=opened, pieces=opened)
        self.put("good.eml", head + good)
        found = self.lines()
        self.assertRegex(found.pop("good.eml"), ACCEPTED)
        self.assertEqual(found, dict.fromkeys(rows, AMBIGUOUS))

    def test_the_end_of_a_directory_that_is_not_signed(self):
        """An end in an unsigned attribute, of a directory that is elsewhere: in a zip file that is in the signed one, or beside what is
        signed of a mail. The comment in the directory, or what Info-ZIP takes for it, goes up to the end."""
        inner = made.zipped([("letter.txt", EVIL)])
        outer = self.maker.attached(made.zipped([("letter.txt", GOOD), ("older.zip", inner)]))
        text, entry = b"Content-Type: text/plain\r\n\r\nI owe you 1 euro.\r\n", Entry(b"letter.txt", EVIL)
        detached, (head, _, _) = self.maker.signed(text), made.mail_signed(lambda _: b"", text).partition(b"--cut")
        kind = b"Content-Type: application/pkcs7-signature\r\nContent-Transfer-Encoding: binary\r\n\r\n"

        def signed(octets, place, length, behind):
            return with_more(octets, attribute=end(1, length, place)[:-2] + struct.pack("<H", behind))

        def mail(at, place, length, behind):
            directory = bytearray(entry.second(at))
            directory[32:34] = struct.pack("<H", max(0, length - len(directory)))
            parts = head, entry.first(), directory, b"\r\n--cut\r\n", text, b"\r\n--cut\r\n", kind
            return b"".join(parts) + signed(detached, place, length, behind) + b"\r\n--cut--\r\n"

        whole, letter = signed(outer, 0, 0, 0), mail(0, 0, 0, 0)
        for _ in range(2):
            begin, first, last = whole.index(inner), whole.index(b"PK\1\2"), whole.rindex(b"PK\5\6")
            whole = signed(outer, first - begin, last - first, len(whole) - last - 22)
            at, first, last = letter.index(b"PK\3\4"), letter.index(b"PK\1\2"), letter.rindex(b"PK\5\6")
            letter = mail(at, first, last - first, len(letter) - last - 22)
        with zipfile.ZipFile(io.BytesIO(letter)) as file:
            self.assertEqual(file.read("letter.txt"), EVIL)
        path = self.put("inner.p7m", whole)
        if shutil.which("unzip"):
            done = subprocess.run(["unzip", "-p", path, "letter.txt"], capture_output=True, check=False)
            self.assertEqual(done.stdout, EVIL)
        self.put("a.eml", letter), self.put("good.p7m", outer)
        self.put("good.eml", mail(0, 0, 0, 0).replace(b"PK\5\6", b"PK\5\7"))
        found = self.lines()
        for name in ("good.p7m", "good.eml"):
            self.assertRegex(found.pop(name), ACCEPTED)
        self.assertEqual(found, {"inner.p7m": AMBIGUOUS, "a.eml": AMBIGUOUS})

    def test_the_end_of_a_directory_that_is_signed_and_leads_elsewhere(self):
        """Programs that count from the begin of the file, as sqlite3, find another directory there than the one before its end."""
        entry = Entry(b"letter.txt", GOOD, extra=struct.pack("<HH", 0xCAFE, 300) + bytes(300))
        packed, evil = zipped(entry), Entry(b"letter.txt", EVIL)
        at, attached = packed.index(b"PK\1\2"), self.maker.attached(packed)
        comment = bytes(len(packed) - 22 - at - len(evil.second(0)))

        def signed(place, count):
            directory = bytearray(evil.second(place))
            directory[32:34] = struct.pack("<H", len(comment))
            return with_more(attached, parameters=evil.first() + b" " * count + directory + comment)

        found = [octets for count in range(at) if (octets := signed(signed(0, count).index(b"PK\3\4"), count)).index(b"PK\1\2") == at]
        path = self.put("letter.p7m", found[0])
        if shutil.which("sqlite3"):
            words = ["sqlite3", ":memory:", f"select data from zipfile('{path}')"]
            done = subprocess.run(words, capture_output=True, check=False)
            self.assertIn(done.stdout.strip(), (EVIL.strip(), b""))
        # the same beside what is signed of a mail, before the first of its parts
        text = b"Content-Type: application/zip\r\nContent-Transfer-Encoding: binary\r\n\r\n" + packed.replace(b"\n", b" ")
        mail = made.mail_signed(self.maker.signed, text=text)
        self.put("a.eml", mail.replace(b"--cut", evil.second(0) + b"\r\n--cut", 1))
        self.put("good.p7m", attached), self.put("good.eml", mail)
        lines = self.lines()
        for name in ("good.p7m", "good.eml"):
            self.assertRegex(lines.pop(name), ACCEPTED)
        self.assertEqual(lines, {"letter.p7m": AMBIGUOUS, "a.eml": AMBIGUOUS})

    def test_a_tar_whatever_it_is_called(self):
        """The first file of the tar is called as the file of CMS, the mail or the zip file begins (POSIX.1-2017, pax), and the next one
        is a letter."""
        attached = self.maker.attached(GOOD)
        letter = block(b"letter.txt", (EVIL + b"\n").ljust(511) + b"\n")
        head, _, rest = made.mail_signed(self.maker.signed).partition(b"--cut")
        filling = b"\n" * (512 - len(head) - 2)
        mail = block(b"X-A: ", b"\r\n" + head + filling, b"a") + letter + b"\n--cut" + rest
        first = Entry(b"letter.txt", GOOD, head={"extra": struct.pack("<HH", 0xCAFE, 4000) + bytes(4000)})
        packed = zipped(first, Entry(b"META-INF/signature.p7s", self.maker.signed(GOOD)))
        begun = block(packed[:44], b"a" * 512) + letter + bytes(1024)
        # (Python's `tarfile` reads such a sum too)
        number = b"\x80" + int(begun[148:154], 8).to_bytes(7, "big")
        other = begun[:148] + number + begun[156:]
        tar = with_tar(attached, EVIL)
        rows = {"letter": tar, "tar.sig": tar, "mail": mail, "asic": begun + packed[len(begun) :], "binary": other + packed[len(other) :]}
        said = tar[148:154]
        for number, form in enumerate((b"+%b", b"0o%b", b"0O_%b", b"\x1c%b", b"%b_%b")):
            other = form % (said[1:] if form.count(b"%b") == 1 else (said[:3], said[3:]))
            rows[f"form{number}"] = tar[:148] + other.ljust(8, b"\0") + tar[156:]
        for name, octets in rows.items():
            with tarfile.open(fileobj=io.BytesIO(octets)) as file:
                self.assertEqual(file.extractfile("letter.txt").read().strip(), EVIL, name)
            self.put(name, octets)
        # (Perl's Archive::Tar reads it in hexadecimal digits)
        for name, form in (("hex", b"0x%x"), ("hex2", b"x%x")):
            path = self.put(name, tar[:148] + (form % int(said, 8)).ljust(8, b"\0") + tar[156:])
            rows[name] = path.read_bytes()
            listed = "print map {$_->get_content} Archive::Tar->new($ARGV[0])->get_files('letter.txt')"
            done = subprocess.run(["perl", "-MArchive::Tar", "-e", listed, path], capture_output=True, check=False) if PERL else None
            self.assertTrue(done is None or (EVIL in done.stdout and b"checksum" not in done.stderr), done)
        self.put("good", attached), self.put("good.asics", packed)
        found = {name.partition(" ")[0]: line for name, line in self.lines().items()}
        self.assertRegex(found.pop("good"), ACCEPTED)
        self.assertRegex(found.pop("good.asics"), ACCEPTED)
        self.assertEqual(found, dict.fromkeys(rows, AMBIGUOUS))

    def test_octets_at_a_place_that_make_another_file(self):
        """What is before the mark of DICOM is anything (PS3.10 7.1)."""
        attached, rows = self.maker.attached(GOOD), {}
        marks = [(60, b"BOOKMOBI"), (128, b"DICM"), (522, b"\0\x11\2\xff"), (60, b"DataPlkr"), (32769, b"CD001"), (32769, b"BEA01")]
        for place, mark in marks:
            counts = range(max(0, place - 60), place)
            made_so = [with_more(attached, parameters=b" " * count + mark) for count in counts]
            rows[f"letter{place}{mark.hex()}"] = next(octets for octets in made_so if octets.index(mark) == place)
            self.put(f"good{place}{mark.hex()}", next(octets for octets in made_so if octets.index(mark) == place + 1))
        extra = struct.pack("<HH", 0xCAFE, 1000) + (bytes(84) + b"DICM").ljust(1000)
        packed = zipped(Entry(b"letter.txt", GOOD, head={"extra": extra}), Entry(b"META-INF/signature.p7s", self.maker.signed(GOOD)))
        self.assertEqual(packed.index(b"DICM"), 128)
        rows["letter.asics"] = packed
        for name, octets in rows.items():
            self.put(name, octets)
        found = {name.partition(" ")[0]: line for name, line in self.lines().items()}
        self.assertEqual({name: found.pop(name) for name in rows}, dict.fromkeys(rows, AMBIGUOUS))
        self.assertEqual(len(found), len(marks))
        for name, line in found.items():
            self.assertRegex(line, ACCEPTED, name)

    def test_the_last_entry_of_a_directory_that_goes_on(self):
        """Its fields go over the end of the directory into the comment, where another name is (APPNOTE.TXT 4.6.9), which Info-ZIP shows."""
        kind, signature = Entry(b"mimetype", made.ASIC_S), Entry(b"META-INF/signature.p7s", self.maker.signed(GOOD))
        packed, name = zipped(kind, signature, Entry(b"letter.txt", GOOD)), EVIL + b"txt"
        field = struct.pack("<HHBL", 0x7075, 5 + len(name), 1, zlib.crc32(b"letter.txt")) + name
        # (read as the head of a field `PK` has 0605, in hexadecimal, octets behind it)
        comment = b"mimetype=".ljust(0x605 - 18) + field
        with_comment = packed[:-2] + struct.pack("<H", len(comment)) + comment
        last = with_comment.rindex(b"PK\1\2")
        rows = {"fields.asics": (30, 22 + len(comment)), "name.asics": (28, 14), "comment.asics": (32, 22)}
        for called, (at, length) in rows.items():
            self.put(called, with_comment[: last + at] + struct.pack("<H", length) + with_comment[last + at + 2 :])
        self.put("good.asics", with_comment)
        if shutil.which("unzip"):
            words = ["unzip", "-Z1", self.folder / "archive" / "fields.asics"]
            self.assertIn(name, subprocess.run(words, capture_output=True, check=False).stdout)
        found = {name.partition(" ")[0]: line for name, line in self.lines().items()}
        self.assertRegex(found.pop("good.asics"), ACCEPTED)
        self.assertEqual(found, dict.fromkeys(rows, AMBIGUOUS))


class Begun(WithMaker):
    """Mails that begin as other files do."""

    def test_a_mail_that_begins_as_another_file(self):
        """The head of a mail is not signed, and its first field can have nearly any octets in its name (RFC 5322 2.2)."""
        mail, said = made.mail_signed(self.maker.signed), b"I owe you 9 euro."
        picture = b"<s:svg\r\n xmlns:s='http://www.w3.org/2000/svg'><s:text>%s</s:text><s:desc><![CDATA[\r\n" % said
        rows = {
            "letter.svg": picture + mail + b"]]></s:desc></s:svg>\r\n",
            "letter.rtf": b"{\\rtf1\\ansi:%s}\r\n" % said + mail,
            "letter.ps": b"%%!PS-Adobe-3.0:\r\n (%s) show showpage quit\r\n" % said + mail,
            "page": b"<!-->:<html><body>%s</body></html>\r\n" % said + mail,
            "script": b"#!/bin/cat:\r\n" + mail,
            # a picture whose comment goes over the head (GIF89a, 24)
            "picture": b"GIF89a:\1d\1\1\1\1!\xfe%c\r\n" % (mail.index(b"--cut") + 2) + mail.replace(b"--cut", b"\0;\r\n--cut", 1),
            "letter.vcf": b"BEGIN:VCARD\r\nVERSION:3.0\r\nFN:%s\r\nEND:VCARD\r\n" % said + mail,
            # (the same, and a part of FLAC that is passed over, whose names have the hyphen of a field)
            "wide picture": b"GIF89a-:\1\1\1\1\1!\xfe%c\r\n" % (mail.index(b"--cut") + 2) + mail.replace(b"--cut", b"\0;\r\n--cut", 1),
            "sound": b"fLaC-AAA: a\r\n" + mail,
        }
        self.assertEqual(xml.etree.ElementTree.fromstring(rows["letter.svg"])[0].text.encode(), said)
        for name, octets in rows.items():
            self.put(name, octets)
        begins = b"Return-Path: <a>", b"received: by a", b"X-a_b.c: d", b"From: a", b"cc: a", b"Organisation: a", b"MIME-Version: 1.0"
        begins += b"Autocrypt: a", b"OpenPGP: a", b"Comment: a", b"Solicitation: a", b"acceptlanguage: de", b"spamdiagnosticoutput: 1:99"
        rest = mail.replace(b"MIME-Version: 1.0\r\n", b"").replace(b"From: ada", b"X-From: ada")
        for number, field in enumerate(begins):
            self.put(f"good{number}.eml", field + b"\r\n" + rest)
        found = self.lines()
        self.assertEqual({name: found[name] for name in rows}, dict.fromkeys(rows, AMBIGUOUS))
        for number, field in enumerate(begins):
            self.assertRegex(found[f"good{number}.eml"], ACCEPTED, field)

    def test_a_mail_that_is_a_sound(self):
        """A piece that is passed over has all of the mail, and the sound is behind it; no length has an octet 00."""
        length, heard = 0x01010101, b"I owe you 9 euro.\n"
        mail = b"RIFF-:\1\1WAVEJUNK\1\1\1\1\r\n" + made.mail_signed(self.maker.signed)
        sound = b"fmt " + struct.pack("<LHHLLHH", 16, 1, 1, 8000, 8000, 1, 8) + b"data" + struct.pack("<L", len(heard)) + heard
        lines, rest = divmod(20 + length + length % 2 - len(mail), 998)
        path = self.put("sound", mail + b"\n".rjust(998) * lines + b" " * rest + sound)
        with wave.open(str(path)) as file:
            self.assertEqual(file.readframes(99), heard)
        for name in (b"Riff-Raff", b"X-RIFF", b"Id3-a", b"form-id"):
            self.put(name.decode(), name + b": a\r\n" + made.mail_signed(self.maker.signed))
        found = self.lines()
        self.assertEqual(found.pop("sound"), AMBIGUOUS)
        for name, line in found.items():
            self.assertRegex(line, ACCEPTED, name)

    def test_a_mail_that_is_called_as_a_script(self):
        """Its first field is a command behind a label, or a note, and all else of it is in a comment or a text."""
        mail, said = made.mail_signed(self.maker.signed), "I owe you 9 euro."
        rows = {
            "py": b'Subject: said.append("%b") or """\r\n%b"""\r\n' % (said.encode(), mail),
            "js": b'Subject: console.log("%b"); /*\r\n%b*/\r\n' % (said.encode(), mail),
            "pl": b'Subject: print "%b"; exit;\r\n __END__\r\n%b' % (said.encode(), mail),
        }
        ran = {"said": []}
        exec(rows["py"].decode(), ran)
        self.assertEqual(ran["said"], [said])
        for language, program in (("js", "node"), ("pl", "perl")):
            path = self.put(f"letter.{language}", rows[language])
            if shutil.which(program):
                self.assertEqual(subprocess.run([program, path], capture_output=True, check=True).stdout.decode().strip(), said)
        for name in ("letter.py", "letter.pyw", "letter.mjs", "letter.cjs", "letter.pm"):
            self.put(name, rows["py"])
        # (TypeScript has labels and comments as JavaScript has them; a time-stamp may be called so)
        for name in ("letter.ts", "letter.cts", "letter.tsx", "letter.jsx"):
            self.put(name, rows["js"])
        self.put("stamp.ts", self.maker.attached(GOOD)), self.put("letter.eml", rows["py"]), self.put("shop.pl", self.maker.attached(GOOD))
        found = self.lines()
        for name in ("letter.eml", "shop.pl", "stamp.ts"):
            self.assertRegex(found.pop(name), ACCEPTED)
        self.assertEqual((len(found), set(found.values())), (11, {AMBIGUOUS}))


if __name__ == "__main__":
    unittest.main()
