"""Tests of containers that two programs read in two ways: none is accepted for what only one of them sees. And of files that were
forgotten, or took hours."""
import base64
import contextlib
import email
import email.policy
import hashlib
import io
import mailbox
import os
import re
import signal
import struct
import tarfile
import time
import unittest
import zipfile
import zlib

from containing import PDF, WithMaker, made
from making import processor_seconds

from oracle import der
from oracle.der import element

from cmsproof_tools.containers import keeping  # noqa: E402

ACCEPTED = r"^accepted [0-9]{14}Z$"
GOOD, EVIL = b"I owe you 1 euro.", b"I owe you 9 euro."
EVIL_PAGE = b"BT /F1 12 Tf 20 50 Td (I owe you 9 euro) Tj ET"
ALL = 0xFFFFFFFF


# --- zip files (APPNOTE.TXT 4.3), with heads that differ from the directory


class Entry:
    """An entry of a zip file. `head` has what its head says otherwise, `entry` what the directory says otherwise: name, method, flags,
    checksum, packed, size, extra, mode; `octets` are what is packed, and `behind` follows."""

    def __init__(self, name, content, head=None, entry=None, octets=None, behind=b"", **both):
        self.octets, self.behind = content if octets is None else octets, behind
        common = {"name": name, "method": 0, "flags": 0, "checksum": zlib.crc32(content), "extra": b"", "mode": 0}
        common.update(packed=len(self.octets), size=len(content), **both)
        self.head, self.entry = {**common, **(head or {})}, {**common, **(entry or {})}

    def first(self):
        """The head, with the octets."""
        return fields(b"PK\3\4", self.head) + self.head["name"] + self.head["extra"] + self.octets + self.behind

    def second(self, at):
        """The entry of the directory."""
        found = fields(b"PK\1\2\24\0", self.entry) + struct.pack(
            "<HHHLL", 0, 0, 0, self.entry["mode"] << 16 | self.entry.get("attributes", 0), at
        )
        return found + self.entry["name"] + self.entry["extra"]


def fields(begin, said):
    """The fields that a head and an entry of the directory share."""
    numbers = [20, said["flags"], said["method"], 0, 0x5C21, said["checksum"], said["packed"], said["size"]]
    return begin + struct.pack("<HHHHHLLLHH", *numbers, len(said["name"]), len(said["extra"]))


def end(count, length, at):
    """The end of a directory."""
    return struct.pack("<4sHHHHLLH", b"PK\5\6", 0, 0, count, count, length, at, 0)


def put_together(entries):
    """The entries and their directory."""
    out, directory = b"", b""
    for entry in entries:
        directory += entry.second(len(out))
        out += entry.first()
    return out, directory


def zipped(*entries, count=None):
    """A zip file; `count` is how many entries its end says that it has."""
    out, directory = put_together(entries)
    return out + directory + end(len(entries) if count is None else count, len(directory), len(out))


def zip64(before, signature):
    """A zip file with two directories: that of ZIP64, right before the end, and the one that the end names, whose letter is in a field
    behind the name of the signature."""
    out, _ = put_together(before)
    evil, place = Entry(b"letter.txt", EVIL), len(out) + 30 + len(signature.head["name"]) + 4
    other = before[0].second(0) + evil.second(place)
    hidden = evil.first() + other
    signature.head["extra"] = struct.pack("<HH", 0xCAFE, len(hidden)) + hidden
    out, directory = put_together([*before, signature])
    numbers = [44, 45, 45, 0, 0, 3, 3, len(directory), len(out)]
    more = struct.pack("<4sQHHLLQQQQ", b"PK\6\6", *numbers) + struct.pack("<4sLQL", b"PK\6\7", 0, len(out + directory), 1)
    return out + directory + more + end(2, len(other), place + len(evil.first()))


def with_a_hidden_one(signed, hidden):
    """The signature, not packed, with its length behind it; in an unsigned attribute are what may be such a length, and an entry."""
    signed = with_more(signed, attribute=struct.pack("<4sLLL", b"PK\7\10", 0, 0, 0) + hidden)
    told = struct.pack("<4sLLL", b"PK\7\10", zlib.crc32(signed), len(signed), len(signed))
    head = {"checksum": 0, "packed": 0, "size": 0}
    return Entry(b"META-INF/signature.p7s", signed, flags=8, head=head, behind=told)


def two_ends(kind, letter, signed):
    """A zip file with another directory and its end in an unsigned attribute of the signature; the time of an entry is another one in the
    directory than in its head. libzip 1.7.3 takes the first directory, since it finds no fault in that."""
    begun, evil, place, behind = put_together([kind, letter])[0], Entry(b"letter.txt", EVIL), 0, 0
    while True:
        directory = kind.second(0) + evil.second(place)
        hidden = evil.first() + directory + end(2, len(directory), place + len(evil.first()))[:-2] + struct.pack("<H", behind)
        found = zipped(kind, letter, Entry(b"META-INF/signature.p7s", with_more(signed, attribute=hidden)))
        at = found.rindex(b"PK\1\2") + 12
        found = found[:at] + b"\1" + found[at + 1 :]
        places = found.index(b"PK\3\4", len(begun) + 4), len(found) - found.index(b"PK\5\6") - 22
        if places == (place, behind):
            return found
        place, behind = places


def read_on(kind, signed):
    """A letter that is not packed and has its length behind it, without a sign. In an unsigned attribute of the signature, which is packed as
    it is, are more text and a sign with the sum of all octets from the letter's begin."""
    zeros, sums = {"checksum": 0, "packed": 0, "size": 0}, lambda octets, more: struct.pack(
        "<LLL", zlib.crc32(octets), more, len(octets)
    )
    letter = Entry(b"letter.txt", GOOD, flags=8, head=zeros, behind=sums(GOOD, len(GOOD)))

    def made_with(told):
        signature = with_more(signed, attribute=EVIL + b"PK\7\10" + told)
        packing = zlib.compressobj(0, zlib.DEFLATED, -15)
        packed = packing.compress(signature) + packing.flush()
        words = {"octets": packed, "method": 8, "flags": 8, "head": zeros, "behind": b"PK\7\10" + sums(signature, len(packed))}
        return zipped(kind, letter, Entry(b"META-INF/signature.p7s", signature, **words))

    first = made_with(bytes(12))
    read = first[first.index(GOOD) : first.index(b"PK\7\10" + bytes(12))]
    return made_with(sums(read, len(read)))


def zip_attacks(maker):
    """By its name each attack on an ASiC-S, all refused by F10."""
    kind, letter = Entry(b"mimetype", made.ASIC_S), Entry(b"letter.txt", GOOD)
    signature = Entry(b"META-INF/signature.p7s", maker.signed(GOOD))
    evil = Entry(b"letter.txt", EVIL).first()
    packing = zlib.compressobj(9, zlib.DEFLATED, -15)
    packed = packing.compress(GOOD) + packing.flush()
    told = struct.pack("<4sLLL", b"PK\7\10", zlib.crc32(GOOD), len(packed), len(GOOD))
    more = {"octets": packed + told + evil, "method": 8, "flags": 8, "head": {"checksum": 0, "packed": 0, "size": 0}}
    name, container = b"letter.txt", b"META-INF/manifest.xml"
    other_name = struct.pack("<HHBL", 0x7075, 5 + len(name), 1, zlib.crc32(container)) + name
    sizes = struct.pack("<HHQQ", 1, 16, len(GOOD + evil), len(GOOD + evil))
    wrong = {"checksum": 1, "packed": 3, "size": 3}
    rest = (kind, letter, signature)
    return {
        "stored": zipped(kind, Entry(name, GOOD, octets=GOOD + evil), signature),
        "packed": zipped(kind, Entry(name, GOOD, **more), signature),
        "packed_unread": zipped(*rest, Entry(container, GOOD, **more)),
        "other_head": zipped(*rest, Entry(name, EVIL, entry={"name": container})),
        "other_name": zipped(*rest, Entry(container, EVIL, extra=other_name)),
        "other_name_in_the_head": zipped(*rest, Entry(container, EVIL, head={"extra": other_name})),
        "xceed": zipped(*rest, Entry(container, EVIL, extra=struct.pack("<HH", 0x554E, len(name)) + name)),
        "link": zipped(kind, Entry(name, GOOD, mode=0o120777), signature),
        "file_and_folder": zipped(*rest, Entry(b"Letter.txt/", b"")),
        "folder": zipped(*rest, Entry(b"folder/", b"", octets=evil)),
        "count": zipped(*rest, count=2),
        "zip64": zip64([kind, letter], signature),
        "stored_behind": zipped(kind, letter, with_a_hidden_one(signature.octets, evil)),
        "sizes": zipped(kind, Entry(name, GOOD, head={"packed": ALL, "size": ALL, "extra": sizes}), signature),
        "sizes_nowhere": zipped(kind, Entry(name, GOOD, head={"packed": ALL, "size": ALL}), signature),
        "two_ends": two_ends(kind, letter, signature.octets),
        "other_descriptor": zipped(
            kind, Entry(name, GOOD, **{**more, "octets": packed, "behind": told[:-1] + b"\1"}), signature
        ),
        # libarchive 3.6 reads on behind it, and finds another letter in the signature
        "long_descriptor": zipped(
            kind,
            Entry(
                name,
                GOOD,
                **{**more, "octets": packed, "behind": told, "head": {**more["head"], "extra": sizes[:4] + bytes(16)}},
            ),
            Entry(b"META-INF/signature.p7s", with_more(signature.octets, attribute=evil)),
        ),
        # libarchive 3.6 reads on to a sign in the signature, with the sum of all before
        "no_sign": read_on(kind, maker.signed(GOOD)),
        "attribute_of_a_folder": zipped(kind, Entry(name, GOOD, entry={"attributes": 0x10}), signature),
        "pdf": with_pdf(made.asic_s(maker.signed)),
        "sizes_before": zipped(kind, Entry(name, GOOD, flags=8, head=wrong, behind=told), signature),
    }


class Zip(WithMaker):
    """Heads and directories of zip files."""

    def test_what_two_programs_may_read_in_two_ways(self):
        rows = zip_attacks(self.maker)
        for name, octets in rows.items():
            self.put(name + ".zip", octets)
        found = self.lines()
        for name, line in found.items():
            self.assertRegex(line, "^refused F10 ", name)
        self.assertEqual(sorted(name.partition(".zip")[0] for name in found), sorted(rows))

    def test_what_all_programs_read_in_one_way(self):
        kind, signature = Entry(b"mimetype", made.ASIC_S), Entry(b"META-INF/signature.p7s", self.maker.signed(GOOD))
        packing = zlib.compressobj(9, zlib.DEFLATED, -15)
        packed = packing.compress(GOOD) + packing.flush()
        told = struct.pack("<4sLLL", b"PK\7\10", zlib.crc32(GOOD), len(packed), len(GOOD))
        plain = struct.pack("<4sLLL", b"PK\7\10", zlib.crc32(GOOD), len(GOOD), len(GOOD))
        sizes = struct.pack("<HHQQ", 1, 16, len(GOOD), len(packed))
        nothing = {"checksum": 0, "packed": 0, "size": 0}
        rows = {
            "sizes_behind": {"flags": 8, "head": nothing, "behind": told},
            "sizes_everywhere": {"flags": 8, "behind": told},
            "sizes_of_zip64": {"head": {"packed": ALL, "size": ALL, "extra": sizes}},
            "stored_behind": {"flags": 8, "head": nothing, "behind": plain, "octets": GOOD, "method": 0},
            "mode": {"mode": 0o100644},
            "folders": {"extra": struct.pack("<HHL", 0x5455, 4, 0)},
        }
        for name, words in rows.items():
            letter = Entry(b"letter.txt", GOOD, **{"octets": packed, "method": 8, **words})
            self.put(name + ".zip", zipped(kind, Entry(b"META-INF/", b"", mode=0o40755), letter, signature))
        found = self.lines()
        self.assertEqual(len(found), len(rows))
        for name, line in found.items():
            self.assertRegex(line, ACCEPTED, (name, self.err))

    def test_two_manifests_of_one_signature(self):
        files = [("a.txt", b"first"), ("b.txt", b"second")]
        other = ("META-INF/ASiCManifest2.xml", made.manifest("META-INF/signature1.p7s", files))
        self.put("a.zip", made.asic_e(self.maker.signed, files, [other]))
        found = self.lines()
        self.assertEqual(found.pop("a.zip META-INF/signature1.p7s'"), "refused F10 Ambiguous")
        self.assertRegex(found["a.zip META-INF/signature1.p7s"], ACCEPTED)


# --- PDF: a signature that is moved


def pdf_at(place):
    """A PDF without `%PDF-`, for this place in a file: poppler 22.12 shows it wherever it is."""
    objects = {**made.PAGES, 1: b"<< /Type /Catalog /Pages 2 0 R >>", 4: made.PAGES[4] % (len(EVIL_PAGE), EVIL_PAGE)}
    return made.revision(b" " * place, objects)[place:]


def with_pdf(packed):
    """A zip file with a PDF in its comment."""
    begin = b"mimetype=a\n"
    comment = begin + pdf_at(len(packed + begin))
    return packed[:-2] + struct.pack("<H", len(comment)) + comment


ROOM = 8000
GAP, FILLING = 2 * ROOM + 2, 40000


def prepared(filling=b"", ranges=(0, 0, 0)):
    """What the attacker hands to the signer: object 8 is another value of a signature field, with no string of /Contents yet, and
    object 9 a stream that nobody needs."""
    kind = b"<< /Type /Sig /Filter /Adobe.PPKLite /SubFilter /adbe.pkcs7.detached"
    objects = {**made.objects_of([5]), 5: b"<< /FT /Sig /Type /Annot /Subtype /Widget /Rect [0 0 0 0] /T (Signature1) >>"}
    objects[8] = kind + b" /ByteRange [0 %010d %010d %010d] /Contents >>" % ranges
    objects[9] = b"<< /Length %d >>\nstream\n%s\nendstream" % (FILLING, filling.ljust(FILLING))
    return made.revision(b"%PDF-1.7\n%\xe2\xe3\xcf\xd3\n", objects)


def to_sign(pdf):
    """The same with the revision of the signer's program."""
    return made.revision(pdf, {5: made.field(b"Signature1", 6), 6: made.value(b"/adbe.pkcs7.detached", room=ROOM)})


def moved(sign):
    """A file as it was signed, and the same with the signature at an earlier place: what stood between both places stands further
    behind, so that the tables, which stay as they are, find another field, another table and another page in the stream."""
    before, pdf = prepared(), to_sign(prepared())
    begin, place = pdf.rindex(b"/Contents <0000") + 10, pdf.index(b"/Contents >>") + 10
    stream = pdf.index(b"stream\n", pdf.index(b"\n9 0 obj")) + 7
    at = {number: pdf.index(b"\n%d 0 obj" % number) + 1 for number in (1, 2, 3, 8)}
    at[4] = stream + 100 + GAP
    table = b"xref\n0 1\n0000000000 65535 f \n" + b"".join(b"%d 1\n%010d 00000 n \n" % row for row in sorted(at.items()))
    parts = {
        at[4]: b"4 0 obj\n" + made.PAGES[4] % (len(EVIL_PAGE), EVIL_PAGE) + b"\nendobj\n",
        pdf.rindex(b"\n5 0 obj") + 1: b"5 0 obj\n" + made.field(b"Signature1", 8) + b"\nendobj\n",
        int(re.findall(rb"startxref\n(\d+)", before)[-1]): table + b"trailer\n<< /Size 9 /Root 1 0 R >>\n",
    }
    filling = bytearray(b" " * FILLING)
    for where, octets in parts.items():
        filling[where - GAP - stream : where - GAP - stream + len(octets)] = octets
    ranges = place, place + GAP, len(pdf) - GAP - place
    signed = made.filled(to_sign(prepared(bytes(filling), ranges)), sign)
    octets, gap = signed[:begin] + signed[begin + GAP :], signed[begin : begin + GAP]
    return signed, octets[:place] + gap + octets[place:]


def put_in(sign):
    """A PDF that was signed beside, and the same with that signature in it: what stands behind it is moved, so that the tables, which
    stay as they are, find another table and another page in a stream."""

    def prepared(filling=b"", ranges=(0, 0, 0)):
        value = b"<< /Type /Sig /Filter /Adobe.PPKLite /SubFilter /adbe.pkcs7.detached /ByteRange [0 %010d %010d %010d] /Contents >>"
        objects = {3: value % ranges, 4: b"<< /Length %d >>\nstream\n%s\nendstream" % (FILLING, filling.ljust(FILLING))}
        pages = {5: b"<< /Type /Catalog /Pages 6 0 R >>", 6: b"<< /Type /Pages /Kids [7 0 R] /Count 1 >>"}
        pages[7] = made.PAGES[3].replace(b"2 0 R", b"6 0 R").replace(b"4 0 R", b"8 0 R")
        pages[8] = made.PAGES[4] % (len(made.TEXT), made.TEXT)
        return made.revision(b"%PDF-1.7\n", {**objects, **pages}).replace(b"/Root 1", b"/Root 5")

    pdf = prepared()
    place, stream = pdf.index(b"/Contents >>") + 10, pdf.index(b"stream\n") + 7
    other = {5: b"<< /Type /Catalog /Pages 6 0 R /AcroForm << /Fields [1 0 R] >> >>", 1: made.field(b"Signature1", 3)}
    other[8] = made.PAGES[4] % (len(EVIL_PAGE), EVIL_PAGE)
    at, filling = {3: pdf.index(b"3 0 obj"), **{n: pdf.index(b"\n%d 0 obj" % n) + 1 for n in (6, 7)}}, bytearray(b" " * FILLING)
    parts, begin = {n: pdf[at[n] : pdf.index(b"endobj", at[n]) + 7] for n in (6, 7)}, stream + GAP + 100
    for number, octets in other.items():
        at[number], parts[number] = begin, b"%d 0 obj\n%s\nendobj\n" % (number, octets)
        begin += len(parts[number])
    at[0] = int(re.findall(rb"startxref\n(\d+)", pdf)[-1])
    lines = b"".join(b"%d 1\n%010d 00000 n \n" % row for row in sorted(at.items()) if row[0])
    parts[0] = b"xref\n0 1\n0000000000 65535 f \n" + lines + b"trailer\n<< /Size 9 /Root 5 0 R >>\n"
    for number, octets in parts.items():
        filling[at[number] - GAP - stream : at[number] - GAP - stream + len(octets)] = octets
    pdf = prepared(bytes(filling), (place, place + GAP, len(pdf) - place))
    signed = sign(pdf)
    return pdf, signed, pdf[:place] + b"<" + signed.hex().encode().ljust(GAP - 2, b"0") + b">" + pdf[place:]


@unittest.skipUnless(PDF, "pikepdf is missing")
class Pdf(WithMaker):
    """PDF."""

    def test_a_signature_beside_that_was_put_in(self):
        pdf, signed, other = put_in(self.maker.signed)
        self.put("a.pdf", pdf), self.put("a.pdf.p7s", signed), self.put("b.pdf", other)
        found = self.lines()
        self.assertRegex(found["a.pdf.p7s"], ACCEPTED)
        self.assertEqual(found["b.pdf Signature1"], "refused F10 Ambiguous", self.err)

    def test_a_signature_that_was_moved(self):
        signed, other = moved(self.maker.signed)
        self.assertNotEqual(signed, other)
        for name, octets in [
            ("signed.pdf", signed),
            ("other.pdf", other),
            ("hidden.pdf", signed.replace(b"/ByteRange", b"/Byte#52ange", 1)),
        ]:
            self.put(name, octets)
        found = self.lines("--partial")
        self.assertEqual(found["other.pdf Signature1"], "refused F10 Ambiguous")
        self.assertEqual(found["signed.pdf Signature1"], "refused F10 Ambiguous")
        # the same octets are signed, by the numbers of each
        sums = set()
        for octets in (signed, other):
            place = octets.index(b"/Contents <3") + 10
            sums.add(hashlib.sha256(octets[:place] + octets[place + GAP :]).hexdigest())
        self.assertEqual(len(sums), 1)

    def test_many_signatures_of_one_file_end_soon(self):
        count, length = 3000, 8 << 20
        objects = made.objects_of(range(5, 5 + count))
        objects[5 + 2 * count] = made.PAGES[4] % (length, b"x" * length)
        for number in range(count):
            objects[5 + number] = made.field(b"S%d" % number, 5 + count + number)
            ranges = b"[0 %d %d %d]" % (number + 100, number + 101, length)
            objects[5 + count + number] = b"<< /Type /Sig /ByteRange %s /Contents <30> >>" % ranges
        self.put("many.pdf", made.revision(b"%PDF-1.7\n%\xe2\xe3\xcf\xd3\n", objects))
        began = processor_seconds()
        self.assertEqual(self.lines(), {"many.pdf": "refused F4 TooLarge"}, self.err)
        self.assertLess(processor_seconds() - began, 60)


def long_names(count):
    """A file with a field in a field and so on, each with a long name."""
    objects = {**made.objects_of([5]), 5 + count: b"<< /FT /Sig /T (a) >>"}
    for number in range(5, 5 + count):
        objects[number] = b"<< /FT /Sig /T (%s) /Kids [%d 0 R] >>" % (b"x" * 2000, number + 1)
    return made.revision(b"%PDF-1.7\n%\xe2\xe3\xcf\xd3\n", objects)


class Bounds(unittest.TestCase):
    """The time that a library may take, which nothing else ends: a table of objects may be packed several times, and stand for nothing."""

    def ended(self, seconds):
        """How a process ends that takes so much of the processor's time where 0.2 seconds are allowed."""
        child = os.fork()
        if child == 0:
            keeping.SECONDS = 0.2
            with keeping.bounded(0, 1):
                end = time.process_time() + seconds
                while time.process_time() < end:
                    pass
            os._exit(0 if signal.getitimer(signal.ITIMER_PROF) == (0, 0) else 1)
        return os.waitstatus_to_exitcode(os.waitpid(child, 0)[1])

    def test_the_process_ends(self):
        self.assertEqual((self.ended(0), self.ended(5)), (0, -signal.SIGPROF))


# --- CMS that is a file of another kind


def with_more(signed, parameters=b"", attribute=b"", wrapped=element, pieces=None):
    """A SignedData with octets that are not signed: as parameters of a digest algorithm, or as an unsigned attribute. `wrapped` makes
    the outer elements, and `pieces` the parameters, if they are a string in pieces."""
    kind, explicit = der.elements(der.only(signed).body())
    parts = der.elements(der.only(explicit.body()).body())
    string = element(4, parameters) if pieces is None else pieces(0x24, parameters)
    digest = element(0x30, der.oid("2.16.840.1.101.3.4.2.1"), *([string] if parameters else []))
    info = der.elements(der.only(parts[-1].body()).body())
    more = [element(0x30, der.oid("2.999.1"), element(0x31, element(4, attribute)))] if attribute else []
    unsigned = sorted([*(one.whole() for one in der.elements(info[-1].body())), *more])
    infos = element(0x31, element(0x30, *(part.whole() for part in info[:-1]), element(0xA1, *unsigned)))
    inside = parts[0].whole() + element(0x31, digest) + b"".join(part.whole() for part in parts[2:-1]) + infos
    return wrapped(0x30, kind.whole() + wrapped(0xA0, wrapped(0x30, inside)))


def with_tar(signed, octets):
    """The SignedData with parameters that make a tar of it, with a second file of these octets (POSIX, ustar: the first 512 octets are the
    head of a file, of which only the sum and the size are looked at)."""
    out = io.BytesIO()
    with tarfile.open(fileobj=out, mode="w", format=tarfile.USTAR_FORMAT) as file:
        entry = tarfile.TarInfo("letter.txt")
        entry.size = len(octets)
        file.addfile(entry, io.BytesIO(octets))
    rest = bytes(463) + out.getvalue()
    whole = with_more(signed, rest)
    begin = whole.index(bytes(463))
    head = bytearray(whole[:begin] + tarfile.TarInfo("a").tobuf(tarfile.USTAR_FORMAT)[begin:512])
    head[148:156] = b" " * 8
    head[148:156] = b"%06o\0 " % sum(head)
    return with_more(signed, bytes(head[begin:]) + out.getvalue())


def long(identifier, octets):
    """An element whose length is longer than DER has it."""
    return bytes([identifier, 0x84]) + len(octets).to_bytes(4, "big") + octets


def opened(identifier, octets):
    """An element whose length is open."""
    return bytes([identifier, 0x80]) + octets + b"\0\0"


class Disguised(WithMaker):
    """Files of CMS that another program opens as something else, which nobody signed."""

    def test_what_is_a_pdf_or_a_zip_file_too(self):
        objects = {**made.PAGES, 1: b"<< /Type /Catalog /Pages 2 0 R >>"}
        objects[4] = made.PAGES[4] % (len(EVIL_PAGE), EVIL_PAGE)
        pdf, packed = made.revision(b"%PDF-1.7\n", objects), made.zipped([("letter.txt", EVIL)])
        attached, of_pdf, of_zip = map(self.maker.attached, (b"a letter", pdf, packed))
        evil = {
            "parameters.pdf": with_more(attached, parameters=pdf),
            "long.pdf": with_more(attached, parameters=pdf, wrapped=long),
            "open.pdf": with_more(attached, parameters=pdf, wrapped=opened),
            "saved.pdf": with_more(of_pdf, attribute=b"\n4 0 obj\n" + objects[4] + b"\nendobj\n"),
            "attribute.zip": with_more(attached, attribute=packed),
            "other.zip": with_more(of_zip, attribute=packed),
            "behind.zip": made.mail_signed(self.maker.signed) + packed,
            # (poppler 22.12 opens these, which have no `%PDF-`)
            "no_head.p7s": with_more(attached, attribute=pdf[9:]),
            "comment.p7s": with_more(attached, attribute=b"4 0%a\nobj<</Type/Catalog>>"),
            "trailer.p7s": with_more(of_pdf, attribute=b"trailer <</Root 4 0 R>>"),
            # what is opened by its name
            "called.pdf": of_pdf,
            "called.docx": of_zip,
            "called.HTML": with_more(attached, attribute=b"<p>I owe you 9 euro."),
            "mail.html": made.mail_signed(self.maker.signed),
            "letter.tar": with_tar(attached, EVIL),
            "called.docm": of_zip,
            "called.mp3": attached,
            # endings of the same kinds (RFC 5334 10, and freedesktop's shared-mime-info)
            **{f"letter.{end}": with_tar(attached, EVIL) for end in ("cbt", "gem", "gtar", "ova")},
            **{f"called.{end}": attached for end in "img lha oga ogv ogx spx mpe mpga m2t adts bash php5".split()},
        }
        with tarfile.open(fileobj=io.BytesIO(evil["letter.tar"])) as file:
            self.assertEqual(file.extractfile("letter.txt").read(), EVIL)
        good = {
            "a.pdf.p7m": of_pdf,
            "a.zip.p7m": of_zip,
            "b.pdf.p7m": made.in_ber(of_pdf),
            "c.p7s": with_more(attached, b"", b"a"),
            "object.p7s": with_more(attached, b"", b"the obj of trailer 1-obj 2"),
            "html.p7m": self.maker.attached(b"<p>I owe you 1 euro."),
        }
        for name, octets in {**evil, **good}.items():
            self.put(name, octets)
        documents = [f"called.{end}" for end in ("odt", "odb", "oth", "oxt", "sxw", "stc", "vsdm", "xlam")]
        for name in documents:
            self.put(name, made.asic_s(self.maker.signed))
        found = self.lines()
        self.assertEqual({found[f"{name} META-INF/signature.p7s"] for name in documents}, {"refused F10 Ambiguous"})
        self.assertEqual({name: found[name] for name in evil}, dict.fromkeys(evil, "refused F10 Ambiguous"))
        for name in good:
            self.assertRegex(found[name], ACCEPTED, name)



# --- mail, lines, names


class Lines(WithMaker):
    """Files of which something is said, and of none twice."""

    def test_a_line_that_begins_as_a_boundary(self):
        inner = b"Content-Type: multipart/mixed; boundary=cutter\r\n\r\n--cutter\r\n\r\nI owe you 1 euro.\r\n--cutter--\r\n"
        self.put("a.eml", made.mail_signed(self.maker.signed, text=inner))
        self.put("b.eml", made.mail_signed(self.maker.signed, text=inner.replace(b"cutter", b"other")))
        found = self.lines()
        self.assertEqual(found["a.eml"], "refused F10 Ambiguous")
        self.assertRegex(found["b.eml"], ACCEPTED)

    def test_a_boundary_that_ends_elsewhere_for_others(self):
        mail = made.mail_signed(self.maker.signed)
        rows = {
            "comment": mail.replace(b'boundary="cut"', b"boundary=cut (a)")
            .replace(b"--cut\r\n", b"--cut (a)\r\n")
            .replace(b"--cut--", b"--cut (a)--"),
            "space": mail.replace(b'"cut"', b'"cut "'),
            "behind": mail.replace(b'"cut"', b'"cut" a'),
            "escape": mail.replace(b'"cut"', b'"c\\ut"'),
            # by these Python's `email` reads nothing, and raises other errors than of a charset that it does not know
            **{f"charset_{name}": mail.replace(b'="cut"', b"*=%s''cut" % name.encode()) for name in ("idna", "undefined")},
        }
        for name, octets in rows.items():
            self.put(name + ".eml", octets)
        self.put("bare.eml", mail.replace(b'"cut"', b"cut"))
        kind = b"application/pkcs7-signature"
        self.put("named.eml", mail.replace(kind + b"\r", kind + b'; name="letter.pdf.p7s"\r'))
        found = self.lines()
        self.assertRegex(found.pop("bare.eml"), ACCEPTED)
        self.assertRegex(found.pop("named.eml"), ACCEPTED)
        self.assertEqual(found, {f"{name}.eml": "refused F10 Ambiguous" for name in rows})

    def test_text_outside_of_the_parts_is_noted(self):
        mail = made.mail_signed(self.maker.signed)
        begin = mail.index(b"Content-Type: multipart/signed")
        outer = (
            mail[:begin] + b"Content-Type: multipart/mixed; boundary=out\r\n\r\n%s--out\r\n" + mail[begin:] + b"\r\n--out--\r\n"
        )
        self.put("a.eml", outer % b""), self.put("b.eml", outer % b"I owe you 9 euro.\r\n")
        for line in self.lines().values():
            self.assertRegex(line, ACCEPTED)
        self.assertEqual([row.get("notes") for row in self.rows], [None, ["text outside of the parts is not signed"]])

    def test_what_is_not_signed_of_a_mail(self):
        mail = made.mail_signed(self.maker.signed)
        packed = Entry(b"letter1.txt", EVIL)
        directory, head = packed.second(5), b"X-A: " + packed.first()
        head += directory + end(1, len(directory), len(head)) + b"\r\n"
        begin, kind = mail.index(b"--cut"), b"Content-Type: application/pkcs7-signature\r\n"
        evil, rows = b"--cut%sContent-Type: text/plain%sI owe you 9 euro.%s", {}
        # Python's `email` sees a first part more
        for name, ends in ("return", b"\r"), ("feed", b"\f"):
            rows[name] = mail[:begin] + ends + evil % (ends, 2 * ends, ends) + b"\r\n" + mail[begin:]
        # mutt 2.2 reads 1,023 octets of a line, and then a line that begins behind them
        rows["long"] = mail[:begin] + b"x" * 1023 + evil % (b"\r\n", b"\r\n\r\n", b"\r\n") + mail[begin:]
        rows["long_from"] = mail[:begin] + b"x" * 8191 + b"From eve Mon Jan  1 00:00:00 2026\r\n" + mail[begin:]
        rows["base64"] = mail.replace(b"\r\n--cut--", b"\r\nFrom eve Mon\r\n\r\nI owe you nine euro\r\n--cut--")
        rows["zip"], rows["zip_inside"] = head + mail, mail.replace(kind, kind + head)
        rows["pdf"], rows["zero"] = mail + pdf_at(len(mail)), mail.replace(b"MIME-V", b"X: a\0\r\nMIME-V")
        rows["pdf_inside"] = mail.replace(kind, kind + b"X-A: 4 0 obj <</Type/Catalog/Pages 5 0 R>> endobj\r\n")
        rows["pieces"] = mail.replace(b'boundary="cut"', b'a="; boundary=other; b"; boundary*0="cut"')
        rows["box_line"] = b"From a\rSubject: evil\r\rI owe you 9 euro.\n" + mail
        rows["box"] = b"From 4 0 obj <</Type/Catalog/Pages 5 0 R>> endobj\r\n" + mail
        # the same with its policy of today
        inner = b"--a\r\n\r\nI owe you 9 euro.\r\n--a--\r\n"
        rows["token"] = (mail[:begin] + inner + mail[begin:]).replace(b'"cut"', b"a/cut").replace(b"--cut", b"--a/cut")
        rows["feed_in_the_head"] = mail.replace(b"micalg", b"\fmicalg")
        rows["comment"] = mail.replace(b"; micalg", b"(; micalg")
        rows["called"] = mail.replace(kind, kind + b"Content-Disposition: attachment; filename=letter.html\r\n")
        rows["called_in_pieces"] = mail.replace(kind, kind[:-2] + b"; name*0=letter.ht; name*1=ml\r\n")
        rows["called_in_words"] = mail.replace(kind, kind[:-2] + b'; name="=?utf-8?q?letter=2Ehtml?="\r\n')
        rows["blank"] = mail.replace(b"MIME-V", b"Subject: a\r\n \r\n I owe you 9 euro.\r\nMIME-V")
        rows["no_name"] = mail.replace(b"MIME-V", b"Subject: a\r\n: a\r\n I owe you 9 euro.\r\nMIME-V")
        modern = email.message_from_bytes(rows["token"], policy=email.policy.default)
        self.assertIn("9 euro", modern.get_payload(0).get_payload())
        self.assertEqual(len(email.message_from_bytes(rows["return"]).get_payload()), 3)
        self.assertEqual(email.message_from_bytes(rows["box_line"]).get_payload()[:17], "I owe you 9 euro.")
        for name, octets in rows.items():
            self.put(name + ".eml", octets)
        found = {name.partition(" ")[0]: line for name, line in self.lines().items()}
        self.assertEqual(found, {f"{name}.eml": "refused F10 Ambiguous" for name in rows})

    def test_a_mail_that_begins_without_an_empty_line_before_it(self):
        mail = made.mail_signed(self.maker.signed, ends=b"\n")
        evil = b"From eve Mon Jan  1 00:00:00 2026\nSubject: evil\n\nI owe you 9 euro.\n"
        self.put("behind", b"From a Mon\n" + mail + evil)
        self.put("before", b"From a Mon\n" + mail.replace(b"\n\n--cut", b"\n\n.\n" + evil + b"--cut", 1))
        self.put("empty", b"From a Mon\n" + mail + b"\n" + evil)
        within = b"Content-Type: text/plain\r\n\r\nEve wrote:\r\n" + evil.replace(b"\n", b"\r\n")
        self.put("within", b"From a Mon\n" + made.mail_signed(self.maker.signed, text=within, ends=b"\n"))
        # (mutt 2.2 reads a second one at the length that is said)
        length = b"Content-Length: %d\n" % len(mail.partition(b"\n\n")[2])
        self.put("length", b"From a Mon\n" + length + mail + b"x" + evil)
        # (Python's `mailbox` reads a second one that has no head, and begins with what is outside of the parts)
        head, _, body = mail.partition(b"\n\n")
        path = self.put("head", b"From a Mon\n" + head + b"\n" + evil.partition(b"Subject")[0] + b"\nI owe you 9 euro.\n" + body)
        with contextlib.closing(mailbox.mbox(path)) as box:
            self.assertEqual([one.get_payload()[:17] for one in box], ["", "I owe you 9 euro."])
        found = self.lines()
        self.assertEqual(found["head mail 1"], "refused F10 Ambiguous")
        self.assertEqual(found["behind mail 1"], "refused F10 Ambiguous")
        self.assertEqual(found["before mail 1"], "refused F10 Ambiguous")
        self.assertEqual(found["within mail 1"], "refused F10 Ambiguous")
        self.assertEqual(found["length mail 1"], "refused F10 Ambiguous")
        self.assertRegex(found.pop("empty mail 1"), ACCEPTED)
        self.assertEqual(found["empty mail 2"], "refused F1 UnknownForm")

    def test_no_file_is_without_a_line(self):
        pem = self.maker.converted(self.maker.attached(GOOD), "PEM")
        rows = {
            "a.asice": (made.zipped([("mimetype", made.ASIC_E), ("letter.txt", EVIL)]), "refused F1 UnknownForm"),
            "b.asics": (made.zipped([("mimetype", made.ASIC_S), ("letter.txt", EVIL)]), "refused F1 UnknownForm"),
            "c.pem": (pem.replace(b"\n", b" \n \n", 1).replace(b"CMS-----", b"CMS-----x", 1), "refused F3 Broken"),
            "d.pem": (pem.replace(b"\n", b"\r"), "refused F3 Broken"),
            "e.mbox": (b"From a", "refused F1 UnknownForm"),
        }
        for name, (octets, _) in rows.items():
            self.put(name, octets)
        self.assertEqual(self.lines(), {name: line for name, (_, line) in rows.items()})

    def test_a_content_that_is_signed_itself_keeps_all_its_lines(self):
        mail = made.mail_signed(self.maker.signed, ends=b"\n")
        self.put("box", b"From a Mon\nSubject: evil\n\nI owe you 9 euro.\n\nFrom b Tue\n" + mail)
        self.put("box.p7s", self.maker.attached(GOOD)), self.put("text", GOOD), self.put("text.p7s", self.maker.signed(GOOD))
        found = self.lines()
        self.assertEqual(found["box mail 1"], "refused F1 UnknownForm")
        self.assertRegex(found["box mail 2"], ACCEPTED)
        self.assertNotIn("text", found)

    @unittest.skipUnless(PDF, "pikepdf is missing")
    def test_a_part_that_is_called_as_another_file(self):
        self.put("my", made.pdf_signed(self.maker.signed, name=b"letter.p7s"))
        self.put("my letter.p7s", self.maker.attached(GOOD, stamped=False))
        status, _, _ = self.run_tool("cmsproof-archive", "--trust", "trust.txt", "--json", "archive")
        self.assertEqual(status, 1)
        words = ["--trust", "trust.txt", "archive"]
        found = self.text_of("cmsproof-archive", *words).splitlines()
        self.assertRegex(found[0], r"^archive/my\\x20letter\.p7s: accepted ")
        self.assertEqual(found[1], "archive/my letter.p7s: refused signer 1 S10 NoToken")

    def test_two_parts_that_are_called_alike(self):
        """The refused part of one file, and the accepted one of another file, whose name is a beginning of what is shown of both."""
        mails = [
            b"MIME-Version: 1.0\nContent-Type: multipart/mixed; boundary=x\n\n--x\nContent-Type: application/pkcs7-mime; "
            b"smime-type=signed-data\nContent-Transfer-Encoding: base64\n\n%b\n--x--\n" % base64.encodebytes(signed)
            for signed in (self.maker.attached(GOOD), self.maker.attached(GOOD, stamped=False))
        ]
        self.put("m mail 1,", mails[0]), self.put("m", b"From a Mon\n%b\nFrom b Tue\n%b" % (mails[1], mails[0]))
        for names, refused in ((["archive"], r"archive/m\x20mail 1, part 1"), (["archive/m"], r"archive/m\x20mail 1, part 1")):
            found = dict(line.split(": ") for line in self.text_of("cmsproof-archive", "--trust", "trust.txt", *names).splitlines())
            self.assertEqual(found.pop(refused), "refused signer 1 S10 NoToken")
            self.assertEqual(set(found), {"archive/m mail 2, part 1", *(["archive/m mail 1, part 1"] if names == ["archive"] else [])})
            self.assertEqual({line.split(" ")[0] for line in found.values()}, {"accepted"})

    def test_no_complaint_ends_as_the_line_of_an_accepted_file(self):
        files, end = [("a.txt", b"first")], b": accepted 20261122071759Z"
        text = made.manifest("META-INF/signature1.p7s", files).replace(made.SHA256.encode(), b"a" + end)
        entries = [("mimetype", made.ASIC_E), *files, ("META-INF/ASiCManifest1.xml", text), ("META-INF/signature1.p7s", GOOD)]
        self.put("a.asice", made.zipped(entries))
        self.assertEqual(self.lines()["a.asice META-INF/ASiCManifest1.xml"], "refused F3 Broken")
        self.assertIn(r"is not known: a:\x20accepted 20261122071759Z", self.err)
        self.assertNotIn(end.decode(), self.err)

    def test_long_parts_end_soon(self):
        manifest = made.manifest("META-INF/signature1.p7s", [("a.txt", b"first")])
        long_manifest = manifest.replace(b"<ds:DigestValue>", b"<ds:DigestValue>" + b"\n" * (8 << 20))
        method = re.search(rb"<ds:DigestMethod [^>]*>", manifest)[0]
        entries = [("mimetype", made.ASIC_E), ("a.txt", b"first"), ("META-INF/signature1.p7s", self.maker.attached(GOOD))]
        rows = {
            "a.eml": (b'Content-Type: multipart/signed; a="' + b";" * 500000 + b"\n\na", "F4"),
            "b.eml": (b"Content-Type: multipart/signed" + b";" * 500000 + b"\n\na", "F4"),
            "c.zip": (made.zipped([*entries, ("META-INF/ASiCManifest1.xml", long_manifest)], zipfile.ZIP_DEFLATED), "F4"),
            "d.zip": (made.zipped([*entries, ("META-INF/ASiCManifest1.xml", manifest.replace(method, 2 * method))]), "F10"),
        }
        if PDF:
            rows["e.pdf"] = (long_names(3000), "F4")
        for name, (octets, _) in rows.items():
            self.put(name, octets)
        began = processor_seconds()
        found = self.lines("--jobs", "1")
        self.assertLess(processor_seconds() - began, 30)
        for name, (_, code) in rows.items():
            lines = [line for part, line in found.items() if part.startswith(name)]
            self.assertRegex(lines[0], f"^refused {code} ", (name, lines))

    def test_long_ones_end_soon(self):
        most = 32 << 20
        rows = {
            "a.pem": b"-----BEGIN CMS-----\n" * 1000 + b"\n" * most,
            "b.b64": b"MMMM " * 1000 + b"MM " * (most // 3),
            "c.eml": b"Content-Type: multipart/mixed; boundary=a\n\n" + b"--a\n" * (most // 4) + b"--a--\n",
            "d.mbox": b"From a\n\n" * (most // 8),
        }
        for name, octets in rows.items():
            self.put(name, octets)
        began = processor_seconds()
        found = self.lines("--jobs", "1")
        self.assertLess(processor_seconds() - began, 30)
        self.assertEqual({line.split()[0] for line in found.values()}, {"refused", "malformed"})


if __name__ == "__main__":
    unittest.main()
