"""Tests of PDF that some viewers mend, and show another page then than its tables lead to: poppler 22.12, MuPDF 1.21 and Ghostscript 10.0 show
nine euro for one or more of each row, as it is or without the signature, as who signs beside it sees it.

Run: /usr/bin/python3 -m unittest tools/tests/test_containers_mended.py, once `make` has built the program and the library.
"""
import re
import struct
import sys
import unittest
import zlib
from pathlib import Path

sys.path.insert(0, str(Path(__file__).resolve().parent))
from containing import PDF, WithMaker, made  # noqa: E402

HEAD, ACCEPTED = b"%PDF-1.7\n%\xe2\xe3\xcf\xd3\n", r"^accepted [0-9]{14}Z$"
FONT = b"/Resources << /Font << /F1 << /Type /Font /Subtype /Type1 /BaseFont /Helvetica >> >> >>"
ROW, FREE = b"%d 1\n%010d 00000 n \n", b"0 1\n0000000000 65535 f \n"


def text_of(euro):
    """A page's text that says how much is owed."""
    text = b"BT /F1 12 Tf 20 50 Td (I owe you %s) Tj ET" % euro
    return b"<< /Length %d >>\nstream\n%s\nendstream" % (len(text), text)


ONE, NINE = text_of(b"one euro"), text_of(b"nine euro")
SHORT = b"BT /F1 12 Tf 20 50 Td (I owe you one euro) Tj ET"
PACKED = zlib.compress(SHORT)
PACKED_ONE = b"<< /Length %d /Filter /FlateDecode >>\nstream\n%sendstream" % (len(PACKED), PACKED)


def page(contents):
    """A page with its text in this object."""
    return b"<< /Type /Page /Parent 2 0 R /MediaBox [0 0 300 100] %s /Contents %d 0 R >>" % (FONT, contents)


def whole(number, body):
    """An object."""
    return b"%d 0 obj\n%s\nendobj\n" % (number, body)


def packed(text):
    """A stream that has these octets."""
    return b"<< /Length %d >>\nstream\n%s\nendstream" % (len(text), text)


TWO_PAGES = b"<< /Type /Pages /Kids [3 0 R 7 0 R] /Count 2 >>"
BASE = {**made.objects_of([5]), 3: page(4), 4: ONE, 5: made.field(b"Signature1", 6), 6: made.value(b"/ETSI.CAdES.detached")}
NO_PAGES = {number: body for number, body in BASE.items() if number != 2}


def packed_object(number, body):
    """A stream of objects that has one."""
    table = b"%d 0 " % number
    words = len(table), len(table + body), table + body
    return b"<< /Type /ObjStm /N 1 /First %d /Length %d >>\nstream\n%s\nendstream" % words


def packed_page(contents):
    """The same with the page, whose text is in this object."""
    return packed_object(3, page(contents))


class File:
    """A file that is put together, with the places of its objects."""

    def __init__(self):
        self.out, self.places = HEAD, {}

    def put(self, *parts):
        """Puts octets, or objects by their numbers."""
        for part in parts:
            if isinstance(part, bytes):
                self.out += part
                continue
            for number, body in part.items():
                self.places[number] = len(self.out)
                self.out += whole(number, body)
        return self

    def lead(self, number, text):
        """Leads the tables to the last place of this text."""
        self.places[number] = self.out.rindex(text)
        return self

    def end(self, more=b"", row=ROW, size=None):
        """A table, and the end."""
        at, size = len(self.out), max(self.places) + 1 if size is None else size
        rows = b"".join(row % one for one in sorted(self.places.items()))
        trailer = b"trailer\n<< /Size %d /Root 1 0 R%s >>\nstartxref\n%d\n%%%%EOF\n" % (size, more, at)
        self.out += b"xref\n" + (b"" if b"/Prev" in more else FREE) + rows + trailer
        return self

    def end_in_a_stream(self, more=b"", rows=None, foot=True):
        """The same with the table in a stream, with further rows."""
        at = len(self.out)
        found = {0: (0, 0, 65535), **{n: (1, place, 0) for n, place in self.places.items()}, **(rows or {}), 11: (1, at, 0)}
        table = b"".join(struct.pack(">BLH", *found[number]) for number in sorted(found))
        index = b" ".join(b"%d 1" % number for number in sorted(found))
        words = b"/Type /XRef /Size 12 /Root 1 0 R%s /W [1 4 2] /Index [%s] /Length %d" % (more, index, len(table))
        self.out += b"11 0 obj\n<< %s >>\nstream\n%s\nendstream\nendobj\n" % (words, table)
        self.out += b"startxref\n%d\n%%%%EOF\n" % at if foot else b""
        return self


def file_of(*parts):
    """A file of these parts."""
    return File().put(*parts)


def last_table(file):
    """Where the last table of a file is."""
    return int(re.findall(rb"startxref\n(\d+)", file.out)[-1])


EARLIER = {number: BASE[number] for number in (1, 2, 3, 4)}
LATER = {number: BASE[number] for number in (5, 6)}


def hybrid():
    """A file with a table of each kind, in the trailer of the other one (7.5.8.4), behind a revision in which the page is packed."""
    file = file_of({**EARLIER, 3: page(4), 8: NINE, 10: packed_page(8)})
    file.places.pop(3)
    at = len(file.out)
    file.end_in_a_stream(rows={3: (2, 10, 0)}, foot=False).end(b" /XRefStm %d" % at, size=12)
    earlier, file.places = last_table(file), {}
    file.put({3: page(4), **LATER})
    at = len(file.out)
    file.end_in_a_stream(foot=False)
    return file.end(b" /Prev %d /XRefStm %d" % (earlier, at), size=12)


def over_a_stream():
    """A table over one in a stream."""
    file = file_of({**EARLIER, 8: NINE, 10: packed_page(8)})
    file.places.pop(3)
    file.end_in_a_stream(rows={3: (2, 10, 0)})
    earlier, file.places = last_table(file), {}
    return file.put({3: page(4), **LATER}).end(b" /Prev %d" % earlier, size=12)


def saved(mark=b"%%EOF\n"):
    """A file that was saved again with another text."""
    file = file_of({**EARLIER, 4: NINE}).end()
    file.out = file.out.replace(b"%%EOF\n", mark)
    earlier, file.places = last_table(file), {}
    return file.put({4: ONE, **LATER}).end(b" /Prev %d" % earlier)


def saved_packed():
    """The same with the page in a stream of objects at first."""
    file = file_of({**EARLIER, 8: NINE, 10: packed_page(8)})
    file.places.pop(3)
    file.end_in_a_stream(rows={3: (2, 10, 0)})
    earlier, file.places = last_table(file), {}
    return file.put({3: page(4), **LATER}).end_in_a_stream(b" /Prev %d" % earlier)


def evil():
    """By its name each file, and the code with which it is refused."""
    other = {21: b"<< /Type /Catalog /Pages 22 0 R >>", 22: b"<< /Type /Pages /Kids [23 0 R] /Count 1 >>", 24: NINE}
    other[23] = page(24).replace(b"/Parent 2", b"/Parent 22")
    nameless = {**other, 21: b"<< /Pages 22 0 R >>"}
    first = file_of({4: ONE}, {**BASE, 4: NINE})
    in_stream = whole(4, ONE)
    return {
        "twice": (first.lead(4, b"4 0 obj\n" + ONE).end(), "F10"),
        "in_a_stream": (file_of({**BASE, 4: NINE}, {9: packed(in_stream)}).lead(4, in_stream).end(), "F10"),
        "in_a_stream_before": (file_of({9: packed(in_stream)}, {**BASE, 4: NINE}).lead(4, in_stream).end(), "F10"),
        "nine_in_a_stream": (file_of(BASE, {9: packed(b"\n" + whole(4, NINE))}).end(), "F10"),
        "in_a_comment": (file_of({**BASE, 4: NINE}, b"% " + in_stream).lead(4, in_stream).end(), "F10"),
        "in_a_string": (file_of({**BASE, 4: NINE}, {9: b"(endobj\n" + in_stream + b")"}).lead(4, in_stream).end(), "F10"),
        "left_out": (file_of({**BASE, 3: page(8).replace(b"8 0 R", b"[4 0 R 8 0 R]")}, whole(8, NINE)).end(), "F10"),
        "left_out_alone": (file_of({**BASE, 3: page(8)}, whole(8, NINE)).end(), "F10"),
        # (which newer versions of qpdf do not open)
        "left_out_pages": (file_of(whole(2, BASE[2]), {**NO_PAGES, 4: NINE}).end(), "F(3|10)"),
        "left_out_packed": (file_of({**BASE, 2: TWO_PAGES, 8: NINE, 10: packed_object(7, page(8))}).end_in_a_stream(), "F10"),
        "other_catalog": (file_of(BASE, other).end_in_a_stream(), "F10"),
        "other_trailer": (file_of(BASE, nameless).end().put(b"trailer\n<< /Size 25 /Root 21 0 R >>\n"), "F10"),
        "spelled": (file_of(BASE, nameless).end().put(b"trailer\n<< /Size 25 /R#6fot 21 0 R >>\n"), "F10"),
        "packed": (file_of(BASE, {8: NINE, 10: packed_page(8)}).end(), "F10"),
        "hybrid": (hybrid(), "F10"),
        "over_a_stream": (over_a_stream(), "F10"),
        "too_great": (file_of(BASE, b"4294967300 0 obj\n" + NINE + b"\nendobj\n").end(), "F10"),
        "sign": (file_of(BASE, b"+4 0 obj\n" + NINE + b"\nendobj\n").end(), "F10"),
        "lines": (file_of({**BASE, 4: NINE}, b"4 0 % a\nobj\n" + ONE + b"\nendobj\n").lead(4, b"4 0 %").end(), "F10"),
        "long_comment": (file_of(BASE, b"4 %" + b"a" * 5000 + b"\n0 obj\n" + NINE + b"\nendobj\n").end(), "F10"),
        "end_in_a_line": (file_of({**BASE, 4: ONE.replace(b"\nendstream", b"endstream")}, {8: NINE}).end(), "F10"),
        "end_within": (file_of({**BASE, 4: packed(SHORT + b"\nendstream\n" + SHORT.replace(b"one", b"nine"))}).end(), "F10"),
        "no_end": (saved(b""), "F10"),
        "open_string": (file_of(BASE, {4: NINE}, b"(\n", {4: ONE}, b")\n").end(), "F10"),
        "no_space": (file_of(BASE, b"null\nendobj4 0 obj\n" + NINE + b"\nendobj\n").end(), "F10"),
        "two_values": (file_of({**BASE, 3: page(8).replace(b"/Parent", b"/Contents 4 0 R /Parent"), 8: NINE}).end(), "F3"),
        # (what has a number that is not less than the size is missing, ISO 32000-2 7.5.5)
        "size": (file_of({**BASE, 3: page(8).replace(b"8 0 R", b"[4 0 R 8 0 R]"), 8: NINE}).end(size=8), "F10"),
    }


GOOD = {
    "plain": lambda: file_of(BASE).end(),
    "saved": saved,
    "saved_packed": saved_packed,
    "greater_size": lambda: file_of(BASE).end(size=30),
    "order": lambda: file_of(dict(sorted(BASE.items(), reverse=True))).end(),
    "in_a_stream": lambda: file_of(BASE).end_in_a_stream(),
    "packed_end": lambda: file_of({**BASE, 4: PACKED_ONE}).end(),
    "unused": lambda: file_of(BASE, b"% 4 0 objects\n", whole(9, b"(4 0 object)")).end(),
}


@unittest.skipUnless(PDF, "pikepdf is missing")
class Mended(WithMaker):
    """Files that some programs mend."""

    def test_what_is_another_file_once_it_is_mended(self):
        rows = evil()
        for name, (file, _) in rows.items():
            self.put(f"{name}.pdf", made.filled(file.out, self.maker.signed))
        for name, make in GOOD.items():
            self.put(f"good_{name}.pdf", made.filled(make().out, self.maker.signed))
        found = {name.partition(".pdf")[0]: line for name, line in self.lines().items()}
        for name, (_, code) in rows.items():
            self.assertRegex(found.pop(name), f"^refused {code} ", name)
        self.assertEqual(set(found), {f"good_{name}" for name in GOOD})
        for name, line in found.items():
            self.assertRegex(line, ACCEPTED, (name, self.err))

    def test_a_signature_beside_a_file_whose_tables_lead_nowhere(self):
        """It is put into that file, where they lead to another page."""
        inside = whole(4, NINE)
        file = file_of(BASE, {9: packed(inside)}).lead(4, inside).end()
        other = made.filled(file.out, self.maker.signed)
        gap = re.search(rb"<[0-9a-f]{9000,}>", other)
        alone = other[: gap.start()] + other[gap.end() :]
        self.put("a.pdf", alone), self.put("a.pdf.p7s", self.maker.signed(alone)), self.put("b.pdf", other)
        found = self.lines()
        self.assertRegex(found["a.pdf.p7s"], ACCEPTED)
        self.assertEqual(found["b.pdf Signature1"], "refused F10 Ambiguous")


if __name__ == "__main__":
    unittest.main()
