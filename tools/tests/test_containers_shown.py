"""Tests of PDF of which a viewer shows what is in the place of the signature: not all of its octets are signed, so that whoever has the file
chooses what is shown. poppler 22.12, MuPDF 1.21 and Ghostscript 10.0 show two pages for two unsigned attributes in `picture`.

Run: /usr/bin/python3 -m unittest tools/tests/test_containers_shown.py, once `make` has built the program and the library.
"""
import struct
import sys
import unittest
from pathlib import Path

sys.path.insert(0, str(Path(__file__).resolve().parent))
from containing import PDF, WithMaker, made  # noqa: E402
from test_containers_twofold import with_more  # noqa: E402

HEAD, ACCEPTED = b"%PDF-1.7\n%\xe2\xe3\xcf\xd3\n", r"^accepted [0-9]{14}Z$"
SIGNATURE = made.value(b"/ETSI.CAdES.detached")
OBJECT = b"6 0 obj\n%s\nendobj\n" % SIGNATURE
PICTURE = b"/Type /XObject /Subtype /Image /Width 100 /Height 150 /BitsPerComponent 8 /ColorSpace /DeviceGray"
SHOWN = b"q 300 0 0 100 0 0 cm /Im0 Do Q"


def put_together(parts, more=b""):
    """A file of these parts, each with the numbers of objects and how many octets behind its begin they are, and its table."""
    out, places = HEAD, {}
    for octets, numbers in parts:
        places.update({number: len(out) + at for number, at in numbers.items()})
        out += octets
    table = b"".join(b"%d 1\n%010d 00000 n \n" % found for found in sorted(places.items()))
    out += more
    end = b"xref\n0 1\n0000000000 65535 f \n%strailer\n<< /Size 12 /Root 1 0 R >>\nstartxref\n%d\n%%%%EOF\n"
    return out + end % (table, len(out))


def objects(rows):
    """Objects as parts of a file."""
    return [(b"%d 0 obj\n%s\nendobj\n" % (number, body), {number: 0}) for number, body in rows.items()]


def usual(text=made.TEXT, page=b"", fields=b"5 0 R"):
    """The objects of a file with one page, which has this text and this in its dictionary, but for the signature."""
    rows = {**made.objects_of([5], text), 5: made.field(b"Signature1", 6)}
    rows[3] = rows[3].replace(b" >>", page + b" >>")
    return objects(rows)


def over(head, foot, number=7):
    """A part with an object that goes over the signature: this stands before and behind it."""
    begin = b"%d 0 obj\n%s" % (number, head)
    return begin + OBJECT + foot + b"\nendobj\n", {number: 0, 6: len(begin)}


def picture():
    """A picture whose octets are those of the signature's object."""
    head = b"<< %s /Length %d >>\nstream\n" % (PICTURE, len(OBJECT))
    return put_together(usual(SHOWN, b" /Resources << /XObject << /Im0 7 0 R >> >>") + [over(head, b"endstream")])


def with_a_length_elsewhere():
    """The same with its length in another object, and the word `endstream` where the text would be thought to end."""
    head = b"<< %s /Length 8 0 R >>\nstream\nendstream\nendobj\n" % PICTURE
    length = objects({8: b"%d" % (len(OBJECT) + 17)})
    return put_together(usual(SHOWN, b" /Resources << /XObject << /Im0 7 0 R >> >>") + length + [over(head, b"endstream")])


def with_an_end_in_a_comment():
    """The same with the word `endobj` in a comment before the stream."""
    head = b"<< %s /Length %d >> %%endobj\nstream\n" % (PICTURE, len(OBJECT))
    return put_together(usual(SHOWN, b" /Resources << /XObject << /Im0 7 0 R >> >>") + [over(head, b"endstream")])


def without_a_length():
    """The same without a length, which MuPDF mends."""
    head = b"<< %s >>\nstream\n" % PICTURE
    return put_together(usual(SHOWN, b" /Resources << /XObject << /Im0 7 0 R >> >>") + [over(head, b"\nendstream")])


def text():
    """The text of a note, as a string that is an object of its own."""
    note = objects({8: b"<< /Type /Annot /Subtype /FreeText /Rect [0 0 300 100] /DA (/Helv 9 Tf) /Contents 7 0 R >>"})
    return put_together(usual(page=b" /Annots [8 0 R]") + note + [over(b"( ", b")")])


def trailer():
    """The title of a file in a trailer, which ISO 32000-1 has elsewhere."""
    title = b"trailer\n<< /Size 12 /Root 1 0 R /Info << /Title (startxref "
    table = b"xref\n0 1\n0000000000 65535 f \n"
    parts, end = usual(), b") >> >>\nstartxref\n%d\n%%%%EOF\n"
    begin = len(HEAD) + sum(len(octets) for octets, _ in parts)
    places, at = {}, len(HEAD)
    for octets, numbers in parts:
        places.update({number: at for number in numbers})
        at += len(octets)
    rows = b"".join(b"%d 1\n%010d 00000 n \n" % found for found in sorted(places.items()))
    head = begin + len(table + rows + b"6 1\n" + title) + 20
    return (
        HEAD
        + b"".join(octets for octets, _ in parts)
        + table
        + rows
        + b"6 1\n%010d 00000 n \n" % head
        + title
        + OBJECT
        + end % begin
    )


def packed_objects():
    """Objects in a stream, one of which is the octets of the signature as a string, and the text of a note."""
    begin = OBJECT.index(b"/Contents ") + len(b"/Contents ")
    table = b"9 %d " % begin
    head = b"<< /Type /ObjStm /N 1 /First %d /Length %d >>\nstream\n%s" % (len(table), len(table + OBJECT), table)
    note = objects({8: b"<< /Type /Annot /Subtype /FreeText /Rect [0 0 300 100] /DA (/Helv 9 Tf) /Contents 9 0 R >>"})
    parts = usual(page=b" /Annots [8 0 R]") + note + [over(head, b"endstream")]
    return with_a_table(parts, {9: (2, 7, 0)})


def with_a_table(parts, more, head=b"", foot=b""):
    """The same with its table in a stream (ISO 32000-1 7.5.8), with these rows beside those of the parts."""
    out, rows = HEAD, {}
    for octets, numbers in parts:
        rows.update({number: (1, len(out) + at, 0) for number, at in numbers.items()})
        out += octets
    rows = {0: (0, 0, 65535), **rows, **more, 11: (1, len(out), 0)}
    index = b" ".join(b"%d 1" % number for number in sorted(rows))
    table = b"".join(struct.pack(">BLH", *rows[number]) for number in sorted(rows))
    said = b"<< /Type /XRef /Size 12 /Root 1 0 R /W [1 4 2] /Index [%s] /Length %d %s>>\nstream\n" % (index, len(table), head)
    return out + b"11 0 obj\n" + said + table + b"\nendstream\nendobj\nstartxref\n%d\n%%%%EOF\n" % len(out)


def annotation():
    """A signature dictionary that is a note too."""
    note = b"/Subtype /FreeText /Rect [0 0 300 100] /DA (/Helv 9 Tf) "
    signature = OBJECT.replace(b"/Type /Sig", b"/Type /Sig " + note)
    return put_together([*usual(page=b" /Annots [6 0 R]"), (signature, {6: 0})])


def with_an_object_in_a_stream():
    """A stream with what looks like another object, which is one for programs that mend a file."""
    more = {7: b"[ ] % (", 8: b"<< /A#20B (\\( endobj) /Length 9 0 R >>\nstream\n7 0 obj\nendstream", 9: b"7"}
    return put_together([*usual(page=b" /Annots 7 0 R"), *objects(more), (OBJECT, {6: 0})])


# what goes over the signature, and files in which nothing does, or in which it changes nothing
PICTURES = (picture, with_a_length_elsewhere, with_an_end_in_a_comment, without_a_length)
MADE = (*PICTURES, text, packed_objects, annotation, trailer, with_an_object_in_a_stream)
EVIL = {found.__name__: found for found in MADE}
GOOD = {
    "table": lambda: with_a_table([*usual(), (OBJECT, {6: 0})], {}),
    "length": lambda: put_together(
        [
            *usual(page=b" /Annots 7 0 R"),
            *objects({7: b"[ ] % (", 8: b"<< /A#20B (\\( endobj) /Length 9 0 R >>\nstream\n7 0 Obj\nendstream", 9: b"7"}),
            (OBJECT, {6: 0}),
        ]
    ),
    # (iText has such a line)
    "comment": lambda: put_together([*usual(), (OBJECT, {6: 0})]).replace(b"startxref", b"%iText-Core-8.0 (AGPL) [\nstartxref"),
    "signature_first": lambda: put_together([(OBJECT, {6: 0}), *usual()]),
}


@unittest.skipUnless(PDF, "pikepdf is missing")
class Shown(WithMaker):
    """Files whose objects go over the signature."""

    def test_what_goes_over_a_signature(self):
        for name, make in {**EVIL, **GOOD}.items():
            for attribute in (b"\0" * 2000, b"\xff" * 2000):
                signed = made.filled(make(), lambda content: with_more(self.maker.signed(content), attribute=attribute))
                self.put(f"{name}.{attribute[0]}.pdf", signed)
        found = self.lines()
        for name, line in found.items():
            if name.partition(".")[0] in EVIL:
                self.assertRegex(line, "^refused F(3|10) ", name)
            else:
                self.assertRegex(line, ACCEPTED, name)
        self.assertEqual(len(self.rows), 2 * len({**EVIL, **GOOD}))


if __name__ == "__main__":
    unittest.main()
