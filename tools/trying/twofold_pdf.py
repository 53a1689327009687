"""Small PDF in which two programs may see two things: made at random, of what a PDF is put together of (ISO 32000-2 7.5).

Each has objects that stand there twice, in the open, in a stream, a comment, a string or a stream of objects, with pages that say another
word each; and tables, trailers and ends with the faults that programs mend.
"""
from __future__ import annotations

import re
import sys
import zlib
from pathlib import Path

sys.path.insert(0, str(Path(__file__).resolve().parent.parent))
from samples import containers as made  # noqa: E402

FONT = b"<< /Font << /F1 << /Type /Font /Subtype /Type1 /BaseFont /Helvetica >> >> >>"
HEADS = (
    *(
        b"%d 0 obj ",
        b"%d 0 obj\r",
        b"%d 0 obj\r\n",
        b"%d  0  obj\n",
        b"%d\n0\nobj\n",
        b"%d 0 obj%%x\n",
        b"%d 0 obj",
        b"%d 0obj\n",
    ),
    *(
        b"0%d 0 obj\n",
        b"%d 1 obj\n",
        b"+%d 0 obj\n",
        b"%d.0 0 obj\n",
        b"0000000000000%d 0 obj\n",
        b"429496729%d 0 obj\n",
        b"-%d 0 obj\n",
    ),
    *(
        b"%d %%c\n0 obj\n",
        b"%d 0 %%c\robj\n",
        b"%d 00000 obj\n",
        b"x%d 0 obj\n",
        b"endobj %d 0 obj\n",
        b"%d 0 Obj\n",
        b"%d\0000\000obj\n",
    ),
)
TAILS = (b" endobj ", b"\nendobj", b"\n", b"\nendobj%\n", b"\rendobj\r", b"\nendobj\nendobj\n", b"\n\nendobj\n\n")
STREAMS = (b"stream\r\n", b"stream\r", b"stream \n", b"stream\n\n")
STARTS = (
    b"%PDF-1.7\n%PDF-1.4\n",
    b"%PDF-9.9\n",
    b"%PDF-1.7\r",
    b"%PDF-1.7 %PDF-1.7\n\0\n",
    b"%PDF-\n",
    b"%PDF-1.4\n%\xe2\xe3\n\n",
)
ROWS = (
    b"%010d %05d %s\r\n",
    b"%010d %05d %s \r",
    b"%010d %05d %s\n",
    b"%d %d %s \n",
    b"%010d %05d %s  \n",
    b"%010d %05d %s\n\n",
)
SECTIONS = (b"xref\r\n", b"xref ", b"xref\n\n", b"xref \n", b"xref%\n", b" xref\n", b"xref\n%c\n")
TRAILERS = (b"trailer", b"trailer ", b"trailer\r\n", b"trailer %c\n", b"\ntrailer\n", b"trailer\ntrailer\n")
ENDS = (
    b"startxref\n%d\n%%%%EOF",
    b"startxref %d %%%%EOF\n",
    b"startxref\n%d\n",
    b"startxref\r%d\r%%%%EOF\r",
    b"startxref\n0%d\n%%%%EOF\n",
    b"startxref\n%d\n%%%%EOF\n%%%%EOF\n",
    b"startxref\n%d\n%%%%EOF\nstartxref\n0\n%%%%EOF\n",
    b"startxref\n%%c\n%d\n%%%%EOF\n",
    b"startxref\n%d\n%%%%EOF\n" + b" " * 1030,
    b"startxref\n%d\n%%%%EOF\n" + b"\n" * 1010,
    b"startxref\n%d\n%%%%EOF\n%%startxref\n",
    b"startxref\n%d 9\n%%%%EOF\n",
)


# how a page says which object its text is; 8, 12 and 13 are others that the file may have
CONTENTS = (
    *(
        b"/Cont#65nts %d 0 R",
        b"/Contents [%d 0 R]",
        b"/Contents [%d 0 R 13 0 R]",
        b"/Contents [13 0 R %d 0 R]",
        b"/Contents [%d 0 R 8 0 R]",
    ),
    *(b"/Contents 8 0 R /Contents %d 0 R", b"/Contents %d 0 R /Contents 8 0 R", b"/Contents 8 0 R /Cont#65nts %d 0 R"),
    *(
        b"/Contents %% 8 0 R\r%d 0 R",
        b"/Contents %d 0 R /Contents null",
        b"/Contents %d 0 R /AA (\\) /Contents 8 0 R)",
        b"/contents 8 0 R /Contents %d 0 R",
    ),
    *(
        b"/Contents %d 0 R /Contents [8 0 R]",
        b"/Contents 0%d 0 R",
        b"/Contents +%d 0 R",
        b"/Contents %d 00 R",
        b"/Contents %d 0 R/Contents/Contents 8 0 R",
    ),
)
KIDS = (
    b"[%d 0 R 12 0 R] /Count 2",
    b"[12 0 R %d 0 R] /Count 2",
    b"[%d 0 R 12 0 R] /Count 1",
    b"[%d 0 R] /Count 2",
    b"[%d 0 R] /Kids [12 0 R] /Count 1",
)


class Making:
    """A file that is made: what of it is there, and where each object begins. `odd` says of what there is one usual form and others."""

    def __init__(self, chance, often, words):
        self.chance, self.often, self.out, self.places, self.most = chance, often, b"", {}, 0
        self.words = iter(words)

    def odd(self, usual, others):
        """Mostly the usual one."""
        return self.chance.choice(others) if self.chance.random() < self.often else usual

    def stream(self, text, words=b""):
        """A stream, whose length may be said in other ways."""
        length = self.odd(
            b"%d" % len(text), (b"%d" % (len(text) // 2), b"%d" % (len(text) + 9), b"7 0 R", b"0", b"-1", b"99999")
        )
        name = self.odd(b"/Length", (b"/L#65ngth", b"/Length 3 /Length", b"/Longth"))
        begin, end = self.odd(b"stream\n", STREAMS), self.odd(b"\nendstream", (b"endstream", b"\rendstream", b"\nendstream "))
        return b"<< %s %s %s >>\n" % (words, name, length) + begin + text + end

    def page(self, number, contents):
        """A page's dictionary, with its text in this object."""
        said = self.odd(b"/Contents %d 0 R", CONTENTS) % contents
        return b"<< /Type /Page /Parent %d 0 R /MediaBox [0 0 300 100] /Resources %s %s >>" % (number, FONT, said)

    def text(self):
        """What a page says: another word each time."""
        word = next(self.words)
        text = b"BT /F1 12 Tf 20 50 Td (%s) Tj ET" % word
        if self.chance.random() < self.often:
            return self.stream(zlib.compress(text), b"/Filter /FlateDecode")
        return self.stream(text)

    def size(self):
        """How many numbers of objects there are, for a trailer."""
        self.most = max([self.most, *self.places])
        return b"/Size %d" % (self.most + 1)

    def whole(self, number, body):
        """An object with its head and its end."""
        return self.odd(b"%d 0 obj\n", HEADS) % number + body + self.odd(b"\nendobj\n", TAILS)

    def put(self, number, body, counts=True):
        """Puts an object into the file, to which the tables lead if it `counts`."""
        text = self.whole(number, body)
        begin = len(re.match(rb"[\n\r ]*", text)[0])
        if counts or number not in self.places:
            self.places[number] = len(self.out) + begin
        self.out += text


def base_of(making, catalog=1, pages=2, page=3, text=4, fields=b"5 0 R"):
    """The objects of a file with one page."""
    form = b" /AcroForm << /Fields [%s] /SigFlags 3 >>" % fields if fields else b""
    return {
        catalog: b"<< /Type /Catalog /Pages %d 0 R%s >>" % (pages, form),
        pages: b"<< /Type /Pages /Kids %s >>" % making.odd(b"[%d 0 R] /Count 1", KIDS) % page,
        page: making.page(pages, text),
        text: making.text(),
    }


def rivals_of(making):
    """Objects of which others have the numbers, as one or more of a page's."""
    found = base_of(making)
    return {number: found[number] for number in making.chance.choice(([4], [3, 4], [4], [2, 3, 4], [1, 2, 3, 4]))}


def hidden_in(making, objects):
    """What another object has in it that looks like these objects."""
    text = b"".join(making.whole(number, body) for number, body in objects.items())
    if making.chance.random() < 0.3:
        root = making.chance.choice((b"1 0 R", b"21 0 R"))
        text += b"trailer\n<< /Size 30 /Root %s >>\n" % root
    text = making.chance.choice((b"\n", b"", b"endstream\nendobj\n")) + text
    return making.chance.choice(
        (
            making.stream(text),
            b"<< /Length %d >>\nstream\n%s\nendstream" % (len(text), text),
            b"(%s)" % text.replace(b"(", b"\\(").replace(b")", b"\\)"),
            b"null %" + text.replace(b"\n", b"\r"),
            b"null %" + text.replace(b"\n", b" "),
            b"[ %s ]" % text,
        )
    )


def put_rivals(making, counts):
    """Puts objects that are there already into the file once more, in one of many places."""
    objects, way = rivals_of(making), making.chance.randrange(4)
    if way == 0:
        for number, body in objects.items():
            making.put(number, body, counts)
    elif way == 1:
        at = len(making.out)
        making.put(9, hidden_in(making, objects))
        for number in objects if counts else ():
            found = making.out.find(b"%d 0 obj" % number, at)
            if found >= 0:
                making.places[number] = found
    elif way == 2:
        making.out += b"%" + b"".join(making.whole(*one) for one in objects.items()).replace(b"\n", b"\r")
    else:
        put_packed(making, objects, counts)


def put_packed(making, objects, counts):
    """Puts objects into a stream of objects (7.5.7), those of them that are no stream."""
    bodies = {number: body for number, body in objects.items() if b"stream" not in body}
    if not bodies:
        bodies = {3: making.page(2, 8)}
    making.put(8, making.text())
    text, table = b"", b""
    for number, body in bodies.items():
        table += b"%d %d " % (number, len(text))
        text += body + b" "
    words = b"/Type /ObjStm /N %d /First %d" % (len(bodies), len(table))
    making.put(10, making.stream(table + text, words))
    for place, number in enumerate(bodies) if counts else ():
        making.places[number] = (10, place)


def rows_of(making):
    """The rows of a table, and how they are grouped."""
    rows = {0: (0, 65535, b"f"), **{number: (at, 0, b"n") for number, at in making.places.items() if isinstance(at, int)}}
    for number in making.chance.sample(list(rows), 1) * (making.chance.random() < making.often):
        at, generation, kind = rows[number]
        rows[number] = making.chance.choice(((at - 1, 0, kind), (at, 1, kind), (at, 0, b"f"), (0, 0, b"n"), (at + 1, 0, kind)))
    return rows


def put_table(making, more):
    """A table of objects and its trailer. Answers where it is."""
    rows = rows_of(making)
    at = len(making.out)
    if more:
        rows.pop(0)
    making.out += making.odd(b"xref\n", SECTIONS)
    at += making.odd(0, (1, -1, 0))
    row = making.odd(b"%010d %05d %s \n", ROWS)
    if more == b"" and making.chance.random() < 0.5:
        size = max(rows) + 1
        making.out += making.odd(b"0 %d\n", (b"1 %d\n", b"0 %d ", b"0 %d\r\n", b"00 %d\n")) % size
        making.out += b"".join(row % rows.get(number, (0, 0, b"f")) for number in range(size))
    else:
        for number, found in sorted(rows.items(), reverse=making.odd(False, (True,))):
            making.out += b"%d 1\n" % number + row % found
    put_trailer(making, more)
    return at


def put_trailer(making, more):
    """A trailer, which may say some things twice."""
    size = making.odd(making.size(), (b"/Size 3", b"/Size 5", b"/Size 4 /Size 30", b"", b"/Size 999999"))
    root = making.odd(b"/Root 1 0 R", (b"/Root 1 0 R /Root 21 0 R", b"/Root 21 0 R /Root 1 0 R", b"/R#6fot 1 0 R"))
    making.out += making.odd(b"trailer\n", TRAILERS) + b"<< %s %s%s >>\n" % (size, root, more)


def put_table_stream(making, more):
    """The same as a stream (7.5.8)."""
    rows = {0: (0, 0, 65535)}
    for number, at in making.places.items():
        rows[number] = (1, at, 0) if isinstance(at, int) else (2, *at)
    at = len(making.out)
    rows[11], making.most = (1, at, 0), max(11, making.most)
    table = b"".join(bytes([rows[n][0]]) + rows[n][1].to_bytes(4, "big") + rows[n][2].to_bytes(2, "big") for n in sorted(rows))
    index = b" ".join(b"%d 1" % number for number in sorted(rows))
    size = making.odd(making.size(), (b"/Size 4", b"/Size 10"))
    words = b"/Type /XRef %s /Root 1 0 R /W [1 4 2] /Index [%s]%s" % (size, index, more)
    if making.chance.random() < 0.3:
        words, table = words + b" /Filter /FlateDecode", zlib.compress(table)
    making.out += b"11 0 obj\n" + b"<< %s /Length %d >>\nstream\n%s\nendstream\nendobj\n" % (words, len(table), table)
    return at


def put_end(making, before):
    """A table, of one kind or the other or of both, a trailer and the end. Answers where the table is."""
    more = (
        b""
        if before is None
        else making.odd(b" /Prev %d" % before, (b" /Prev 0", b" /Prev %d" % len(making.out), b" /Prev 0%d" % before))
    )
    packed = any(isinstance(at, tuple) for at in making.places.values())
    if making.chance.random() < 0.2:
        hidden = put_table_stream(making, b"")
        at = put_table(making, more + b" /XRefStm %d" % hidden)
    elif packed or making.chance.random() < 0.2:
        at = put_table_stream(making, more)
    else:
        at = put_table(making, more)
    making.out += making.odd(b"startxref\n%d\n%%%%EOF\n", ENDS) % at
    return at


def put_unlisted(making):
    """Puts a page and a text that no table may name, in the text or in a stream of objects."""
    making.put(13, making.text())
    making.put(8, making.text())
    page = making.page(2, 13)
    if making.chance.random() < 0.5:
        making.put(12, page)
    else:
        table = b"12 0 "
        making.put(14, making.stream(table + page, b"/Type /ObjStm /N 1 /First 5"))
        making.places[12] = (14, 0)
    for number in (8, 12, 13):
        if making.chance.random() < 0.5:
            making.places.pop(number)


def put_revision(making, objects):
    """Puts the objects of a revision, and some of them once more."""
    for number, body in objects:
        making.put(number, body)
        if making.chance.random() < 0.15:
            put_rivals(making, making.chance.random() < 0.3)
    if making.chance.random() < 0.2:
        put_unlisted(making)


def made_at(chance, words):
    """A PDF with room for a signature, and without one."""
    making, before = Making(chance, chance.choice((0, 0.02, 0.05, 0.1)), words), None
    making.out = making.odd(b"%PDF-1.7\n%\xe2\xe3\xcf\xd3\n", STARTS)
    numbers = list(base_of(making).items())
    if chance.random() < 0.2:
        chance.shuffle(numbers)
    put_revision(making, numbers)
    if chance.random() < 0.1:
        put_revision(making, base_of(making, 21, 22, 23, 24, b"").items())
    if chance.random() < 0.5:
        before = put_end(making, None)
        making.places = making.places if chance.random() < 0.2 else {}
        put_revision(making, rivals_of(making).items() if chance.random() < 0.5 else ())
    making.put(5, made.field(b"Signature1", 6))
    making.out += b"6 0 obj\n" + made.value(b"/ETSI.CAdES.detached", room=4500) + b"\nendobj\n"
    making.places[6] = making.out.rindex(b"6 0 obj\n<< /Type")
    while chance.random() < 0.2:
        put_rivals(making, chance.random() < 0.3)
    put_end(making, before)
    return making.out
