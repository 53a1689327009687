"""Whether a PDF is the same for a program that mends its tables: that looks for the objects in the text, and takes the last one of each
number (ISO 32000-2 annex C has no rule for that). Some viewers mend what others read by its tables. A signature that was made beside a PDF
whose tables lead nowhere can be put into it, and then they lead to other objects than its signer saw.
"""
from __future__ import annotations

import re
import struct
from bisect import bisect
from collections import Counter
from typing import Any, Callable, Iterable, Iterator, NamedTuple

from cmsproof_tools.containers.pdf_objects import WORD, end_at, plain, written_as
from cmsproof_tools.containers.refusals import Refused
from cmsproof_tools.containers.twofold import NEAR, PDF_OBJECT, SPACES, is_object

SPACE = rb"[\0\t\n\f\r ]"
# two numbers before the word `obj`, which begin a line: all programs see such an object
PLAIN = re.compile(rb"[\r\n][\t ]*([0-9]+)[\t ]+([0-9]+)[\t ]*\Z")
DIGITS, NEARER = re.compile(rb"[-+.0-9]+\Z"), 40
LINE = re.compile(rb"[^\r\n]*\Z")
# what may stand between objects: the end of a revision, trailers, comments, and the characters of tables
END_MARK = re.compile(rb"startxref%s+[0-9]+%s+%%%%EOF" % (SPACE, SPACE))
TRAILER_PART, COMMENT = re.compile(rb"(?<=trailer)(?:(?!startxref).)*", re.DOTALL), re.compile(rb"%[^\r\n]*")
BETWEEN = SPACES + b"0123456789xrefnsta"
# what packs the octets of a stream so that their end is known
PACKING = re.compile(
    rb"/Filter%s*\[?%s*/(?:Flate|LZW|RunLength|ASCII85|ASCIIHex|DCT|JPX|JBIG2|CCITTFax)Decode\b" % (SPACE, SPACE)
)
STREAM_WORD = re.compile(rb"endstream")
REVISION, END, MOST_NUMBER = re.compile(rb"startxref"), re.compile(rb"endobj"), 8_388_607
CATALOG = re.compile(rb"%s+([0-9]{1,10})%s+([0-9]{1,5})%s+R" % (SPACE, SPACE, SPACE))
# a table of objects, and what names a stream with another one in its trailer
TABLE = re.compile(rb"(?<![0-9A-Za-z])xref%s+[0-9]" % SPACE)
HYBRID = re.compile(rb"/XRefStm%s+([0-9]{1,20})" % SPACE)
REFERENCE = re.compile(rb"(?<![0-9])([0-9]{1,10}) ([0-9]{1,5}) R")
# of a stream of objects: how many numbers are read, in octets
LONGEST_HEAD = 1 << 20
# what opens a file without repairs
Opening = Callable[[Any, memoryview], Any]


def spelled(name: str) -> re.Pattern[bytes]:
    """A name, of whose characters each can be spelled by its number (7.3.5)."""
    letters = "".join(f"(?:{letter}|#{ord(letter):02x}|#{ord(letter):02X})" for letter in name)
    return re.compile(f"/{letters}(?=[\0\t\n\f\r /()<>%\\[\\]])".encode())


ROOT, CATALOGS, PACKED, TABLES = map(spelled, ("Root", "Catalog", "ObjStm", "XRef"))


class Head(NamedTuple):
    """The head of an object: its number and generation, where it begins, and where its contents begin."""

    number: int
    generation: int
    begin: int
    at: int


def without_space(text: bytes) -> bytes:
    """A text without the white space and the comments at its end: nothing where a comment may begin before it."""
    while True:
        left = text.rstrip(SPACES)
        behind, line = text[len(left) :], max(left.rfind(b"\r"), left.rfind(b"\n")) + 1
        if b"\r" not in behind and b"\n" not in behind:
            return left
        comment = left.find(b"%", line) if line else 0
        if comment < 0:
            return left
        text = left[:comment]


def is_like_a_head(before: bytes) -> bool:
    """Whether two numbers of any form may stand at the end of a text, with white space and comments between them, or it is too short to tell."""
    for _ in range(2):
        before = without_space(before)
        found = DIGITS.search(before)
        if found is None:
            return not before
        before = before[: found.start()]
    return True


def heads_in(octets: memoryview) -> Iterator[Head]:
    """All that looks like the head of an object, wherever it is. Raises Refused where some programs do not see one."""
    for found in PDF_OBJECT.finditer(octets):
        before = bytes(octets[max(0, found.start() - NEARER) : found.start()])
        said = PLAIN.search(before)
        if said is not None and max(int(said[1]), int(said[2])) <= MOST_NUMBER:
            yield Head(int(said[1]), int(said[2]), found.start() - len(before) + said.start(1), found.end())
        elif is_object(octets, found) and is_like_a_head(bytes(octets[max(0, found.start() - NEAR) : found.start()])):
            raise Refused("F10", f"an object that some programs do not see, or take for another one, at {found.start()}")


def check_end(octets: memoryview, at: int, body: bytes, end: int) -> None:
    """Raises Refused where a stream with this dictionary, which ends here, ends elsewhere for a program that mends the file: at another
    word `endstream`, which for poppler begins a line. What is packed ends by itself."""
    word = bytes(octets[max(0, end - 10) : end])
    if not word.endswith(b"endstream"):
        return
    if STREAM_WORD.search(octets, at, end - 1) or (word[:1] not in (b"\r", b"\n") and PACKING.search(body) is None):
        raise Refused("F10", "a stream that ends elsewhere for some programs")


def end_after(octets: memoryview, at: int, number_of: Callable[[int, int], object]) -> int:
    """Where the object ends whose contents begin at this place: where the text tells that, else behind the next word `endobj`."""
    begin = at
    for word in WORD.finditer(octets, at):
        if (body := plain(octets[at : word.start()])) is not None:
            end = end_at(octets, at, word, number_of)
            if end is not None:
                check_end(octets, at, body, end)
                return end
            begin = word.end()
            break
    last = END.search(octets, begin)
    return len(octets) if last is None else last.end()


def check_between(text: bytes) -> None:
    """Raises Refused where between two objects stands more than tables, trailers, ends and comments (7.5), which some programs read on in."""
    if any(END_MARK.match(text, found.start()) is None for found in REVISION.finditer(text)):
        raise Refused("F10", "the end of a revision that some programs do not see")
    for trailer in TRAILER_PART.findall(text):
        if (body := plain(memoryview(trailer))) is None or not body.strip(SPACES).startswith(b"<<"):
            raise Refused("F10", "a trailer that is no dictionary")
    left = COMMENT.sub(b"", TRAILER_PART.sub(b"", text)).replace(b"trailer", b"").replace(b"endobj", b"")
    if left.translate(None, BETWEEN):
        raise Refused("F10", f"octets between two objects: {left.strip()[:40]!r}")


def check_apart(octets: memoryview, heads: list[Head], number_of: Callable[[int, int], object]) -> None:
    """Raises Refused where what looks like the head of an object stands in another one, or in a comment."""
    place = 0
    for head in heads:
        line = LINE.search(octets[max(place, head.begin - NEAR) : head.begin])
        if head.begin < place or (line is not None and b"%" in line[0]):
            raise Refused("F10", f"an object within another one, or within a comment: {head.number}")
        check_between(bytes(octets[place : head.begin]))
        place = end_after(octets, head.at, number_of)
    check_between(bytes(octets[place:]))


def with_table(octets: memoryview, rows: dict[int, tuple[int, int, int]], root: tuple[int, int]) -> bytes:
    """The file with a table behind it (7.5.8): of each number the kind, and where the object is."""
    number = max(rows, default=0) + 1
    rows = {0: (0, 0, 65535), **rows, number: (1, len(octets) + 1, 0)}
    index = b" ".join(b"%d 1" % one for one in sorted(rows))
    table = b"".join(struct.pack(">BQL", *rows[one]) for one in sorted(rows))
    words = b"/Type /XRef /Size %d /Root %d %d R /W [1 8 4] /Index [%s] /Length %d" % (number + 1, *root, index, len(table))
    said = b"\n%d 0 obj\n<< %s >>\nstream\n%s\nendstream\nendobj\nstartxref\n%d\n%%%%EOF\n"
    return bytes(octets) + said % (number, words, table, len(octets) + 1)


def with_name(octets: memoryview, heads: list[Head], name: re.Pattern[bytes]) -> set[Head]:
    """The heads of the objects in which a name may stand."""
    begins = [head.begin for head in heads]
    return {heads[at - 1] for found in name.finditer(octets) if (at := bisect(begins, found.start()))}


def packed_in(pikepdf: Any, one: Any) -> list[int]:
    """The numbers of the objects that a stream of objects has (7.5.7); of another object none."""
    if not isinstance(one, pikepdf.Stream) or one.get("/Type") != pikepdf.Name("/ObjStm"):
        return []
    count, first = one.get("/N"), one.get("/First")
    if type(count) is not int or type(first) is not int or not 0 <= first <= LONGEST_HEAD:
        raise Refused("F10", "a stream of objects that does not say what is in it")
    words = one.read_bytes()[:first].split()[: 2 * count : 2]
    if len(words) != count or not all(word.isdigit() and int(word) <= MOST_NUMBER for word in words):
        raise Refused("F10", "a stream of objects that does not say what is in it")
    return [int(word) for word in words]


def check_kinds(octets: memoryview, heads: list[Head]) -> None:
    """Raises Refused where a file has tables of both kinds, but for those of hybrid files (7.5.8.4): some programs read one kind alone."""
    named = {int(said[1]) for said in HYBRID.finditer(octets)}
    if TABLE.search(octets) is not None and any(head.begin not in named for head in with_name(octets, heads, TABLES)):
        raise Refused("F10", "a table of objects and a stream with another one")


def check_roots(octets: memoryview, root: tuple[int, int]) -> None:
    """Raises Refused unless all that may be a trailer names the same catalog."""
    for key in ROOT.finditer(octets):
        said = CATALOG.match(octets, key.end())
        if said is None or (int(said[1]), int(said[2])) != root:
            raise Refused("F10", "two trailers that name another catalog each")


class Mended:
    """A file as a program sees it that mends it, and the numbers of the objects that stand there more than once. Raises Refused where
    one stands twice in one revision, in the text and in a stream of objects, or where there is another catalog."""

    def __init__(self, pikepdf: Any, octets: memoryview, heads: list[Head], root: tuple[int, int], opened: Opening) -> None:
        self.octets, self.root, self.last = octets, root, {head.number: head for head in heads}
        self.rows = {number: (1, head.begin, head.generation) for number, head in self.last.items()}
        self.twice = {number for number, count in Counter(head.number for head in heads).items() if count > 1}
        with opened(pikepdf, memoryview(with_table(octets, self.rows, root))) as plain:
            for head in with_name(octets, heads, CATALOGS):
                one = plain.get_object(head.number, self.last[head.number].generation)
                is_one = isinstance(one, pikepdf.Dictionary) and one.get("/Type") == pikepdf.Name("/Catalog")
                if is_one and one.objgen != root:
                    raise Refused("F10", f"another catalog than that of the trailer: {head.number}")
            streams = with_name(octets, heads, PACKED) & set(self.last.values())
            for head in sorted(streams, key=lambda head: head.begin):
                self.add_packed(head, packed_in(pikepdf, plain.get_object(head.number, head.generation)))

    def add_packed(self, stream: Head, numbers: list[int]) -> None:
        """Takes what a stream of objects has, where no other one is behind it."""
        # (Ghostscript 10.0 mends all hybrid files)
        is_hybrid = HYBRID.search(self.octets) is not None
        for place, number in enumerate(numbers):
            kind, begin, _ = self.rows.get(number, (0, -1, 0))
            if not kind:
                self.rows[number] = 2, stream.number, place
                continue
            self.twice.add(number)
            first, second = sorted((stream.begin, begin if kind == 1 else self.last[begin].begin))
            if kind == 1 and (is_hybrid or REVISION.search(self.octets, first, second) is None):
                raise Refused("F10", f"an object that stands twice in one revision: {number}")
            if second == stream.begin:
                self.rows[number] = 2, stream.number, place

    def whole(self) -> memoryview:
        """The octets with the table."""
        return memoryview(with_table(self.octets, self.rows, self.root))


def is_same(pikepdf: Any, number: tuple[int, int], *files: Any) -> bool:
    """Whether two files have the same object of this number."""
    one, two = (written_as(pikepdf, file.get_object(number)) for file in files)
    return one == two


def references_in(pikepdf: Any, objects: Iterable[Any]) -> set[tuple[int, int]]:
    """The objects that these name, or whose strings seem to name them."""
    texts = (written_as(pikepdf, one)[0] for one in objects)
    pairs = (REFERENCE.findall(text) for text in texts if isinstance(text, bytes))
    return {(int(number), int(generation)) for some in pairs for number, generation in some if int(number) <= MOST_NUMBER}


def check_mended(pikepdf: Any, found: Any, octets: memoryview, opened: Opening) -> None:
    """Raises Refused unless each object of the file is the last one of its number in the text, and stands in no other object."""
    root, heads = found.Root.objgen, list(heads_in(octets))
    check_roots(octets, root)
    check_kinds(octets, heads)
    check_apart(octets, heads, lambda number, generation: found.get_object(number, generation))
    own = {one.objgen for one in found.objects if isinstance(one, pikepdf.Object)}
    file = Mended(pikepdf, octets, heads, root, opened)
    # (an object that stands there once is the one that was read, or no table has it, or it is a number or the like, which is no Object)
    rest = {(number, generation if kind == 1 else 0) for number, (kind, _, generation) in file.rows.items()} - own
    with opened(pikepdf, file.whole()) as other:
        several = {one for one in own if one[0] in file.twice or one[0] not in file.rows}
        differ = {number for number in several | rest if not is_same(pikepdf, number, found, other)}
        # (of the file as it is qpdf does not write a key whose value is missing)
        named = references_in(pikepdf, map(other.get_object, own)) if differ else set()
    if differ & (own | named):
        raise Refused("F10", f"two objects of one number, of which some programs take another one: {min(differ)[0]}")
    size = found.trailer.get("/Size")
    if type(size) is not int or size <= max(own)[0]:
        raise Refused("F10", "a table of objects that has more than its trailer says")
    # (the size may be greater than it must be)
    for complaint in found.get_warnings():
        if "reported number of objects" not in str(complaint):
            raise Refused("F3", f"qpdf: {complaint}"[:300])
