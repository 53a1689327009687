"""Files that other programs open as a PDF or a zip file. Not all octets of a SignedData are signed (RFC 5652 5.1): an algorithm
has parameters, certificates and attributes stand beside the content. Whoever puts a document there, or beside what is signed in a mail
or a zip file, has it shown, by a file that is accepted for another content."""
from __future__ import annotations

import ctypes
import re
from typing import TYPE_CHECKING

from cmsproof.octets import Buffer
from cmsproof_tools.containers.refusals import Refused

if TYPE_CHECKING:
    from cmsproof_tools.containers.ber import Reader

# what programs look for that read a PDF, some of them anywhere and without `%PDF-`: what says where its objects are, and objects, behind
# two numbers and white space or comments (ISO 32000-1 7.2, 7.3.10, 7.5.5); `0obj` and `obj1` too
SPACES = b"\0\t\n\f\r "
PDF_PLACES = re.compile(rb"%PDF-|startxref|trailer[\0\t\n\f\r ]*(?:<<|%)")
PDF_OBJECT, NEAR = re.compile(rb"obj(?=[\0\t\n\f\r <\[(/%+.0-9tfn-])"), 1 << 10
# a zip file is read from the end of its directory, which is among the last octets (APPNOTE.TXT 4.3.16)
ZIP_END, ZIP_ENTRY, LAST = re.compile(b"PK\5\6"), re.compile(b"PK\1\2"), (1 << 16) + 22
# makes a text of numbers of two octets each, whatever they are (Python's C API); and how it is told that they have two, and how many they
# are: by what ctypes makes of these very types, never by a number of Python's
OF_PAIRS = ctypes.PyDLL(None).PyUnicode_FromKindAndData
OF_PAIRS.restype = ctypes.py_object
TWO, COUNT = ctypes.c_int.from_param(2), ctypes.c_ssize_t
# the head of the first file of a tar: so many octets, among which is their sum in octal digits, with spaces in its place (POSIX.1-2017,
# pax, "ustar Interchange Format"). Some programs count octets from 128 on as negative, or read a number of octets behind 80, or ff if it is
# negative; Python's tarfile whatever its `int` reads, and Perl's Archive::Tar what its `oct` reads, of which it compares the last 16 bits
TAR_HEAD, TAR_SUM, TAR_BITS = 512, slice(148, 156), 0xFFFF
TAR_SAID = re.compile(
    rb"[\0\s\x1c-\x1f]*(?:0?[xX](?P<hex>[0-9A-Fa-f]+)|0?[bB](?P<bits>[01]+)|(?P<octal>[-+]?(?:0[oO]_?)?[0-7]+(?:_[0-7]+)*))|\x80|\xff"
)
TAR_BASES = {"hex": 16, "bits": 2, "octal": 8}
# octets at a place that make a file one of another kind, whatever is before them (DICOM PS3.10 7.1, ECMA-119 8.1, ECMA-167 2/9, and
# freedesktop's shared-mime-info)
MARKED = (
    ("DICOM file", slice(128, 132), (b"DICM",)),
    ("book", slice(60, 68), (b"BOOKMOBI", b"TEXtREAd", b"TEXtTlDc", b"DataPlkr")),
    ("disk image", slice(32769, 32774), (b"CD001", b"BEA01")),
    ("picture", slice(522, 526), (b"\0\x11\2\xff",)),
)
# what files are called that programs open which put a file together from what they find, wherever that is; and as which container such a
# file is read here. The octets that such a program skips need not be those that are not signed: strings of BER may be in any pieces
CALLED = {
    "PDF": ("pdf", (".pdf", ".ai", ".fdf")),
    "page of HTML": ("html", tuple(".hta .htm .html .mht .mhtml .shtml .xht .xhtml".split())),
    # (the first 512 octets of a tar are the head of a file, whose name may be anything)
    "archive": ("archive", tuple(".7z .arj .cab .cb7 .cbr .cbt .gem .gtar .img .iso .lha .lzh .ova .rar .tar".split())),
    "zip file": ("asic", tuple(".asice .asics .sce .scs .zip .zipx".split())),
    # (which of the files are shown is said by one that is not signed, as META-INF/manifest.xml)
    "document or program in a zip file": (
        "document",
        tuple(
            ".3mf .aab .apk .cbz .docm .docx .dotm .dotx .ear .epub .ipa .jar .kmz .nupkg .odb .odc .odf .odg .odi .odm .odp .ods .odt .otc"
            " .otg .oth .oti .otp .ots .ott .oxps .oxt .potm .potx .ppam .ppsm .ppsx .pptm .pptx .sldm .sldx .stc .std .sti .stw .sxc .sxd"
            " .sxg .sxi .sxm .sxw .vsdm .vsdx .vssm .vssx .vstm .vstx .war .whl .xlam .xlsb .xlsm .xlsx .xltm .xltx .xpi .xps".split()
        ),
    ),
    # (players skip what is no sound or picture, and some programs lines that are no command)
    "film or a sound": (
        "film",
        tuple(".aac .ac3 .adts .flac .m2t .m2ts .mp2 .mp3 .mpe .mpeg .mpg .mpga .mts .mxf .oga .ogg .ogv .ogx .opus .spx .vob".split()),
    ),
    "script": ("script", tuple(".bash .bat .cmd .ksh .php .php3 .php4 .php5 .phps .phtml .sh .zsh".split())),
}
# each of these begins with the one point that is in it
OF_ENDING = {end[1:]: (kind, own) for kind, (own, ends) in CALLED.items() for end in ends}
# and what a mail alone is called that is a script too: its first field is a command, and what follows a comment or a text
OF_MAILS = frozenset("cjs cts js jsx mjs pl pm py pyw ts tsx".split())


def in_pairs(octets: bytes) -> str:
    """Octets as a text with two of them in each character, for `find` alone; it has not the last one of an odd number. (Python looks for a
    character by `memchr`, and so in a tenth of the time that it needs for a word of octets.)"""
    text: str = OF_PAIRS(TWO, octets, COUNT(len(octets) // 2))
    return text


# the words whose places are looked for in pairs, each with the pair at its beginning and the next one: wherever the word stands, one of both
# stands where a pair begins
OBJECT, ENDS = ((word, in_pairs(word[:2]), in_pairs(word[1:3])) for word in (b"obj", b"PK\5\6"))


def has_word(octets: bytes, pairs: str, word: bytes, even: str, odd: str) -> bool:
    """Whether octets, which are given in pairs too, have a word of OBJECT or ENDS in them."""
    at = pairs.find(even)
    # (a pair may stand there by chance: the first one is looked at, and where there is another one, all octets are)
    if at >= 0 and octets[2 * at : 2 * at + len(word)] != word:
        at = pairs.find(even, at + 1)
    return (at >= 0 or odd in pairs) and octets.rfind(word) >= 0


# endings that most signed files have, and that are of none of these kinds
OFTEN = frozenset(("p7s", "p7m", "sig")) - OF_ENDING.keys()


def has(octets: Buffer, word: bytes, first: int = 0) -> bool:
    """Whether octets, from the first one on, have this word in them."""
    if isinstance(octets, memoryview):
        return re.search(re.escape(word), octets[first:]) is not None
    # (of few octets `rfind` takes half the time; what is mapped is read forwards)
    return (octets.rfind(word, first) if isinstance(octets, bytes) else octets.find(word, first)) >= 0


def is_object(octets: Buffer, found: re.Match[bytes]) -> bool:
    """Whether what was found as the word `obj` stands where an object may begin: behind a number, or behind a comment."""
    before = bytes(octets[max(0, found.start() - NEAR) : found.start()])
    word = before.rstrip(SPACES)
    # (a comment goes to the end of its line)
    return word[-1:].isdigit() or (word != before and (not word or re.search(rb"[\n\r]", before[len(word) :]) is not None))


def is_pdf(octets: Buffer) -> bool:
    """Whether octets may be a part of a PDF."""
    if PDF_PLACES.search(octets) is not None:
        return True
    return any(is_object(octets, found) for found in PDF_OBJECT.finditer(octets))


def is_tar(octets: Buffer) -> bool:
    """Whether octets begin as a tar."""
    said = TAR_SAID.match(octets[TAR_SUM])
    if said is None or len(octets) < TAR_HEAD:
        return False
    head = bytes(octets[: TAR_SUM.start]) + b" " * 8 + bytes(octets[TAR_SUM.stop : TAR_HEAD])
    if said.lastgroup is None:
        number = int.from_bytes(bytes(octets[TAR_SUM])[1:], "big", signed=said[0] == b"\xff")
    else:
        number = int(said[said.lastgroup], TAR_BASES[said.lastgroup])
    sums = sum(head), sum(head) - 256 * sum(octet > 127 for octet in head)
    return number & TAR_BITS in (sums[0] & TAR_BITS, sums[1] & TAR_BITS)


def begun_as(octets: Buffer) -> str:
    """What octets begin as for programs that see by these alone what a file is; no text where that is nothing else."""
    if is_tar(octets):
        return "tar"
    return next((kind for kind, place, marks in MARKED if bytes(octets[place]) in marks), "")


def called_as(name: str, container: str) -> str:
    """What a file of this kind of container is called as and is not; no text where its name fits."""
    if name.rpartition(".")[2] in OFTEN:
        return ""
    _, point, ending = name.lower().rstrip(" .").rpartition(".")
    if point and container == "s/mime" and ending in OF_MAILS:
        return "script"
    found = OF_ENDING.get(ending) if point else None
    return "" if found is None or found[1] == container else found[0]


def behind(reader: Reader, at: int, end: int) -> int:
    """Where the element at this place ends."""
    _, length, begin = reader.head(at, end)
    return begin + length if length >= 0 else reader.element(at, end)[1]


def content_at(octets: memoryview) -> tuple[int, int]:
    """Where the encapContentInfo of a SignedData begins and ends. Raises Refused where there is none."""
    from cmsproof_tools.containers.ber import Reader

    reader = Reader(octets)

    def inside(at: int, end: int) -> tuple[int, int]:
        _, length, begin = reader.head(at, end)
        return begin, begin + length if length >= 0 else end

    at, end = inside(0, len(octets))
    at, end = inside(*inside(behind(reader, at, end), end))
    at = behind(reader, behind(reader, at, end), end)
    return at, behind(reader, at, end)


def other_kind(octets: Buffer, whole: Buffer = b"") -> str:
    """What other programs open a file of CMS as, by octets that are not in its content; no text where they do not. `whole` is the file in
    which they stand as they are, if it has more than them."""
    # (nearly all files are short, and have neither word)
    if type(octets) is bytes and len(octets) <= LAST:
        pairs = in_pairs(octets)
        if not has_word(octets, pairs, *OBJECT) and not has_word(octets, pairs, *ENDS):
            return ""
    pdf = has(octets, b"obj")
    if not pdf and not has(octets, b"PK\5\6", max(0, len(octets) - LAST)):
        return ""
    view = memoryview(octets)
    try:
        begin, end = content_at(view)
    except Refused:
        return ""  # it is no SignedData, and the library says why
    outside = view[:begin], view[end:]
    if pdf and any(map(is_pdf, outside)):
        return "PDF"
    ends = ZIP_END.search(view[max(end, len(view) - LAST) :]) or ZIP_END.search(view[:begin][-LAST:])
    # (such an end may be of a directory that is signed, as of a zip file in another one)
    if ends is not None and (ZIP_ENTRY.search(view) or ZIP_ENTRY.search(whole)):
        return "zip file"
    # (and one that is signed leads elsewhere for programs that count from the begin of the file, APPNOTE.TXT 4.4.24)
    if any(map(ZIP_ENTRY.search, outside)) and ZIP_END.search(view[max(0, len(view) - LAST) :]):
        return "zip file"
    return ""
