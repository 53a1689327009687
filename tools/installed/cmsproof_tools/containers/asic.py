"""ASiC (ETSI EN 319 162-1): a zip file with a signature or a time-stamp over one file (ASiC-S), or over a manifest with the digests of
several (ASiC-E). Python's zipfile reads its directory. The entries must fill the file without a gap, each have a name of its own, and
be the same by their heads, so that a program that reads the file from its begin sees what one sees that reads the directory."""
from __future__ import annotations

import hashlib
import os
import re
import stat
import struct
import unicodedata
import zipfile
import zlib
from typing import Iterable, Iterator, NamedTuple
from urllib.parse import unquote
from xml.parsers import expat

from cmsproof.octets import Buffer
from cmsproof_tools.containers.armour import decoded
from cmsproof_tools.containers.ber import signed_in
from cmsproof_tools.containers.keeping import LONGEST, inflated, kept, pieces_of
from cmsproof_tools.containers.refusals import Refused, refusing
from cmsproof_tools.containers.twofold import LAST, ZIP_END, has, is_pdf
from cmsproof_tools.found import Found, Unfound

MOST_ENTRIES, LONGEST_MANIFEST, LONGEST_FILE, LONGEST_SIGNED = 10_000, 1 << 24, 4 << 30, 1 << 26
# how many octets a directory may have: for them Python's zipfile takes ten times as many of memory, and at most some ten seconds
LONGEST_DIRECTORY = 1 << 24
# a zip file may become so many times longer, if it becomes longer than this
TIMES, MUCH = 100, 256 << 20
LONGEST_DIGEST = 1000
# contents are judged once for each signature over them: not more octets than these in all
MOST_JUDGED = 16 << 30
MAXIMUM, LONGEST_DESCRIPTOR = 0xFFFFFFFF, 24
# the head of an entry, an entry of the directory, and the directory's end (APPNOTE.TXT 4.3.7, 4.3.12, 4.3.16)
LOCAL, ENTRY_LENGTH, END = struct.Struct("<4sHHHHHLLLHH"), 46, struct.Struct("<4sHHHHLLH")
ENTRY_LENGTHS = struct.Struct("<HHH")
# what a program looks for that reads from the begin and does not know where an entry ends
MARKS = re.compile(b"PK(?:\1\2|\3\4|\7\10)")
# fields that may stand behind a name (APPNOTE.TXT 4.5.3, 4.6): sizes of ZIP64; another name, or another kind of file, of Unix, Macintosh
# (Info-ZIP's and ZipIt's), Xceed, and libarchive
SIZES, OTHERWISE = 0x0001, (0x7075, 0x756E, 0x000D, 0x07C8, 0x334D, 0x2605, 0x2705, 0x554E, 0x6C78)
# the mark of a folder in the attributes of an entry (4.4.15)
FOLDER_MARK = 0x10
MIMETYPES = {b"application/vnd.etsi.asic-s+zip": "ASiC-S", b"application/vnd.etsi.asic-e+zip": "ASiC-E"}
OPEN_DOCUMENT = b"application/vnd.oasis.opendocument."
NAMESPACE = "http://uri.etsi.org/02918/v1.2.1# "
DIGEST_SPACE = "http://www.w3.org/2000/09/xmldsig# "
DIGESTS = {
    "http://www.w3.org/2001/04/xmlenc#sha256": "sha256",
    "http://www.w3.org/2001/04/xmldsig-more#sha384": "sha384",
    "http://www.w3.org/2001/04/xmlenc#sha512": "sha512",
    "http://www.w3.org/2001/04/xmldsig-more#sha224": "sha224",
}
FOLDER = "META-INF/"
# what is in that folder beside the files that are signed (of letters that are not of ASCII some are like others for `re` alone)
KNOWN = re.compile(
    r"META-INF/(?i:[^/]*signature[^/]*\.p7s|[^/]*timestamp[^/]*\.tst|asic[^/]*manifest[^/]*\.xml|signatures[^/]*\.xml"
    r"|evidencerecord[^/]*|manifest\.xml)",
    re.ASCII,
)
# what a zip file is that is no ASiC, by the name of an entry
OTHERS = {
    "META-INF/MANIFEST.MF": "a JAR: jarsigner -verify checks its signature, which is over digests of digests",
    "_xmlsignatures/origin.sigs": "an office document whose signature is XML, which is no CMS",
    "META-INF/documentsignatures.xml": "an office document whose signature is XML, which is no CMS",
    "[Content_Types].xml": "an office document that is not signed by CMS",
}


class Reference(NamedTuple):
    """What a manifest says of a file: its name, the algorithm and the digest."""

    name: str
    algorithm: str
    digest: bytes


def check_name(name: str) -> None:
    """Raises Refused unless the name stays in the folder into which somebody unpacks it, and is shown as it is."""
    parts = (name[:-1] if name.endswith("/") else name).split("/")
    if any(part in ("", ".", "..") for part in parts) or "\\" in name or ":" in name or not name.isprintable():
        raise Refused("F11", f"the name {name!r} of an entry leads elsewhere or cannot be shown"[:300])


class Head(NamedTuple):
    """The head of an entry, where it stands: flags, method, sizes (the checksum, then how many octets it is packed and unpacked),
    name, further fields, and where its octets begin."""

    flags: int
    method: int
    sizes: tuple[int, int, int]
    name: bytes
    extra: bytes
    begin: int


def head_at(octets: memoryview, at: int) -> Head:
    """The head of the entry at this place."""
    found = bytes(octets[at : at + LOCAL.size])
    if len(found) < LOCAL.size or found[:4] != b"PK\3\4":
        raise Refused("F3", f"no entry at {at}")
    _, _, flags, method, _, _, checksum, packed, size, name_length, extra_length = LOCAL.unpack(found)
    name = at + LOCAL.size
    extra, begin = name + name_length, name + name_length + extra_length
    return Head(flags, method, (checksum, packed, size), bytes(octets[name:extra]), bytes(octets[extra:begin]), begin)


def name_of(entry: zipfile.ZipInfo) -> bytes:
    """The octets of an entry's name in the directory."""
    return entry.orig_filename.encode("utf-8" if entry.flag_bits & 0x800 else "cp437")


def fields_of(extra: bytes) -> Iterator[tuple[int, bytes]]:
    """The fields behind a name, each with its number."""
    while len(extra) >= 4:
        number, length = struct.unpack("<HH", extra[:4])
        yield number, extra[4 : 4 + length]
        extra = extra[4 + length :]


def agree(head: Head, entry: zipfile.ZipInfo) -> bool:
    """Whether the head of an entry says what the directory says. The sizes may stand in a field of ZIP64, or behind the octets."""
    said = entry.CRC, entry.compress_size, entry.file_size
    long = (SIZES, struct.pack("<QQ", entry.file_size, entry.compress_size)) in fields_of(head.extra)
    allowed: tuple[int, ...] = (MAXIMUM,) * long + ((0, MAXIMUM) if head.flags & 8 else ())
    return (
        (head.flags, head.method, head.name) == (entry.flag_bits, entry.compress_type, name_of(entry))
        and all(here == there or here in allowed for here, there in zip(head.sizes, said))
        and not any(number in OTHERWISE for extra in (head.extra, entry.extra) for number, _ in fields_of(extra))
    )


def descriptors_of(entry: zipfile.ZipInfo, head: Head) -> set[bytes]:
    """What may stand behind the octets of an entry with this head: nothing, or its descriptor, with a sign or without one, whose lengths are
    long if the head has sizes of ZIP64 (APPNOTE.TXT 4.3.9): a program that reads on finds the next head behind it."""
    if not head.flags & 8:
        return {b""}
    long = any(number == SIZES for number, _ in fields_of(head.extra))
    if not long and max(entry.compress_size, entry.file_size) > MAXIMUM:
        return set()
    octets = struct.pack("<LQQ" if long else "<LLL", entry.CRC, entry.compress_size, entry.file_size)
    # (of what is not packed a program that reads on knows the end by the sign alone)
    return {b"PK\7\10" + octets} | ({octets} if head.method != zipfile.ZIP_STORED else set())


class Reading:
    """Octets as a file from which Python's zipfile reads the directory. It asks for all of that at once, wherever it found it: so one of more
    octets than `longest` is refused before."""

    def __init__(self, octets: memoryview, longest: int = LONGEST_DIRECTORY) -> None:
        self.octets, self.longest, self.at = octets, longest, 0

    def seek(self, to: int, whence: int = os.SEEK_SET) -> int:
        """Goes to a place, as in an io.BytesIO: what is before the begin is that, or no place where it is counted from there."""
        if to < 0 and whence == os.SEEK_SET:
            raise ValueError("a place before the begin")
        self.at = max(0, to + (0, self.at, len(self.octets))[whence])
        return self.at

    def tell(self) -> int:
        """The place."""
        return self.at

    def read(self, count: int = -1) -> bytes:
        """So many octets, or all that are left."""
        end = len(self.octets) if count < 0 else min(self.at + count, len(self.octets))
        if end - self.at > self.longest:
            raise Refused("F4", f"a directory of more than {self.longest} octets")
        found, self.at = bytes(self.octets[self.at : end]), max(self.at, end)
        return found


def check_places(octets: memoryview, found: zipfile.ZipFile) -> None:
    """Raises Refused unless the entries fill the file from its begin up to its directory, so that no other program sees other
    ones (APPNOTE.TXT 4.3): behind the octets of an entry only its descriptor may stand."""
    place, behind = 0, {b""}
    for entry in sorted(found.infolist(), key=lambda entry: entry.header_offset):
        at = entry.header_offset
        if at < place or at - place > LONGEST_DESCRIPTOR or bytes(octets[place:at]) not in behind:
            raise Refused("F10", f"octets between the entries at {place}, or entries one over the other")
        head = head_at(octets, at)
        if not agree(head, entry):
            raise Refused("F10", f"an entry at {at} that says another thing than the directory")
        place, behind = head.begin + entry.compress_size, descriptors_of(entry, head)
        if head.flags & 8 and head.method == zipfile.ZIP_STORED and MARKS.search(octets[head.begin : place]):
            raise Refused("F10", f"an entry at {at} that may end before, for its length stands behind it")
    at = found.start_dir
    if at < place or at - place > LONGEST_DESCRIPTOR or bytes(octets[place:at]) not in behind:
        raise Refused("F10", "octets between the entries and their directory")


def end_of_entries(octets: memoryview, at: int, count: int) -> int:
    """Where so many entries of the directory end that begin at this place, by the lengths of name, fields and comment that each says. (Of
    the last one Python's zipfile takes no more than is there.)"""
    for _ in range(count):
        at += ENTRY_LENGTH + sum(ENTRY_LENGTHS.unpack(octets[at + 28 : at + 34]))
    return at


def check_directory(octets: memoryview, found: zipfile.ZipFile) -> None:
    """Raises Refused unless the directory has these entries alone, and its end, the last octets of the file, says so. No directory of
    ZIP64 may stand there, which other programs look for elsewhere, or not at all; nothing that is read here needs one."""
    at = len(octets) - END.size - len(found.comment)
    sign, *said, _ = END.unpack(octets[at : at + END.size])
    if sign != b"PK\5\6" or (found.comment and not found.comment.startswith(b"mimetype=")):
        raise Refused("F10", "octets behind the directory")
    entries = found.infolist()
    length = sum(ENTRY_LENGTH + len(name_of(entry)) + len(entry.extra) + len(entry.comment) for entry in entries)
    is_other = said != [0, 0, len(entries), len(entries), length, found.start_dir] or found.start_dir + length != at
    if is_other or end_of_entries(octets, found.start_dir, len(entries)) != at:
        raise Refused("F10", "the end of the directory says another thing than the directory, as with ZIP64")
    check_ends(octets[:at])


def check_ends(octets: memoryview) -> None:
    """Raises Refused where what stands before the end of the directory may be such an end itself: some programs, as libzip, look at all
    that are among the last octets, and take the one whose directory they like best. That of a zip file in this one leads elsewhere.
    """
    begin = max(0, len(octets) - LAST)
    for found in ZIP_END.finditer(octets[begin:]):
        at = begin + found.start()
        directory = int.from_bytes(octets[at + 16 : at + 20], "little")
        if octets[directory : directory + 4] == b"PK\1\2" or octets[max(0, at - 20) : at][:4] == b"PK\6\7":
            raise Refused("F10", "two ends of directories")


def check_other(archive: Archive) -> None:
    """Raises Refused where what is not a file of the archive, but beside them, is a PDF for programs that look for one anywhere."""
    if not has(archive.octets, b"obj"):
        return
    place = 0
    for entry in sorted(map(archive.entries.__getitem__, archive.data), key=lambda entry: entry.header_offset):
        begin = head_at(archive.octets, entry.header_offset).begin
        if is_pdf(archive.octets[place:begin]):
            break
        place = begin + entry.compress_size
    else:
        if not is_pdf(archive.octets[place:]):
            return
    raise Refused("F10", "a PDF in what is not signed of a zip file")


def check_entries(entries: list[zipfile.ZipInfo], size: int) -> None:
    """Raises Refused where two entries may be one file, or one is encrypted, packed in another way, or named to lead elsewhere."""
    if len(entries) > MOST_ENTRIES:
        raise Refused("F4", f"more than {MOST_ENTRIES} entries")
    names = set()
    for entry in entries:
        check_name(entry.orig_filename)
        if entry.flag_bits & 0x2041:
            raise Refused("F9", "an entry is encrypted")
        if entry.compress_type not in (zipfile.ZIP_STORED, zipfile.ZIP_DEFLATED):
            raise Refused("F3", "an entry is packed neither by deflate nor not at all")
        name = unicodedata.normalize("NFKC", entry.filename).casefold().rstrip("/")
        stored = entry.compress_type == zipfile.ZIP_STORED
        # (nothing is two octets, if it is packed)
        if entry.is_dir() and (entry.file_size or entry.compress_size > 2):
            raise Refused("F10", f"a folder with octets: {entry.filename!r}"[:300])
        if stored and entry.compress_size != entry.file_size:
            raise Refused("F10", f"two lengths of what is not packed: {entry.filename!r}"[:300])
        is_other = entry.external_attr & FOLDER_MARK and not entry.is_dir()
        if is_other or stat.S_IFMT(entry.external_attr >> 16) not in (0, stat.S_IFDIR if entry.is_dir() else stat.S_IFREG):
            raise Refused("F10", f"a link, or no regular file: {entry.filename!r}"[:300])
        if name in names or entry.filename != entry.orig_filename:
            raise Refused("F10", f"two entries with the name {entry.filename!r}"[:300])
        names.add(name)
    total = sum(entry.file_size for entry in entries)
    if total > max(MUCH, TIMES * size) or total > LONGEST:
        raise Refused("F4", f"{total} octets in a zip file of {size}")


class Archive:
    """The files of a zip file, by their names."""

    def __init__(self, octets: memoryview) -> None:
        if len(octets) > LONGEST_FILE:
            raise Refused("F4", f"a zip file of more than {LONGEST_FILE} octets")
        self.zip = zipfile.ZipFile(Reading(octets))
        self.digests: dict[tuple[str, str], bytes] = {}
        self.whole: set[str] = set()
        self.entries = {entry.filename: entry for entry in self.zip.infolist() if not entry.is_dir()}
        self.octets = octets
        self.data = [name for name in self.entries if name != "mimetype" and KNOWN.fullmatch(name) is None]
        self.inside = [name for name in self.entries if name.startswith(FOLDER)]

    def pieces(self, name: str) -> Iterator[bytes]:
        """The octets of a file, in pieces; not more of them than the directory says, and all that are packed."""
        entry, checksum = self.entries[name], 0
        begin, rest = head_at(self.octets, entry.header_offset).begin, entry.file_size
        packed = self.octets[begin : begin + entry.compress_size]
        for piece in pieces_of([packed]) if entry.compress_type == zipfile.ZIP_STORED else inflated(packed):
            rest, checksum = rest - len(piece), zlib.crc32(piece, checksum)
            if rest < 0:
                raise Refused("F4", "an entry is longer than the directory says")
            yield piece
        if rest or checksum != entry.CRC:
            raise Refused("F3", "an entry is shorter than the directory says, or has another checksum")
        self.whole.add(name)

    def check_whole(self, names: Iterable[str]) -> None:
        """Raises Refused if one of these files is not packed as the directory says. Nobody may need them, but a program that reads
        the file from its begin would find other entries behind what is packed."""
        for name in names:
            if name not in self.whole:
                for _ in self.pieces(name):
                    pass

    def read(self, name: str, longest: int = LONGEST) -> Buffer:
        """The octets of a file."""
        if self.entries[name].file_size > longest:
            raise Refused("F4", f"{name!r} has more than {longest} octets"[:300])
        return kept(self.pieces(name), longest)

    def digest(self, name: str, algorithm: str) -> bytes:
        """The digest of a file, which is read once for each algorithm."""
        if (name, algorithm) not in self.digests:
            digest = hashlib.new(algorithm)
            for piece in self.pieces(name):
                digest.update(piece)
            self.digests[name, algorithm] = digest.digest()
        return self.digests[name, algorithm]

    def kind(self) -> str:
        """What the file `mimetype` says that it is, which is the first and not packed in an ASiC, or "" if there is none."""
        entry = self.entries.get("mimetype")
        if entry is None:
            return ""
        # (what is no ASiC is told by its type first, wherever that stands: one kind of file has one answer)
        text = bytes(self.read("mimetype", 1000))
        said = text[:80].decode("ascii", "replace").strip()
        if text.startswith(OPEN_DOCUMENT):
            raise Refused("F1", f"an office document of the type {said}: a signature in it is XML, which is no CMS")
        if text not in MIMETYPES:
            raise Refused("F1", f"a zip file of the type {said}, which is not read")
        if entry.header_offset != 0 or entry.compress_type != zipfile.ZIP_STORED:
            raise Refused("F12", "the file mimetype is not the first, or packed")
        return MIMETYPES[text]


class Manifest:
    """What an ASiCManifest says (EN 319 162-1, A.4): the signature's file, and the references."""

    def __init__(self, octets: bytes) -> None:
        self.path: list[str] = []
        self.signature: str | None = None
        self.references: list[Reference] = []
        self.name, self.algorithm, self.text = "", "", ""
        parser = expat.ParserCreate(namespace_separator=" ")
        parser.StartElementHandler, parser.EndElementHandler, parser.CharacterDataHandler = self.begin, self.end, self.more
        # without a type of the document there are no entities
        parser.StartDoctypeDeclHandler = self.doctype
        with refusing("F3", expat.ExpatError, ValueError, LookupError):
            parser.Parse(octets, True)
        if self.signature is None or not self.references:
            raise Refused("F3", "a manifest that names no signature or no file")

    def doctype(self, *_: object) -> None:
        """No manifest has a document type."""
        raise Refused("F3", "a manifest with a document type")

    def begin(self, name: str, values: dict[str, str]) -> None:
        """An element begins."""
        self.path.append(name)
        here, depth = name[len(NAMESPACE) :] if name.startswith(NAMESPACE) else "", len(self.path)
        if (depth == 1) != (here == "ASiCManifest"):
            raise Refused("F3", "another element than ASiCManifest at the top")
        if here == "SigReference" and depth == 2:
            if self.signature is not None:
                raise Refused("F10", "a manifest with two signatures")
            self.signature = unquote(values["URI"], errors="strict")
        elif here == "DataObjectReference" and depth == 2:
            self.name, self.algorithm, self.text = unquote(values["URI"], errors="strict"), "", ""
        elif name == DIGEST_SPACE + "DigestMethod" and depth == 3:
            if self.algorithm:
                raise Refused("F10", "a manifest with two digest algorithms of one file")
            self.algorithm = values["Algorithm"]

    def more(self, text: str) -> None:
        """Text of an element."""
        if len(self.path) == 3 and self.path[-1] == DIGEST_SPACE + "DigestValue":
            self.text += text
            if len(self.text) > LONGEST_DIGEST:
                raise Refused("F4", f"a digest of more than {LONGEST_DIGEST} characters")

    def end(self, name: str) -> None:
        """An element ends."""
        self.path.pop()
        if name == NAMESPACE + "DataObjectReference" and len(self.path) == 1:
            if self.algorithm not in DIGESTS:
                raise Refused("F3", f"a digest algorithm that is not known: {self.algorithm}"[:300])
            self.references.append(Reference(self.name, DIGESTS[self.algorithm], decoded(self.text.encode())))


def check_references(archive: Archive, manifest: Manifest) -> None:
    """Raises Refused unless each file that the manifest names is there, once, with the digest that it says."""
    names = [reference.name for reference in manifest.references]
    if len(set(names)) != len(names):
        raise Refused("F10", "a manifest that names a file twice")
    for reference in manifest.references:
        if reference.name not in archive.entries:
            raise Refused("F13", f"the file {reference.name!r} of the manifest is missing"[:300])
        if archive.digest(reference.name, reference.algorithm) != reference.digest:
            raise Refused("F13", f"the file {reference.name!r} has another digest than the manifest says"[:300])


def kind_of_signature(name: str) -> str:
    """What a file in META-INF holds by its name: 'signed', 'token', or ""."""
    last = name[len(FOLDER) :].lower()
    if "signature" in last and last.endswith(".p7s"):
        return "signed"
    return "token" if "timestamp" in last and last.endswith(".tst") else ""


def found_of(archive: Archive, name: str, content: Buffer, covers: str, uncovered: str = "") -> Found:
    """A signature with its content."""
    signed, converted = signed_in(memoryview(archive.read(name, LONGEST_SIGNED)))
    return Found(name, signed, content, "asic", converted, (), kind_of_signature(name), covers, uncovered)


def of_manifest(archive: Archive, name: str, before: set[str]) -> Iterator[Found | Unfound]:
    """The signature of a manifest, over the manifest's octets, once all files that it names are as it says. No manifest before may
    name the same signature, which can be over one of them alone."""
    part = name
    try:
        octets = bytes(archive.read(name, LONGEST_MANIFEST))
        manifest = Manifest(octets)
        part = str(manifest.signature)
        if part not in archive.entries or not kind_of_signature(part):
            raise Refused("F13", f"the signature {part!r} of the manifest is missing"[:300])
        if part in before:
            raise Refused("F10", f"two manifests name the signature {part!r}"[:300])
        check_references(archive, manifest)
        named = {reference.name for reference in manifest.references}
        left = sorted(set(archive.data) - named)
        archive.check_whole(left)
        uncovered = f"{len(left)} files are not covered, as {left[0]!r}"[:300] if left else ""
        yield found_of(archive, part, octets, f"{len(named)} files by {name}", uncovered)
    except Refused as refused:
        yield Unfound(part, refused.code, refused.reason, "asic")


def of_one(archive: Archive, name: str, count: int) -> Iterator[Found | Unfound]:
    """One of so many signatures of an ASiC-S, over the only file."""
    try:
        if len(archive.data) != 1:
            raise Refused("F10", f"an ASiC-S with {len(archive.data)} files and not one")
        if count * archive.entries[archive.data[0]].file_size > MOST_JUDGED:
            raise Refused("F4", f"{count} signatures over the same octets")
        yield found_of(archive, name, archive.read(archive.data[0]), archive.data[0])
    except Refused as refused:
        yield Unfound(name, refused.code, refused.reason, "asic")


def signatures_in(archive: Archive) -> Iterator[Found | Unfound]:
    """What each signature of the archive holds. Raises Refused."""
    kind = archive.kind()
    last = {name: name[len(FOLDER) :].lower() for name in archive.inside}
    manifests = [name for name in archive.inside if "manifest" in last[name] and last[name].startswith("asic")]
    manifests = [name for name in manifests if last[name].endswith(".xml")]
    alone = [name for name in archive.inside if kind_of_signature(name)]
    if not kind and not alone:
        said = next((text for name, text in OTHERS.items() if name in archive.entries), "a zip file that is no ASiC")
        raise Refused("F1", said)
    check_entries(archive.zip.infolist(), len(archive.octets))
    check_directory(archive.octets, archive.zip)
    check_places(archive.octets, archive.zip)
    check_other(archive)
    if (kind == "ASiC-S" and manifests) or (kind == "ASiC-E" and not manifests and alone):
        raise Refused("F12", f"it says that it is {kind}, and its signatures are not those of one")
    archive.check_whole(set(archive.inside).difference(manifests, alone))
    for name in sorted(archive.inside):
        if last[name].startswith(("signatures", "evidencerecord")) and not kind_of_signature(name):
            yield Unfound(name, "F1", "a signature in XML or an evidence record, which is not read", "asic")
    named: set[str] = set()
    for name in sorted(manifests):
        for found in of_manifest(archive, name, named):
            named.add(found.part)
            yield found
    for name in sorted(set(alone) - named):
        if manifests:
            yield Unfound(name, "F13", "a signature that no manifest names", "asic")
        else:
            yield from of_one(archive, name, len(alone))


def found_in_zip(octets: memoryview) -> Iterator[Found | Unfound]:
    """What is signed in a zip file. Raises Refused where it cannot be read, or has nothing that is signed in a known form."""
    kinds = (zipfile.BadZipFile, zipfile.LargeZipFile, zlib.error, EOFError, ValueError, LookupError, struct.error)
    with refusing("F3", *kinds, NotImplementedError, RuntimeError, AttributeError, TypeError):
        yield from signatures_in(Archive(octets))
