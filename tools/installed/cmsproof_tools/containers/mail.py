"""S/MIME (RFC 8551): multipart/signed and application/pkcs7-mime, in mails, in forwarded mails, and in an mbox (RFC 4155).

Python's `email` reads the fields of a head. The parts themselves are cut out of the file's octets (RFC 2046 5.1.1), so that what is
signed is never written anew: only its lines are brought to their canonical end, CR LF (RFC 8551 3.1.1).
"""
from __future__ import annotations

import email.errors
import email.message
import email.parser
import email.policy
import re
from email.header import decode_header, make_header
from email.utils import collapse_rfc2231_value
from itertools import islice
from typing import Iterator, NamedTuple

from cmsproof_tools.containers.armour import decoded
from cmsproof_tools.containers.ber import signed_in
from cmsproof_tools.containers.refusals import Refused, refusing
from cmsproof_tools.containers.twofold import LAST, ZIP_END, ZIP_ENTRY, called_as, is_pdf, other_kind
from cmsproof_tools.found import Found, Unfound

LONGEST, MOST_PARTS, DEEPEST, LONGEST_HEAD = 1 << 30, 10_000, 20, 1 << 20
# (the time that `email` takes for parameters grows with the square of their number)
LONGEST_FIELD, MOST_PARAMETERS = 1 << 14, 100
HEAD_END = re.compile(rb"^\r?\n", re.MULTILINE)
LONE_FEED = re.compile(rb"(?<!\r)\n")
# what ends a head's line for some programs alone: mutt reads behind an octet 00 what the next line has
OTHER_END = re.compile(rb"\r(?!\n)|\0")
# an obsolete line (RFC 5322 4.2), which looks as the empty one that ends a head
BLANK = re.compile(rb"^[ \t]+\r?$", re.MULTILINE)
# what a head says of a multipart (RFC 2045 5.1), without comments, escapes, characters of control and others than ASCII, of which some
# programs read no more parameters; and a boundary in it: between quotation marks, or a token
TOKEN, VALUE, SPACE = r"[!#-'*+.0-9A-Z^-z{|}~-]+", r'"[ !#-\[\]-~]*"|[!#-\'*-:<-\[\]-~]+', r"[ \t\r\n]*"
SAID = re.compile(
    rf"multipart/{TOKEN}{SPACE}(?:;{SPACE}(?:{TOKEN}{SPACE}={SPACE}(?:{VALUE}){SPACE})?)*", re.IGNORECASE | re.ASCII
)
BOUNDARY = re.compile(rf';{SPACE}boundary{SPACE}={SPACE}("[^"]*[^" ]"|{TOKEN}){SPACE}(;|\Z)', re.IGNORECASE | re.ASCII)
BOUNDARY_NAME = re.compile(r"boundary\s*[*=]", re.IGNORECASE)
# how many octets a line has at most (RFC 5322 2.1.1); of longer ones some programs, as mutt, read what is left as another line
LONGEST_LINE = 998
# what stands behind a boundary in its line (RFC 2046 5.1.1); the line that ends a multipart may be the last octets
BOUNDARY_END = re.compile(rb"(--)?[ \t]*(?:\r?\n|\Z)")
# a line that begins a mail of an mbox, for RFC 4155 behind an empty one, and for others anywhere
FROM_LINE = re.compile(rb"^From ", re.MULTILINE)
MBOX_LINE = re.compile(rb"(?:\A|(?<=\n\n)|(?<=\n\r\n))From [^\n]*\n")
# with what field a mail begins: one whose name has a hyphen, or one of RFC 4021, RFC 5536 or of programs for mails. Another name can be the
# first octets of a script, a picture, a page or the like, as which other programs open the mail (RFC 5322 2.2 allows nearly each octet).
# Nor has it the letters, in their case, by which pictures, sounds, films, disks and the like are told that may go on with a hyphen, as the
# width of a GIF (freedesktop's shared-mime-info)
FIRST_FIELD = re.compile(
    rb"(?!(?-i:ADIF|ALZ|ARROW1|AVF0|BIK|BLENDER|BSDIF|CCMX|CISO|CWS|FLV|FORM|FOVb|FRM8|FWS|GIF8|HXCPICFE|ID3|IIN1|IMPM|KDMV|MComprHD|MMMD|"
    rb"MO3|MOVI|MPCK|MSCF|MThd|MZ|NSVf|OTTO|OggS|PAR[12]|PSID|RIF[FX]|SDPX|SMK|TTA1|WBFS|XMF_|XPDS|ZWS|bplist|caff|conectix|fLaC|glTF|"
    rb"icns|qoif|vhdxfile|wOF[2F]|wvpk))"
    rb"(?:[A-Za-z][0-9A-Z_a-z]*-[-.0-9A-Z_a-z]*|acceptlanguage|approved|archive|auto(?:crypt|forwarded|submitted)|[bf]?cc|comments?|control|"
    rb"conversion|date|distribution|encoding|encrypted|expires|face|forwarded|from|importance|keywords|language|lines|newsgroups|obsoletes|"
    rb"openpgp|organi[sz]ation|path|precedence|priority|received|references|replied|resent|sender|sensitivity|solicitation|"
    rb"spamdiagnostic(?:metadata|output)|status|subject|summary|supersedes|to|xref):",
    re.IGNORECASE,
)
SIGNATURES = ("application/pkcs7-signature", "application/x-pkcs7-signature")
OPAQUE = ("application/pkcs7-mime", "application/x-pkcs7-mime")
# a head that has one of these twice can be read in two ways
ONCE = ("content-type", "content-transfer-encoding", "content-disposition", "mime-version")
# where a part has its name (RFC 2183 2.3, RFC 8551 3.2.1)
NAMING = ("content-type", "content-disposition")
# what `email` says of a head that other programs may end elsewhere
DEFECTS = (
    email.errors.FirstHeaderLineIsContinuationDefect,
    email.errors.InvalidHeaderDefect,
    email.errors.MisplacedEnvelopeHeaderDefect,
    email.errors.MissingHeaderBodySeparatorDefect,
)
UNSIGNED = "mail that has nothing in it signed by S/MIME"
OUTSIDE = "text outside of the parts is not signed"
COVERS = "one part of the mail, and not the mail's head with From, To, Subject and Date"


class Entity(NamedTuple):
    """A part of a mail: its head, body and octets; which part it is, in numbers; what stands beside it unsigned; and the file."""

    head: email.message.Message
    body: memoryview
    whole: memoryview
    number: str
    beside: str
    file: memoryview

    @property
    def kind(self) -> str:
        """The type of what is in it, in lower case; a type that cannot be read is text/plain (RFC 2045 5.2)."""
        return self.head.get_content_type()

    @property
    def part(self) -> str:
        """How it is told apart."""
        return f"part {self.number}" if self.number else ""


class Walk:
    """Goes through the parts of mails in a file, of which there may not be too many."""

    def __init__(self, file: memoryview) -> None:
        self.count, self.file = 0, file

    def entity(self, whole: memoryview, number: str, beside: str) -> Entity:
        """A part with its head read. Raises Refused where the head is none, or can be read in two ways."""
        self.count += 1
        if self.count > MOST_PARTS or number.count(".") > DEEPEST:
            raise Refused("F4", "more parts of mails, or deeper ones, than are read")
        begin = bytes(whole[:LONGEST_HEAD])
        end = HEAD_END.search(begin)
        if end is None and len(whole) > LONGEST_HEAD:
            raise Refused("F4", f"the head of a mail of more than {LONGEST_HEAD} octets")
        cut = len(begin) if end is None else end.start()
        if OTHER_END.search(begin[:cut]):
            raise Refused("F10", "a head with a CR or an octet 00 that ends a line for some programs alone")
        if BLANK.search(begin[:cut]):
            raise Refused("F10", "a head with a line of white space alone, which ends it for some programs")
        check_unsigned(self.file, begin[:cut])
        with refusing("F3", ValueError, LookupError, TypeError, AttributeError, RuntimeError):
            head = email.parser.BytesParser(policy=email.policy.compat32).parsebytes(begin[:cut], headersonly=True)
            for name in ONCE:
                if len(head.get_all(name, [])) > 1:
                    raise Refused("F10", f"a head with {name} twice")
            said = [str(head.get(name, "")) for name in NAMING]
            if any(len(text) > LONGEST_FIELD or text.count(";") > MOST_PARAMETERS for text in said):
                raise Refused("F4", "a head with a content-type that is longer than is read")
            parameters = [name.lower() for name, _ in head.get_params([], "content-type")]
            if len(set(parameters)) != len(parameters) or any(isinstance(defect, DEFECTS) for defect in head.defects):
                raise Refused("F10", "a head that can be read in two ways")
        return Entity(head, whole[len(begin) if end is None else end.end() :], whole, number, beside, self.file)

    def signed_in(self, entity: Entity) -> Iterator[Found | Unfound]:
        """What is signed in a part."""
        try:
            if entity.kind == "multipart/signed":
                yield from self.clear_signed(entity)
            elif entity.kind in OPAQUE:
                yield opaque(entity)
            elif entity.kind == "multipart/encrypted":
                raise Refused("F1", "an encrypted mail")
            elif entity.kind.startswith("multipart/"):
                yield from self.in_parts(entity)
            elif entity.kind == "message/rfc822":
                inner = self.entity(plain(entity), f"{entity.number}.1" if entity.number else "1", entity.beside)
                yield from self.signed_in(inner)
        except Refused as refused:
            yield Unfound(entity.part, refused.code, refused.reason, "s/mime")

    def in_parts(self, entity: Entity) -> Iterator[Found | Unfound]:
        """What is signed in the parts of a multipart; what stands beside it is not signed."""
        pieces, outside = split(entity)
        beside = f"{len(pieces) - 1} other parts of the same mail are not covered" if len(pieces) > 1 else entity.beside
        for place, piece in enumerate(pieces, 1):
            number = f"{entity.number}.{place}" if entity.number else str(place)
            for found in self.signed_in(self.entity(piece, number, beside)):
                if outside and isinstance(found, Found) and OUTSIDE not in found.notes:
                    found = found._replace(notes=(*found.notes, OUTSIDE))
                yield found

    def clear_signed(self, entity: Entity) -> Iterator[Found | Unfound]:
        """The signature of a multipart/signed, over the octets of its first part; and what is signed in that part."""
        pieces, outside = split(entity)
        if len(pieces) != 2:
            raise Refused("F3", f"multipart/signed with {len(pieces)} parts and not two")
        signature = self.entity(pieces[1], "", "")
        if signature.kind not in SIGNATURES:
            raise Refused("F1", f"multipart/signed with {signature.kind}, as of OpenPGP, which is not read")
        yield clear(entity, pieces[0], signature, outside)
        yield from self.below(pieces[0], f"{entity.number}.1" if entity.number else "1", entity.beside)

    def below(self, whole: memoryview, number: str, beside: str) -> Iterator[Found | Unfound]:
        """What is signed in a part that is signed itself; text without a head, as some programs sign it, has nothing in it."""
        try:
            inside = self.entity(whole, number, beside)
        except Refused:
            return
        yield from self.signed_in(inside)


def check_unsigned(file: memoryview, *texts: bytes | memoryview) -> None:
    """Raises Refused where text that is not signed makes another file of a mail for other programs. (To a directory in it an end may lead
    that is signed.)"""
    ends_so = any(map(ZIP_ENTRY.search, texts)) and ZIP_END.search(file[max(0, len(file) - LAST) :])
    if ends_so or any(map(ZIP_END.search, texts)):
        raise Refused("F10", "a zip file in what is not signed of a mail")
    if any(map(is_pdf, texts)):
        raise Refused("F10", "a PDF in what is not signed of a mail")


def canonical_of(octets: memoryview) -> tuple[memoryview | bytes, bool]:
    """The octets with CR LF at the end of each line, and whether that changed them."""
    text = bytes(octets)
    changed, count = LONE_FEED.subn(b"\r\n", text)
    return (changed, True) if count else (octets, False)


def plain(entity: Entity) -> memoryview:
    """The body of a part, which is not encoded (RFC 2046 5.2.1)."""
    encoding = str(entity.head.get("content-transfer-encoding", "7bit")).strip().lower()
    if encoding not in ("7bit", "8bit", "binary"):
        raise Refused("F3", f"a part with others in it that is encoded as {encoding}"[:100])
    return entity.body


def unpacked(entity: Entity) -> bytes:
    """The octets of a body that is base64, or not encoded."""
    encoding = str(entity.head.get("content-transfer-encoding", "7bit")).strip().lower()
    if encoding != "base64":
        octets = bytes(plain(entity))
        if kind := other_kind(octets, entity.file):
            raise Refused("F10", f"it is a {kind} too, which is not signed")
        return octets
    if FROM_LINE.search(entity.body):
        raise Refused("F10", "a line in base64 that begins a mail for some programs")
    return decoded(bytes(entity.body))


def check_called(entity: Entity) -> None:
    """Raises Refused where a signature is called as another kind of file, as which it is opened where S/MIME is not known."""
    with refusing("F3", email.errors.MessageError, ValueError, LookupError, TypeError, AttributeError, RuntimeError):
        given = [
            found
            for header in NAMING
            for found in entity.head.get_params([], header)
            if found[0].lower() in ("name", "filename")
        ]
        names = [str(make_header(decode_header(collapse_rfc2231_value(value)))) for _, value in given]
    if kind := next(filter(None, (called_as(name, "s/mime") for name in names)), ""):
        raise Refused("F10", f"the signature of a mail is called as a {kind}, which it is not")


def clear(entity: Entity, first: memoryview, signature: Entity, outside: bool) -> Found:
    """What a multipart/signed holds, of whose parts the first is signed (RFC 8551 3.5.3). (Its content is kept by nobody else.)"""
    check_called(signature)
    signed, converted = signed_in(memoryview(unpacked(signature)))
    content, canonical = canonical_of(first)
    done = ", ".join(filter(None, ["line ends to CR LF" * canonical, converted]))
    notes = (OUTSIDE,) * outside
    return Found(entity.part, signed, content, "s/mime", done, notes, "signed", COVERS, entity.beside)


def opaque(entity: Entity) -> Found | Unfound:
    """What application/pkcs7-mime holds (RFC 8551 3.2)."""
    kind = str(entity.head.get_param("smime-type", "signed-data")).lower()
    if kind != "signed-data":
        raise Refused("F1", f"S/MIME of the type {kind}, which is not signed"[:100])
    check_called(entity)
    signed, converted = signed_in(memoryview(unpacked(entity)))
    return Found(entity.part, signed, None, "s/mime", converted, (), "signed", COVERS, entity.beside)


def boundary_of(head: email.message.Message) -> str:
    """The boundary that a head says (RFC 2046 5.1.1). Raises Refused where there is none, or where programs may end it elsewhere: behind
    a comment, a space or a quotation mark."""
    said = str(head.get("content-type"))
    # (one with its charset, RFC 2231, may name any of Python's, of which some raise an error whatever they are to read)
    with refusing("F10", ValueError, LookupError, TypeError, AttributeError, RuntimeError):
        boundary = head.get_boundary()
    if not boundary or len(boundary) > 200 or not boundary.isascii():
        raise Refused("F3", "a multipart without a boundary")
    # (one in pieces or with its language, RFC 2231, is none for some programs)
    if len(BOUNDARY_NAME.findall(said)) != 1 or BOUNDARY.search(said) is None or SAID.fullmatch(said.strip()) is None:
        raise Refused("F10", "a boundary that can be read in two ways")
    return boundary


def split(entity: Entity) -> tuple[list[memoryview], bool]:
    """The parts between the boundary's lines (RFC 2046 5.1.1), each without the line end before the next; and whether there is
    text before the first or behind the last. Raises Refused where the last line is missing, or where a line begins as one and goes
    on, which ends a part for some programs alone."""
    body, line = plain(entity), b"--" + boundary_of(entity.head).encode()
    begins = [0] * (bytes(body[: len(line)]) == line)
    begins += (mark.start() + 1 for mark in islice(re.finditer(b"\n" + re.escape(line), body), MOST_PARTS + 2))
    if len(begins) > MOST_PARTS + 1:
        raise Refused("F4", f"more than {MOST_PARTS} parts")
    # (a CR ends a line for Python's `email`)
    if sum(1 for _ in islice(re.finditer(re.escape(line), body), len(begins) + 1)) != len(begins):
        raise Refused("F10", "a boundary within a line, which begins there for some programs")
    marks = [mark for begin in begins if (mark := BOUNDARY_END.match(body, begin + len(line))) is not None]
    if len(marks) != len(begins):
        raise Refused("F10", "a line of a multipart that begins as its boundary, and goes on")
    ends = [number for number, mark in enumerate(marks) if mark[1]]
    if len(ends) != 1 or ends[0] != len(marks) - 1 or len(marks) < 2:
        raise Refused("F3", "the boundaries of a multipart are not in order")
    found = [without_end(body[mark.end() : begin]) for mark, begin in zip(marks, begins[1:])]
    outside = body[: begins[0]], body[marks[-1].end() :]
    if any(FROM_LINE.search(text) for text in outside):
        raise Refused("F10", "a line outside of the parts of a multipart that begins a mail for some programs")
    if any(map(has_long_line, outside)):
        raise Refused("F10", "a line outside of the parts of a multipart that is longer than mails have")
    check_unsigned(entity.file, line, *outside)
    return found, any(re.search(rb"\S", text) for text in outside)


def has_long_line(text: memoryview) -> bool:
    """Whether a line of a text is longer than lines of mails are."""
    octets, at = bytes(text), 0
    while len(octets) - at > LONGEST_LINE:
        feed = octets.rfind(b"\n", at, at + LONGEST_LINE + 1)
        if feed < 0:
            return True
        at = feed + 1
    return False


def without_end(part: memoryview) -> memoryview:
    """A part without its last line end, which belongs to the boundary."""
    return part[: len(part) - (2 if bytes(part[-2:]) == b"\r\n" else 1)] if part else part


def mails_in(octets: memoryview) -> list[memoryview]:
    """The mails of an mbox, each behind its line `From ..`. Nothing is taken out of their lines: >From stays."""
    lines = list(islice(MBOX_LINE.finditer(octets), MOST_PARTS + 1))
    if len(lines) > MOST_PARTS:
        raise Refused("F4", f"more than {MOST_PARTS} mails")
    check_unsigned(octets, *(line[0] for line in lines))
    if any(OTHER_END.search(line[0]) for line in lines):
        raise Refused("F10", "a line of an mbox with a CR or an octet 00 that ends it for some programs alone")
    ends = [line.start() for line in lines[1:]] + [len(octets)]
    return [octets[line.end() : end] for line, end in zip(lines, ends)]


def found_in_mail(octets: memoryview) -> Iterator[Found | Unfound]:
    """What is signed in a mail, or in the mails of an mbox. Raises Refused where there is nothing."""
    if len(octets) > LONGEST:
        raise Refused("F4", f"a mail of more than {LONGEST} octets")
    many = bytes(octets[:5]) == b"From "
    mails = mails_in(octets) if many else [octets]
    if not mails:
        raise Refused("F1", UNSIGNED)
    for number, mail in enumerate(mails, 1):
        for one in found_in_one(octets, mail, many):
            if isinstance(one, Found) and not many and FIRST_FIELD.match(octets) is None:
                one = Unfound(one.part, "F10", "a mail whose first field is none of a mail, as where another file begins", "s/mime")
            named = ", ".join(filter(None, [f"mail {number}" if many else "", one.part]))
            yield one._replace(part=named)


def check_alone(entity: Entity) -> None:
    """Raises Refused where some programs find another mail within one of an mbox: without an empty line before it, or, as mutt, where its
    Content-Length says."""
    # (Python's `email` says nothing of one that is the last line of a head)
    if FROM_LINE.search(entity.whole):
        raise Refused("F10", "a line within a mail of an mbox that begins another one for some programs")
    for said in map(str, entity.head.get_all("content-length", [])):
        length = int(said) if re.fullmatch(r"\s*[0-9]{1,15}\s*", said, re.ASCII) else 0
        if b"From " in bytes(entity.body[max(0, length - 2) : length + 8]):
            raise Refused("F10", "a mail whose Content-Length ends it before another one")


def found_in_one(octets: memoryview, mail: memoryview, many: bool) -> Iterator[Found | Unfound]:
    """What is signed in one mail of a file, which may be an mbox, or why nothing is."""
    walk, count = Walk(octets), 0
    try:
        entity = walk.entity(mail, "", "")
        if many:
            check_alone(entity)
        for found in walk.signed_in(entity):
            count += 1
            yield found
        if not count:
            raise Refused("F1", UNSIGNED)
    except Refused as refused:
        yield Unfound("", refused.code, refused.reason, "s/mime")
