"""Signatures in PDF (ISO 32000-1 12.8.1, ETSI EN 319 142-1): each field that is signed, and document time-stamps.

pikepdf reads the structure. What is signed is the file but for the string of /Contents: the ranges are compared with the file, so that
the signer signed all its other octets, and a signature that does not cover the file to its end says so.
"""
from __future__ import annotations

import io
import re
from contextlib import suppress
from typing import Any, Iterator, NamedTuple

from cmsproof.octets import Buffer
from cmsproof_tools import der
from cmsproof_tools.containers import ber
from cmsproof_tools.containers.keeping import bounded, kept, pieces_of
from cmsproof_tools.containers.pdf_mended import check_mended
from cmsproof_tools.containers.pdf_objects import Place, check_same, may_go_over, without, written_as
from cmsproof_tools.containers.refusals import Refused, refusing
from cmsproof_tools.found import Found, Unfound

LONGEST, MOST_FIELDS, LONGEST_NAME = 1 << 30, 10_000, 1000
# the kinds of signatures that are read, by /Type and /SubFilter
KINDS = {
    ("/Sig", "/ETSI.CAdES.detached"): "signed",
    ("/Sig", "/adbe.pkcs7.detached"): "signed",
    ("/DocTimeStamp", "/ETSI.RFC3161"): "token",
}
STRING = re.compile(rb"<[0-9A-Fa-f]*>")
KEY = re.compile(rb"/Contents[\0\t\n\f\r ]*\Z")
# how far before the string of /Contents its object may begin
NEAR = 1 << 13
# how many times the file's size the library may take of memory; and how many octets all signatures may cover, each for itself
TIMES, MOST_JUDGED = 8, 16 << 30
# the ranges of a signature, in digits, as all programs write them that sign
RANGES = re.compile(rb"/ByteRange[\0\t\n\f\r ]*\[[\0\t\n\f\r ]*0+" + rb"[\0\t\n\f\r ]+([0-9]{1,20})" * 3 + rb"[\0\t\n\f\r ]*\]")


class Field(NamedTuple):
    """A signed field: its name, its value as pikepdf has it, and the number and generation of the value's object."""

    name: str
    value: Any
    number: tuple[int, int]


class Range(NamedTuple):
    """What a signature leaves out: from `begin` to before `after`; and the end of what it covers."""

    begin: int
    after: int
    end: int


class File(io.BytesIO):
    """The octets, as the library names them in its complaints."""

    def __repr__(self) -> str:
        return "the file"


def library() -> Any:
    """The library pikepdf. Raises Refused where it is missing."""
    try:
        import pikepdf
    except ImportError as error:
        raise Refused(
            "F2", "Python's library `pikepdf`, which reads PDF, is missing: install Debian's python3-pikepdf"
        ) from error
    return pikepdf


def opened(pikepdf: Any, octets: memoryview) -> Any:
    """The file, which must be in order: nothing is repaired, since a repair is a guess."""
    if bytes(octets[:5]) != b"%PDF-":
        raise Refused("F10", "octets before %PDF-")
    if len(octets) > LONGEST:
        raise Refused("F4", f"a PDF of more than {LONGEST} octets")
    try:
        found = pikepdf.open(File(octets), attempt_recovery=False, inherit_page_attributes=False)
    except pikepdf.PasswordError as error:
        raise Refused("F9", "the PDF is encrypted") from error
    if found.is_encrypted:
        raise Refused("F9", "the PDF is encrypted")
    return found


def fields_of(pikepdf: Any, found: Any) -> Iterator[Field]:
    """The signature fields that have a value (ISO 32000-1 12.7.3, 12.7.4.5), in the order of the file."""
    form = found.Root.get("/AcroForm")
    tops = list(form.get("/Fields", [])) if isinstance(form, pikepdf.Dictionary) else []
    rest = [(field, "", None) for field in reversed(tops)]
    seen: set[tuple[int, int]] = set()
    count = 0
    while rest:
        field, above, kind = rest.pop()
        count += 1
        if count > MOST_FIELDS:
            raise Refused("F4", f"more than {MOST_FIELDS} fields")
        if not isinstance(field, pikepdf.Dictionary):
            raise Refused("F3", "a field is no dictionary")
        if field.is_indirect:
            if field.objgen in seen:
                raise Refused("F10", "a field stands twice among the fields")
            seen.add(field.objgen)
        name = ".".join(filter(None, [above, str(field.get("/T", ""))]))
        if len(name) > LONGEST_NAME:
            raise Refused("F4", f"a field with a name of more than {LONGEST_NAME} characters")
        kind = field.get("/FT", kind)
        rest += [
            (kid, name, kind) for kid in reversed(list(field.get("/Kids", []))) if "/T" in kid or "/FT" in kid or "/V" in kid
        ]
        value = field.get("/V")
        if kind == pikepdf.Name("/Sig") and value is not None:
            if not isinstance(value, pikepdf.Dictionary):
                raise Refused("F7", "the value of a signature field is no dictionary")
            yield Field(name or f"field {count}", value, value.objgen)


def range_of(pikepdf: Any, field: Field, size: int) -> Range:
    """What /ByteRange says, which must be two ranges in order, inside the file, the first from its begin."""
    numbers = field.value.get("/ByteRange")
    found = list(numbers) if isinstance(numbers, pikepdf.Array) else []
    if len(found) != 4 or any(type(number) is not int for number in found):
        raise Refused("F7", "/ByteRange is not four whole numbers")
    first, length, second, rest = found
    if first != 0:
        raise Refused("F7", f"/ByteRange begins at {first} and not at 0")
    if length < 0 or rest < 0 or second <= length or second + rest > size:
        raise Refused("F7", "the ranges of /ByteRange are not in order inside the file")
    return Range(length, second, second + rest)


def contents_of(pikepdf: Any, field: Field, octets: memoryview, left: Range) -> tuple[bytes, int]:
    """The octets of /Contents, whose string in hexadecimal must be exactly what is left out, and where its object has the word `obj`."""
    value = field.value.get("/Contents")
    if not isinstance(value, pikepdf.String) or not bytes(value):
        raise Refused("F7", "/Contents is missing or empty")
    gap = bytes(octets[left.begin : left.after])
    if STRING.fullmatch(gap) is None or len(gap) % 2:
        raise Refused("F7", "what /ByteRange leaves out is no string in hexadecimal")
    found = bytes.fromhex(gap[1:-1].decode())
    before = bytes(octets[max(0, left.begin - NEAR) : left.begin])
    if found != bytes(value) or KEY.search(before) is None:
        raise Refused("F7", "what /ByteRange leaves out is not the string of /Contents")
    head = list(re.finditer(rb"(?<![0-9])%d[\0\t\n\f\r ]+%d[\0\t\n\f\r ]+obj" % field.number, before))
    if field.number[0] == 0 or not head or b"endobj" in before[head[-1].end() :]:
        raise Refused("F10", "the signature is no object of its own in the file, but in a stream or in another object")
    if "/Subtype" in field.value:
        raise Refused("F10", "the signature is an annotation too, whose text is /Contents")
    return found, left.begin - len(before) + head[-1].end() - len(b"obj")


def signed_of(contents: bytes) -> tuple[bytes | memoryview, str]:
    """The SignedData at the begin of /Contents, with nothing but zeros behind it, and what was done to get it."""
    view = memoryview(contents)
    if contents[:2] == b"\x30\x80":
        length = ber.first_element(view)[1]
    else:
        with refusing("F3", ValueError, IndexError):
            size, begin = der.length_at(contents, 1)
        length = begin + size
    if length > len(contents) or contents[length:].strip(b"\0"):
        raise Refused("F3", "/Contents is not one element with zeros behind it")
    return ber.signed_in(view[:length])


def covering(octets: memoryview, left: Range) -> str:
    """What is not covered: octets behind the ranges, with how many revisions they end; no text if there are none."""
    if left.end == len(octets):
        return ""
    later = bytes(octets[left.end :]).count(b"%%EOF")
    return f"covers 1..{left.end} of {len(octets)}, {later} later revision{'s' * (later != 1)}"


def check_alone(pikepdf: Any, found: Any, content: Buffer) -> None:
    """Raises Refused where what is signed is a PDF by itself, with an object that the file has otherwise. Its signer may have seen that
    one, and signed it beside: whoever puts the signature in moves all that stands behind it."""
    try:
        alone = pikepdf.open(File(content), attempt_recovery=False, inherit_page_attributes=False)
    except pikepdf.PasswordError as error:
        raise Refused("F10", "what is signed is a PDF by itself, for those who have a password") from error
    except pikepdf.PdfError:
        return  # (what its tables name stands elsewhere, since the signature is missing)
    with alone:
        for one in alone.objects:
            if isinstance(one, pikepdf.Object) and written_as(pikepdf, one) != written_as(
                pikepdf, found.get_object(one.objgen)
            ):
                raise Refused("F10", "what is signed is a PDF by itself, in which other things stand than in this file")


def found_at(pikepdf: Any, found: Any, field: Field, octets: memoryview, left: Range, notes: tuple[str, ...]) -> Found:
    """The signature of a field. Raises Refused."""
    kind = field.value.get("/Type", pikepdf.Name("/Sig")), field.value.get("/SubFilter", "none")
    what = KINDS.get((str(kind[0]), str(kind[1])))
    if what is None and str(kind[1]) == "/ETSI.RFC3161":
        raise Refused("F1", f"a document time-stamp (ETSI.RFC3161) of /Type {kind[0]} and not /DocTimeStamp, which is not read")
    if what is None:
        raise Refused("F1", f"a signature of /Type {kind[0]} and /SubFilter {kind[1]}, which is not read")
    signed, converted = signed_of(contents_of(pikepdf, field, octets, left)[0])
    content = kept(pieces_of([octets[: left.begin], octets[left.after : left.end]]))
    check_alone(pikepdf, found, content)
    covers = f"1..{left.end} of {len(octets)}"
    return Found(field.name, signed, content, "pdf", converted, notes, what, covers, covering(octets, left))


def places_of(octets: memoryview) -> dict[int, set[tuple[int, int]]]:
    """Where each /ByteRange that stands in the file, in a field or not, has its gap, by how many octets it covers."""
    found: dict[int, set[tuple[int, int]]] = {}
    for number, ranges in enumerate(RANGES.finditer(octets)):
        if number == MOST_FIELDS:
            raise Refused("F4", f"more than {MOST_FIELDS} times /ByteRange")
        begin, after, rest = map(int, ranges.groups())
        found.setdefault(begin + rest, set()).add((begin, after))
    return found


def placed(left: Range, places: dict[int, set[tuple[int, int]]]) -> Range:
    """The same range. Raises Refused if the signature may have been moved there from another place, or been shorter. The octets around it are then
    the same, but those between both places stand elsewhere in the file, so that its tables name other objects. The /ByteRange of the
    first place is among what is signed."""
    if places.get(left.begin + left.end - left.after, set()) - {left[:2]}:
        raise Refused("F10", "another /ByteRange in the file covers as many octets: the signature may have been moved")
    return left


def refusals_of(pikepdf: Any, fields: list[Field], octets: memoryview) -> list[Range | Refused]:
    """The range of each field, or why it has none: also because another field leaves out octets of the same place."""
    found: list[Range | Refused] = []
    places = places_of(octets)
    for field in fields:
        try:
            found.append(placed(range_of(pikepdf, field, len(octets)), places))
        except Refused as refused:
            found.append(refused)
    gaps = [(left.begin, left.after) for left in found if isinstance(left, Range)]
    for number, left in enumerate(found):
        if isinstance(left, Range) and sum(begin < left.after and left.begin < after for begin, after in gaps) > 1:
            found[number] = Refused("F8", "another signature field leaves out the same octets")
    if sum(left.end for left in found if isinstance(left, Range)) > MOST_JUDGED:
        raise Refused("F4", f"{len(found)} signatures that cover more than {MOST_JUDGED} octets in all")
    return found


def check_objects(pikepdf: Any, found: Any, fields: list[Field], octets: memoryview, ranges: list[Range | Refused]) -> None:
    """Raises Refused where what the file holds hangs on the octets of a signature."""
    places = []
    for field, left in zip(fields, ranges):
        with suppress(Refused):  # (which is said of the field)
            if isinstance(left, Range):
                places.append(Place(contents_of(pikepdf, field, octets, left)[1], left.begin, left.after))
    if places and may_go_over(octets, places, lambda number, generation: found.get_object(number, generation)):
        with opened(pikepdf, without(octets, places)) as other:
            check_same(pikepdf, found, other, frozenset(field.number for field in fields))


def notes_of(found: Any) -> tuple[str, ...]:
    """What a reader should know of the file: signatures that are no field's."""
    rights = found.Root.get("/Perms", {})
    return tuple(f"the signature of usage rights ({key}) is not looked at" for key in ("/UR3", "/UR") if key in rights)


def signatures_in(pikepdf: Any, octets: memoryview) -> Iterator[Found | Unfound]:
    """What each signature field holds. Raises Refused."""
    with bounded(len(octets), TIMES):
        found = opened(pikepdf, octets)
    with found:
        with bounded(len(octets), TIMES):
            fields, notes = list(fields_of(pikepdf, found)), notes_of(found)
            ranges = refusals_of(pikepdf, fields, octets)
        if not fields:
            rights = "; " + notes[0] + ": the maker of a program signs such rights, and no person" if notes else ""
            raise Refused("F1", "a PDF in which no signature field is signed" + rights)
        with bounded(len(octets), TIMES):
            check_objects(pikepdf, found, fields, octets, ranges)
        whole = any(isinstance(left, Range) and left.end == len(octets) for left in ranges)
        with bounded(len(octets), TIMES):
            fault = fault_of(pikepdf, found, octets) if whole else None
        for field, left in zip(fields, ranges):
            with bounded(len(octets), TIMES):
                one = found_or_not(pikepdf, found, field, octets, left, notes)
            is_whole = isinstance(one, Found) and not one.uncovered
            yield Unfound(field.name, fault.code, fault.reason, "pdf") if fault is not None and is_whole else one


def fault_of(pikepdf: Any, found: Any, octets: memoryview) -> Refused | None:
    """Why the whole file is not one for all programs, or None."""
    try:
        check_mended(pikepdf, found, octets, opened)
    except Refused as refused:
        return refused
    return None


def found_or_not(
    pikepdf: Any, found: Any, field: Field, octets: memoryview, left: Range | Refused, notes: tuple[str, ...]
) -> Found | Unfound:
    """The signature of a field, or why it has none."""
    try:
        if isinstance(left, Refused):
            raise left
        return found_at(pikepdf, found, field, octets, left, notes)
    except Refused as refused:
        return Unfound(field.name, refused.code, refused.reason, "pdf")


def found_in_pdf(octets: memoryview) -> Iterator[Found | Unfound]:
    """What each signature field of a PDF holds. Raises Refused where the file cannot be read."""
    pikepdf = library()
    with refusing("F3", pikepdf.PdfError, TypeError, ValueError, LookupError, AttributeError, ArithmeticError, RuntimeError):
        yield from signatures_in(pikepdf, octets)
