"""Bundles of evidence: a zip file with members that are not compressed, and a manifest of all of them. A bundle that is read may be
anybody's: what is not exactly as it is written here is refused, and nothing is unpacked."""
from __future__ import annotations

import hashlib
import json
import struct
import zipfile
import zlib
from typing import Any, Callable, NamedTuple, Union

from cmsproof_tools.containers.asic import Reading, end_of_entries
from cmsproof_tools.containers.refusals import Refused
from cmsproof_tools.containers.twofold import begun_as
from cmsproof_tools.running import FAILED, Started, Stop, shown
from cmsproof_tools.writing import written

MANIFEST, SIGNED, RECORD, CONTENT = "MANIFEST.json", "signed.p7s", "record.ers", "content.bin"
TRUST, QUESTIONS, ANSWERS, VERDICT, VERIFY = "trust.txt", "questions.txt", "answers.txt", "verdict.txt", "VERIFY.txt"
# the members in their order: one of the first two, and only the content may be missing else
MEMBERS = (SIGNED, RECORD, CONTENT, TRUST, QUESTIONS, ANSWERS, VERDICT, VERIFY, MANIFEST)
FORM, RECORD_FORM = "cmsproof evidence 2", "cmsproof evidence record 1"
# what a manifest has: a name, and what its value is
KEYS: dict[str, Any] = {
    "form": str,
    "file": str,
    "part": str,
    "size": int,
    "sha256": str,
    "line": str,
    "status": int,
    "sha1": bool,
    "content": (dict, type(None)),
    "versions": dict,
    "made": str,
    "members": dict,
}
# that of a bundle of an evidence record, whose name it has, and by what it was judged
RECORD_KEYS: dict[str, Any] = {
    **{name: kind for name, kind in KEYS.items() if name not in ("part", "sha1")},
    "record": str,
    "ends": list,
    "at": str,
    "whole": bool,
}
# (Python's zipfile reads no less than the last 65,557 octets, where it looks for the end of the directory)
LONGEST_MANIFEST, LONGEST_DIRECTORY = 1 << 20, 1 << 17
# a local header of a zip file (APPNOTE.TXT 4.3.7), and its first octets
HEADER, LOCAL = struct.Struct("<4s5H3I2H"), b"PK\x03\x04"
# the field of long members (4.5.3): in a head both lengths, in the directory one to three numbers; a head has MAXIMUM for them then
ZIP64, MAXIMUM = struct.Struct("<HHQQ"), 0xFFFFFFFF
ZIP64_ALONE = {4 + length: struct.pack("<HH", 1, length) for length in (8, 16, 24)}
# in the attributes of a member (4.4.15): the mark of a folder, and the kind of file of Unix
FOLDER, REGULAR = 0x10, 0o10
Buffer = Union[bytes, memoryview]


class Malformed(Exception):
    """A file is no bundle: its text says why."""


class Bundle(NamedTuple):
    """A bundle whose members are those of its manifest: the manifest, and the octets of each other member."""

    manifest: dict[str, Any]
    members: dict[str, memoryview]


def summed(octets: Any) -> dict[str, Any]:
    """How many octets these are, and their SHA-256."""
    return {"size": memoryview(octets).nbytes, "sha256": hashlib.sha256(octets).hexdigest()}


def put_members(file: Any, members: dict[str, Any]) -> None:
    """Writes a zip file of these members: of the same ones always the same octets."""
    with zipfile.ZipFile(file, "w", zipfile.ZIP_STORED) as written:
        for name in MEMBERS:
            if name in members:
                member = zipfile.ZipInfo(name)
                member.create_system, member.external_attr = 3, 0o100644 << 16
                written.writestr(member, members[name])


def write_bundle(path: str, members: dict[str, Any], check: Callable[[], None] = lambda: None) -> None:
    """Writes a bundle, whole or not at all. Raises Stop, with a line, if it cannot be written, and what `check` raises once all is read."""
    try:
        with written(path, Started.descriptors) as file:
            put_members(file, members)
            check()
    except OSError as error:
        raise Stop(FAILED, f"failed write {shown(path)}: {error.strerror}") from error


def check_head(head: tuple[Any, ...], extra: bytes, found: zipfile.ZipInfo) -> None:
    """Raises Malformed unless the head of a member, with this further field, says of it what the directory says: no program may find
    other octets, another name or a link there."""
    _, _, flags, method, _, _, crc, packed, size, _, _ = head
    name, long = found.filename, ZIP64.pack(1, 16, found.file_size, found.file_size)
    if flags or found.flag_bits or method or found.compress_type or found.compress_size != found.file_size:
        raise Malformed(f"{name} is compressed or encrypted")
    sizes = {found.file_size, MAXIMUM} if extra == long else {found.file_size}
    if crc != found.CRC or not {packed, size} <= sizes:
        raise Malformed(f"{name} has another sum or length than the zip file says")
    if extra not in (b"", long) or (found.extra and found.extra[:4] != ZIP64_ALONE.get(len(found.extra))):
        raise Malformed(f"{name} has a further field")
    if found.external_attr & FOLDER or found.external_attr >> 28 not in (0, REGULAR):
        raise Malformed(f"{name} is no regular file")


def member_in(octets: memoryview, found: zipfile.ZipInfo, at: int) -> tuple[memoryview, int]:
    """The octets of a member whose header is at this place, and where they end. Raises Malformed if it is another one's."""
    name = found.filename
    if found.header_offset != at or bytes(octets[at : at + 4]) != LOCAL:
        raise Malformed(f"octets stand before {name} that are no member's")
    if at + HEADER.size > len(octets):
        raise Malformed(f"{name} is cut")
    head = HEADER.unpack(octets[at : at + HEADER.size])
    named, extra = head[-2:]
    begin = at + HEADER.size + named + extra
    end = begin + found.file_size
    check_head(head, bytes(octets[begin - extra : begin]), found)
    if bytes(octets[at + HEADER.size : at + HEADER.size + named]) != name.encode() or end > len(octets):
        raise Malformed(f"{name} has another name, or is longer than the file")
    if zlib.crc32(octets[begin:end]) != found.CRC:
        raise Malformed(f"{name} has another sum than the zip file says")
    return octets[begin:end], end


def members_in(whole: Any) -> dict[str, memoryview]:
    """The members of a zip file, one behind the other, with nothing between them. Raises Malformed if it is none of that form."""
    octets = memoryview(whole)
    try:
        # (these are the octets that are judged, and no file that may be another by now)
        with zipfile.ZipFile(Reading(octets, LONGEST_DIRECTORY)) as read:
            found, start, comment = read.infolist(), read.start_dir, read.comment
    except Refused as refused:
        raise Malformed(refused.reason) from refused
    except (zipfile.BadZipFile, NotImplementedError, struct.error, ValueError, OSError, OverflowError) as error:
        raise Malformed(f"it is no zip file: {error}") from error
    names = [member.filename for member in found]
    always = set(MEMBERS) - {SIGNED, RECORD, CONTENT}
    if (
        names != [name for name in MEMBERS if name in names]
        or not always <= set(names)
        or (SIGNED in names) is (RECORD in names)
    ):
        raise Malformed("its members are not those of a bundle, each once and in their order")
    at, members = 0, {}
    for member in found:
        members[member.filename], at = member_in(octets, member, at)
    # the directory behind the members, and the records that end it (4.3.12, 4.3.14 to 4.3.16)
    ended = start + sum(46 + len(member.filename.encode()) + len(member.extra) + len(member.comment) for member in found)
    ends = octets[-22:-18] == b"PK\5\6" and len(octets) - ended in (22, 22 + 20 + 56)
    is_whole = end_of_entries(octets, start, len(found)) == ended
    if at != start or comment or not ends or not is_whole or any(member.comment for member in found):
        raise Malformed("octets stand in it that are no member's")
    # (by octets of a member, which is looked at as it is by itself)
    if kind := begun_as(octets):
        raise Malformed(f"it is a {kind} too")
    return members


def once(pairs: list[tuple[str, Any]]) -> dict[str, Any]:
    """An object of JSON, whose names are each there once. Raises ValueError if not."""
    found = dict(pairs)
    if len(found) != len(pairs):
        raise ValueError("a name is there twice")
    return found


def manifest_in(octets: memoryview, is_of_record: bool) -> dict[str, Any]:
    """The manifest, of a bundle of a signed file, or of an evidence record. Raises Malformed if it is none."""
    form, keys = (RECORD_FORM, RECORD_KEYS) if is_of_record else (FORM, KEYS)
    if len(octets) > LONGEST_MANIFEST:
        raise Malformed(f"{MANIFEST} is too long")
    try:
        found = json.loads(bytes(octets), object_pairs_hook=once)
    except (ValueError, RecursionError) as error:
        raise Malformed(f"{MANIFEST} cannot be read: {error}") from error
    if not isinstance(found, dict) or set(found) != set(keys) or found["form"] != form:
        raise Malformed(f"{MANIFEST} is not of the form `{form}`")
    if not all(isinstance(found[name], kind) for name, kind in keys.items()):
        raise Malformed(f"{MANIFEST} has a value of another kind than is due")
    return found


def read_bundle(whole: Any) -> Bundle:
    """The bundle that these octets are, or a mapping of them. Raises Malformed if they are none, or have something else than the
    manifest says."""
    members = members_in(whole)
    manifest = manifest_in(members.pop(MANIFEST), RECORD in members)
    said = {name: summed(octets) for name, octets in members.items()}
    if manifest["members"] != said:
        differ = [name for name in MEMBERS if manifest["members"].get(name) != said.get(name)]
        raise Malformed(f"{MANIFEST} says something else of {shown(', '.join(differ) or 'members that are not there')}")
    return Bundle(manifest, members)
