"""The texts of trust lists and answers lists (cmsproof-lists(5)): their entries and lines, or the line of their first fault."""
from __future__ import annotations

from typing import NamedTuple, Optional, TypeVar, Union

from oracle import der, forms

LIST_RULES = {"L2": "Line", "L3": "Certificate", "L5": "Period"}
DIGITS = set(b"0123456789abcdefABCDEF")
Item = TypeVar("Item")


class Entry(NamedTuple):
    """An entry of a trust list: its role, its ends, which may be open, and its certificate."""

    role: str
    first: Optional[str]
    last: Optional[str]
    certificate: forms.Certificate


class Unfit(Exception):
    """A field that is none."""


def lines_of(text: bytes) -> list[bytes]:
    """The lines of a text: each ends at LF or at the end of the text, and one CR before that is no part of it."""
    lines = text.split(b"\n")
    if lines[-1] == b"" and len(lines) > 1:
        lines.pop()
    return [line[:-1] if line.endswith(b"\r") else line for line in lines]


def numbered(lines: list[bytes]) -> list[tuple[int, bytes]]:
    """The lines behind the first, with their numbers, without those that are empty and comments."""
    return [(number, line) for number, line in enumerate(lines[1:], start=2) if line != b"" and not line.startswith(b"#")]


def hexadecimal(field: bytes) -> bytes:
    """The octets that a field spells."""
    if len(field) % 2 or not set(field) <= DIGITS:
        raise Unfit()
    return bytes.fromhex(field.decode())


def end_of_period(field: bytes) -> Optional[str]:
    """A moment, None for an open end."""
    moment = None if field == b"-" else der.moment_of(der.GENERALIZED, field)
    if moment is None and field != b"-":
        raise Unfit()
    return moment


def trust_line(line: bytes, second: bool) -> Union[Entry, str]:
    """An entry of a list of the second version, if it is said, or the code of the rule that the line fails."""
    role, *fields = line.split(b" ")
    if len(fields) != (3 if second else 1) or role not in (b"signer", b"tsa"):
        return "L2"
    try:
        first, last = (end_of_period(fields[0]), end_of_period(fields[1])) if second else (None, None)
        octets = hexadecimal(fields[-1])
    except Unfit:
        return "L2"
    if first is not None and last is not None and first > last:
        return "L5"
    try:
        return Entry(role.decode(), first, last, forms.whole(octets, forms.certificate))
    except der.Fault:
        return "L3"


def faultless(items: Optional[list[Item]], fault: Optional[str]) -> list[Item]:
    """What was read of a list. Raises ValueError, with the line of its first fault, if it has one."""
    if items is None:
        raise ValueError(fault)
    return items


def trust(text: bytes) -> tuple[Optional[list[Entry]], Optional[str]]:
    """The entries of a trust list and no line, or none and the line of its first fault."""
    lines = lines_of(text)
    if lines[0] not in (b"cmsproof trust 1", b"cmsproof trust 2"):
        return None, "trust L1 Version at line 1\n"
    entries = []
    for number, line in numbered(lines):
        entry = trust_line(line, lines[0].endswith(b"2"))
        if isinstance(entry, str):
            return None, f"trust {entry} {LIST_RULES[entry]} at line {number}\n"
        entries.append(entry)
    return entries, None


def entries_of(text: bytes) -> list[Entry]:
    """The entries of a trust list that has no fault."""
    return faultless(*trust(text))


def is_answer_field(field: bytes) -> bool:
    """Whether a field of an answers list is one: octets, or that there are none."""
    try:
        return field == b"-" or hexadecimal(field) != b""
    except Unfit:
        return False


def answers(text: bytes) -> tuple[Optional[list[str]], Optional[str]]:
    """The lines of an answers list as the questions are spelled, or none and the line of its first fault."""
    lines = lines_of(text)
    if lines[0] != b"cmsproof answers 1":
        return None, "answers B1 Version at line 1\n"
    vouched = []
    for number, line in numbered(lines):
        fields = line.split(b" ")
        if len(fields) != 5 or not all(map(is_answer_field, fields)):
            return None, f"answers B2 Line at line {number}\n"
        vouched.append(line.decode().lower())
    return vouched, None


def answers_of(text: bytes) -> list[str]:
    """The lines of an answers list that has no fault."""
    return faultless(*answers(text))


def end_text(moment: Optional[str]) -> str:
    """An end of a period as it is written."""
    return "-" if moment is None else der.time_text(moment)


def written(entries: list[Entry]) -> bytes:
    """The text of version 2 of a trust list."""
    lines = [f"{e.role} {end_text(e.first)} {end_text(e.last)} {e.certificate.whole.hex()}" for e in entries]
    return "".join(line + "\n" for line in ["cmsproof trust 2", *lines]).encode()
