"""The rows of the tests in crates/vectors_run/data, and the octet strings that they name; docs/CONTRIBUTING.md, section 10, says how
they are written. What is not written so is a `Bad`."""
from __future__ import annotations

import re
from typing import Optional

from oracle.der import element

DIGITS = re.compile("(?:[0-9A-Fa-f]{2})*")
RANGE = re.compile("([0-9]*)[.][.]([0-9]*)")


class Bad(Exception):
    """What cannot be read, and why."""


def digits(text: str) -> bytes:
    """The octets of digits in hexadecimal."""
    if not DIGITS.fullmatch(text):
        raise Bad(f"`{text[:40]}` is no octets")
    return bytes.fromhex(text)


def number(text: str) -> int:
    """A number."""
    if not re.fullmatch("[0-9]+", text):
        raise Bad(f"`{text[:40]}` is no number")
    return int(text)


def named(text: str, blobs: dict[str, bytes]) -> bytes:
    """The octet string of a name, or some of its octets, `name:3..7`."""
    name, colon, ends = text.partition(":")
    if name not in blobs:
        raise Bad(f"the name `{name}` is not known")
    if not colon:
        return blobs[name]
    found = RANGE.fullmatch(ends)
    if not found:
        raise Bad(f"`{ends}` is no range")
    first, end = int(found[1] or 0), int(found[2] or len(blobs[name]))
    if not first <= end <= len(blobs[name]):
        raise Bad(f"`{text}` is beyond the octets")
    return blobs[name][first:end]


def part_of(part: str, blobs: dict[str, bytes]) -> bytes:
    """The octets of a part that is no brace."""
    if part in ("", "-"):
        return b""
    if part.startswith("$"):
        return named(part[1:], blobs)
    if part.startswith("'"):
        return part[1:].encode()
    times, star, rest = part.partition("*")
    return digits(rest) * number(times) if star else digits(part)


def octets_of(text: str, blobs: dict[str, bytes]) -> bytes:
    """The octets of parts that spaces or `+` divide."""
    around: list[tuple[int, bytes]] = []
    inside = b""
    for part in re.split("[ +]", text):
        if part == "}":
            if not around:
                raise Bad("a `}` closes nothing")
            identifier, before = around.pop()
            inside = before + element(identifier, inside)
        elif part.endswith("{") and not part.startswith(("'", "$")):
            tag = digits(part[:-1])
            if len(tag) != 1:
                raise Bad("an identifier is not one octet")
            around.append((tag[0], inside))
            inside = b""
        else:
            inside += part_of(part, blobs)
    if around:
        raise Bad("nothing closes a `{`")
    return inside


def blobs_of(text: str, blobs: Optional[dict[str, bytes]] = None) -> dict[str, bytes]:
    """The octet strings of a file by their names, behind those that were known."""
    blobs = dict(blobs or {})
    texts: list[tuple[str, list[str]]] = []
    for line in text.splitlines():
        if line.startswith(" ") and texts:
            texts[-1][1].append(line)
        elif line and not line.startswith("#"):
            name, equals, parts = line.partition(" =")
            if not equals or line.startswith(" "):
                raise Bad(f"`{line[:40]}` is no octet string with a name")
            texts.append((name, [parts]))
    for name, lines in texts:
        if name in blobs:
            raise Bad(f"the name `{name}` was given before")
        blobs[name] = octets_of(" ".join(lines), blobs)
    return blobs


class Row:
    """A row, `KIND NAME=VALUE .. => WANTED`."""

    def __init__(self, line: str, blobs: dict[str, bytes]) -> None:
        asked, arrow, self.wanted = line.partition(" => ")
        if not arrow:
            raise Bad("a row has no ` => `")
        self.kind, *words = asked.split(" ")
        self.values: dict[str, str] = {}
        self.blobs = blobs
        for word in filter(None, words):
            name, equals, value = word.partition("=")
            if not equals:
                raise Bad(f"`{word[:40]}` is no `NAME=VALUE`")
            if name in self.values:
                raise Bad(f"the name `{name}` is there twice")
            self.values[name] = value

    def takes(self, names: str) -> None:
        """Refuses a row that has values of other names; `case` says what it is about."""
        others = set(self.values) - set(names.split()) - {"case"}
        if others:
            raise Bad(f"a row of this kind takes no `{min(others)}`")

    def text(self, name: str) -> str:
        """The value of this name."""
        if name not in self.values:
            raise Bad(f"the value `{name}` is missing")
        return self.values[name]

    def flag(self, name: str) -> bool:
        """Whether the row has `NAME=yes`."""
        value = self.values.get(name, "no")
        if value not in ("yes", "no"):
            raise Bad(f"the value of `{name}` is neither yes nor no")
        return value == "yes"

    def octets(self, name: str, default: Optional[bytes] = None) -> bytes:
        """The octets of this name, which must be there if there are none by default."""
        if default is not None and name not in self.values:
            return default
        return octets_of(self.text(name), self.blobs)

    def given(self, name: str) -> Optional[bytes]:
        """The octets of this name, None where it is absent."""
        return self.octets(name) if name in self.values else None
