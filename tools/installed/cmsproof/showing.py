"""The lines that show an input (docs/LINES.md) as a dictionary."""
from __future__ import annotations

from typing import Any

# keys of lines of which there may be several
SEVERAL = ("text", "fail")
NUMBERS = ("digests", "certificates", "crls", "signers", "extensions", "tokens", "algorithms", "cryptoinfos", "chains")


def members_of(line: str) -> dict[str, Any]:
    """The members that a line is: a key and its value, which is a number or a text."""
    key, _, value = line.partition(" ")
    words = value.split(" ")
    if key == "version" and words[1:]:
        return {"version": int(words[0]), "version_agrees": words[1] == "agrees"}
    if key == "issuer" and words[1:2] == ["serial"]:
        return {"issuer": words[0], "serial": words[2]}
    if key in ("content", "attributes", *NUMBERS):
        return {key: None if value == "absent" else int(value)}
    return {key: int(value) if key == "version" else value}


def archive_stamp(line: str) -> dict[str, Any]:
    """The line `chain C stamp S ..` of an evidence record; None is what a dash says."""
    words = line.split(" ")
    found = dict(zip(words[::2], words[1::2]))
    numbers = {key: int(found[key]) for key in ("chain", "stamp", "lists", "values")}
    return {**numbers, **{key: None if found[key] == "-" else found[key] for key in ("algorithm", "time")}}


def put(members: dict[str, Any], line: str) -> None:
    """Puts a line among the members."""
    for key, value in members_of(line).items():
        if key in SEVERAL:
            members.setdefault(key, []).append(value)
        else:
            members[key] = value


def dictionary_of(text: str) -> dict[str, Any]:
    """The dictionary of lines: `shown` is the first one, `signer` the list of those that follow each `signer N`, and `stamp` that of
    the archive time-stamps of an evidence record."""
    first, *lines = text.splitlines()
    found: dict[str, Any] = {"shown": first}
    members = found
    for line in lines:
        key, _, rest = line.partition(" ")
        if key == "signer":
            number, _, rest = rest.partition(" ")
            members = {"number": int(number)}
            found.setdefault("signer", []).append(members)
            line = rest
        if key == "chain":
            found.setdefault("stamp", []).append(archive_stamp(line))
        else:
            put(members, line)
    return found
