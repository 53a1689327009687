"""Lists of digests as sha256sum writes them (GNU coreutils, md5sum invocation), the hash tree over them (RFC 4998 4.2), and the records of its
leaves (3.1, 4.1, 5.1)."""
from __future__ import annotations

import hashlib
import re
from typing import NamedTuple

from oracle.der import element, number, octets, oid, sequence

SHA256 = "2.16.840.1.101.3.4.2.1"
LINE = re.compile(rb"( ?)(\\?)([0-9a-fA-F]{64}) [ *]((?:[^\\\n\r]|\\[\\nr])*)")
PAIRS = {b"\\\\": b"\\", b"\\n": b"\n", b"\\r": b"\r"}


class Sum(NamedTuple):
    """A line: a digest, and the name of a file."""

    digest: bytes
    name: bytes


class Refused(Exception):
    """A list that is none, or a name in it that is refused: the line that is printed, and the status."""

    def __init__(self, line: str, status: int) -> None:
        super().__init__(line)
        self.said = line + "\n", status


def parsed(text: bytes, is_of_records: bool = False) -> list[tuple[bytes, Sum]]:
    """The lines of a list by SHA-256, each behind the space with which it begins if it continues the record of the line before it."""
    lines = text.split(b"\n")
    if lines[-1] == b"":
        lines.pop()
    sums = list[tuple[bytes, Sum]]()
    for place, line in enumerate(lines, start=1):
        found = LINE.fullmatch(line)
        if not found or (found[2] == b"\\") != (b"\\" in found[4]) or found[1] and not (is_of_records and sums):
            raise Refused(f"sums U1 Line at line {place}", 2)
        name = re.sub(rb"\\.", lambda pair: PAIRS[pair[0]], found[4])
        sums.append((found[1], Sum(bytes.fromhex(found[3].decode()), name)))
    if not sums:
        raise Refused("sums U2 Empty", 2)
    return sums


def check_names(names: list[bytes]) -> None:
    """Raises Refused if one of the names of records can't be one, or is there twice."""
    if any(part in (b"", b".", b"..") or b"\0" in part for name in names for part in name.split(b"/")):
        raise Refused("refused U5 Name", 1)
    if len(set(names)) < len(names):
        raise Refused("refused U6 NameTwice", 1)
    try:
        b"".join(name + b"\n" for name in names).decode()
    except UnicodeDecodeError as error:
        raise Refused("refused U5 Name", 1) from error


def read(text: bytes) -> list[Sum]:
    """The lines of a list by SHA-256."""
    sums = [one for _, one in parsed(text)]
    check_names([one.name for one in sums])
    return sums


def recorded(text: bytes) -> list[tuple[bytes, list[bytes]]]:
    """The records of a list by SHA-256: the name of each, and the digests of its files."""
    found = list[tuple[bytes, list[bytes]]]()
    for more, one in parsed(text, True):
        if more:
            found[-1][1].append(one.digest)
        else:
            found.append((one.name, [one.digest]))
    check_names([name for name, _ in found])
    return found


def tree(leaves: list[bytes], name: str = "sha256") -> tuple[bytes, dict[bytes, list[bytes]]]:
    """The root over these digests, and for each of them the hash values that lead to it."""
    level = sorted(set(leaves))
    groups, paths = [{leaf} for leaf in level], {leaf: [leaf] for leaf in level}
    while len(level) > 1:
        nodes, sets = [], []
        for at in range(0, len(level) - 1, 2):
            for mine, other in ((at, at + 1), (at + 1, at)):
                for leaf in groups[mine]:
                    paths[leaf].append(level[other])
            nodes.append(hashlib.new(name, b"".join(sorted(level[at : at + 2]))).digest())
            sets.append(groups[at] | groups[at + 1])
        level, groups = nodes + level[len(nodes) * 2 :], sets + groups[len(nodes) * 2 :]
    return level[0], paths


def chain(path: list[bytes], token: bytes, alg: str = SHA256) -> bytes:
    """The chain of one time-stamp of a leaf, by the values that lead to the root and the token over that."""
    lists = element(0xA2, *(sequence(octets(value)) for value in path))
    return sequence(sequence(element(0xA0, oid(alg)), lists, token))


def record(path: list[bytes], token: bytes) -> bytes:
    """The record of a leaf with that chain."""
    return chained([SHA256], [chain(path, token)])


def chained(algs: list[str], chains: list[bytes]) -> bytes:
    """The record that names these algorithms and has these chains."""
    return sequence(number(1), sequence(*(sequence(oid(alg)) for alg in algs)), sequence(*chains))
