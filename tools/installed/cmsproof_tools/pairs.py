"""Contents that stand beside their signatures: which file is the content of which, by their names or by a list.

Nothing is guessed: what has its content inside and one beside is handed to the checker with both, which refuses it (C5).
"""
from __future__ import annotations

import os
import stat
from typing import Iterable, Sequence

from cmsproof_tools.running import MALFORMED, Stop, read, shown

# what is taken from the end of a signature's name to get that of its content, and what is put there
USUAL = {".p7s": "", ".p7m": "", ".sig": ""}


class Pairs:
    """How the content of a signature is found: by a list of names, or by the ending of the signature's name."""

    def __init__(self, named: dict[str, str], endings: dict[str, str]) -> None:
        self.named, self.endings = named, endings
        self.lengths = sorted(set(map(len, endings)), reverse=True)

    def ending(self, name: str) -> str | None:
        """The ending of a signature's name, the longest that fits, or None; there is a name before it."""
        for length in self.lengths:
            end = name[-length:]
            if end in self.endings and name[-length - 1 : -length] not in ("", "/"):
                return end
        return None

    def content_of(self, name: str) -> str | None:
        """The name of the content of this file, or None where there is none beside it: of a list in any case, by an ending only if
        a regular file is there."""
        if name in self.named:
            return self.named[name]
        end = self.ending(name)
        if end is None:
            return None
        content = name[: -len(end)] + self.endings[end]
        return content if content != name and is_regular(content) else None


def is_anything(name: str) -> bool:
    """Whether anything has this name, also a link to nothing. (Of what is not there `lstat` raises an exception, which takes twice the
    time.)"""
    return os.access(name, os.F_OK, effective_ids=True, follow_symlinks=False)


def is_asked_so() -> bool:
    """Whether `is_anything` can be asked: some systems, and filters of system calls, answer no whatever the name."""
    try:
        return is_anything("/")
    except (NotImplementedError, OSError):
        return False


ASKED_SO = is_asked_so()


def is_regular(name: str) -> bool:
    """Whether a file of this name is there, and is a regular one and no link."""
    try:
        if ASKED_SO and not is_anything(name):
            return False
        return stat.S_ISREG(os.lstat(name).st_mode)
    except (OSError, ValueError):
        return False


def ending_of(text: str) -> tuple[str, str]:
    """The two endings of `--pair SUFFIX=ENDING`. Raises ValueError where the text is not of this form."""
    first, equals, second = text.partition("=")
    if not first or not equals or "/" in text or first == second:
        raise ValueError(f"{text} is not SUFFIX=ENDING")
    return first, second


def check_ends(path: str, names: Iterable[bytes]) -> None:
    """Ends the tool where something has a name of a list with the CR that would be the end of its line: nobody knows which one is meant."""
    for name in names:
        if os.path.lexists(name):
            found = shown(os.fsdecode(name))
            raise Stop(MALFORMED, f"{shown(path)}: {found} is a name, and a name with the end of its line: --null reads such lists")


def rows_of(path: str, null: bool) -> dict[str, str]:
    """The names of a list of two columns, a signature and its content: with a TAB between and one pair on each line, whose end may be CR LF
    if all have it, or with each name ended by an octet 00."""
    octets = read(path)
    if null:
        names = octets.split(b"\0")
        if names.pop() or len(names) % 2:
            raise Stop(MALFORMED, f"{shown(path)}: no list of pairs: names, each ended by an octet 00, two for each pair")
        rows = list(zip(names[::2], names[1::2]))
    else:
        lines = [line for line in octets.split(b"\n") if line]
        # (else a name can end so, and another file has the rest of it)
        if all(line.endswith(b"\r") for line in lines):
            check_ends(path, (line.partition(b"\t")[2] for line in lines))
            lines = [line[:-1] for line in lines]
        rows = [(first, second) for first, _, second in (line.partition(b"\t") for line in lines)]
    found: dict[str, str] = {}
    for number, (first, second) in enumerate(rows, 1):
        if not first or not second or b"\t" in second * (not null) or b"\0" in first + second:
            raise Stop(MALFORMED, f"{shown(path)}: line {number} is no pair: two names with a TAB between")
        name, content = os.fsdecode(first), os.fsdecode(second)
        if found.setdefault(name, content) != content:
            raise Stop(MALFORMED, f"{shown(path)}: line {number} names another content of {shown(name)}")
    return found


def rows_of_all(paths: Sequence[str], null: bool) -> dict[str, str]:
    """The names of several such lists, of which no two may name different contents of one file."""
    found: dict[str, str] = {}
    lists: list[tuple[str, dict[str, str]]] = []
    for path in paths:
        rows = rows_of(path, null)
        for name, content in rows.items():
            if found.setdefault(name, content) != content:
                other = next(before for before, there in lists if name in there)
                raise Stop(MALFORMED, f"{shown(path)}: it names another content of {shown(name)} than {shown(other)}")
        lists.append((path, rows))
    return found
