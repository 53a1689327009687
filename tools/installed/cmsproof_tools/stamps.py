"""Time-stamps beside the files that they stamp: `x.tsr` and `x.tst` stamp `x`. Whether one is a token or a response its octets say."""
from __future__ import annotations

import os
import stat
from typing import Callable, Iterator

from cmsproof_tools.pairs import is_regular

ENDINGS = (".tsr", ".tst")


def stamped_by(name: str) -> str | None:
    """The name of the file that one of this name stamps, or None where it is the name of no stamp."""
    first = next((name[: -len(ending)] for ending in ENDINGS if name.endswith(ending)), "")
    return first if os.path.basename(first) else None


def there(name: str) -> Iterator[tuple[str, int]]:
    """The names of what is there as a stamp of a file, whatever it is, and the mode of each."""
    for ending in ENDINGS:
        try:
            yield name + ending, os.lstat(name + ending).st_mode
        except (OSError, ValueError):
            continue


def beside(name: str) -> list[str]:
    """The names of the stamps beside a file: regular files and no links."""
    return [one for one, mode in there(name) if stat.S_ISREG(mode)]


def kinds_of_others(name: str) -> list[str]:
    """What is there as a stamp of a file and is none, each in a few words."""
    others = [(one, mode) for one, mode in there(name) if not stat.S_ISREG(mode)]
    return [f"{os.path.basename(one)}, {'a link' if stat.S_ISLNK(mode) else 'no regular file'}" for one, mode in others]


def may_have(name: str) -> bool:
    """Whether more than the file itself is to be looked at: a stamp of it, or what it stamps."""
    return stamped_by(name) is not None or any(True for _ in there(name))


def judged_with(name: str) -> list[str]:
    """The names of the files without which this one is not judged: the one that it stamps, and its stamps."""
    first = stamped_by(name)
    return [*([first] if first is not None and is_regular(first) else []), *beside(name)]


def belongs(name: str) -> bool:
    """Whether a file is a stamp of one that is there, and that is not a stamp of another one itself."""
    first = stamped_by(name)
    return first is not None and is_regular(first) and not belongs(first)


def without_belonging(names: list[str], keeps: Callable[[str], bool]) -> list[str]:
    """The names but those of stamps whose files are named too, and have a line: with these they are judged. What is to be kept stays."""
    named = {first for name in names if (first := stamped_by(name)) is not None}.intersection(names)

    def is_left_out(name: str) -> bool:
        first = stamped_by(name)
        if first is None or first not in named or keeps(name):
            return False
        return is_regular(first) and is_regular(name) and not is_left_out(first)

    return [name for name in names if not is_left_out(name)] if named else names
