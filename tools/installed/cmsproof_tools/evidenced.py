"""Evidence records (RFC 4998) of files: that of a file stands in a folder of records, under the path that the file has in the archive, with
`.ers` behind it."""
from __future__ import annotations

import errno
import os
import stat
from typing import Callable, Iterable, Iterator, NamedTuple, Union

from cmsproof_tools.folders import files_under
from cmsproof_tools.pairs import is_regular
from cmsproof_tools.texts import in_order

ENDING = ".ers"
# what is in the place of a record that is none, or that nobody can say what is there
NOTHING, NO_FILE, UNSEEN = "nothing", "no regular file", "out of reach"
# what is said of a name that nothing has, or can have
NONE_THERE = (errno.ENOENT, errno.ENOTDIR, errno.ENAMETOOLONG, errno.EINVAL)


class Records(NamedTuple):
    """Where the records of files are, and by what they are judged.

    folder   the folder of the records, and archive that of the files, each as the user named it
    tops     the paths of both, with no part that leads up
    here     the folder in which relative names are
    ends     until when algorithms hold: pairs of a name and a moment
    at       the moment up to which the last time-stamp of a record serves; "" is its own time
    whole    whether the first list of a record may have no other hash value than its file's
    signed   whether what is signed is judged by its record too, at the moment that this shows
    """

    folder: str
    archive: str
    tops: tuple[str, str]
    here: str
    ends: tuple[tuple[str, str], ...] = ()
    at: str = ""
    whole: bool = False
    signed: bool = False

    def path_in(self, top: str, name: str) -> Union[str, None]:
        """The path of a name under a folder, which has no part that leads up, "" for the folder itself; None where the name leads
        elsewhere. No link is followed."""
        full, above = os.path.normpath(os.path.join(self.here, name)), top.rstrip("/") + "/"
        return full[len(above) :] if full.startswith(above) else "" if full == top else None

    def place_of(self, name: str) -> Union[str, None]:
        """Where the record of a file is to be; None of a file that is not in the archive's folder."""
        path = self.path_in(self.tops[1], name)
        return os.path.join(self.folder, path + ENDING) if path else None

    def file_of(self, name: str) -> Union[str, None]:
        """The name of the file whose record is to be in this place; None of a name that is no such place."""
        path = self.path_in(self.tops[0], name)
        if path is None or not path.endswith(ENDING) or not os.path.basename(path)[: -len(ENDING)]:
            return None
        return os.path.join(self.archive, path[: -len(ENDING)])

    def lacking(self, place: str) -> str:
        """What is in the place of a record that is none, in a few words: no text of a regular file that no link under the folder of the
        records leads to."""
        at = os.path.join(self.folder, "")
        try:
            for part in place[len(at) :].split("/"):
                at = os.path.join(at, part)
                mode = os.lstat(at).st_mode
                if stat.S_ISLNK(mode):
                    return "a link"
        except (OSError, ValueError) as error:
            return NOTHING if getattr(error, "errno", errno.EINVAL) in NONE_THERE else UNSEEN
        return "" if stat.S_ISREG(mode) else NO_FILE

    def judged_with(self, name: str) -> list[str]:
        """The names of the files without which this one is not judged: its record, or the file whose record it is."""
        if (first := self.file_of(name)) is not None:
            return [first] if is_regular(first) else []
        place = self.place_of(name)
        return [place] if place is not None and not self.lacking(place) else []

    def without_records(self, names: list[str]) -> list[str]:
        """The names but those of records whose files are named too: with these they are judged."""
        places = {name for name in names if name.endswith(ENDING) and self.file_of(name) is not None}
        if not places:
            return names
        # (a record that is named is judged as one, and without what stands in the place of its own)
        named = {self.path_in(self.tops[1], name) for name in names if name not in places}
        return [name for name in names if name not in places or self.path_in(self.tops[0], name[: -len(ENDING)]) not in named]

    def walked(self, folder: str, below: list[str], skipped: Callable[[str, str], None]) -> list[str]:
        """What is to be judged of the files under a folder: each but those in the places of records, and each of these whose file is not
        there. Where the folder itself is one of records, all are judged as they are named."""
        top = os.path.normpath(os.path.join(self.here, folder))
        if self.path_in(self.tops[0], folder) is not None:
            return below
        path = "" if self.tops[1].startswith(top.rstrip("/") + "/") else self.path_in(self.tops[1], folder)
        files = [name for name in below if not name.endswith(ENDING) or self.file_of(name) is None]
        place = os.path.join(self.folder, path or "")
        if path is None or (path and self.lacking(place) != NO_FILE):
            return files
        places = [name for name in files_under(place, skipped) if (first := self.file_of(name)) and not is_regular(first)]
        return [*files, *places]

    def words(self) -> Iterator[str]:
        """The words of a run that judge records, but those that name folders."""
        yield "--records"
        yield from (f"--end {name}={last}" for name, last in self.ends)
        yield from ([f"--at {self.at}"] if self.at else [])
        yield from (["--whole"] if self.whole else [])
        yield from (["--by-records"] if self.signed else [])


def first_ends(ends: Iterable[tuple[str, str]]) -> tuple[tuple[str, str], ...]:
    """The ends of algorithms, by their names: of several for one algorithm the earliest counts."""
    found: dict[str, str] = {}
    for name, last in sorted(ends):
        if name not in found or in_order(last, found[name]):
            found[name] = last
    return tuple(found.items())


def records_in(
    folder: str,
    archive: str = "",
    ends: tuple[tuple[str, str], ...] = (),
    at: str = "",
    whole: bool = False,
    signed: bool = False,
) -> Records:
    """The records in a folder, of the files in the folder of an archive, or where that is "" of those in the folder of this process. Raises
    ValueError for both `whole` and `signed`: what judges signed files by records lets these cover more."""
    if whole and signed:
        raise ValueError("a record by which a signed file is judged may cover more than that: whole and signed do not go together")
    here = os.getcwd()
    folders, archives = (os.path.normpath(os.path.join(here, one)) for one in (folder, archive))
    return Records(folder, archive, (folders, archives), here, first_ends(ends), at, whole, signed)
