"""The regular files under a folder, in the order of their names. Links are not followed."""
from __future__ import annotations

import errno
import os
import stat
from typing import Callable, Iterator, Optional

# a folder is opened by its name in the one that it stands in, which is open: no link leads out of the folder that was named
TOP = os.O_RDONLY | os.O_DIRECTORY | os.O_CLOEXEC
BELOW = TOP | os.O_NOFOLLOW
# what a name says that is a folder's no more
NO_FOLDER = (errno.ELOOP, errno.ENOTDIR)


class Open:
    """A folder that is open: its name, its descriptor, and the names in it that are still to be looked at, the last one first."""

    def __init__(self, name: str, descriptor: int) -> None:
        self.name, self.descriptor = name, descriptor
        try:
            # (one that is renamed meanwhile can be listed twice)
            self.rest = sorted(set(os.listdir(descriptor)), key=os.fsencode, reverse=True)
        except OSError:
            os.close(descriptor)
            raise


def files_under(
    folder: str, skipped: Callable[[str, str], None], unseen: Optional[Callable[[str, OSError], None]] = None
) -> Iterator[str]:
    """The names of the regular files under a folder, sorted by their octets, those of a folder where its name stands. `skipped` is
    told the name and the kind of what is none. A folder that cannot be listed is given itself, so that it is reported; one below, and
    what cannot be looked at, is told to `unseen`, if there is that."""
    walked: list[Open] = []
    try:
        walked.append(Open(folder, os.open(folder, TOP)))
    except OSError:
        yield folder
    try:
        while walked:
            above = walked[-1]
            if not above.rest:
                os.close(walked.pop().descriptor)
                continue
            one = above.rest.pop()
            name = os.path.join(above.name, one)
            try:
                mode = os.lstat(one, dir_fd=above.descriptor).st_mode
                if stat.S_ISDIR(mode):
                    walked.append(Open(name, os.open(one, BELOW, dir_fd=above.descriptor)))
                    continue
            except OSError as error:
                if error.errno in NO_FOLDER:
                    skipped(name, "no folder any more")
                elif unseen is not None:
                    unseen(name, error)
                else:
                    yield name
                continue
            if stat.S_ISREG(mode):
                yield name
            else:
                skipped(name, "a link" if stat.S_ISLNK(mode) else "no regular file")
    finally:
        for left in walked:
            os.close(left.descriptor)
