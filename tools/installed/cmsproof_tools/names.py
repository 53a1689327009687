"""The names of very many files, in the memory of the process alone that hands them out: each worker would have them too."""
from __future__ import annotations

import mmap
from typing import Any, Iterator, Sequence

from cmsproof.octets import NO_RESERVE

# how many names stand in a block, which is made and read at a time
BLOCK = 128


class Names(Sequence[str]):
    """Names in the order of a list. A process that is started by this one does not have them, and may not ask for one."""

    def __init__(self, names: Sequence[str]) -> None:
        """Keeps these names, of which none has a character 0."""
        # (of what is not written nothing is taken)
        most = 4 * sum(map(len, names)) + len(names) + 1
        self.held = mmap.mmap(-1, most, flags=mmap.MAP_PRIVATE | mmap.MAP_ANONYMOUS | NO_RESERVE)
        self.held.madvise(mmap.MADV_DONTFORK)
        self.size, self.ends = len(names), [0]
        for at in range(0, len(names), BLOCK):
            self.held.write("\0".join(names[at : at + BLOCK]).encode("utf-8", "surrogatepass"))
            self.ends.append(self.held.tell())
        self.last: tuple[int, list[str]] = (-1, [])

    def block(self, number: int) -> list[str]:
        """The names of a block; the last one that was asked for is kept."""
        if self.last[0] != number:
            octets = self.held[self.ends[number] : self.ends[number + 1]]
            self.last = number, octets.decode("utf-8", "surrogatepass").split("\0")
        return self.last[1]

    def __len__(self) -> int:
        return self.size

    def __getitem__(self, at: Any) -> Any:
        if isinstance(at, slice):
            first, last, step = at.indices(self.size)
            if step != 1:
                return [self[one] for one in range(first, last, step)]
            blocks = range(first // BLOCK, -(-max(first, last) // BLOCK))
            names = [name for number in blocks for name in self.block(number)]
            return names[first - BLOCK * blocks.start : max(first, last) - BLOCK * blocks.start]
        place = range(self.size)[at]
        return self.block(place // BLOCK)[place % BLOCK]

    def __iter__(self) -> Iterator[str]:
        for number in range(len(self.ends) - 1):
            yield from self.block(number)


def kept(names: list[str]) -> Sequence[str]:
    """These names, so kept that workers do not have them."""
    return names if any("\0" in name for name in names) else Names(names)
