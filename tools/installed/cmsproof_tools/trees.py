"""The hash tree of evidence records (RFC 4998 4.2) as SVG: the digests of files, what they are joined to, the root, and the time-stamp over that.

Of a record alone the tree has what the record has of it (4.3): a file, its neighbours on each level, and the root. What several records with one root
have is drawn together. It is for a reader, and no part of a verdict: but a tree whose root is not what was stamped is not drawn.
"""
from __future__ import annotations

import hashlib
import html
from typing import NamedTuple, Sequence

from cmsproof.octets import Buffer
from cmsproof_tools import der
from cmsproof_tools.lasting import IN_RECORD, IN_STAMP, algorithms_of
from cmsproof_tools.plots import framed
from cmsproof_tools.signed_parts import parts_of, some, spans, tst_fields
from cmsproof_tools.timelines import NAMES, WIDTH

# how many leaves a picture has at most, and levels, and how many values a record may have that is looked at
MOST_LEAVES, MOST_LEVELS, MOST_VALUES = 64, 32, 4096
# the part for names and digests of leaves, for the time-stamp, where the first row is, how high a row is, and how far at most levels are apart
LEFT, RIGHT, TOP, ROW, STEP = 330, 250, 20, 24, 80
DIGEST_AT, LONGEST_NAME, OF_LEAF, OF_NODE, TO_STAMP = 238, 34, 8, 6, 78
REDUCED_HASH_TREE = 0xA2


class Undrawn(Exception):
    """A tree that is not drawn: the text says why."""


class Way(NamedTuple):
    """What the first time-stamp of a record says of a tree: its digest algorithm, the lists of values that lead to the root, and what was
    stamped."""

    algorithm: str
    lists: tuple[tuple[bytes, ...], ...]
    stamped: bytes


class Tree(NamedTuple):
    """What is known of a tree: its root, of each node that is known the values in it, in ascending order, and how many lists led to the root at
    most."""

    root: bytes
    parts: dict[bytes, tuple[bytes, ...]]
    levels: int


class Placed(NamedTuple):
    """A value in a picture: its level, 0 of what no values are known of, its height, and the values in it."""

    value: bytes
    level: int
    high: float
    below: tuple[Placed, ...]


def lists_in(octets: Buffer, begin: int, end: int) -> tuple[tuple[bytes, ...], ...]:
    """The lists of hash values in this part of octets (PartialHashtree, RFC 4998 4.1). Raises Undrawn where they are too many."""
    found, count = list[tuple[bytes, ...]](), 0
    for _, _, first, last in spans(octets, begin, end):
        values = list[bytes]()
        for _, _, at, stop in spans(octets, first, last):
            values.append(bytes(octets[at:stop]))
            count += 1
            if count > MOST_VALUES:
                raise Undrawn(f"its record has more than {MOST_VALUES} values")
        found.append(tuple(values))
        if len(found) > MOST_LEVELS:
            raise Undrawn(f"it has more than {MOST_LEVELS} levels")
    return tuple(found)


def way_in(record: Buffer) -> Way:
    """What the first time-stamp of a record says. Raises Undrawn where that cannot be read."""
    try:
        ((_, _, begin, end),) = some(record, 0, len(record), 1)
        chains = some(record, begin, end, IN_RECORD)[-1]
        chain = next(spans(record, *chains[2:]))
        stamp = next(spans(record, *chain[2:]))
        fields = some(record, *stamp[2:], IN_STAMP)
        token = bytes(record[fields[-1][1] : fields[-1][3]])
        algorithm, stamped = der.elements(tst_fields(token, parts_of(token, len(token)))[2].contents, 2)
        name = NAMES.get(algorithms_of(record, fields, algorithm.contents)[0], "")
        lists = [lists_in(record, begin, end) for kind, _, begin, end in fields[:-1] if kind == REDUCED_HASH_TREE]
    except (ValueError, IndexError, StopIteration) as error:
        raise Undrawn("its record cannot be read") from error
    if not name:
        raise Undrawn("its digest algorithm is not known")
    return Way(name, lists[0] if lists else (), stamped.contents)


def digest_by(algorithm: str, octets: Buffer) -> bytes:
    """The digest of octets by the algorithm of this name."""
    return hashlib.new(algorithm.replace("sha512-", "sha512_"), octets).digest()


def tree_of(ways: Sequence[Way]) -> Tree:
    """What the ways of some records to one root say together (RFC 4998 4.3, step 3). Raises Undrawn where one leads elsewhere."""
    first, parts = ways[0], dict[bytes, tuple[bytes, ...]]()
    for way in ways:
        found = list[bytes]()
        for values in way.lists:
            joined = sorted([*values, *found])
            found = [digest_by(way.algorithm, b"".join(joined))] if len(joined) > 1 else joined
            if len(joined) > 1:
                parts[found[0]] = tuple(joined)
        if (found or [way.stamped]) != [way.stamped] or way.stamped != first.stamped:
            raise Undrawn("its root is not what was stamped")
    return Tree(first.stamped, parts, max(len(way.lists) for way in ways))


def placed(tree: Tree) -> Placed:
    """The tree with a place for each value, in the order in which values are joined. Raises Undrawn where it has too many leaves: of a value that
    stands in a list twice all is drawn twice."""
    rows = 0

    def put(value: bytes, left: int) -> Placed:
        nonlocal rows
        values = tree.parts.get(value, ())
        if not values or not left:
            rows += 1
            if rows > MOST_LEAVES:
                raise Undrawn(f"it has more than {MOST_LEAVES} leaves")
            return Placed(value, 0, TOP + ROW * (rows - 0.5), ())
        below = tuple(put(one, left - 1) for one in values)
        return Placed(value, 1 + max(one.level for one in below), (below[0].high + below[-1].high) / 2, below)

    return put(tree.root, tree.levels)


def way_of(tree: Tree, leaf: bytes) -> list[bytes]:
    """The values from a leaf to the root; none where it does not lead there."""
    above = {one: value for value, values in tree.parts.items() for one in values}
    found = [leaf]
    while found[-1] != tree.root and found[-1] in above and len(found) <= tree.levels:
        found.append(above[found[-1]])
    return found if found[-1] == tree.root else []


def short(value: bytes, most: int) -> str:
    """The beginning of a digest."""
    return value.hex()[:most] + "\u2026"


def name_of(names: Sequence[str]) -> str:
    """The files of a leaf, in a few words."""
    more = f" and {len(names) - 1:,} more" if len(names) > 1 else ""
    room = LONGEST_NAME - len(more)
    return (names[0] if len(names[0]) <= room else names[0][: room - 1] + "\u2026") + more


class Picture:
    """A picture of a tree, in which names of files have leaves, and the way of one leaf is marked."""

    def __init__(self, tree: Tree, names: dict[bytes, list[str]], leaf: bytes) -> None:
        self.names, self.root = names, placed(tree)
        self.way, self.parts = set(way_of(tree, leaf)), list[str]()
        # (what stands beside the way is what the record of the leaf has)
        held = {one for value in self.way for one in tree.parts.get(value, ())}
        self.held = held - self.way
        self.step = min(STEP, (WIDTH - LEFT - RIGHT) / max(1, self.root.level))

    def at(self, level: int) -> float:
        """Where the values of a level stand."""
        return round(LEFT + self.step * level, 1)

    def kind(self, value: bytes) -> str:
        """The class of a value."""
        return "way" if value in self.way else "held" if value in self.held else "node"

    def text(self, kind: str, left: float, high: float, said: str, whole: str = "") -> None:
        """Draws a text, which shows the whole of it when it is pointed at."""
        title = f"<title>{html.escape(whole)}</title>" if whole else ""
        self.parts.append(f'<text class="{kind}" x="{left}" y="{high:.1f}">{html.escape(said)}{title}</text>')

    def leaf(self, one: Placed) -> None:
        """Draws the text of a value of which no values are known: that of a file, or of others."""
        names = self.names.get(one.value, [])
        kind = "said" if one.value in self.way else "" if names else "dim"
        self.text(kind, 0, one.high + 4, name_of(names) if names else "of other files", ", ".join(names[:MOST_LEAVES]))
        self.text("dim", DIGEST_AT, one.high + 4, short(one.value, OF_LEAF), one.value.hex())

    def value(self, one: Placed, above: float, high: float) -> None:
        """Draws a value and all below, and a line to the place of what it is joined to."""
        left, kind = self.at(one.level), self.kind(one.value)
        line = "way" if kind == "way" else "join"
        self.parts.append(f'<path class="{line}" d="M{left} {one.high:.1f} H{above} V{high:.1f}"/>')
        for below in one.below:
            self.value(below, left, one.high)
        if one.below:
            self.text("dim", left + 6, one.high - 4, short(one.value, OF_NODE), one.value.hex())
        else:
            self.leaf(one)
        self.parts.append(f'<circle class="{kind}" cx="{left}" cy="{one.high:.1f}" r="4.5"/>')

    def drawn(self, title: str, stamp: Sequence[str]) -> str:
        """The picture, with what is said of the time-stamp behind the root."""
        right, high, count = self.at(self.root.level) + TO_STAMP, self.root.high, 1 + sum(1 for _ in leaves(self.root))
        self.value(self.root, right, high)
        tall = 18 * len(stamp) + 8
        self.parts.append(
            f'<rect class="stamp" x="{right}" y="{high - tall / 2:.1f}" width="{RIGHT - TO_STAMP - 2}" height="{tall}"/>'
        )
        for number, said in enumerate(stamp):
            self.text("said" if not number else "dim", right + 6, high - tall / 2 + 18 * (number + 1), said)
        return framed(WIDTH, int(max(TOP + ROW * count, high + tall / 2 + 4)), title, self.parts)


def leaves(one: Placed) -> list[Placed]:
    """The values in a picture of which no values are known."""
    return [leaf for below in one.below for leaf in leaves(below)] if one.below else [one]
