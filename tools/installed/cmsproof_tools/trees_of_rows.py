"""The hash trees of evidence records that a state has rows of, for a report: the records are read anew, and one that is another than was
judged is not drawn."""
from __future__ import annotations

import hashlib
import html
from typing import Mapping, NamedTuple, Sequence, Tuple

from cmsproof_tools.checking import opened
from cmsproof_tools.evidenced import Records
from cmsproof_tools.rows import Row
from cmsproof_tools.running import shown
from cmsproof_tools.state import State
from cmsproof_tools.timelines import Use, day_of
from cmsproof_tools.trees import MOST_LEAVES, Picture, Tree, Undrawn, Way, digest_by, tree_of, way_in, way_of

# rows with the same time-stamps: their grounds, and the number of their basis
Kind = Tuple[str, int]
# how long a line is at most in the box of a time-stamp
LONGEST_LINE = 26
ABOUT = "Each dot is a digest: that of a file, or of all digests that lead to it from the left, in ascending order. Whoever changes a "
ABOUT += "file changes each dot to its right, and the root, the last one, is what the time-stamp is over. Thick is the way of {name}; "
ABOUT += "the rings beside it are what its record has, so that nobody needs the other files."


class Leaf(NamedTuple):
    """A file in a tree: its name as it is shown, what its record says, and its digest."""

    name: str
    way: Way
    digest: bytes


def rows_of(state: State, only: str, kinds: Mapping[Kind, Row]) -> dict[Kind, list[Row]]:
    """The rows of some kinds, of each so many that more are too many for a picture."""
    found: dict[Kind, list[Row]] = {kind: [row] for kind, row in kinds.items()}
    for row, basis in state.rows(only):
        several = found.get((row.grounds, basis))
        if several is not None and row != several[0] and len(several) <= MOST_LEAVES:
            several.append(row)
    return found


def digest_in(name: str, algorithm: str, row: Row) -> bytes:
    """The digest of the file of this name, which has the octets that were judged."""
    if algorithm == "sha256":
        return row.content
    with opened(name) as file:
        if hashlib.sha256(file.octets).digest() != row.content:
            raise Undrawn("it is another one now than was judged")
        return digest_by(algorithm, file.octets)


def leaf_of(records: Records, row: Row) -> Leaf:
    """What the record of a row says. Raises Undrawn where it cannot be read, or is another one than was judged."""
    # (a row can be of a record, by any of its names)
    name = records.file_of(row.name) or row.name
    place = records.place_of(name)
    if place is None or records.lacking(place):
        raise Undrawn("there is no record of it in --records")
    try:
        with opened(place) as record:
            if hashlib.sha256(record.octets).digest() != row.sha256:
                raise Undrawn("its record is another one now than was judged")
            way = way_in(record.octets)
        return Leaf(shown(name), way, digest_in(name, way.algorithm, row))
    except Undrawn:
        raise
    except Exception as error:  # whatever a folder of strangers has: the report is made
        raise Undrawn(f"its record or its file cannot be read: {error}") from error


def tree_with(tree: Tree, leaf: Leaf) -> Tree:
    """The tree with what another record says of it."""
    more = tree_of([leaf.way])
    return Tree(tree.root, {**tree.parts, **more.parts}, max(tree.levels, more.levels))


def picture(records: Records, rows: Sequence[Row], title: str, stamp: Sequence[str]) -> str:
    """The picture of the tree of some rows, in which the way of the first one is marked; of too many, or where another record cannot be read, of the
    first one alone. Raises Undrawn where there is none."""
    first = leaf_of(records, rows[0])
    alone = tree_of([first.way])
    if not way_of(alone, first.digest):
        raise Undrawn("its file is a part of what its record covers, or its first time-stamp is of something else")
    names, tree = {first.digest: [first.name]}, alone
    try:
        for row in rows[1:] if len(rows) <= MOST_LEAVES else ():
            leaf = leaf_of(records, row)
            if (leaf.way.stamped, leaf.way.algorithm) == (first.way.stamped, first.way.algorithm):
                tree = tree_with(tree, leaf)
                names.setdefault(leaf.digest, []).append(leaf.name)
        return Picture(tree, names, first.digest).drawn(title, stamp)
    except Undrawn:
        return Picture(alone, {first.digest: [first.name]}, first.digest).drawn(title, stamp)


def said_of(use: Use) -> list[str]:
    """What is said of a time-stamp in its box."""
    lines = [f"stamped {day_of(use.time)}", f"by {use.authority}", f"{use.algorithm}, over the root"]
    return [one if len(one) <= LONGEST_LINE else one[: LONGEST_LINE - 1] + "\u2026" for one in lines]


def drawn(records: Records, rows: Sequence[Row], use: Use) -> str:
    """What a page has of the tree of some rows, whose first time-stamp this is."""
    name = shown(rows[0].name)
    try:
        made = picture(records, rows, f"The hash tree of {name}", said_of(use))
    except Undrawn as error:
        return f'<p class="dim">Its hash tree is not drawn: {html.escape(str(error))}.</p>'
    return f'<div class="scroll">{made}</div><p class="dim">{html.escape(ABOUT.format(name=name))}</p>'
