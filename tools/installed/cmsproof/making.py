"""Evidence records (RFC 4998) that are made of digests, and renewed, by a time-stamp over the root of a hash tree."""
from __future__ import annotations

from contextlib import contextmanager
from typing import Iterator, NamedTuple, Optional, Sequence, Union

from cmsproof import library as lib
from cmsproof.calls import Room
from cmsproof.octets import Given, Octets, copied, octets_of, of_bytes
from cmsproof.verdicts import Unexpected, code_of

# how many octets a digest by each algorithm has
LENGTHS = {"sha1": 20, "sha224": 28, "sha256": 32, "sha384": 48, "sha512": 64, "sha512-224": 28, "sha512-256": 32}
NONE = of_bytes(b"")
# the digest of the data of a record, or the digests of several data objects
OfData = Union[bytes, list[bytes], tuple[bytes, ...]]


class Unmade(ValueError):
    """No record was made or renewed: its text is the line of the program. `code` is that of the rule, as 'U8', or of the fault that a
    record has, as 'M7'; and `place` the place of the record that is meant, from 0, or None where it is the token."""

    def __init__(self, line: str, code: str, place: Optional[int]) -> None:
        super().__init__(line, code, place)
        self.line, self.code, self.place = line, code, place

    def __str__(self) -> str:
        return self.line if self.place is None else f"{self.line} (record {self.place})"


class Root(NamedTuple):
    """What an authority is asked to stamp: a digest by an algorithm, as `cmsproof.request` takes them."""

    algorithm: str
    digest: bytes


class Maker:
    """The calls that make and renew records, with one room for what they write."""

    def __init__(self) -> None:
        self.room = Room()

    def made(self, name: str, *words: object, place: Optional[int] = None) -> bytes:
        """What a call made. Raises Unmade where it is refused."""
        status, text = self.room.written(getattr(lib.library(), name), *words)
        answer = self.room.answer
        if status == lib.DONE and answer.verdict == lib.WRITTEN:
            return text
        line, code = text.decode("ascii", "replace"), code_of(answer)
        word = {lib.REFUSED: "refused", lib.MALFORMED: "malformed"}.get(status)
        if not word or not code or not line.endswith("\n") or line.split()[:2] != [word, code]:
            raise Unexpected(f"the library said status {status} and verdict {answer.verdict}, and the line {line!r}")
        # (U7 and U8 are of the token, and U9 is of the record that is too late for it)
        raise Unmade(line.rstrip("\n"), code, None if code in ("U7", "U8") else place)

    def root(self, tree: lib.Handle) -> bytes:
        """The root of a tree."""
        return self.made("cmsproof_tree_root", tree)


@contextmanager
def tree_of(algorithm: str, digests: Sequence[bytes]) -> Iterator[lib.Handle]:
    """A hash tree over digests in the library's memory, for the calls of one block."""
    loaded, tree, said, name, octets = lib.library(), lib.Handle(), lib.Answer(), algorithm.encode(), b"".join(digests)
    try:
        status = loaded.cmsproof_tree_make(tree, *of_bytes(name), *of_bytes(octets), said)
        if status == lib.NO_MEMORY:
            raise MemoryError("libcmsproof was refused memory")
        if status != lib.DONE:
            raise Unexpected(f"the library said status {status} of a tree")
        yield tree
    finally:
        loaded.cmsproof_tree_free(tree)


def digests_in(algorithm: str, digests: Sequence[bytes]) -> list[bytes]:
    """Digests by an algorithm, each as octets of its own. Raises ValueError if there is none, or one is not as long as they are."""
    if algorithm not in LENGTHS:
        raise ValueError(f"{algorithm!r} is none of {', '.join(LENGTHS)}")
    # (of a number `bytes` would make as many zeros)
    found = [memoryview(digest).tobytes() for digest in digests]
    if not found:
        raise ValueError("a digest is needed, or more")
    for digest in found:
        if len(digest) != LENGTHS[algorithm]:
            raise ValueError(f"{digest.hex()} is no digest by {algorithm}")
    return found


def copy_of(given: Given) -> Octets:
    """The octets of a record or a token, in memory. Raises OSError for a file that cannot be read or changes meanwhile."""
    with octets_of(given) as octets:
        return of_bytes(copied(octets))


def records_in(records: Union[Given, Sequence[Given]]) -> list[Octets]:
    """The octets of one record or of several. Raises ValueError if there is none."""
    given = records if isinstance(records, (list, tuple)) else (records,)
    if not given:
        raise ValueError("a record is needed, or more")
    return [copy_of(one) for one in given]


def token_in(token: Optional[Given]) -> Octets:
    """The octets of a token, if there is one."""
    return NONE if token is None else copy_of(token)


def root(digests: Sequence[bytes], *, algorithm: str = "sha256") -> bytes:
    """What a time-stamp must be of, so that `make` can make an evidence record for each of these digests: the root of the hash tree over
    them. `cmsproof.request(digest=..)` makes the request. Raises ValueError where there is no digest, or one is not by the algorithm.
    """
    with tree_of(algorithm, digests_in(algorithm, digests)) as tree:
        return Maker().root(tree)


def make(digests: Sequence[bytes], token: Given, *, algorithm: str = "sha256") -> list[bytes]:
    """The evidence record for each of these digests, in their order, with a token over their root: what `cmsproof evidence make` writes.

    `token` is octets, or the path of a regular file. No signature is verified. Raises `Unmade` if the token is of something else, and
    ValueError as `root`.
    """
    maker, stamp, found = Maker(), copy_of(token), digests_in(algorithm, digests)
    with tree_of(algorithm, found) as tree:
        return [
            maker.made("cmsproof_evidence_make", tree, *of_bytes(digest), *stamp, place=place)
            for place, digest in enumerate(found)
        ]


def renewed_by(maker: Maker, records: Sequence[Octets], token: Octets) -> tuple[str, list[bytes]]:
    """The algorithm by which records are renewed by a time-stamp, and the leaf of each."""
    name = maker.made("cmsproof_evidence_renew_algorithm", *records[0], place=0)
    leaves = [
        maker.made("cmsproof_evidence_renew_leaf", *record, *of_bytes(name), *token, place=place)
        for place, record in enumerate(records)
    ]
    return name.decode("ascii"), leaves


def renewal_algorithm(record: Given) -> str:
    """The algorithm of the last chain of an evidence record, by which alone `renew` renews it. Raises `Unmade` where it cannot be renewed."""
    return Maker().made("cmsproof_evidence_renew_algorithm", *copy_of(record)).decode("ascii")


def renewal_root(records: Union[Given, Sequence[Given]], *, token: Optional[Given] = None) -> Root:
    """What a new time-stamp must be of, so that `renew` can renew these evidence records by it.

    A record is octets, or the path of a regular file; several are a list or a tuple. `token` is one by which some of them may be renewed
    already, as where earlier work was cut off. Raises `Unmade` where a record is none, or cannot be renewed so beside the others.
    """
    maker = Maker()
    algorithm, leaves = renewed_by(maker, records_in(records), token_in(token))
    with tree_of(algorithm, leaves) as tree:
        return Root(algorithm, maker.root(tree))


def renew(records: Union[Given, Sequence[Given]], token: Given) -> list[bytes]:
    """These evidence records, renewed by a token over their root (Time-Stamp Renewal, RFC 4998 5.2), in their order: what `cmsproof
    evidence renew` writes. One that the token has renewed already stays as it is. No signature is verified.

    Records are handed in as to `renewal_root`. Raises `Unmade`: then none is renewed.
    """
    maker, octets, stamp = Maker(), records_in(records), copy_of(token)
    algorithm, leaves = renewed_by(maker, octets, stamp)
    with tree_of(algorithm, leaves) as tree:
        return [
            maker.made("cmsproof_evidence_renew", tree, *record, *stamp, place=place) for place, record in enumerate(octets)
        ]


def groups_in(algorithm: str, groups: Sequence[OfData]) -> list[bytes]:
    """The digests of the data of each record, one behind another. Raises ValueError as `digests_in`."""
    return [b"".join(digests_in(algorithm, group if isinstance(group, (list, tuple)) else [group])) for group in groups]


def rehashed_by(
    maker: Maker, records: Sequence[Octets], digests: Sequence[bytes], algorithm: str, alone: bool, token: Octets
) -> list[bytes]:
    """The leaf of each record that gets a new chain for the data of these digests."""
    if len(records) != len(digests):
        raise ValueError(f"{len(records)} records are for the digests of {len(digests)}")
    name, leaves = algorithm.encode(), []
    for place, (record, of_data) in enumerate(zip(records, digests)):
        words = (*record, *of_bytes(name), *of_bytes(of_data), alone, *token)
        leaves.append(maker.made("cmsproof_evidence_rehash_leaf", *words, place=place))
    return leaves


def rehash_root(
    records: Union[Given, Sequence[Given]],
    digests: Sequence[OfData],
    *,
    algorithm: str = "sha256",
    alone: bool = False,
    token: Optional[Given] = None,
) -> bytes:
    """What a new time-stamp must be of, so that `rehash` can give these evidence records new chains by it.

    Records and `token` are handed in as to `renewal_root`; of each record there is the digest of its data by the new algorithm, or a list
    or a tuple of digests, where it is over several data objects. Raises `Unmade` also where a record's first list has another number of
    values (U11), unless all records are `alone`: what else stands in their lists is of other records in the tree.
    """
    maker = Maker()
    leaves = rehashed_by(maker, records_in(records), groups_in(algorithm, digests), algorithm, alone, token_in(token))
    with tree_of(algorithm, leaves) as tree:
        return maker.root(tree)


def rehash(
    records: Union[Given, Sequence[Given]],
    digests: Sequence[OfData],
    token: Given,
    *,
    algorithm: str = "sha256",
    alone: bool = False,
) -> list[bytes]:
    """These evidence records with new chains by a token over their root (Hash-Tree Renewal, RFC 4998 5.2), in their order: what `cmsproof
    evidence rehash` writes. One that has its new chain already stays as it is. A new chain covers the data of the digests, and no other. No
    signature is verified.

    What is handed in is as for `rehash_root`. Raises `Unmade`: then none is renewed.
    """
    maker, octets, found, stamp = Maker(), records_in(records), groups_in(algorithm, digests), copy_of(token)
    leaves = rehashed_by(maker, octets, found, algorithm, alone, stamp)
    with tree_of(algorithm, leaves) as tree:
        return [
            maker.made("cmsproof_evidence_rehash", tree, *record, *of_bytes(of_data), alone, *stamp, place=place)
            for place, (record, of_data) in enumerate(zip(octets, found))
        ]
