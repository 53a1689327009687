"""What `evidence make`, `evidence renew` and `evidence rehash` must print and write: the first archive time-stamp of a record (RFC 4998 4.2), one
more in its last chain, or a chain more (5.2). Written from those, from docs/REFUSALS.md, section 13, and docs/LINES.md, and apart from the program.

Each answer is a line, a status, and the files that must then be there by their names, with what they have."""
from __future__ import annotations

from typing import Callable, NamedTuple, Optional

from oracle import der, evidence, forms, sums
from oracle.der import element, number, octets, oid, sequence
from oracle.identifiers import DIGEST_OIDS
from oracle.records import Record, Stamp, evidence_record, stated
from oracle.rules import digest, digest_name
from oracle.sums import Refused

Answer = tuple[str, int, dict[str, bytes]]
RULES = {"U3": "NoStamp", "U7": "TokenMalformed", "U8": "ImprintDiffers", "U9": "Order", "U11": "Unnamed"}


class Standing(NamedTuple):
    """What a renewal stands on: the name of its digest algorithm, what it must cover, the last moment, and whether it is made already."""

    alg: str
    covered: list[bytes]
    time: str
    done: bool

    @property
    def leaf(self) -> bytes:
        """The leaf of the hash tree."""
        return evidence.node(self.alg, self.covered)


def refused(code: str) -> Refused:
    """The refusal of this code."""
    return Refused(f"refused {code} {RULES[code]}", 1)


def request(root: bytes, alg: str) -> bytes:
    """The request for a time-stamp of a root (RFC 3161 2.4.1), for no policy, without a nonce and without a certificate."""
    return sequence(number(1), sequence(sequence(oid(DIGEST_OIDS[alg]), element(5)), octets(root)))


def told_of(token: bytes, root: bytes, alg: str, after: str = "") -> forms.TstInfo:
    """What the token of a root states. Raises Refused for U7 to U9."""
    told = stated(token)
    if told is None:
        raise refused("U7")
    if (digest_name(told.imprint.alg), told.imprint.digest) != (alg, root):
        raise refused("U8")
    if told.time <= after:
        raise refused("U9")
    return told


def made(text: bytes, token: bytes, folder: str) -> Answer:
    """What `evidence make` does with a list of digests by SHA-256 and a token, into a folder."""
    try:
        lines = sums.read(text)
        root, paths = sums.tree([one.digest for one in lines])
        told_of(token, root, "sha256")
    except Refused as error:
        return *error.said, {}
    return "", 0, {f"{folder}/{one.name.decode()}.ers": sums.record(paths[one.digest], token) for one in lines}


def fits(stamp: Stamp, alg: str, leaf: bytes, after: str) -> bool:
    """Whether an archive time-stamp is over a leaf, and later than a moment (4.3)."""
    told = stated(stamp.token)
    if told is None or evidence.algorithm_of(stamp, told) != alg:
        return False
    has_lengths = all(len(value) == len(leaf) for values in stamp.lists for value in values)
    if not has_lengths or (stamp.lists and leaf not in stamp.lists[0]):
        return False
    try:
        told_of(stamp.token, evidence.root(alg, stamp.lists, [leaf]), alg, after)
    except Refused:
        return False
    return True


def last_stamp(chains: list[list[Stamp]]) -> Standing:
    """What a renewal by a time-stamp stands on, of these chains (5.2): the digest of the last time-stamp, by the algorithm of its chain."""
    *_, chain = chains
    alg, told = evidence.algorithm_of(chain[0], stated(chain[0].token)), stated(chain[-1].token)
    if alg is None or told is None:
        raise refused("U3")
    return Standing(alg, [digest(alg, chain[-1].token)], told.time, False)


def renewal_of(record: Record, token: Optional[bytes]) -> Standing:
    """What the renewal of a record by a time-stamp stands on: of one that has it already, what that stood on."""
    *before, last = record.chains
    if token is not None and last[-1].token == token and len(last) > 1:
        try:
            found = last_stamp([*before, last[:-1]])
            if fits(last[-1], found.alg, found.leaf, found.time):
                return found._replace(done=True)
        except Refused:
            pass
    return last_stamp(record.chains)


def rehash_of(record: Record, token: Optional[bytes], of_files: list[bytes], alone: bool = False) -> Standing:
    """What a new chain by SHA-256 of a record stands on, for the files of these digests (5.2, steps 1 to 5), which must be as many as its
    first list has values, unless other values there are of neighbours."""

    def over(count: int) -> Standing:
        told = stated(record.chains[count - 1][-1].token)
        if told is None:
            raise refused("U3")
        before = digest("sha256", sequence(*record.wholes[:count]))
        covered = sorted({digest("sha256", of_file + before) for of_file in of_files})
        return Standing("sha256", covered, told.time, False)

    count, last = len(record.chains), record.chains[-1]
    if token is not None and count > 1 and len(last) == 1 and last[0].token == token:
        try:
            found = over(count - 1)
            if all(fits(last[0], found.alg, leaf, found.time) for leaf in found.covered):
                return found._replace(done=True)
        except Refused:
            pass
    found, lists = over(count), record.chains[0][0].lists
    if not alone and len(of_files) != (len(lists[0]) if lists else 1):
        raise refused("U11")
    return found


def record_in(octets: bytes) -> Record:
    """The record, which must be open. Raises Refused."""
    try:
        record = forms.whole(octets, evidence_record)
    except der.Fault as fault:
        raise Refused(f"malformed {fault}", 2) from fault
    if record.encryption is not None:
        raise refused("U3")
    return record


def with_algorithm(algorithms: der.Element, alg: str) -> bytes:
    """digestAlgorithms (3.1) with this algorithm at the end, unless one names it."""
    named = [forms.whole(one.whole(), forms.algorithm) for one in der.elements(algorithms.body())]
    more = b"" if alg in map(digest_name, named) else sequence(oid(DIGEST_OIDS[alg]))
    return sequence(algorithms.body(), more)


def renewed(octets: bytes, standing: Standing, token: bytes, is_chain: bool) -> bytes:
    """The record with one archive time-stamp more, in a chain of its own or in the last one."""
    (whole,) = der.elements(octets)
    version, algorithms, *between, chains = der.elements(whole.body())
    alg = oid(DIGEST_OIDS[standing.alg])
    lists = element(0xA2, sequence(*map(der.octets, standing.covered)))
    stamp = sequence(element(0xA0, alg), lists, token)
    *before, last = (one.whole() for one in der.elements(chains.body()))
    if is_chain:
        after = [*before, last, sequence(stamp)]
    else:
        after = [*before, sequence(der.elements(last)[0].body(), stamp)]
    parts = (version.whole(), with_algorithm(algorithms, standing.alg), *(one.whole() for one in between), sequence(*after))
    return sequence(*parts)


def answered(octets: bytes, token: Optional[bytes], name: str, stands: Callable[[Record], Standing], is_chain: bool) -> Answer:
    """What a command says of one record with a token, which the file of this name gets, or without one: then that is the request."""
    try:
        standing = stands(record_in(octets))
        if token is None:
            return "", 0, {name: request(standing.leaf, standing.alg)}
        told_of(token, standing.leaf, standing.alg, standing.time)
    except Refused as error:
        return *error.said, {} if token is None else {name: octets}
    return "", 0, {name: octets if standing.done else renewed(octets, standing, token, is_chain)}


def renew(octets: bytes, token: Optional[bytes], name: str) -> Answer:
    """What `evidence renew` does with one record."""
    return answered(octets, token, name, lambda record: renewal_of(record, token), False)


def rehash(text: bytes, octets: bytes, token: Optional[bytes], name: str, alone: bool = False) -> Answer:
    """What `evidence rehash --alg sha256` does with a list of the files of one record, which this is."""
    try:
        ((_, digests),) = sums.recorded(text)
    except Refused as error:
        return *error.said, {} if token is None else {name: octets}
    return answered(octets, token, name, lambda record: rehash_of(record, token, digests, alone), True)
