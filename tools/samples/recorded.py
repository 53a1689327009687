"""Evidence records (RFC 4998) whose tokens are those of building.py: signatures are any octets, and whoever reads the records is told which
of them are good. Hash values are computed by RFC 4998 4.2, 4.3, 5.2 and 5.3 over octets that were handed in."""
from __future__ import annotations

from oracle.der import element, number, octets, oid, sequence
from oracle.evidence import root
from oracle.identifiers import DIGEST_OIDS
from samples.building import Token, digest_alg, sha


def archive_stamp(token, lists=(), alg=None, attributes=b""):
    """An ArchiveTimeStamp (4.1) with these lists of hash values, if there is one; it names its algorithm only if one is handed in, and has
    the field of attributes only if there are some."""
    named = element(0xA0, oid(DIGEST_OIDS[alg])) if alg else b""
    more = element(0xA1, attributes) if attributes else b""
    held = element(0xA2, *(sequence(*map(octets, values)) for values in lists)) if lists else b""
    return sequence(named, more, held, token)


def record_of(*chains, more=b""):
    """An EvidenceRecord (3.1) of chains, each a list of ArchiveTimeStamps, with more in front of them."""
    return sequence(number(1), sequence(digest_alg()), more, sequence(*(sequence(*stamps) for stamps in chains)))


class Growing:
    """A record of data that gets one time-stamp after the other."""

    def __init__(self, *data):
        self.data, self.chains, self.tokens, self.alg = data, [], [], ""

    def begin(self, at, alg="sha256", **rest):
        """A time-stamp that begins a chain by this algorithm: over the data, and in a later chain over all chains before too (5.2, 5.3)."""
        self.alg = alg
        covered = [sha(one, alg) for one in self.data]
        if self.chains:
            covered = [sha(one + sha(self.archive_sequence(), alg), alg) for one in covered]
        self.chains.append([])
        return self.stamp(at, covered, **rest)

    def renew(self, at, **rest):
        """A time-stamp over the one before in its chain (5.2)."""
        return self.stamp(at, [sha(self.tokens[-1].octets, self.alg)], **rest)

    def stamp(self, at, covered, make=None, named=False, attributes=b"", **rest):
        """A time-stamp over what must be covered, in the lists that `make` gives of that, or in none; it says by which algorithm if it is
        `named`. What the token has beside may be said."""
        lists = make(covered) if make else [covered] if len(covered) > 1 else []
        token = Token(at, imprint=root(self.alg, lists, covered), alg=self.alg, **rest)
        self.tokens.append(token)
        self.chains[-1].append(archive_stamp(token.octets, lists, self.alg if named else None, attributes))
        return self

    def archive_sequence(self):
        """The ArchiveTimeStampSequence (5.1)."""
        return sequence(*(sequence(*stamps) for stamps in self.chains))

    def whole(self, more=b""):
        """The record."""
        return record_of(*self.chains, more=more)

    def asked(self, public):
        """What a verifier is asked about its tokens, under a key."""
        return [token.signer.question(public) for token in self.tokens]
