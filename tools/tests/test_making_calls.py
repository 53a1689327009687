"""Tests of the package cmsproof with evidence records that are made and renewed (RFC 4998): by time-stamps of `openssl ts`, and compared with
the records that are worked out here, apart from the package, and with the files that the program writes."""
import hashlib
import subprocess
import time
import unittest

from making import PROGRAM, TOP, folder_of, need_tools
from oracle import sums
from oracle.der import element, elements, octets, oid, only, sequence
from oracle.identifiers import DIGEST_OIDS
from samples.authority import STAMPING, certificate, configure, make_certificate, openssl

need_tools()

import cmsproof  # noqa: E402
from cmsproof import evidence, making  # noqa: E402

RECORDS, SHA512 = TOP / "data" / "records" / "records", DIGEST_OIDS["sha512"]
# one stands there twice
DOCUMENTS = [b"document %d\n" % number for number in (0, 1, 2, 3, 1, 4)]


def by(name):
    """The digest of each document."""
    return [hashlib.new(name, document).digest() for document in DOCUMENTS]


def grouped(group, path, token, alg=sums.SHA256):
    """The chain of one time-stamp of a group, whose node leads by these values to the root (RFC 4998 4.2 and 4.3)."""
    lists = [sequence(*(octets(value) for value in sorted(group))), *(sequence(octets(value)) for value in path[1:])]
    return sequence(sequence(element(0xA0, oid(alg)), element(0xA2, *lists), token))


def node(name, group):
    """What stands for a group in the tree: of one value itself."""
    return group[0] if len(group) == 1 else hashlib.new(name, b"".join(sorted(group))).digest()


class Records(unittest.TestCase):
    """The records of some documents, by an authority whose clock goes on between two of its time-stamps."""

    def setUp(self):
        self.folder = folder_of(self)
        make_certificate(self.folder, "tsa", STAMPING)
        configure(self.folder, "tsa.cnf", "tsa", digests="sha256, sha512", more="ess_cert_id_alg = sha256\n")
        self.trust = cmsproof.TrustList.from_certificates(authorities=[certificate(self.folder, "tsa")])
        self.stamped = None

    def stamp(self, digest, algorithm="sha256"):
        """The token of `openssl ts` over a digest, later than the one before."""
        while self.stamped == int(time.time()):
            time.sleep(0.1)
        request = cmsproof.request(digest=digest, algorithm=algorithm, certificate=True)
        (self.folder / "asked").write_bytes(request)
        openssl(self.folder, "ts", "-reply", "-config", "tsa.cnf", "-queryfile", "asked", "-out", "answer")
        self.stamped = int(time.time())
        return cmsproof.match(request, self.folder / "answer").octets

    def made(self):
        """The token over the documents, and the record that is due for each, which is what the package makes."""
        root, paths = sums.tree(by("sha256"))
        self.assertEqual(evidence.root(by("sha256")), root)
        token = self.stamp(root)
        due = [sums.record(paths[digest], token) for digest in by("sha256")]
        self.assertEqual(evidence.make(by("sha256"), token), due)
        return token, due

    def put(self, records):
        """Puts records into a new folder, and gives the names of the files."""
        (self.folder / "records").mkdir(exist_ok=True)
        for place, record in enumerate(records):
            (self.folder / "records" / f"{place}.ers").write_bytes(record)
        return [f"records/{place}.ers" for place in range(len(records))]

    def written(self, *words):
        """What is in the folder of records after the program has run with these words."""
        done = subprocess.run([PROGRAM, "evidence", *words], cwd=self.folder, capture_output=True, check=False)
        self.assertEqual((done.returncode, done.stdout, done.stderr), (0, b"", b""))
        return [path.read_bytes() for path in sorted((self.folder / "records").iterdir())]

    def put_sums(self, name):
        """A list of the documents' digests, by the names of the records."""
        lines = (f"{digest.hex()}  {place}\n" for place, digest in enumerate(by(name)))
        (self.folder / "sums").write_text("".join(lines))

    def assert_shown(self, records):
        """Each record shows its document, and no other."""
        for place, record in enumerate(records):
            self.assertTrue(evidence.check(record, DOCUMENTS[place], trust=self.trust, whole=True).accepted)
            self.assertFalse(evidence.check(record, b"another", trust=self.trust).accepted)

    @unittest.skipUnless(PROGRAM.exists(), "there is no program")
    def test_made(self):
        token, due = self.made()
        (self.folder / "token").write_bytes(token), self.put_sums("sha256"), self.put([])
        self.assertEqual(self.written("make", "--token", "token", "--into", "records", "sums"), due)
        self.assertEqual(evidence.make(by("sha256"), self.folder / "token"), due)
        self.assert_shown(due)
        # one digest is its own root
        alone = self.stamp(by("sha256")[0])
        self.assertEqual(evidence.make(by("sha256")[:1] * 3, alone), [sums.record(by("sha256")[:1], alone)] * 3)

    @unittest.skipUnless(PROGRAM.exists(), "there is no program")
    def test_renewed(self):
        first, records = self.made()
        leaf = hashlib.sha256(first).digest()
        # (all have the same last time-stamp, which is the only leaf)
        self.assertEqual(evidence.renewal_root(records), ("sha256", leaf))
        second = self.stamp(by("sha256")[-1])
        (other,) = evidence.make(by("sha256")[-1:], second)
        leaves = [leaf, hashlib.sha256(second).digest()]
        root, paths = sums.tree(leaves)
        old = [*records[:-1], other]
        self.assertEqual(evidence.renewal_root(old), ("sha256", root))
        token = self.stamp(root)
        of = [leaves[0]] * (len(old) - 1) + [leaves[1]]
        due = []
        for record, its in zip(old, of):
            chains = elements(elements(only(record, 0x30).body())[-1].body())
            stamps = chains[0].body() + only(sums.chain(paths[its], token), 0x30).body()
            due.append(sums.chained([sums.SHA256], [sequence(stamps)]))
        self.assertEqual(evidence.renew(old, token), due)
        (self.folder / "token").write_bytes(token)
        self.assertEqual(self.written("renew", "--token", "token", *self.put(old)), due)
        self.assert_shown(due)
        # where that was cut off, some are renewed already: the root is the same, and they stay
        some = [*due[:2], *old[2:]]
        self.assertEqual(evidence.renewal_root(some, token=token), ("sha256", root))
        self.assertNotEqual(evidence.renewal_root(some), ("sha256", root))
        self.assertEqual(evidence.renew(some, token), due)
        self.assertEqual(evidence.renew([self.folder / name for name in self.put(some)], self.folder / "token"), due)
        # one by itself
        (alone,) = evidence.renew(records[0], self.stamp(evidence.renewal_root(records[0]).digest))
        self.assertTrue(evidence.check(alone, DOCUMENTS[0], trust=self.trust).accepted)

    @unittest.skipUnless(PROGRAM.exists(), "there is no program")
    def test_rehashed(self):
        _, records = self.made()
        digests, leaves = by("sha512"), []
        for record, digest in zip(records, digests):
            chains = elements(only(record, 0x30).body())[-1].whole()
            leaves.append(hashlib.sha512(digest + hashlib.sha512(chains).digest()).digest())
        root, paths = sums.tree(leaves, "sha512")
        self.assertEqual(evidence.rehash_root(records, digests, algorithm="sha512"), root)
        token, due = self.stamp(root, "sha512"), []
        for record, leaf in zip(records, leaves):
            (chain,) = elements(elements(only(record, 0x30).body())[-1].body())
            added = sums.chain(paths[leaf], token, SHA512)
            due.append(sums.chained([sums.SHA256, SHA512], [chain.whole(), added]))
        self.assertEqual(evidence.rehash(records, digests, token, algorithm="sha512"), due)
        (self.folder / "token").write_bytes(token), self.put_sums("sha512"), self.put(records)
        self.assertEqual(self.written("rehash", "--alg", "sha512", "--into", "records", "--token", "token", "sums"), due)
        self.assert_shown(due)
        some = [*records[:3], *due[3:]]
        self.assertEqual(evidence.rehash_root(some, digests, algorithm="sha512", token=token), root)
        self.assertEqual(evidence.rehash(some, digests, token, algorithm="sha512"), due)
        # their last chains are by different algorithms now
        self.assert_unmade("U4", "refused U4 Mixed", 1, evidence.renewal_root, [records[0], due[0]])
        self.assertEqual(evidence.renewal_root(due[0]).algorithm, "sha512")
        self.assertEqual([making.renewal_algorithm(one) for one in (records[0], due[0])], ["sha256", "sha512"])
        self.assert_unmade("M1", "malformed M1 End at 0", None, making.renewal_algorithm, b"")

    def put_groups(self, groups):
        """A list of the digests of groups: the first line of each names the record, and the others begin with a space."""
        lines = [
            f"{' ' if behind else ''}{digest.hex()}  {place}{'.' * behind}\n"
            for place, group in enumerate(groups)
            for behind, digest in enumerate(group)
        ]
        (self.folder / "sums").write_text("".join(lines))

    @unittest.skipUnless(PROGRAM.exists(), "there is no program")
    def test_rehashed_groups(self):
        """Records over several data objects get a chain over all of them, whose values are all in its first list (RFC 4998 5.2)."""
        groups = [DOCUMENTS[:3], DOCUMENTS[3:4], DOCUMENTS[4:]]
        old, new = ([[hashlib.new(name, one).digest() for one in group] for group in groups] for name in ("sha256", "sha512"))
        root, paths = sums.tree([node("sha256", group) for group in old])
        token = self.stamp(root)
        chains = [grouped(group, paths[node("sha256", group)], token) for group in old]
        records = [sums.chained([sums.SHA256], [chain]) for chain in chains]
        values = [
            [hashlib.sha512(digest + hashlib.sha512(sequence(chain)).digest()).digest() for digest in group]
            for group, chain in zip(new, chains)
        ]
        root, paths = sums.tree([node("sha512", group) for group in values], "sha512")
        digests = [new[0], new[1][0], tuple(reversed(new[2]))]
        self.assertEqual(evidence.rehash_root(records, digests, algorithm="sha512"), root)
        later = self.stamp(root, "sha512")
        added = [grouped(group, paths[node("sha512", group)], later, SHA512) for group in values]
        due = [sums.chained([sums.SHA256, SHA512], [*pair]) for pair in zip(chains, added)]
        self.assertEqual(evidence.rehash(records, digests, later, algorithm="sha512"), due)
        self.assertEqual(evidence.rehash([*due[:1], *records[1:]], digests, later, algorithm="sha512"), due)
        for record, group in zip(due, groups):
            self.assertTrue(evidence.check(record, group, trust=self.trust, whole=True).accepted)
        (self.folder / "token").write_bytes(later), self.put_groups(new), self.put(records)
        self.assertEqual(self.written("rehash", "--alg", "sha512", "--into", "records", "--token", "token", "sums"), due)
        # what is not named is of a neighbour, or is lost
        line = "refused U11 Unnamed"
        for named in (new[0][0], new[0][:2], [*new[0], new[1][0]]):
            self.assert_unmade("U11", line, 1, evidence.rehash_root, [records[1], records[0]], [new[1], named], algorithm="sha512")
        self.assert_unmade("U11", line, 0, evidence.rehash, records[:1], new[0][:1], token, algorithm="sha512")
        self.assertEqual(evidence.rehash_root(records[:1], new[0][:1], algorithm="sha512", alone=True), values[0][0])

    def assert_unmade(self, code, line, place, call, *words, **options):
        """A call is refused by this rule, with this line, at this place."""
        with self.assertRaises(evidence.Unmade) as caught:
            call(*words, **options)
        self.assertEqual((caught.exception.code, caught.exception.line, caught.exception.place), (code, line, place))

    def test_refusals(self):
        token, records = self.made()
        digests = by("sha256")
        self.assert_unmade("U7", "refused U7 TokenMalformed", None, evidence.make, digests, b"0")
        self.assert_unmade("U8", "refused U8 ImprintDiffers", None, evidence.make, digests[1:4], token)
        self.assert_unmade("U8", "refused U8 ImprintDiffers", None, evidence.renew, records, token)
        self.assert_unmade("U7", "refused U7 TokenMalformed", None, evidence.renew, records, b"")
        self.assert_unmade("U8", "refused U8 ImprintDiffers", None, evidence.rehash, records, digests, token)
        for call, more in ((evidence.renewal_root, ()), (evidence.rehash_root, (digests[:2],))):
            self.assert_unmade("U3", "refused U3 NoStamp", 1, call, [records[0], RECORDS / "encrypted.ers"], *more)
            line = "malformed M7 Trailing at 1100"
            self.assert_unmade("M7", line, 1, call, [records[0], RECORDS / "octet_behind_the_record.ers"], *more)
            self.assert_unmade("M1", "malformed M1 End at 0", 1, call, [records[0], b""], *more)

    def test_too_early(self):
        """A token of the second in which the last time-stamp was made is not later."""
        digests = by("sha256")[:1]
        for _ in range(20):
            record, self.stamped = evidence.make(digests, self.stamp(digests[0]))[0], None
            token = self.stamp(evidence.renewal_root(record).digest)
            try:
                evidence.renew(record, token)
            except evidence.Unmade as error:
                self.assertEqual((error.code, error.line, error.place), ("U9", "refused U9 Order", 0))
                return
        self.fail("the clock went on each time")

    def test_what_is_not_understood_raises(self):
        token, records = self.made()
        digests = by("sha256")
        for call, words, options in (
            (evidence.root, ([],), {}),
            (evidence.root, ([b"x"],), {}),
            (evidence.root, (digests,), {"algorithm": "sha512"}),
            (evidence.root, (digests,), {"algorithm": "SHA256"}),
            (evidence.root, (digests,), {"algorithm": "sha3-256"}),
            (evidence.make, ([], token), {}),
            (evidence.make, (digests, token), {"algorithm": "sha224"}),
            (evidence.renewal_root, ([],), {}),
            (evidence.renew, ([], token), {}),
            (evidence.rehash_root, (records, digests[:1]), {}),
            (evidence.rehash, (records, digests, token), {"algorithm": "sha1"}),
            (evidence.rehash, (records[:1], [[]], token), {}),
            (evidence.rehash, (records[:1], [[digests[0], b"x"]], token), {}),
        ):
            with self.subTest(call=call.__name__, words=words, **options), self.assertRaises(ValueError) as caught:
                call(*words, **options)
            self.assertNotIsInstance(caught.exception, evidence.Unmade)
        for call, words in (
            (evidence.root, ([7],)),
            (evidence.root, (digests[0],)),
            (evidence.root, (["0" * 32],)),
            (evidence.make, (digests, None)),
            (evidence.renew, (7, token)),
            (evidence.renew, (records, None)),
            (evidence.rehash, (records, digests, None)),
            (evidence.rehash_root, (records[:1], digests[0])),
        ):
            self.assertRaises(TypeError, call, *words)
        self.assertRaises(OSError, evidence.make, digests, self.folder / "none")


if __name__ == "__main__":
    unittest.main()
