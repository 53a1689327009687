"""Tests of the built program: evidence records that got another time-stamp, or another chain by another algorithm (RFC 4998 5.2), one after
the other. Bouncy Castle reads them, which has no line of this program; and old ones are put back, and one in the place of another."""
import hashlib
import os
import shutil
import subprocess
import tempfile
import time
import unittest

from making import TOP, folder_of, lacking_tools, needs, run_tool
from oracle import forms, records, renewals
from oracle.identifiers import DIGEST_OIDS
from recorded_world import AGAIN, BEGUN, FILE, MADE, RENEWED
from samples.authority import STAMPING, certificate, configure, make_certificate, openssl
from samples.building import sha
from test_made_records import JARS, NO_BOUNCY_CASTLE, document, run

# the files that one time-stamp is made for, by the name of their folder: trees of one, two, three and five leaves
BATCHES = {"one": 1, "single": 1, "two": 2, "three": 3, "five": 5}
# Of which of these the last time-stamps are renewed together. All records of a folder have the same token at first: so there are as many
# leaves as folders.
TOGETHER = {1: ["five"], 2: ["two", "three"], 3: ["two", "three", "five"], 5: list(BATCHES)}
# the days for which the certificates of the authorities are valid
DAYS = {"tsa": 30, "later": 3650}
NAMED = {DIGEST_OIDS[name]: name for name in ("sha256", "sha512")}


def names_of(*batches):
    """The names of the files of these folders."""
    return [f"{batch}/{number}" for batch in batches for number in range(BATCHES[batch])]


ALL = names_of(*BATCHES)


def moment(days):
    """The moment so many days from now."""
    return time.strftime("%Y%m%d%H%M%SZ", time.gmtime(time.time() + days * 86400))


@unittest.skipIf(lacking_tools(), lacking_tools())
class Folder(unittest.TestCase):
    """Files, their records in `made`, and two authorities: the certificate of the second one is valid for longer."""

    def setUp(self):
        self.folder = folder_of(self)
        for name, days in DAYS.items():
            make_certificate(self.folder, name, STAMPING, days=days)
            configure(self.folder, f"{name}.cnf", name, digests="sha256, sha512", more="ess_cert_id_alg = sha256\n")
        entries = [f"tsa {certificate(self.folder, name).hex()}\n" for name in DAYS]
        (self.folder / "trust").write_text("".join(["cmsproof trust 1\n", *entries]))
        (self.folder / "made").mkdir()
        for name in ALL:
            (self.folder / "files" / name).parent.mkdir(parents=True, exist_ok=True)
            (self.folder / "files" / name).write_bytes(document(name))
        for batch in BATCHES:
            self.write_sums("sha256", [batch])
            self.by_token("tsa", ["evidence", "request", "sums"], ["evidence", "make", "--into", "made", "sums"])

    def write_sums(self, alg, batches):
        """The digests of the files of these folders, in `sums`."""
        lines = [f"{hashlib.new(alg, document(name)).hexdigest()}  {name}\n" for name in names_of(*batches)]
        (self.folder / "sums").write_text("".join(lines))

    def by_token(self, authority, asks, makes):
        """Runs a command that writes a request, and with the authority's token one that makes something of that. The token has the certificate,
        without which Bouncy Castle verifies none: openssl asks for it, and for the same root."""
        self.assertEqual(run(self.folder, *asks, "root"), (0, b"", b""))
        alg, digest = [line.split()[1].decode() for line in run(self.folder, "show", "request", "root")[1].splitlines()[1:3]]
        openssl(self.folder, "ts", "-query", f"-{NAMED[alg]}", "-digest", digest, "-no_nonce", "-cert", "-out", "asked")
        openssl(self.folder, "ts", "-reply", "-config", f"{authority}.cnf", "-queryfile", "asked", "-out", "answer")
        self.assertEqual(run(self.folder, "match", "asked", "answer", "token"), (0, b"answers\n", b""))
        self.assertEqual(run(self.folder, *makes[:2], "--token", "token", *makes[2:]), (0, b"", b""))

    def copy(self, old, new, batches):
        """The records of these folders, with names anew, and their paths. Whatever is made of them is of a later second."""
        for batch in batches:
            shutil.copytree(self.folder / old / batch, self.folder / new / batch)
        time.sleep(1)
        return [f"{new}/{name}.ers" for name in names_of(*batches)]

    def renew(self, old, new, batches, authority="later"):
        """Copies of the records of these folders, with one time-stamp more that they have together."""
        paths = self.copy(old, new, batches)
        self.by_token(authority, ["evidence", "renew", *paths, "--request"], ["evidence", "renew", *paths])
        return paths

    def rehash(self, old, new, batches):
        """Copies of the records of these folders, with one chain more, by SHA-512 and of one time-stamp that they have together."""
        paths = self.copy(old, new, batches)
        self.write_sums("sha512", batches)
        words = ["--alg", "sha512", "--into", new, "sums"]
        self.by_token("later", ["evidence", "rehash", *words, "--request"], ["evidence", "rehash", *words])
        return paths

    def stamps(self, path):
        """The chains of a record, as they are read apart from the program."""
        return forms.whole((self.folder / path).read_bytes(), records.evidence_record).chains

    def check(self, path, name, *words):
        """What the check says of a record and a file."""
        asked = run(self.folder, "evidence", "questions", "--trust", "trust", path)[1]
        (self.folder / "answers").write_bytes(asked.replace(b"questions", b"answers", 1))
        lists = ["--trust", "trust", "--answers", "answers"]
        status, out, err = run(self.folder, "evidence", "check", *lists, *words, path, f"files/{name}")
        self.assertEqual((err, status), (b"", 0 if out.startswith(b"accepted ") else 1))
        return out.decode().removesuffix("\n")


@needs("javac")
@unittest.skipIf(NO_BOUNCY_CASTLE, NO_BOUNCY_CASTLE)
class ByAnotherProgram(Folder):
    """What Bouncy Castle says of records and files. Of a record it compares the files with the last chain, and verifies the last signature; in
    each chain it demands that a time-stamp covers the one before it, as the program does."""

    @classmethod
    def setUpClass(cls):
        super().setUpClass()
        classes = tempfile.TemporaryDirectory()
        cls.addClassCleanup(classes.cleanup)
        cls.words = ["java", "-cp", ":".join([*JARS, classes.name]), "EachRecord"]
        sources = [TOP / "tools" / "compared" / "Records.java", TOP / "tools" / "tests" / "EachRecord.java"]
        subprocess.run(["javac", "-cp", ":".join(JARS), "-d", classes.name, *sources], check=True)

    def ask(self, paths):
        """Of each record what it says of the file that it is for, and of all others."""
        asked = [(path, name) for path in paths for name in ALL]
        text = "".join(f"{path}\tfiles/{name}\t99981231Z\n" for path, name in asked)
        done = subprocess.run(self.words, cwd=self.folder, input=text, capture_output=True, text=True, check=True)
        lines = done.stdout.splitlines()
        self.assertEqual(len(lines), len(asked))
        return {one: line for one, line in zip(asked, lines)}

    def assert_taken(self, *made):
        """Both programs take each record for its own file alone. The records come with how many time-stamps there are in each of their chains."""
        stamps = {path: counts for paths, counts in made for path in paths}
        for (path, name), said in self.ask(stamps).items():
            own = path.partition("/")[2] == f"{name}.ers"
            self.assertEqual(said, "valid" if own else "refused: object hash not found", (path, name))
            if own:
                self.assertRegex(self.check(path, name), "^accepted [0-9]{14}Z$", path)
                self.assertEqual([len(chain) for chain in self.stamps(path)], stamps[path], path)

    def test_made(self):
        """Records of trees of one, two, three and five leaves."""
        self.assert_taken(([f"made/{name}.ers" for name in ALL], [1]))

    def test_renewed(self):
        """Renewed by one time-stamp, by trees of one, two, three and five leaves; and not with another octet at the end of its signature."""
        made = {leaves: self.renew("made", f"renewed-{leaves}", batches) for leaves, batches in TOGETHER.items()}
        for leaves, paths in made.items():
            self.assertEqual(len({self.stamps(path)[0][0].token for path in paths}), leaves)
        self.assert_taken(*((paths, [2]) for paths in made.values()))
        octets = (self.folder / made[1][0]).read_bytes()
        (self.folder / "changed.ers").write_bytes(octets[:-1] + bytes([octets[-1] ^ 1]))
        said = self.ask(["changed.ers"])["changed.ers", names_of("five")[0]]
        self.assertRegex(said, "^refused: .*signature", said)

    def test_rehashed(self):
        """With a new chain, by trees of one, two, three and five leaves, and of all twelve; also where the first chain was renewed; and
        renewed in that chain."""
        some = [(self.rehash("made", f"rehashed-{batch}", [batch]), [1, 1]) for batch in ("one", "two", "three", "five")]
        rehashed = self.rehash("made", "rehashed", BATCHES), [1, 1]
        again = self.renew("rehashed", "rehashed-renewed", BATCHES), [1, 2]
        self.renew("made", "renewed", BATCHES)
        self.assert_taken(*some, rehashed, again, (self.rehash("renewed", "renewed-rehashed", BATCHES), [2, 1]))

    @unittest.skipUnless(os.path.realpath(JARS[0]).endswith("-1.72.jar"), "it is known of Bouncy Castle 1.72 alone")
    def test_renewed_twice(self):
        """It refuses what has three time-stamps in its last chain. The third one must cover the second (RFC 4998 5.2: the time-stamp of the
        old Archive Timestamp), whose digest is all that stands in its first list; Bouncy Castle 1.72 searches that list for the first one
        too. Where a new chain is behind these it takes the record, since it asks that of the last chain alone."""
        self.renew("made", "once", BATCHES)
        paths = self.renew("once", "twice", BATCHES)
        for (path, name), said in self.ask(paths).items():
            own = path == f"twice/{name}.ers"
            self.assertEqual(said[:9], "refused: ", (path, name))
            self.assertEqual(said == "refused: unable to process previous ArchiveTimeStamps", own, (path, name, said))
            if own:
                ((first, second, third),) = self.stamps(path)
                covered = [hashlib.sha256(stamp.token).digest() for stamp in (first, second)]
                self.assertEqual((second.lists[0], third.lists), ([covered[0]], [[covered[1]]]))
                self.assertRegex(self.check(path, name), "^accepted [0-9]{14}Z$")
        self.assert_taken((self.rehash("twice", "twice-rehashed", BATCHES), [3, 1]))


class PutBack(Folder):
    """Records in the places of others."""

    def test_old_record(self):
        """An old record in the place of its renewed one is refused at a moment after the end of its authority's certificate, where the renewed
        one is accepted; without a moment it is judged by its own time."""
        after, before, names = moment(DAYS["tsa"] + 1), moment(DAYS["tsa"] - 1), names_of("three")
        self.renew("made", "renewed", ["three"])
        self.rehash("made", "rehashed", ["three"])
        for name in names:
            made = self.check(f"made/{name}.ers", name)
            self.assertRegex(made, "^accepted [0-9]{14}Z$")
            for new in ("renewed", "rehashed"):
                path = f"{new}/{name}.ers"
                for words in ((), ("--at", before), ("--at", after)):
                    self.assertEqual(self.check(path, name, *words), made, (path, words))
                shutil.copy(self.folder / "made" / f"{name}.ers", self.folder / path)
                for words in ((), ("--at", before)):
                    self.assertEqual(self.check(path, name, *words), made, (path, words))
                self.assertEqual(self.check(path, name, "--at", after), "refused chain 1 stamp 1 W7 Lapsed", path)

    def test_renewed_by_the_first_authority(self):
        """A time-stamp more of the authority that made the first one carries a record no further, and it is the last one that lapsed."""
        (path,) = self.renew("made", "renewed", ["one"], "tsa")
        (name,) = names_of("one")
        self.assertRegex(self.check(path, name), "^accepted [0-9]{14}Z$")
        self.assertEqual(self.check(path, name, "--at", moment(DAYS["tsa"] + 1)), "refused chain 1 stamp 2 W7 Lapsed")

    def test_exchanged(self):
        """The record of a file in the place of another file's covers that one not, however often both were renewed."""
        batches = ["two", "three"]
        self.renew("made", "renewed", batches)
        self.rehash("renewed", "rehashed", batches)
        names = names_of(*batches)
        for where in ("made", "renewed", "rehashed"):
            for one, other in zip(names, names[1:] + names[:1]):
                said = self.check(f"{where}/{other}.ers", one)
                self.assertEqual(said, "refused chain 1 stamp 1 W3 NotCovered", (where, one, other))


@unittest.skipIf(lacking_tools(), lacking_tools())
class Behind(unittest.TestCase):
    """Time-stamps over the right root, of an authority whose clock is behind the last time-stamp of a record: all that is wrong is their order."""

    # what is no later than the last time-stamp of `one.ers`, BEGUN, and than that of `two.ers`, RENEWED
    BEFORE_ONE = ("20200101000000Z", "20210501095959.999Z", BEGUN)
    BEFORE_TWO = (*BEFORE_ONE, "20210501100000.001Z", "20230502100000Z", RENEWED)

    def setUp(self):
        self.folder = folder_of(self)
        self.old = {"one.ers": MADE.record(), "two.ers": MADE.record(times=(BEGUN, RENEWED))}
        for name, octets in {**self.old, "trust": MADE.list, "file": FILE}.items():
            (self.folder / name).write_bytes(octets)

    def said_of(self, record):
        """What the check says of a record."""
        (self.folder / "record").write_bytes(record)
        asked = run(self.folder, "evidence", "questions", "--trust", "trust", "record")[1]
        (self.folder / "asked").write_bytes(asked)
        self.assertEqual(run_tool("cmsproof-verify", "asked", "answers", cwd=self.folder)[0], 0)
        return run(self.folder, "evidence", "check", "--trust", "trust", "--answers", "answers", "record", "file")[1].decode()

    def test_renew(self):
        """No record is renewed, also not the one whose last time-stamp is earlier; by a later one both are."""
        asked = run(self.folder, "evidence", "renew", *self.old, "--request", "request")
        self.assertEqual(asked, (0, b"", b""))
        digest = bytes.fromhex(run(self.folder, "show", "request", "request")[1].split()[4].decode())
        for at in (*self.BEFORE_TWO, "20230502100000.501Z"):
            (self.folder / "token").write_bytes(MADE.token_over(digest, at, MADE.second))
            found = run(self.folder, "evidence", "renew", *self.old, "--token", "token")
            there = {path.name: path.read_bytes() for path in self.folder.glob("*.ers*")}
            if at in self.BEFORE_TWO:
                self.assertEqual((found, there), ((1, b"refused U9 Order\n", b""), self.old), at)
        self.assertEqual((found, sorted(there)), ((0, b"", b""), sorted(self.old)))
        for name, octets in there.items():
            self.assertNotEqual(octets, self.old[name])
            self.assertEqual(self.said_of(octets), f"accepted {BEGUN}\n", name)

    def test_put_together(self):
        """A record that somebody else put together by such a token is refused for its order, in a chain and in a new one."""
        for name, early in (("one.ers", self.BEFORE_ONE), ("two.ers", self.BEFORE_TWO)):
            octets, last = self.old[name], len(self.stamps_in(self.old[name]))
            self.assertEqual(self.said_of(octets), f"accepted {BEGUN}\n")
            record = renewals.record_in(octets)
            for is_chain in (False, True):
                standing = renewals.rehash_of(record, None, sha(FILE)) if is_chain else renewals.renewal_of(record, None)
                place = "chain 2 stamp 1" if is_chain else f"chain 1 stamp {last + 1}"
                for at in (*early, AGAIN):
                    new = renewals.renewed(octets, standing, MADE.token_over(standing.leaf, at, MADE.second), is_chain)
                    said = f"accepted {BEGUN}\n" if at == AGAIN else f"refused {place} W5 Order\n"
                    self.assertEqual(self.said_of(new), said, (name, is_chain, at))

    def stamps_in(self, octets):
        """The archive time-stamps in the only chain of a record."""
        (chain,) = forms.whole(octets, records.evidence_record).chains
        return chain


if __name__ == "__main__":
    unittest.main()
