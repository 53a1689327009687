"""Tests of the built program: evidence records that get a new chain by another digest algorithm and one time-stamp (RFC 4998 5.2). They are
compared with those that are worked out here, apart from the program; and commands are killed, and run where links and other things stand in
the places of records."""
import hashlib
import os
import random
import resource
import shutil
import signal
import subprocess
import time
import unittest

from making import PROGRAM, TOP, folder_of, lacking_tools
from oracle import forms, records, renewals, sums
from oracle.der import sequence
from oracle.identifiers import DIGEST_OIDS
from samples.authority import STAMPING, configure, make_certificate, openssl

# names that a shell, a list or a path could take for something else
NAMES = [" ", "-", "--", "*", "a\\", "a\nb", "é", ".hidden", "...", "a.ers", "x" * 240, "d/e/f", "d/e.ers", "d/f"]
SHA512 = DIGEST_OIDS["sha512"]
NEW = ["--alg", "sha512", "--into", "records"]


def run(folder, *words, **how):
    """How the program ends with these words: its status, and what it prints on its two outputs."""
    done = subprocess.run([PROGRAM, *words], cwd=folder, capture_output=True, check=False, **how)
    return done.returncode, done.stdout, done.stderr


def document(name):
    """The octets of a file."""
    return b"this is " + name.encode()


@unittest.skipIf(lacking_tools(), lacking_tools())
class Folder(unittest.TestCase):
    """The files of a folder, their records by SHA-256, and the token by which they get a chain by SHA-512."""

    def make(self, names):
        """The files of these names below `files`, their records before and after that, and the new token."""
        self.folder, self.names = folder_of(self), names
        for name in names:
            path = self.folder / "files" / name
            path.parent.mkdir(parents=True, exist_ok=True)
            path.write_bytes(document(name))
        for tool, to in (("sha256sum", "sums"), ("sha512sum", "new-sums")):
            found = f"find . -type f -print0 | sort -z | xargs -0 {tool} | sed 's|  \\./|  |' > ../{to}"
            subprocess.run(found, shell=True, cwd=self.folder / "files", check=True, env={**os.environ, "LC_ALL": "C"})
        self.put_authority()
        token = self.stamp("token", "evidence", "request", "--cert", "sums")
        self.assertEqual(run(self.folder, "evidence", "make", "--token", "token", "--into", "records", "sums"), (0, b"", b""))
        paths = sums.tree([hashlib.sha256(document(name)).digest() for name in names])[1]
        chains = {name: sums.chain(paths[hashlib.sha256(document(name)).digest()], token) for name in names}
        self.old = {f"{name}.ers": sums.chained([sums.SHA256], [chains[name]]) for name in names}
        self.assertEqual(self.there(), self.old)
        leaves = {name: self.leaf(name, sequence(chains[name])) for name in names}
        root, paths = sums.tree(list(leaves.values()), "sha512")
        time.sleep(1)
        self.token = self.stamp("new-token", "evidence", "rehash", *NEW, "new-sums", "--request")
        self.assertIn(root, self.token)
        added = {name: sums.chain(paths[leaves[name]], self.token, SHA512) for name in names}
        self.due = {f"{name}.ers": sums.chained([sums.SHA256, SHA512], [chains[name], added[name]]) for name in names}

    def put_authority(self):
        """An authority, and a folder for records."""
        make_certificate(self.folder, "tsa", STAMPING)
        more = {"signer_digest": "sha512", "more": "ess_cert_id_alg = sha512\n"}
        configure(self.folder, "tsa.cnf", "tsa", digests="sha256, sha512", **more)
        (self.folder / "records").mkdir()

    def leaf(self, name, chains):
        """What the new time-stamp must cover of a file with these chains (5.2, step 4)."""
        return hashlib.sha512(hashlib.sha512(document(name)).digest() + hashlib.sha512(chains).digest()).digest()

    def stamp(self, to, *words):
        """The token of the answer to the request that these words make, which goes into a file."""
        self.assertEqual(run(self.folder, *words, "asked"), (0, b"", b""))
        openssl(self.folder, "ts", "-reply", "-config", "tsa.cnf", "-queryfile", "asked", "-out", "answer")
        self.assertEqual(run(self.folder, "match", "asked", "answer", to), (0, b"answers\n", b""))
        return (self.folder / to).read_bytes()

    def rehashes(self, token="new-token", **how):
        """What `evidence rehash` says with a token."""
        return run(self.folder, "evidence", "rehash", *NEW, "--token", token, "new-sums", **how)

    def there(self):
        """The files below the folder of records."""
        top = self.folder / "records"
        return {
            str(path.relative_to(top)): path.read_bytes() for path in top.rglob("*") if path.is_file() and not path.is_symlink()
        }

    def test_each_file(self):
        """The record of each file is the one that is due, and is accepted for that file alone; a second run changes nothing."""
        self.make(NAMES)
        self.assertEqual(self.there(), self.old)
        self.assertEqual(self.rehashes(), (0, b"", b""))
        self.assertEqual(self.there(), self.due)
        before = {path: path.stat().st_mtime_ns for path in self.folder.rglob("*.ers")}
        self.assertEqual(self.rehashes(), (0, b"", b""))
        self.assertEqual({path: path.stat().st_mtime_ns for path in self.folder.rglob("*.ers")}, before)
        (self.folder / "trust").write_text(
            "cmsproof trust 1\ntsa " + openssl(self.folder, "x509", "-in", "tsa.pem", "-outform", "DER").hex() + "\n"
        )
        check = ["evidence", "check", "--whole", "--trust", "trust", "--answers", "answers", "--end", "sha256=99991231235959Z"]
        for name, other in zip(NAMES, NAMES[1:] + NAMES[:1]):
            record = f"records/{name}.ers"
            asked = run(self.folder, "evidence", "questions", "--trust", "trust", record)[1]
            self.assertEqual(asked.count(b"\n"), 3)
            (self.folder / "answers").write_bytes(asked.replace(b"questions", b"answers", 1))
            status, said, _ = run(self.folder, *check, record, f"files/{name}")
            self.assertEqual((status, said[:9]), (0, b"accepted "), name)
            self.assertEqual(run(self.folder, *check, record, f"files/{other}")[0], 1, name)

    def put_group(self):
        """A record by SHA-256 that Bouncy Castle made of five files, these, their lines by SHA-512, and what shows the record."""
        self.folder, data = folder_of(self), TOP / "data" / "records"
        self.put_authority()
        self.files = [(data / "files" / f"document_{number}").read_bytes() for number in range(5)]
        for number, octets in enumerate(self.files):
            (self.folder / str(number)).write_bytes(octets)
        shutil.copy(data / "records" / "bouncy_castle_group_of_five.ers", self.folder / "records" / "letter.ers")
        self.old = self.there()
        own = openssl(self.folder, "x509", "-in", "tsa.pem", "-outform", "DER").hex()
        (self.folder / "trust").write_text((data / "trust.txt").read_text() + f"tsa - - {own}\n")
        return [f"{hashlib.sha512(octets).hexdigest()}  letter\n" for octets in self.files]

    def says(self, *words):
        """What the check says of the record once SHA-256 has ended, as if each signature held."""
        asked = run(self.folder, "evidence", "questions", "--trust", "trust", "records/letter.ers")[1]
        (self.folder / "answers").write_bytes(asked.replace(b"questions", b"answers", 1))
        last, at = (time.strftime("%Y%m%d%H%M%SZ", time.gmtime(time.time() + days * 86400)) for days in (1, 2))
        until = ["--end", f"sha256={last}", "--end", "sha512=99991231235959Z", "--at", at]
        lists = ["--trust", "trust", "--answers", "answers"]
        return run(self.folder, "evidence", "check", *lists, *until, "records/letter.ers", *words)[1].decode()

    def test_group(self):
        """The record of a group gets a chain over each file that has a line; if one has none, only where the user says that it is of another
        record."""
        lines, each = self.put_group(), ["0", "1", "2", "3", "4"]
        self.assertEqual(self.says("--whole", *each), "refused chain 1 stamp 1 W6 Weak\n")
        (self.folder / "new-sums").write_text(" ".join(lines))
        record = forms.whole(self.old["letter.ers"], records.evidence_record)
        before = hashlib.sha512(sequence(*record.wholes)).digest()
        covered = sorted(hashlib.sha512(hashlib.sha512(octets).digest() + before).digest() for octets in self.files)
        standing = renewals.last_stamp(record.chains)._replace(alg="sha512", covered=covered)
        self.token = self.stamp("new-token", "evidence", "rehash", *NEW, "new-sums", "--request")
        self.assertIn(hashlib.sha512(b"".join(covered)).digest(), self.token)
        for few in (lines[:1], lines[:4], lines + lines[:1]):
            (self.folder / "new-sums").write_text(" ".join(few))
            self.assertEqual(self.rehashes(), (1, b"refused U11 Unnamed\n", b""))
            self.assertEqual(self.there(), self.old)
        (self.folder / "new-sums").write_text(" ".join(lines[::-1]))
        for _ in range(2):
            self.assertEqual(self.rehashes(), (0, b"", b""))
            self.assertEqual(self.there(), {"letter.ers": renewals.renewed(self.old["letter.ers"], standing, self.token, True)})
        for words in (["--whole", *each], each, *([one] for one in each)):
            self.assertEqual(self.says(*words), "accepted 20150303120000Z\n")
        self.assertEqual(self.says("--whole", *each[:4]), "refused chain 1 stamp 1 W8 Others\n")

    def test_group_alone(self):
        """A chain over one file of a group, where the user says that the others are of other records, shows that file and no other."""
        lines = self.put_group()
        (self.folder / "new-sums").write_text(lines[2])
        asked = run(self.folder, "evidence", "rehash", *NEW, "--request", "asked", "new-sums")
        self.assertEqual(asked, (1, b"refused U11 Unnamed\n", b""))
        self.stamp("new-token", "evidence", "rehash", "--alone", *NEW, "new-sums", "--request")
        alone = run(self.folder, "evidence", "rehash", "--alone", *NEW, "--token", "new-token", "new-sums")
        self.assertEqual(alone, (0, b"", b""))
        self.assertEqual(self.says("2"), "accepted 20150303120000Z\n")
        self.assertEqual(self.says("1"), "refused chain 2 stamp 1 W3 NotCovered\n")

    def test_killed(self):
        """Of a run that was killed each record is the old one or the new one; the next run makes the rest, and no other."""
        self.make([f"{number % 7}/{number}" for number in range(400)])
        words = [PROGRAM, "evidence", "rehash", *NEW, "--token", "new-token", "new-sums"]
        shutil.copytree(self.folder / "records", self.folder / "kept")
        started = time.monotonic()
        self.assertEqual(self.rehashes(), (0, b"", b""))
        took, choice = time.monotonic() - started, random.Random(4998)
        for _ in range(10):
            shutil.rmtree(self.folder / "records")
            shutil.copytree(self.folder / "kept", self.folder / "records")
            with subprocess.Popen(words, cwd=self.folder) as running:
                time.sleep(choice.uniform(0, took))
                running.send_signal(signal.SIGKILL)
            left = {name: found for name, found in self.there().items() if ".new" not in name}
            self.assertEqual(set(left), set(self.old))
            self.assertLessEqual(sum(".new" in name for name in self.there()), 1)
            for name, found in left.items():
                self.assertIn(found, (self.old[name], self.due[name]), name)
            self.assertEqual(self.rehashes(), (0, b"", b""))
            self.assertLessEqual(self.due.items(), self.there().items())

    def test_nothing_is_replaced(self):
        """Nothing is replaced where a link, a folder, nothing, or an exchanged record stands in a record's place or on the way to it."""
        self.make(["a", "b", "d/c"])
        records = self.folder / "records"

        def put(name, make):
            shutil.rmtree(records)
            records.mkdir()
            for path, octets in self.old.items():
                (records / path).parent.mkdir(exist_ok=True)
                (records / path).write_bytes(octets)
            make(records / name)

        def link(path):
            path.rename(self.folder / "moved")
            path.symlink_to(self.folder / "moved")

        def exchange(path):
            (records / "a.ers").rename(self.folder / "moved")
            path.rename(records / "a.ers")
            (self.folder / "moved").rename(path)

        table = [
            ("b.ers", lambda path: path.unlink(), (4, b"", b"failed open records/b.ers\n")),
            ("b.ers", lambda path: (path.unlink(), path.mkdir()), (4, b"", b"failed open records/b.ers\n")),
            ("b.ers", link, (4, b"", b"failed open records/b.ers\n")),
            ("d", link, (4, b"", b"failed open records/d/c.ers\n")),
            ("b.ers", lambda path: path.write_bytes(self.token), (2, None, b"")),
            ("b.ers", exchange, (1, b"refused U8 ImprintDiffers\n", b"")),
            ("b.ers", lambda path: path.write_bytes(self.due["a.ers"]), (1, b"refused U8 ImprintDiffers\n", b"")),
        ]
        for name, make, (status, out, err) in table:
            for moved in [self.folder / "moved"]:
                if moved.is_dir():
                    shutil.rmtree(moved)
                moved.unlink(missing_ok=True)
            put(name, make)
            before = self.there()
            found = self.rehashes()
            self.assertEqual((found[0], found[2]), (status, err), name)
            if out is not None:
                self.assertEqual(found[1], out)
            self.assertEqual(self.there(), before)
        put("b.ers", lambda path: None)
        self.assertEqual(self.rehashes("token"), (1, b"refused U8 ImprintDiffers\n", b""))
        limit = lambda: (signal.signal(signal.SIGXFSZ, signal.SIG_IGN), resource.setrlimit(resource.RLIMIT_FSIZE, (100, 100)))
        self.assertEqual(self.rehashes(preexec_fn=limit), (4, b"", b"failed write records/a.ers\n"))
        self.assertEqual(self.there(), self.old)
        self.assertEqual(self.rehashes(), (0, b"", b""))
        self.assertEqual(self.there(), self.due)


if __name__ == "__main__":
    unittest.main()
