"""Tests of the built program: evidence records of a folder's files by one time-stamp (RFC 4998 4.2). The records are compared with those
that are worked out here, apart from the program; and commands are killed, run beside one another, and run where nothing can be written."""
import hashlib
import os
import random
import resource
import shutil
import signal
import subprocess
import time
import unittest

from making import NOBODY, PROGRAM, TOP, folder_of, lacking_tools
from oracle import sums
from samples.authority import STAMPING, configure, make_certificate, openssl

# names that a shell, a list or a path could take for something else
NAMES = [" ", " a ", "-", "--", "*", "a\\", "\\n", "a\nb", "\n", "a\rb", "é", ".hidden", "..a", "...", "a.ers", "#", "x" * 240, "d/e/f", "d/e.ers", "d/f"]
# where Debian has Bouncy Castle, and why it can't be asked
JARS = [f"/usr/share/java/{name}.jar" for name in ("bcpkix", "bcprov", "bcutil")]
NO_BOUNCY_CASTLE = "" if shutil.which("java") and all(map(os.path.exists, JARS)) else "there is no java with /usr/share/java/bcpkix.jar"


def run(folder, *words, **how):
    """How the program ends with these words: its status, and what it prints on its two outputs."""
    done = subprocess.run([PROGRAM, *words], cwd=folder, capture_output=True, check=False, **how)
    return done.returncode, done.stdout, done.stderr


def document(name):
    """The octets of a file."""
    return b"this is " + name.encode()


@unittest.skipIf(lacking_tools(), lacking_tools())
class Folder(unittest.TestCase):
    """The files of a folder, one time-stamp, and their records."""

    def make(self, names):
        """The files of these names below `files`, their sums, the token of an authority, and the record that is due for each."""
        self.folder = folder_of(self)
        for name in names:
            path = self.folder / "files" / name
            path.parent.mkdir(parents=True, exist_ok=True)
            path.write_bytes(document(name))
        # (of a file whose name is `-` sha256sum reads standard input, so each has `./` before it there)
        found = "find . -type f -print0 | sort -z | xargs -0 sha256sum | sed 's|  \\./|  |' > ../sums"
        subprocess.run(found, shell=True, cwd=self.folder / "files", check=True, env={**os.environ, "LC_ALL": "C"})
        make_certificate(self.folder, "tsa", STAMPING)
        configure(self.folder, "tsa.cnf", "tsa", more="ess_cert_id_alg = sha256\n")
        self.assertEqual([one.name.decode() for one in sums.read((self.folder / "sums").read_bytes())], sorted(names, key=str.encode))
        self.token = self.stamp()
        digests = {name: hashlib.sha256(document(name)).digest() for name in names}
        root, paths = sums.tree(list(digests.values()))
        self.assertIn(root, self.token)
        self.due = {f"{name}.ers": sums.record(paths[digests[name]], self.token) for name in names}
        (self.folder / "records").mkdir()

    def stamp(self):
        """The token over the root of the sums, which goes into `token`."""
        self.assertEqual(run(self.folder, "evidence", "request", "--cert", "sums", "asked"), (0, b"", b""))
        openssl(self.folder, "ts", "-reply", "-config", "tsa.cnf", "-queryfile", "asked", "-out", "answer")
        self.assertEqual(run(self.folder, "match", "asked", "answer", "token"), (0, b"answers\n", b""))
        return (self.folder / "token").read_bytes()

    def makes(self, into="records", **how):
        """What `evidence make` says."""
        return run(self.folder, "evidence", "make", "--token", "token", "--into", into, "sums", **how)

    def there(self, into="records"):
        """The files below a folder."""
        top = self.folder / into
        return {str(path.relative_to(top)): path.read_bytes() for path in top.rglob("*") if path.is_file()}

    def test_each_file(self):
        """The record of each file is the one that is due, and is accepted for that file alone; a second run changes nothing."""
        self.make(NAMES)
        self.assertEqual(self.makes(), (0, b"", b""))
        self.assertEqual(self.there(), self.due)
        before = {path: path.stat().st_mtime_ns for path in self.folder.rglob("*.ers")}
        self.assertEqual(self.makes(), (0, b"", b""))
        self.assertEqual({path: path.stat().st_mtime_ns for path in self.folder.rglob("*.ers")}, before)
        (self.folder / "trust").write_text("cmsproof trust 1\ntsa " + openssl(self.folder, "x509", "-in", "tsa.pem", "-outform", "DER").hex() + "\n")
        check = ["evidence", "check", "--whole", "--trust", "trust", "--answers", "answers"]
        for name, other in zip(NAMES, NAMES[1:] + NAMES[:1]):
            record = f"records/{name}.ers"
            asked = run(self.folder, "evidence", "questions", "--trust", "trust", record)[1]
            (self.folder / "answers").write_bytes(asked.replace(b"questions", b"answers", 1))
            status, said, _ = run(self.folder, *check, record, f"files/{name}")
            self.assertEqual((status, said[:9]), (0, b"accepted "), name)
            self.assertEqual(run(self.folder, *check, record, f"files/{other}")[0], 1, name)

    @unittest.skipIf(NO_BOUNCY_CASTLE, NO_BOUNCY_CASTLE)
    def test_read_by_another_program(self):
        """Bouncy Castle takes the record of each file, and of no other; long after the time-stamp too."""
        names = ["one", "two", "d/three"]
        self.make(names)
        self.assertEqual(self.makes(), (0, b"", b""))
        asked = ["java", "-cp", ":".join(JARS), TOP / "tools" / "compared" / "Records.java"]
        for name, other in zip(names, names[1:] + names[:1]):
            said = []
            for file in (name, other):
                words = [*asked, f"records/{name}.ers", f"files/{file}", "99981231Z"]
                said.append(subprocess.run(words, cwd=self.folder, capture_output=True, text=True, check=True).stdout)
            self.assertEqual((said[0], said[1][:8]), ("valid\n", "refused:"), name)

    def test_killed(self):
        """Of a run that was killed whole records are there, and others in no place of theirs; the next one makes the rest."""
        self.make([f"{number % 7}/{number}" for number in range(400)])
        words = [PROGRAM, "evidence", "make", "--token", "token", "--into", "records", "sums"]
        started = time.monotonic()
        self.assertEqual(self.makes(), (0, b"", b""))
        took, choice = time.monotonic() - started, random.Random(4998)
        for _ in range(10):
            shutil.rmtree(self.folder / "records")
            (self.folder / "records").mkdir()
            with subprocess.Popen(words, cwd=self.folder) as running:
                time.sleep(choice.uniform(0, took))
                running.send_signal(signal.SIGKILL)
            left = {name: found for name, found in self.there().items() if ".new" not in name}
            self.assertLessEqual(left.items(), self.due.items())
            self.assertLessEqual(sum(".new" in name for name in self.there()), 1)
            self.assertEqual(self.makes(), (0, b"", b""))
            self.assertLessEqual(self.due.items(), self.there().items())

    def test_beside_one_another(self):
        """Of runs at once, by two stamps, none replaces a record of another."""
        self.make([str(number) for number in range(200)])
        shutil.copy(self.folder / "token", self.folder / "token-0")
        self.stamp()
        shutil.copy(self.folder / "token", self.folder / "token-1")
        words = [PROGRAM, "evidence", "make", "--into", "records", "sums", "--token"]
        tokens = [(self.folder / f"token-{turn}").read_bytes() for turn in range(2)]
        self.assertNotEqual(*tokens)
        running = [subprocess.Popen([*words, f"token-{turn % 2}"], cwd=self.folder, stderr=subprocess.DEVNULL) for turn in range(6)]
        for one in running:
            self.assertIn(one.wait(), (0, 4))
        for name, record in self.there().items():
            self.assertEqual(sum(record.endswith(token) for token in tokens), 1, name)

    def test_nothing_is_written(self):
        """Where no octet can be written, or no file made, the line names the first file, and no part of it is left."""
        self.make(["a", "b"])
        limit = lambda: (signal.signal(signal.SIGXFSZ, signal.SIG_IGN), resource.setrlimit(resource.RLIMIT_FSIZE, (100, 100)))
        self.assertEqual(self.makes(preexec_fn=limit), (4, b"", b"failed write records/a.ers\n"))
        self.assertEqual(self.there(), {})
        if os.getuid() == 0:
            os.chmod(self.folder, 0o755)
            for path in (self.folder / "sums", self.folder / "token"):
                os.chmod(path, 0o644)
            nobody = {"user": NOBODY, "group": NOBODY, "extra_groups": []}
        else:
            os.chmod(self.folder / "records", 0o555)
            nobody = {}
        self.assertEqual(self.makes(**nobody), (4, b"", b"failed write records/a.ers\n"))
        self.assertEqual(self.there(), {})

    def test_renewed_records(self):
        """One record that is not the one that would be made, as a renewed one, keeps all from being written."""
        self.make(["a", "b", "c"])
        (self.folder / "records" / "c.ers").write_bytes(self.due["c.ers"] + b"\0")
        self.assertEqual(self.makes(), (4, b"", b"failed replace records/c.ers\n"))
        self.assertEqual(list(self.there()), ["c.ers"])


if __name__ == "__main__":
    unittest.main()
