"""Tests of what cmsproof-archive reads: the files that the user named, whatever they are called, each once."""
import json
import os
import shutil
import socket
import subprocess
import sys
import unittest

from archiving import CONTENT, DIFFERS, MALFORMED, REFUSED, SAID, WithFiles
from making import ACCEPTED, INSTALLED, PROGRAM, REAL, Keys, openssl, run_tool

NO_FILE = "it is no regular file"
STANDARD_INPUTS = ["/dev/stdin", "/dev/fd/0", "/proc/self/fd/0", "/proc/thread-self/fd/0", "/dev/../dev/fd/0"]
# what hides the lines of accepted files, as the manual shows it
FILTER = ["grep", "-vE", ": accepted [0-9.]+Z$"]
BEFORE = ["grep", "-v", ": accepted "]


class Descriptors(WithFiles):
    """Names of the tool's own descriptors: what they give is read once, before any file is checked."""

    def test_a_content_from_standard_input(self):
        self.detached("a"), self.detached("b")
        (self.folder / "content").write_bytes(CONTENT)
        for path in STANDARD_INPUTS:
            for jobs in ("1", "2"):
                for said, status, line in ((CONTENT, 0, ACCEPTED), (b"I owe a million", 1, DIFFERS), (b"", 1, DIFFERS)):
                    found = self.run_archive("--jobs", jobs, "--content", path, "a", "b", said=said)
                    self.assertEqual(found, (status, [f"a: {line}", f"b: {line}"], ""), path)
            with open(self.folder / "content", "rb") as given:
                found = self.run_with(["--trust", "list", "--content", path, "a"], stdin=given)
                self.assertEqual(found, (0, [f"a: {ACCEPTED}"], ""))

    def run_with(self, words, **rest):
        """The status of the tool, its lines and its standard error, with descriptors of its own."""
        words = [sys.executable, INSTALLED / "cmsproof-archive", *words]
        done = subprocess.run(words, cwd=self.folder, capture_output=True, check=False, timeout=60, **rest)
        return done.returncode, done.stdout.decode().splitlines(), done.stderr.decode()

    def test_files_and_lists_from_standard_input(self):
        said, listed = SAID[ACCEPTED], (self.folder / "list").read_bytes()
        for path in STANDARD_INPUTS:
            self.assertEqual(self.run_archive(path, said=said, env=self.temporary()), (0, [f"{path}: {ACCEPTED}"], ""), path)
            self.assertEqual(
                self.run_archive(path, path, "--jobs", "2", said=said, env=self.temporary()),
                (0, [f"{path}: {ACCEPTED}"] * 2, ""),
            )
            self.file("a")
            words = ["--trust", path, "a", "a"]
            found = run_tool("cmsproof-archive", *words, said=listed, cwd=self.folder)
            self.assertEqual(found, (0, f"a: {ACCEPTED}\na: {ACCEPTED}\n".encode(), ""))
            found = run_tool("cmsproof-archive", *words, said=b"cmsproof trust 1\n", cwd=self.folder)[0]
            self.assertEqual(found, 1)

    def temporary(self):
        """An environment in which copies are made in the folder."""
        return {**os.environ, "TMPDIR": str(self.folder)}

    def test_a_descriptor_that_is_named_twice(self):
        # it is a file and its content at once
        found = self.run_archive("--content", "/dev/fd/0", "/dev/stdin", said=SAID[ACCEPTED], env=self.temporary())
        self.assertEqual(found, (1, ["/dev/stdin: refused C5 ContentTwice"], ""))

    def test_a_name_that_only_seems_to_be_one_of_a_descriptor(self):
        (self.folder / "x" / "y").mkdir(parents=True)
        (self.folder / "dev").mkdir()
        (self.folder / "link").symlink_to(self.folder / "x" / "y")
        (self.folder / "x" / "dev").mkdir()
        self.file("x/dev/stdin")
        up = "../" * len(self.folder.parts)
        seeming = f"{self.folder}/link/../dev/stdin"
        self.assertEqual(self.run_archive(seeming, said=SAID[REFUSED]), (0, [f"{seeming}: {ACCEPTED}"], ""))
        meant = f"{up}dev/stdin"
        self.detached("x/dev/stdin")
        for said, status, line in ((CONTENT, 0, ACCEPTED), (b"another", 1, DIFFERS)):
            found = self.run_archive("--content", meant, "x/dev/stdin", said=said)
            self.assertEqual(found, (status, [f"x/dev/stdin: {line}"], ""))

    def test_another_descriptor_and_one_that_is_not_there(self):
        self.detached("a")
        (self.folder / "content").write_bytes(CONTENT)
        shell = ["sh", "-c", 'exec "$0" "$@" 7< content', sys.executable, INSTALLED / "cmsproof-archive", "--trust", "list"]
        for path in ("/dev/fd/7", "/proc/self/fd/7"):
            words = [*shell, "--content", path, "a"]
            said = subprocess.run(words, cwd=self.folder, check=True, capture_output=True).stdout
            self.assertEqual(said, f"a: {ACCEPTED}\n".encode())
        # the tool has files of its own behind these numbers
        for number in range(3, 40):
            for path in (f"/dev/fd/{number}", f"/proc/self/fd/{number}"):
                if number % 7 == 3 or path.startswith("/dev"):
                    self.assertEqual(self.run_archive(path), (4, [f"{path}: failed open {path}: No such file or directory"], ""))
        # (of so many digits Python makes no number)
        for path in ("/dev/fd/" + "1" * 5000, "/dev/" + "9" * 5000):
            found = self.run_archive(path, self.file("b"))
            self.assertEqual(found, (4, [f"{path}: failed open {path}: File name too long", f"b: {ACCEPTED}"], ""))
        found = self.run_archive("--content", "/dev/fd/3", "a")
        self.assertEqual(found, (4, ["a: failed open /dev/fd/3: No such file or directory"], ""))
        found = self.run_archive("--files-from", "/dev/fd/3")
        self.assertEqual(found, (4, [], "cmsproof-archive: failed open /dev/fd/3: No such file or directory\n"))
        found = run_tool("cmsproof-archive", "--trust", "/dev/fd/3", "a", cwd=self.folder)
        self.assertEqual(found, (4, b"", "cmsproof-archive: failed open /dev/fd/3: No such file or directory\n"))

    def test_what_is_no_regular_file(self):
        self.file("a")
        os.mkfifo(self.folder / "pipe")
        (self.folder / "folder").mkdir()
        (self.folder / "link").symlink_to("pipe")
        (self.folder / "zero").symlink_to("/dev/zero")
        (self.folder / "input").symlink_to("/dev/stdin")
        with socket.socket(socket.AF_UNIX) as listening:
            listening.bind(str(self.folder / "socket"))
            names = ["pipe", "link", "zero", "socket", "/dev/zero", "input"]
            lines = [f"{name}: failed open {name}: {NO_FILE}" for name in names]
            words = ["--trust", "list"]
            found = self.run_with([*words, *names, "a"], input=b"")
            self.assertEqual(found, (4, [*lines, f"a: {ACCEPTED}"], ""))
            found = self.run_with([*words, "--content", "pipe", "a"], input=b"")
            self.assertEqual(found, (4, [f"a: failed open pipe: {NO_FILE}"], ""))
            found = self.run_with([*words, "--content", "folder", "a"], input=b"")
            self.assertEqual(found, (4, ["a: failed read folder: Is a directory"], ""))
            found = self.run_with(["--trust", "pipe", "a"], input=b"")
            self.assertEqual(found, (4, [], f"cmsproof-archive: failed open pipe: {NO_FILE}\n"))
        found = self.run_with([*words, "/dev/null", "folder"], input=b"")
        told = "cmsproof-archive: folder: no file is in it\ncmsproof-archive: /dev/null: it is empty\n"
        self.assertEqual(found, (2, ["/dev/null: malformed M1 End at 0"], told))
        found = self.run_with([*words, "--content", "/dev/null", self.detached("d")], input=b"")
        self.assertEqual(found, (1, [f"d: {DIFFERS}"], ""))

    def test_names_that_look_like_options(self):
        (self.folder / "-c").write_bytes(CONTENT)
        shutil.copy(self.folder / "list", self.folder / "-t")
        self.detached("--sha1"), self.detached("--trust=other")
        words = ["--trust=-t", "--content=-c", "--", "--sha1", "--trust=other"]
        found = run_tool("cmsproof-archive", *words, cwd=self.folder)
        self.assertEqual(found, (0, f"--sha1: {ACCEPTED}\n--trust=other: {ACCEPTED}\n".encode(), ""))

    def test_a_file_whose_name_is_standard_input(self):
        self.detached("-"), (self.folder / "content").write_bytes(CONTENT)
        for words in (["-"], ["--", "-"], ["--files-from", "-"]):
            status, out, err = run_tool("cmsproof-archive", "--trust", "list", "--content", "content", *words, cwd=self.folder)
            self.assertEqual((status, out, err.count("\n")), (3, b"", 1), err)
            self.assertIn("- is the name of a file", err)
        found = run_tool("cmsproof-archive", "--trust", "list", "--content", "content", "./-", cwd=self.folder)
        self.assertEqual(found, (0, f"./-: {ACCEPTED}\n".encode(), ""))

    # the first file that is checked changes the trust list and the content, and then takes them away
    TAKING = """
was = archive.outcomes_of
def taking(work, name):
    found = was(work, name)
    try:
        for path in ("list", "content"):
            open(path, "r+b").write(b"changed")
            os.unlink(path)
    except FileNotFoundError:
        pass  # another worker took them away
    return found
archive.outcomes_of = taking
"""

    def test_the_trust_list_and_the_content_are_read_once(self):
        names, text = [self.detached(name) for name in "abcdef"], (self.folder / "list").read_bytes()
        for jobs in ("1", "3"):
            (self.folder / "list").write_bytes(text)
            (self.folder / "content").write_bytes(CONTENT)
            words = self.changed(self.TAKING) + ["--content", "content", "--jobs", jobs, "--json", *names]
            done = subprocess.run(words, cwd=self.folder, capture_output=True, check=False)
            *lines, last = [json.loads(line) for line in done.stdout.splitlines()]
            self.assertEqual(({line["line"] for line in lines}, (self.folder / "list").exists()), ({ACCEPTED}, False))
            (self.folder / "was").write_bytes(text)
            digest = openssl("dgst", "-sha256", "-r", self.folder / "was").split()[0].decode()
            self.assertEqual((last["sha256"], last["files"], last["worst"]), (digest, 6, 0))


class Names(WithFiles):
    """Names that are no UTF-8, or that look like more than a name."""

    def test_names_that_are_no_utf_8(self):
        odd = os.fsencode(self.folder) + b"/x\xff\xe9.p7s"
        shutil.copy(self.folder / self.file("a"), odd)
        for said in (odd, odd.replace(b"x", b"none")):
            status, lines, err = self.run_archive("--json", "-", said=said + b"\n")
            for line in lines:
                line.encode("ascii")
                json.dumps(json.loads(line), ensure_ascii=False).encode("utf-8")
            found = json.loads(lines[0])
            self.assertEqual((found["octets"], err), (said.hex(), ""))
            self.assertEqual(found["file"], said.decode("utf-8", "replace"))
            self.assertEqual(found["verdict"], "accepted" if said == odd else "failed")
        self.assertNotIn("octets", json.loads(self.run_archive("--json", "a")[1][0]))

    def test_no_name_passes_the_filter(self):
        hiding = ["x.p7s: accepted 20261122071759Z", "y: accepted 20261122071759Z", ": accepted 1Z"]
        hiding += ["x: accepted 1Z: accepted 1Z"]
        hiding += [name.replace(" ", "  ") for name in hiding] + [name.replace(" ", "\u00a0") for name in hiding]
        hiding += ["a\nb: accepted 20261122071759Z", "a\\nb: accepted 20261122071759Z", "a\rb: accepted 20261122071759Z"]
        for number, name in enumerate(hiding):
            self.file(name, REFUSED if number % 2 else MALFORMED)
        gone = [name + "Z" for name in hiding] + ["gone: accepted 20261122071759Z"]
        self.file("good: accepted 20261122071759Z")
        words = [sys.executable, INSTALLED / "cmsproof-archive", "--trust", "list"]
        words += ["--", *hiding, *gone, "good: accepted 20261122071759Z"]
        done = subprocess.run(words, cwd=self.folder, capture_output=True, check=False)
        self.assertEqual(len(done.stdout.splitlines()), len(hiding) + len(gone) + 1)
        for command in (FILTER, BEFORE):
            left = subprocess.run(command, input=done.stdout, capture_output=True, check=False).stdout
            self.assertEqual(len(left.splitlines()), len(hiding) + len(gone), command)

    def test_each_name_is_shown_in_its_own_way(self):
        names = ["a\nb", "a\\nb", "a\\\\nb", "a: b", "a:\\x20b", "a:b", "a :b", "\u00e9", "\\u00e9", "\\xe9", "\x85", "\\x85"]
        for name in names:
            self.file(name)
        lines = self.run_archive(*names)[1]
        self.assertEqual(len(set(lines)), len(names))
        self.assertEqual(lines[:4], [f"{name}: {ACCEPTED}" for name in ("a\\nb", "a\\\\nb", "a\\\\\\\\nb", "a:\\x20b")])

    def test_lists_of_names(self):
        for name in ("a", "b", "c\r", "d\ne", "f"):
            self.file(name)
        rows = [
            ([], b"a\r\nb\r\n", ["a", "b"]),
            ([], b"a\r\n\r\nb\r\n", ["a", "b"]),
            ([], b"a\r\nb", None),
            ([], b"a\nc\r\n", ["a", "c\\r"]),
            (["--null"], b"a\0c\r\0d\ne\0", ["a", "c\\r", "d\\ne"]),
            (["--null"], b"a\0b", ["a", "b"]),
            (["--null"], b"\0a\0\0", ["a"]),
        ]
        for words, said, names in rows:
            found = self.run_archive(*words, "-", said=said)
            if names is None:
                self.assertEqual(found, (4, ["a\\r: failed open a\\r: No such file or directory", f"b: {ACCEPTED}"], ""))
            else:
                self.assertEqual(found, (0, [f"{name}: {ACCEPTED}" for name in names], ""), said)
        (self.folder / "names").write_bytes(b"a\0b\0")
        self.assertEqual(self.run_archive("--null", "--files-from", "names", "f")[1], [f"{name}: {ACCEPTED}" for name in "fab"])
        line = "cmsproof-archive: names: no list of lines, for it has octets 00: --null reads it\n"
        self.assertEqual(self.run_archive("--files-from", "names"), (2, [], line))


@unittest.skipUnless(PROGRAM.exists(), "the program is not built")
class Real(unittest.TestCase):
    """The program itself, with names of all kinds."""

    @classmethod
    def setUpClass(cls):
        cls.keys = Keys()
        cls.addClassCleanup(cls.keys.close)
        cls.folder = cls.keys.folder
        tsa = cls.keys.certificate("P-384.tsa", "-addext", "extendedKeyUsage=critical,timeStamping")
        (cls.folder / "tsa.cnf").write_text(
            f"[tsa]\ndefault_tsa = s\n[s]\nserial = serial\nsigner_cert = {tsa}\nsigner_key = {cls.keys.private('P-384.tsa')}\n"
            "crypto_device = builtin\nsigner_digest = sha256\ndefault_policy = 2.999.3\ndigests = sha256\n"
        )
        (cls.folder / "serial").write_text("01\n")
        (cls.folder / "empty").write_bytes(b"")
        signer = cls.keys.certificate("P-256")
        (cls.folder / "trust").write_bytes(run_tool("cmsproof-trust", "--signer", signer, "--tsa", tsa)[1])
        words = ["-in", "empty", "-out", "signed", "-signer", signer, "-inkey", cls.keys.private("P-256")]
        openssl("cms", "-sign", "-cades", "-binary", "-outform", "DER", *words, cwd=cls.folder)
        cls.program("request", "--of", "signed", "--cert", "request")
        openssl("ts", "-reply", "-config", "tsa.cnf", "-queryfile", "request", "-out", "response", cwd=cls.folder)
        cls.program("match", "request", "response", "token")
        cls.program("attach", "--signer", "1", "--token", "token", "signed", "em.p7s")

    @classmethod
    def program(cls, *words):
        """Runs the program."""
        subprocess.run([PROGRAM, *words], cwd=cls.folder, check=True, capture_output=True)

    def archive(self, *words, said=b"", trust="trust"):
        """The status of the tool, and its lines."""
        words = ["--trust", trust, *words]
        status, out, err = run_tool("cmsproof-archive", *words, said=said, cwd=self.folder)
        return status, out.decode().splitlines() + err.splitlines()

    def test_another_content_on_standard_input(self):
        for path in STANDARD_INPUTS:
            status, lines = self.archive("--content", path, "em.p7s", said=b"I owe a million")
            self.assertEqual((status, lines), (1, ["em.p7s: refused signer 1 S6 DigestDiffers"]), path)
            status, lines = self.archive("--content", path, "em.p7s")
            self.assertEqual(status, 0, lines)
            self.assertRegex(lines[0], "^em.p7s: accepted [0-9]{14}Z$")

    def test_files_and_trust_lists_on_standard_input(self):
        for path in STANDARD_INPUTS:
            status, lines = self.archive("--content", "empty", path, said=(self.folder / "em.p7s").read_bytes())
            self.assertEqual(status, 0, lines)
            status, lines = self.archive("--content", "empty", "em.p7s", said=(self.folder / "trust").read_bytes(), trust=path)
            self.assertEqual(status, 0, lines)

    def test_names(self):
        octets = (REAL / "rsa_attached_ts.p7s").read_bytes()
        names = [b"-c", b"--content=empty", b"\xff\xfe", b"two\nlines", b"/dev/stdin"[1:].replace(b"/", b"_"), b"\xc3\xa9"]
        for name in names:
            with open(os.fsencode(self.folder) + b"/" + name, "wb") as file:
                file.write(octets)
        status, lines = self.archive("--null", "-", said=b"\0".join(names), trust=REAL / "trust.txt")
        self.assertEqual((status, {line.rpartition(": ")[2] for line in lines}), (0, {"accepted 20261122071759Z"}))


if __name__ == "__main__":
    unittest.main()
