"""Tests of what is found in containers: each is accepted, by the program too, and no change of what is signed is."""
import base64
import gzip
import hashlib
import io
import json
import subprocess
import unittest
import zipfile
from pathlib import Path

from containing import PDF, PYTHON, WithMaker, made
from making import INSTALLED, MODULES, PROGRAM, TOP, openssl

from oracle import der

LETTER = b"a letter\n"
ACCEPTED = r"^accepted [0-9]{14}Z$"


def opaque(octets):
    """A mail of application/pkcs7-mime."""
    head = b"From: ada@example\r\nMIME-Version: 1.0\r\nContent-Type: application/pkcs7-mime; smime-type=signed-data\r\n"
    return head + b"Content-Transfer-Encoding: base64\r\n\r\n" + base64.encodebytes(octets)


def forwarded(mail):
    """A mail that has another one as its only part."""
    head = b"From: bob@example\r\nMIME-Version: 1.0\r\nContent-Type: multipart/mixed; boundary=out\r\n\r\n"
    return head + b"--out\r\nContent-Type: message/rfc822\r\n\r\n" + mail + b"\r\n--out--\r\n"


def containers(maker):
    """One of each: by its name the octets, and the part in it that is signed."""
    attached, files = maker.attached(LETTER), [("a.txt", b"first"), ("b.txt", b"second")]
    found = {
        "plain.p7s": (attached, ""),
        "open.p7s": (made.in_ber(attached), ""),
        "long.p7s": (b"\x30\x84" + (len(attached) - 4).to_bytes(4, "big") + attached[4:], ""),
        "text.pem": (maker.converted(attached, "PEM"), ""),
        "lines.b64": (base64.encodebytes(attached), ""),
        "line.b64": (base64.b64encode(attached), ""),
        "clear.eml": (made.mail_signed(maker.signed), ""),
        "feeds.eml": (made.mail_signed(maker.signed, ends=b"\n"), ""),
        "opaque.eml": (opaque(attached), ""),
        "forwarded.eml": (forwarded(made.mail_signed(maker.signed)), "part 1.1"),
        "box.mbox": (b"From a Mon\n" + made.mail_signed(maker.signed, ends=b"\n"), "mail 1"),
        "one.asics": (made.asic_s(maker.signed), "META-INF/signature.p7s"),
        "two.asice": (made.asic_e(maker.signed, files), "META-INF/signature1.p7s"),
    }
    if PDF:
        found["cades.pdf"] = made.pdf_signed(maker.signed), "Signature1"
        found["pkcs7.pdf"] = made.pdf_signed(maker.signed, b"/adbe.pkcs7.detached"), "Signature1"
        found["open.pdf"] = made.pdf_signed(lambda octets: made.in_ber(maker.signed(octets))), "Signature1"
    return found


def what_is_signed(signed, content):
    """Of a SignedData all that a signature is over, or is: the content, and of its signer and of the token's what is signed, by the
    test's own reading."""
    parts = der.elements(der.only(der.elements(der.only(signed).body())[1].body()).body())
    signer = der.elements(der.elements(parts[-1].body())[0].body())
    kept = [parts[2 if len(parts) > 2 else 1].whole() if content is None else content]
    kept += [part.body() for part in signer[3:6]]
    for attribute in der.elements(signer[6].body()) if len(signer) > 6 else []:
        token = der.elements(der.elements(attribute.body())[1].body())[0]
        inside = der.elements(der.only(der.elements(token.body())[1].body()).body())
        stamper = der.elements(der.elements(inside[-1].body())[0].body())
        kept += [inside[2].whole(), *(part.body() for part in stamper[3:6])]
    return kept


class Each(WithMaker):
    """One of each container."""

    def by_commands(self, row):
        """The line of `cmsproof check` of what was extracted."""
        file, content = row["signed"], row.get("content")
        asked = subprocess.run([PROGRAM, "questions", "--trust", "trust.txt", file], cwd=self.folder, capture_output=True)
        (self.folder / "questions.txt").write_bytes(asked.stdout)
        words = [PYTHON, INSTALLED / "cmsproof-verify", "questions.txt", "answers.txt"]
        subprocess.run(words, cwd=self.folder, check=True)
        words = [PROGRAM, "check", "--trust", "trust.txt", "--answers", "answers.txt"]
        words += ["--content", content] if content else []
        return subprocess.run([*words, file], cwd=self.folder, capture_output=True).stdout.decode().strip()

    def test_each_is_accepted_and_the_program_says_the_same(self):
        files = containers(self.maker)
        for name, (octets, _) in files.items():
            self.put(name, octets)
        found = self.lines()
        self.assertEqual(set(found), {f"{name} {part}".strip() for name, (_, part) in files.items()}, self.err)
        for name, line in found.items():
            self.assertRegex(line, ACCEPTED, name)
        for row in self.extracted(*files):
            if "signed" in row:
                name = Path(row["file"]).name
                line = found.pop(f"{name} {row.get('part', '')}".strip())
                self.assertEqual(self.by_commands(row), line, name)
        self.assertEqual(found, {})

    def test_no_change_of_what_is_signed_is_accepted(self):
        files = containers(self.maker)
        for name, (octets, _) in files.items():
            for number in range(20):
                at = len(octets) * number // 20 + number % 3
                self.put(f"{number}.{name}", octets[:at] + bytes([octets[at] ^ 1]) + octets[at + 1 :])
        self.lines()
        accepted = [Path(row["file"]).name for row in self.rows if row["verdict"] == "accepted"]
        for name, (octets, _) in files.items():
            self.put(name, octets)
        signed = self.signed_in(*files, *accepted)
        for name in accepted:
            self.assertEqual(signed[name], signed[name.partition(".")[2]], f"{name} was accepted")
        # outside are certificates in the file, unsigned heads, white space, and fields of a zip that nobody reads
        self.assertLess(len(accepted), 20 * len(files) * 0.6)

    def signed_in(self, *names):
        """All that is signed in files, by their names."""
        found = {}
        for row in self.extracted(*names):
            if "signed" in row:
                read = [(self.folder / path).read_bytes() if path else None for path in (row["signed"], row.get("content"))]
                self.assertNotIn(row["file"], found)
                found[Path(row["file"]).name] = what_is_signed(*read)
        return found


class Folders(WithMaker):
    """Folders, and contents beside their signatures."""

    def test_a_content_beside_its_signature(self):
        signed, other = self.maker.signed(LETTER), self.maker.signed(b"another")
        for name, octets in [("a.txt", LETTER), ("a.txt.p7s", signed), ("b", LETTER), ("b.p7m", signed), ("c", LETTER)]:
            self.put(name, octets)
        self.put("c.sig", base64.b64encode(signed)), self.put("d", LETTER), self.put("d.p7s", other)
        self.put("e.p7s", signed), self.put("f", LETTER), self.put("f.p7s", self.maker.attached(LETTER))
        self.put("sub/g.pdf", LETTER), self.put("sub/g.pdf.sig", signed)
        found = self.lines()
        self.assertEqual(self.err, "")
        accepted = {name for name, line in found.items() if line.startswith("accepted ")}
        self.assertEqual(accepted, {"a.txt.p7s", "b.p7m", "c.sig", "sub/g.pdf.sig"})
        others = {name: line for name, line in found.items() if name not in accepted}
        rows = {
            "d.p7s": "refused signer 1 S6 DigestDiffers",
            "e.p7s": "refused C4 NoContent",
            "f.p7s": "refused C5 ContentTwice",
        }
        self.assertEqual(others, rows)
        self.assertEqual(self.rows[0]["content"], "archive/a.txt")

    def test_a_container_and_a_content_beside_it(self):
        mail = made.mail_signed(self.maker.signed)
        self.put("m.p7m", mail), self.put("m", b"another"), self.put("n.eml", mail)
        self.assertEqual(self.lines()["m.p7m"], "refused F14 ContentTwice")
        self.put("content", LETTER)
        self.assertEqual(self.lines("--content", "archive/content")["n.eml"], "refused F14 ContentTwice")

    def test_other_habits_and_lists(self):
        signed = self.maker.signed(LETTER)
        self.put("a.doc", LETTER), self.put("a.sign", signed), self.put("b", LETTER), self.put("other.p7s", signed)
        self.put("b.p7s", signed)
        (self.folder / "pairs").write_text("archive/other.p7s\tarchive/a.doc\n")
        (self.folder / "null").write_bytes(b"archive/other.p7s\0archive/a.doc\0")
        for list_of in (["--pairs-from", "pairs"], ["--pairs-from", "null", "--null"]):
            found = self.lines("--pair", ".sign=.doc", *list_of)
            self.assertEqual({line.split()[0] for line in found.values()}, {"accepted"}, found)
            self.assertEqual(set(found), {"a.sign", "b.p7s", "other.p7s"})
        found = self.lines("--no-pairs")
        rows = {name: "refused C4 NoContent" for name in ("b.p7s", "other.p7s")}
        self.assertEqual(
            found, {**rows, "a.doc": "refused F1 UnknownForm", "a.sign": "refused C4 NoContent", "b": found["a.doc"]}
        )
        for text in ("a", "a\tb\tc\n", "a\t\n", "a\tb\na\tc\n"):
            (self.folder / "pairs").write_text(text)
            status, rows, err = self.run_tool("cmsproof-archive", "--trust", "trust.txt", "--pairs-from", "pairs", "archive")
            self.assertEqual((status, rows, len(err.splitlines())), (2, [], 1), err)
        # nor do several lists name different contents of one file
        (self.folder / "pairs").write_text("archive/other.p7s\tarchive/a.doc\narchive/b.p7s\tarchive/b\n")
        (self.folder / "more").write_text("archive/b.p7s\tarchive/b\n")
        (self.folder / "others").write_text("archive/b.p7s\tarchive/none\n")
        trust = ["--trust", "trust.txt", "--pairs-from"]
        for first, *rest, expected in (
            ("pairs", "more", "pairs", ""),
            ("more", "pairs", "others", "others: it names another content of archive/b.p7s than more"),
            ("others", "more", "pairs", "more: it names another content of archive/b.p7s than others"),
        ):
            words = [word for name in rest for word in ("--pairs-from", name)]
            status, rows, err = self.run_tool("cmsproof-archive", *trust, first, *words, "--json")
            self.assertEqual((status, len(rows)), (2, 0) if expected else (0, 3), err)
            self.assertEqual(err.splitlines(), [f"cmsproof-archive: {expected}"] if expected else [])

    def test_carriage_returns_in_a_list_of_pairs(self):
        """A line ends in CR LF if all do, as in a list of names; else the CR is the end of a name, which another file may lack."""
        signed = self.maker.signed(LETTER)
        self.put("x.p7s", signed), self.put("y.p7s", signed), self.put("a", LETTER)
        for first, second, line in [("\r\n", "\r\n", "accepted"), ("\n", "\n", "accepted"), ("\r\n", "\n", "refused signer 1 S6")]:
            if first != second:
                self.put("a\r", b"I owe a million")
            (self.folder / "pairs").write_bytes(f"archive/x.p7s\tarchive/a{first}archive/y.p7s\tarchive/a{second}".encode())
            found = self.lines("--pairs-from", "pairs")
            self.assertTrue(found["x.p7s"].startswith(line), (first, second, found))
            self.assertTrue(found["y.p7s"].startswith("accepted"), found)

    def test_what_is_no_regular_file(self):
        self.put("b.p7s", self.maker.attached(LETTER)), self.put("a/z.p7s", self.maker.attached(LETTER))
        (self.folder / "archive" / "link.p7s").symlink_to("b.p7s")
        (self.folder / "archive" / "up").symlink_to("..")
        subprocess.run(["mkfifo", self.folder / "archive" / "pipe"], check=True)
        self.assertEqual(list(self.lines()), ["a/z.p7s", "b.p7s"])
        expected = [f"cmsproof-archive: archive/{name}: skipped: it is {what}" for name, what in SKIPPED]
        self.assertEqual(self.err.splitlines(), expected)

    def test_what_has_no_signature_that_is_read(self):
        files = {
            "a.xml": b"<?xml version='1.0'?><a/>",
            "b.gz": gzip.compress(b"b"),
            "c.zip": made.zipped([("a", b"a")]),
            "d.png": b"\x89PNG\r\n\x1a\n" + bytes(100),
            "e.txt": b"just text",
            "f.eml": b"From: a\r\nSubject: b\r\n\r\nhello\r\n",
            "g.asc": b"-----BEGIN PGP MESSAGE-----\n",
            "h.docx": made.zipped([("[Content_Types].xml", b"a"), ("word/a:b", b"a")]),
            "i.odt": made.zipped([("mimetype", b"application/vnd.oasis.opendocument.text"), ("content.xml", b"a")]),
            "j.eml": b"MIME-Version: 1.0\r\nContent-Type: application/pkcs7-mime; smime-type=enveloped-data\r\n\r\nx\r\n",
        }
        for name, octets in files.items():
            self.put(name, octets)
        self.assertEqual(self.lines(), {name: "refused F1 UnknownForm" for name in files})
        self.assertTrue(all(row["notes"] for row in self.rows))


SKIPPED = [("link.p7s", "a link"), ("pipe", "no regular file"), ("up", "a link")]

# cmsproof-extract with a front end that finds a signature and then ends its process, by the limit of its time or by a signal
ENDING = """import os, signal, sys
sys.path[:0] = [{installed!r}]
from cmsproof_tools import running
from cmsproof_tools.containers import armour, keeping
from cmsproof_tools.found import Found
keeping.SECONDS = 0.2

def found_in_pem(octets):
    yield Found("", {signed!r})
    if bytes(octets).endswith(b"killed"):
        os.kill(os.getpid(), signal.SIGKILL)
    with keeping.bounded(0, 1):
        while True:
            pass

armour.found_in_pem = found_in_pem
running.start("extract")
"""


class Extracting(WithMaker):
    """What cmsproof-extract writes."""

    def test_no_file_is_replaced_and_what_is_written_is_said(self):
        self.put("a.asics", made.asic_s(self.maker.signed)), self.put("b.txt", b"text")
        (row,) = self.extracted("a.asics")
        self.assertEqual((row["content"], row["container"]), ("out/a.asics.1.content", "asic"))
        self.assertEqual((self.folder / row["content"]).read_bytes(), b"a letter")
        self.assertEqual(row["content_sha256"], hashlib.sha256(b"a letter").hexdigest())
        openssl(
            "cms",
            "-verify",
            "-noverify",
            "-binary",
            "-inform",
            "DER",
            "-in",
            self.folder / row["signed"],
            "-content",
            self.folder / row["content"],
            "-out",
            "/dev/null",
        )
        status, rows, err = self.run_tool("cmsproof-extract", "--to", "out", "archive/a.asics")
        self.assertEqual((status, rows), (4, []), err)
        self.assertEqual(err, "cmsproof-extract: failed write out/a.asics.1.p7s: File exists\n")
        self.assertEqual(sorted(path.name for path in (self.folder / "out").iterdir()), ["a.asics.1.content", "a.asics.1.p7s"])
        status, rows, err = self.run_tool("cmsproof-extract", "archive/b.txt")
        self.assertEqual((status, rows[0]["line"], err), (1, "refused F1 UnknownForm", ""))
        status, rows, err = self.run_tool("cmsproof-extract", "archive/none")
        self.assertEqual((status, rows, err), (4, [], "cmsproof-extract: failed open archive/none: No such file or directory\n"))

    def test_a_file_at_which_the_process_ends(self):
        """It has its line, with what of it was found before, and the files behind it have theirs. Nothing is written twice."""
        for name in ("a.asics", "c.asics"):
            self.put(name, made.asic_s(self.maker.signed))
        label = b"-----BEGIN CMS-----\n"
        self.put("time.pem", label + b"time"), self.put("killed.pem", label + b"killed")
        (self.folder / "ending.py").write_text(ENDING.format(installed=str(MODULES), signed=self.maker.signed(b"a letter")))
        words = [PYTHON, "ending.py", *(f"archive/{name}" for name in ("a.asics", "time.pem", "killed.pem", "c.asics"))]
        done = subprocess.run(words, cwd=self.folder, capture_output=True, check=False, timeout=100)
        rows = [json.loads(line) for line in done.stdout.splitlines()]
        found = [(row["file"][8:], row.get("line", row["container"] if "container" in row else "")) for row in rows]
        killed, time = "failed worker: it was ended by signal 9", "refused F4 TooLarge"
        lines = [("a.asics", "asic"), ("time.pem", ""), ("time.pem", time), ("killed.pem", ""), ("killed.pem", killed)]
        self.assertEqual((found, done.returncode, done.stderr), ([*lines, ("c.asics", "asic")], 4, b""))
        self.assertIn("processor", rows[2]["reason"])
        written = [row["signed"] for row in rows if "signed" in row]
        self.assertEqual((len(written), all((self.folder / name).exists() for name in written)), (4, True))

    def test_standard_input_is_read_once(self):
        """By the name of its descriptor, also where the process that read it has ended."""
        self.put("killed.pem", b"-----BEGIN CMS-----\nkilled")
        (self.folder / "ending.py").write_text(ENDING.format(installed=str(MODULES), signed=self.maker.signed(b"a letter")))
        said = made.asic_s(self.maker.signed)
        words = [PYTHON, "ending.py", "/dev/stdin", "archive/killed.pem", "/dev/fd/0"]
        done = subprocess.run(words, cwd=self.folder, input=said, capture_output=True, check=False, timeout=100)
        rows = [json.loads(line) for line in done.stdout.splitlines()]
        self.assertEqual([row["signed_sha256"] for row in rows[::3]], [hashlib.sha256(self.signed_in(said)).hexdigest()] * 2)

    def signed_in(self, octets):
        """The signature in an ASiC."""
        with zipfile.ZipFile(io.BytesIO(octets)) as file:
            return file.read("META-INF/signature.p7s")

    def test_an_output_that_is_closed(self):
        self.put("a.asics", made.asic_s(self.maker.signed))
        with open("/dev/full", "wb") as full:
            words = [PYTHON, INSTALLED / "cmsproof-extract", "archive/a.asics", "archive/a.asics"]
            done = subprocess.run(words, cwd=self.folder, stdout=full, stderr=subprocess.PIPE, check=False, timeout=100)
        self.assertEqual((done.returncode, done.stderr), (4, b"cmsproof-extract: failed write -: No space left on device\n"))


class Apart(WithMaker):
    """Tools that have more to do than one file, and come to a PDF that ends the process which reads it."""

    def said(self, tool, *words):
        """How a tool ends whose front end for PDF takes too long, or is killed."""
        code = ENDING.replace("armour.found_in_pem = ", "pdf.found_in_pdf = ").replace("import armour", "import armour, pdf")
        code = code.replace('"extract"', f'"{tool}"').replace("    yield Found(", "    Found(")
        (self.folder / "ending.py").write_text(code.format(installed=str(MODULES), signed=b""))
        done = subprocess.run([PYTHON, "ending.py", *words], cwd=self.folder, capture_output=True, check=False, timeout=100)
        return done.returncode, done.stderr.decode().splitlines(), done.stdout.decode()

    def setUp(self):
        super().setUp()
        self.put("time.pdf", b"%PDF-1.7 time"), self.put("killed.pdf", b"%PDF-1.7 killed")

    def test_evidence(self):
        rows = {"time": (1, "refused F4 TooLarge"), "killed": (1, "refused F3 Broken")}
        for name, (status, line) in rows.items():
            words = ["evidence", "--trust", "trust.txt", f"archive/{name}.pdf", "--to", "out.zip"]
            self.assertEqual(self.said("archive", *words)[:2], (status, [f"cmsproof-archive: archive/{name}.pdf: {line}"]))
        self.assertFalse((self.folder / "out.zip").exists())

    def test_trust(self):
        words = ["-x509", "-newkey", "ec", "-pkeyopt", "ec_paramgen_curve:P-256", "-nodes", "-keyout", "/dev/null"]
        openssl("req", *words, "-subj", "/CN=a", "-out", self.folder / "ca.pem")
        status, told, out = self.said("trust", "--issuer", "ca.pem", "--from-files", "archive/time.pdf", "archive/killed.pdf")
        # (nobody gets an entry: no list is written)
        self.assertEqual((status, len(told), out), (1, 2, ""), told)
        self.assertRegex(told[0], "^cmsproof-trust: archive/time.pdf: refused F4 TooLarge: .*: it is not looked at$")


class Documents(unittest.TestCase):
    """The documents have each refusal of the front ends, and no other one."""

    def test_the_table_of_refusals(self):
        from cmsproof_tools.containers.refusals import WORDS

        lines = (TOP / "docs" / "REFUSALS.md").read_text().splitlines()
        rows = [line.split(" | ")[0][2:].split(" ") for line in lines if line.startswith("| F")]
        self.assertEqual([tuple(row) for row in rows], list(WORDS.items()))


if __name__ == "__main__":
    unittest.main()
