"""Tests that what documents, manual pages and comments name is there: documents, their sections, files; and what commands of documents
say of names and folders that somebody else chose."""
import re
import subprocess
import unittest
from pathlib import Path

from making import folder_of

TOP = Path(__file__).resolve().parent.parent.parent
DOCUMENTS = [TOP / "README.md", *sorted(TOP.glob("docs/*.md"))]
# (the changelog names what was there once)
FOLDERS = "crates/*/src crates/*/specs crates/*/proofs tools man include benchmarks packaging".split()
ENDINGS = {".rt", ".antt", ".py", ".sh", ".1", ".5", ".h", ".c", ".java"}
# where a line of a comment ends and the next one begins
LINE = re.compile(r"\n\s*(?://+|--|#|\*)?\s*")
NAME, NUMBERS = r"\b([A-Z][A-Z-]+\.md)`?", r"(\d+(?:(?:, | and | to )\d+)*)"
FILE = re.compile(r"`((?:crates|tools|docs|include|man|benchmarks|dist|data)/[\w./-]*\w)`")


def commented():
    """The files with comments."""
    files = (file for folder in FOLDERS for place in TOP.glob(folder) for file in place.rglob("*"))
    return [file for file in files if file.suffix in ENDINGS and "out" not in file.parts]


def wrong_in(text, sections):
    """Which documents, and sections of documents, a text names that are not there."""
    text = LINE.sub(" ", text)
    found = [name for name in re.findall(NAME, text) if name not in sections]
    for name, numbers in re.findall(NAME + ",? sections? " + NUMBERS, text):
        found += [f"{name}, {number}" for number in re.findall(r"\d+", numbers) if number not in sections.get(name, ())]
    return found


class Links(unittest.TestCase):
    """What is named is there."""

    def test_documents_and_sections(self):
        sections = {file.name: re.findall(r"^#+ (\d+) ", file.read_text(), re.M) for file in [*DOCUMENTS, TOP / "CHANGELOG.md"]}
        self.assertEqual(wrong_in("NONE.md, `GUIDE.md`, sections 1 and\n// 99", sections), ["NONE.md", "GUIDE.md, 99"])
        texts = {file: file.read_text(errors="replace") for file in [*DOCUMENTS, *commented()] if file != Path(__file__)}
        self.assertEqual([f"{file}: {wrong}" for file, text in texts.items() for wrong in wrong_in(text, sections)], [])

    def test_files(self):
        named = [(file.name, path) for file in DOCUMENTS for path in FILE.findall(file.read_text())]
        self.assertGreater(len(named), 50)
        # (a crate's own folder `data` is named by what stands before)
        found = {path for _, path in named if (TOP / path).exists() or any(TOP.glob("crates/*/" + path))}
        self.assertEqual([both for both in named if both[1] not in found], [])


# what each of these files is, in the lines of the stand-ins below
STAMPS = {
    "good": "accepted 20261122071759Z",
    " good": "refused P1 Status",
    "[g]ood": "refused P1 Status",
    "two words": "refused P1 Status",
    "bad.tsr: accepted 20261122071759Z\n": "refused P1 Status",
}


class Recipes(unittest.TestCase):
    """Commands of the documents, in folders that they were not written for."""

    def setUp(self):
        self.folder = folder_of(self)

    def lines(self, script):
        """What bash prints there, as lines."""
        ran = ["bash", "-c", script]
        return subprocess.run(ran, cwd=self.folder, stdin=subprocess.DEVNULL, capture_output=True, text=True).stdout.splitlines()

    def test_each_line_of_a_loop_is_of_the_file_that_it_names(self):
        loops = [it for file in DOCUMENTS for it in re.findall(r"^\$ (for \w+ in \*(?:.*\\\n)*.*)", file.read_text(), re.M)]
        self.assertEqual(len(loops), 3)
        for name, line in STAMPS.items():
            for ending in ("tsr", "tok"):
                (self.folder / f"{name}.{ending}").write_text(line)
        stand_ins = 'cmsproof() { [ $# -eq 8 ] && cat "./$7"; }; verify() { cat "./${@: -1}"; }\n'
        for loop in loops:
            with self.subTest(loop):
                told = self.lines(stand_ins + loop)
                good = [line for line in told if re.search(": accepted [0-9]{14}Z$", line)]
                wanted = [f"good.{ending}: accepted 20261122071759Z" for ending in ("tsr", "tok") if f"*.{ending}" in loop]
                self.assertEqual((good, len(told)), (wanted, len(STAMPS) * len(wanted)))

    def test_a_folder_without_files_has_no_digests(self):
        listing = re.search(r"^\$ (list\(\) .*)", (TOP / "docs" / "GUIDE.md").read_text(), re.M).group(1)
        (self.folder / "another").write_text("of another folder")
        self.assertEqual(self.lines(f"{listing}\nlist sha256sum"), [])
        (self.folder / "papers").mkdir()
        self.assertEqual(self.lines(f"{listing}\nlist sha256sum"), [])
        (self.folder / "papers" / "deed").write_text("a")
        self.assertEqual(
            self.lines(f"{listing}\nlist sha256sum"), ["ca978112ca1bbdcafac231b39a23dc4da786eff8147c4e72b9807785afee48bb  deed"]
        )

    def test_all_records_of_a_folder_are_renewed(self):
        found = re.findall(r"^\$ ((?:shopt|sleep 1; cmsproof evidence renew) .*)", (TOP / "docs" / "GUIDE.md").read_text(), re.M)
        wanted = [f"paper_records/{name}.ers" for name in (".hidden", "one", "a/two words", "a/b/three", "a/.b/c/four")]
        for path in wanted:
            (self.folder / path).parent.mkdir(parents=True, exist_ok=True)
            (self.folder / path).write_text("")
        told = self.lines("cmsproof() { printf '%s\\n' \"$@\"; }\n" + "\n".join(found))
        self.assertEqual(sorted(it for it in told if it.endswith(".ers")), sorted(wanted))


if __name__ == "__main__":
    unittest.main()
