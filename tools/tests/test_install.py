"""Tests of what `make install` leaves: the tools find their modules and the program, and `make uninstall` removes all."""
import importlib.util
import os
import re
import shutil
import subprocess
import sys
import unittest

from making import ACCEPTED, INSTALLED, REAL, SOURCES, TOP, folder_of, modules_there, need_tools

need_tools()

from cmsproof_tools import VERSION


class Installing(unittest.TestCase):
    """A copy of the repository's files that are installed, with nothing in the place of the program."""

    def setUp(self):
        self.folder = folder_of(self)
        (self.folder / "tree" / "crates").mkdir(parents=True)
        for name in ("Makefile", "LICENSE", "NOTICE", "README.md"):
            shutil.copy(TOP / name, self.folder / "tree")
        shutil.copytree(SOURCES, self.folder / "tree" / "tools" / "installed", ignore=shutil.ignore_patterns("__pycache__"))
        # what an editor or Python leaves there is not installed, and a new module is, without a word in a list
        for name in (
            "archive.py~",
            ".archive.py.swp",
            ".#archive.py",
            "#archive.py#",
            "archive.py.orig",
            "old.pyc",
            "__pycache__/a.py",
        ):
            path = self.folder / "tree" / "tools" / "installed" / "cmsproof_tools" / name
            path.parent.mkdir(exist_ok=True)
            path.write_text("no module\n")
        for name in ("man", "packaging", "docs", "data", "tools/oracle", "tools/samples"):
            shutil.copytree(TOP / name, self.folder / "tree" / name, ignore=shutil.ignore_patterns("__pycache__"))
        (self.folder / "tree" / "dist").mkdir()
        shutil.copy(TOP / "dist" / "PROVENANCE", self.folder / "tree" / "dist")
        (self.folder / "tree" / "cmsproof").write_text("")
        shutil.copy(REAL / "rsa_attached_ts.p7s", self.folder / "file")
        shutil.copy(REAL / "trust.txt", self.folder / "list")

    def make(self, target, *places):
        """Runs make, with the program and the library as they are, as somebody whose new files nobody else may read."""
        where = places or (f"DESTDIR={self.folder / 'root'}", "PREFIX=/usr")
        words = ["make", "-o", "cmsproof", "-o", "tools/installed/cmsproof/libcmsproof.so.1", target, *where]
        subprocess.run(words, cwd=self.folder / "tree", capture_output=True, check=True, umask=0o077)

    def said(self, *words, **environment):
        """What an installed tool prints. Modules of its own names are in the folder where it runs, and must not be taken."""
        for name in ("cmsproof", "cmsproof_tools", "cryptography"):
            (self.folder / name).mkdir(exist_ok=True)
            (self.folder / name / "__init__.py").write_text("raise SystemExit(77)\n")
        done = subprocess.run(
            [sys.executable, *words],
            cwd=self.folder,
            capture_output=True,
            check=False,
            input=b"",
            env={**os.environ, **environment},
        )
        return done.returncode, done.stdout.decode(), done.stderr.decode()

    def test_what_is_installed_for_this_machine_is_compiled(self):
        local = self.folder / "100% lo cal"
        place = f"PREFIX={local}", f"PYTHON={sys.executable}"
        self.make("install", *place)
        modules = [path for path in (local / "lib" / "cmsproof").rglob("*.py")]
        self.assertTrue(modules)
        # (each folder and file is for everybody)
        self.assertEqual([path for path in local.rglob("*") if path.stat().st_mode & 0o055 != 0o055 and path.is_dir()], [])
        self.assertEqual([path for path in local.rglob("*") if path.stat().st_mode & 0o044 != 0o044], [])
        self.assertEqual([path for path in modules if not os.path.exists(importlib.util.cache_from_source(path))], [])
        self.make("uninstall", *place)
        self.assertEqual([path for path in local.rglob("*") if not path.is_dir()], [])

    def test_installed_tools_and_what_is_left_of_them(self):
        self.make("install")
        binaries, shown = self.folder / "root" / "usr" / "bin", (0, f"file: {ACCEPTED}\n", "")
        names = ["cmsproof", "cmsproof-archive", "cmsproof-extract", "cmsproof-trust", "cmsproof-verify"]
        self.assertEqual(sorted(path.name for path in binaries.iterdir()), names)
        self.assertTrue(all(path.stat().st_mode & 0o777 == 0o755 for path in binaries.iterdir()))
        pages = self.folder / "root" / "usr" / "share" / "man"
        self.assertEqual({page.name for page in pages.rglob("*.?")}, {page.name for page in (TOP / "man").iterdir()})
        documents = self.folder / "root" / "usr" / "share" / "doc" / "cmsproof"
        there = {str(path.relative_to(documents)) for path in documents.rglob("*") if path.is_file()}
        texts = "LICENSE NOTICE PROVENANCE README.md GUIDE.md PROVED.md REFUSALS.md TOOLS.md guide.svg records.svg"
        tree = self.folder / "tree"
        used = [path for name in ("data", "tools/oracle", "tools/samples") for path in (tree / name).rglob("*")]
        used = [f"examples/{path.relative_to(tree)}" for path in used if path.is_file()]
        self.assertEqual(there, {*texts.split(), *used})
        made, share = TOP / "packaging" / "completion", self.folder / "root" / "usr" / "share"
        table = [
            ("bash-completion/completions", {name: "cmsproof.bash" for name in names}),
            ("zsh/site-functions", {"_cmsproof": "_cmsproof"}),
            ("fish/vendor_completions.d", {f"{name}.fish": f"{name}.fish" for name in names}),
        ]
        for place, files in table:
            there = {path.name: path.read_text() for path in (share / place).iterdir()}
            self.assertEqual(there, {name: (made / text).read_text() for name, text in files.items()})
        modules = self.folder / "root" / "usr" / "lib" / "cmsproof"
        there = {str(path.relative_to(modules)) for path in modules.rglob("*") if path.is_file()}
        self.assertEqual(there, modules_there() | {"cmsproof/libcmsproof.so.1", "cmsproof_tools/REFUSALS.md"})
        self.assertEqual(self.said(binaries / "cmsproof-archive", "--trust", "list", "file"), shown)
        (self.folder / "elsewhere").symlink_to(binaries / "cmsproof-archive")
        self.assertEqual(self.said("elsewhere", "--trust", "list", "file"), shown)
        for name in names[1:]:
            self.assertEqual(self.said(binaries / name, "--version")[0], 0)
        # what an old Python makes of the modules is no refusal, whose status is 1
        for text in ("from __future__ import nothing\n", "import fcntl\nfcntl.NOTHING\n", "import nothing_here\n"):
            (modules / "cmsproof_tools" / "running.py").write_text(text)
            status, _, err = self.said(binaries / "cmsproof-archive", "--trust", "list", "file")
            self.assertEqual((status, err.count("\n")), (4, 1), err)
        self.make("uninstall")
        self.assertEqual([path for path in (self.folder / "root").rglob("*") if not path.is_dir()], [])

    @unittest.skipUnless(
        importlib.util.find_spec("pip") and shutil.which("make"), "there is no pip for this Python, or no make"
    )
    def test_installed_by_pip(self):
        for name in ("pyproject.toml", "tools/library.sh"):
            shutil.copy(TOP / name, self.folder / "tree" / name)
        for name in ("dist", "include"):
            shutil.copytree(TOP / name, self.folder / "tree" / name, dirs_exist_ok=True)
        # (one that is there is built anew: it may be of another machine)
        (self.folder / "tree" / "tools" / "installed" / "cmsproof" / "libcmsproof.so.1").write_text("of another machine\n")
        words = "pip install --no-deps --no-index --quiet --prefix".split()
        command = [sys.executable, "-m", *words, self.folder / "by_pip", self.folder / "tree"]
        subprocess.run(command, capture_output=True, check=True)
        binaries = next((self.folder / "by_pip").rglob("bin"))
        modules = next(path.parent for path in (self.folder / "by_pip").rglob("cmsproof_tools") if path.is_dir())
        names = sorted(path.name for path in binaries.iterdir())
        self.assertEqual(names, ["cmsproof-archive", "cmsproof-extract", "cmsproof-trust", "cmsproof-verify"])
        for name in names:
            self.assertEqual(self.said(binaries / name, "--version", PYTHONPATH=str(modules)), (0, f"{name} {VERSION}\n", ""))
            self.assertEqual(self.said(binaries / name, "--version")[0], 4)
        told = self.said(binaries / "cmsproof-archive", "--trust", "list", "file", PYTHONPATH=str(modules))
        self.assertEqual(told, (0, f"file: {ACCEPTED}\n", ""))
        # where the modules went elsewhere, no wheel without them is made
        (self.folder / "a$b").mkdir()
        code = f"import sys; sys.path[:0] = [{str(self.folder / 'tree' / 'packaging')!r}]; import backend; backend.build_wheel('.')"
        status, _, err = self.said("-c", code, TMPDIR=str(self.folder / "a$b"))
        self.assertEqual((status, list(self.folder.glob("*.whl"))), (1, []))
        self.assertIn("cmsproof: nothing was installed into ", err)

    def program_says(self):
        """What the program says behind its name: its version, the kit and the sum of the logic that it was proved with."""
        code = (TOP / "crates" / "cli_words" / "src" / "grammar.rt").read_text()
        return re.search(r'const VERSION: &str = "(\S+) \((\S+), logic (\S+)\)";', code)

    def test_the_toolchain_is_the_one_that_the_documents_name(self):
        version, kit, logic = self.program_says().groups()
        identity = f"{kit} logic {logic}"
        self.assertIn(f"Proved with `{identity}`.", (TOP / "README.md").read_text())
        self.assertIn(f"```\n{identity}\n```", (TOP / "docs" / "PROVED.md").read_text())
        shown = f"cmsproof {version} ({kit}, logic {logic})"
        self.assertIn(f".Dl {shown}\n", (TOP / "man" / "cmsproof.1").read_text())
        rows = (TOP / "crates" / "vectors_run" / "data" / "commands" / "words.rows").read_text()
        self.assertIn(f"run words=--version => 0 {shown}\\n\n", rows)

    def test_the_version_is_that_of_the_program(self):
        version = self.program_says().group(1)
        self.assertEqual(VERSION, version)
        for tool in ("cmsproof-archive", "cmsproof-extract", "cmsproof-trust", "cmsproof-verify"):
            self.assertEqual(self.said(INSTALLED / tool, "--version"), (0, f"{tool} {version}\n", ""))


if __name__ == "__main__":
    unittest.main()
