"""Tests of the packages: two builds give the same octets; a changed dist/ is refused."""
import gzip
import hashlib
import os
import shutil
import subprocess
import sys
import tarfile
import tempfile
import unittest
from pathlib import Path

from containing import DEBIAN, PDF, PYTHON, has
from making import TOP, folder_of, imported_alone, is_module, module_name, modules_there, needs
from samples import containers

COPIED = (
    "Makefile",
    "LICENSE",
    "NOTICE",
    "README.md",
    "CHANGELOG.md",
    "docs",
    "man",
    "packaging",
    "tools/installed",
    "tools/library.sh",
    "include",
    "data",
    "tools/oracle",
    "tools/samples",
)
CODE = "#include <stdio.h>\nextern const char *line;\nint main(void) { puts(line); return 0; }\n"
MACHINE = os.uname().machine
# of the library, what programs in C are built on
DEVELOPMENT = ("libcmsproof.a", "libcmsproof.so", "libcmsproof.so.1", "pkgconfig/cmsproof.pc")
LIBRARY = f"libcmsproof-{MACHINE}-linux.s.gz"
LINE = 'extern const char *line;\nconst char *line = "cmsproof stand-in";\n'
TEXTS = {"runtime.c": (TOP / "dist" / "runtime.c").read_text() + LINE, "PROVENANCE": "a stand-in\n"}
# the files of the folder of README.md that are accepted, but those whose parts have names
ACCEPTED = ("letter.txt.p7s", "mail.eml", "note.pem", "open.p7s", "plain.p7s")
ARCH = {"x86_64": "amd64", "aarch64": "arm64"}.get(MACHINE)


def copied(folder, mode):
    """The files of the repository that packages are made of, written under this mask of modes."""
    before = os.umask(mode)
    try:
        for name in COPIED:
            (folder / name).parent.mkdir(parents=True, exist_ok=True)
            if (TOP / name).is_dir():
                shutil.copytree(
                    TOP / name, folder / name, copy_function=shutil.copyfile, ignore=shutil.ignore_patterns("__pycache__")
                )
            else:
                shutil.copyfile(TOP / name, folder / name)
    finally:
        os.umask(before)


def put_program(folder):
    """A stand-in for dist/, with the library as it is, and for the program that `make` builds of it."""
    dist = folder / "dist"
    dist.mkdir()
    (folder / "crates").mkdir()
    assembly = subprocess.run(
        ["cc", "-O2", "-fPIE", "-S", "-x", "c", "-", "-o", "-"], input=CODE.encode(), capture_output=True, check=True
    )
    (dist / f"cmsproof-{MACHINE}-linux.s.gz").write_bytes(gzip.compress(assembly.stdout, mtime=0))
    shutil.copy(TOP / "dist" / LIBRARY, dist)
    for name, text in TEXTS.items():
        (dist / name).write_text(text)
    sums = [f"{hashlib.sha256(path.read_bytes()).hexdigest()}  {path.name}\n" for path in sorted(dist.iterdir())]
    (dist / "SHA256SUMS").write_text("".join(sums))
    (folder / "cmsproof").write_text("")


@unittest.skipIf(ARCH is None, "there are packages for two kinds of machines, and this is another one")
class Packages(unittest.TestCase):
    """Two copies of the repository, the second one made under another mask of modes and at another time."""

    def setUp(self):
        folder = folder_of(self)
        self.trees = [folder / "one", folder / "another folder"]
        for tree, mode in zip(self.trees, (0o022, 0o077)):
            tree.mkdir()
            copied(tree, mode)
            put_program(tree)
        # what the builder has beside the files of the repository is not packed
        for name in ("cmsproof-trust~", "cmsproof_tools/.mine.py", "cmsproof_tools/mine.py~", "cmsproof_tools/mine.pyc"):
            (self.trees[1] / "tools" / "installed" / name).write_text("the builder's\n")
        (self.trees[1] / "data" / "guide" / "key.pem").write_text("the builder's\n")
        for path in self.trees[1].rglob("*"):
            os.utime(path, (1, 1))

    def make(self, tree, *words):
        """Runs make in a copy, with words that no package heeds, and in an environment that is odd."""
        command = [
            "make",
            "-o",
            "cmsproof",
            "-o",
            "tools/installed/cmsproof/libcmsproof.so.1",
            *words,
            f"BINDIR={self.trees[0].parent / 'bin'}",
        ]
        odd = {"CDPATH": str(self.trees[0].parent), "TAR_OPTIONS": "--exclude=INSTALL", "GZIP": "-v", "POSIXLY_CORRECT": "1"}
        return subprocess.run(command, cwd=tree, env={**os.environ, **odd}, capture_output=True, text=True, check=False)

    def built(self, target):
        """The names and the octets of the packages that each copy makes."""
        for tree in self.trees:
            done = self.make(tree, target)
            self.assertEqual((done.returncode, done.stderr), (0, ""))
        return [{path.name: path.read_bytes() for path in (tree / "packages").iterdir()} for tree in self.trees]

    def test_tarballs_are_the_same(self):
        one, other = self.built("tarball")
        self.assertEqual(one, other)
        (path,) = (self.trees[0] / "packages").iterdir()
        self.assertTrue(path.name.endswith(f"-{ARCH}.tar.gz"))
        with tarfile.open(path) as tar:
            members = tar.getmembers()
            tar.extractall(self.trees[0] / "out")
        self.assertEqual({(member.uid, member.gid, member.mtime) for member in members}, {(0, 0, members[0].mtime)})
        folder = self.trees[0] / "out" / path.name.replace(".tar.gz", "")
        wanted = {"bin/cmsproof", "bin/cmsproof-archive", "INSTALL", "share/doc/cmsproof/PROVENANCE"}
        examples = [path for name in ("data", "tools/oracle", "tools/samples") for path in (self.trees[0] / name).rglob("*")]
        wanted |= {f"share/doc/cmsproof/examples/{path.relative_to(self.trees[0])}" for path in examples if path.is_file()}
        wanted |= {f"lib/cmsproof/{name}" for name in modules_there()}
        documents = ("GUIDE.md", "guide.svg", "records.svg", "TOOLS.md", "REFUSALS.md", "PROVED.md")
        wanted |= {f"share/doc/cmsproof/{name}" for name in documents}
        wanted |= {"include/cmsproof.h", *(f"lib/{name}" for name in DEVELOPMENT)}
        self.assertEqual(wanted - {member.name.partition("/")[2] for member in members}, set())
        subprocess.run(["sha256sum", "--check", "--quiet", "SHA256SUMS"], cwd=folder, check=True)
        said = subprocess.run([folder / "bin" / "cmsproof"], capture_output=True, text=True, check=True).stdout
        self.assertEqual(said, "cmsproof stand-in\n")
        said = subprocess.run(
            [sys.executable, folder / "bin" / "cmsproof-trust", "--version"], capture_output=True, check=True
        ).stdout
        self.assertRegex(said.decode(), "^cmsproof-trust [0-9.]+\n$")
        self.builds_on(folder / "lib", {"PKG_CONFIG_LIBDIR": str(folder / "lib" / "pkgconfig")})

    def builds_on(self, libraries, environment):
        """A C program, built by what pkg-config says and run with the libraries of a folder, has the version of its header."""
        if not shutil.which("pkg-config"):
            return
        words = ["pkg-config", "--cflags", "--libs", "cmsproof"]
        flags = (
            subprocess.run(words, env={**os.environ, **environment}, capture_output=True, check=True).stdout.decode().split()
        )
        source, program = self.trees[0] / "version.c", self.trees[0] / "version"
        source.write_text("#include <cmsproof.h>\nint main(void) { return cmsproof_version() != CMSPROOF_VERSION; }\n")
        subprocess.run(["cc", "-Wall", "-Werror", "-o", program, source, *flags], check=True)
        subprocess.run([program], env={"LD_LIBRARY_PATH": str(libraries)}, check=True)

    @unittest.skipUnless(shutil.which("dpkg-deb"), "there is no dpkg-deb")
    def test_packages_for_debian_are_the_same(self):
        one, other = self.built("deb")
        self.assertEqual(one, other)
        names = ("cmsproof", "libcmsproof1", "libcmsproof-dev")
        self.assertEqual({(name.split("_")[0], name.split("_")[-1]) for name in one}, {(name, f"{ARCH}.deb") for name in names})
        root = self.trees[0] / "root"
        for name in one:
            package = self.trees[0] / "packages" / name
            told = subprocess.run(["dpkg-deb", "--contents", package], capture_output=True, text=True, check=True).stdout
            rows = [line.split()[:2] for line in told.splitlines()]
            self.assertEqual({owner for _, owner in rows}, {"root/root"})
            self.assertLessEqual({mode for mode, _ in rows}, {"drwxr-xr-x", "-rwxr-xr-x", "-rw-r--r--", "lrwxrwxrwx"})
            subprocess.run(["dpkg-deb", "--extract", package, root], check=True)
            subprocess.run(["dpkg-deb", "--control", package, root / name], check=True)
            subprocess.run(["md5sum", "--check", "--quiet", root / name / "md5sums"], cwd=root, check=True)
        libraries = root / "usr" / "lib" / f"{MACHINE}-linux-gnu"
        found = {str(path.relative_to(libraries)) for path in libraries.rglob("*") if not path.is_dir()}
        self.assertEqual(found, set(DEVELOPMENT))
        keep = {"PKG_CONFIG_ALLOW_SYSTEM_CFLAGS": "1", "PKG_CONFIG_ALLOW_SYSTEM_LIBS": "1", "PKG_CONFIG_SYSROOT_DIR": str(root)}
        self.builds_on(libraries, {"PKG_CONFIG_LIBDIR": str(libraries / "pkgconfig"), **keep})

    @unittest.skipUnless(shutil.which("git"), "there is no git")
    def test_in_a_clone_what_git_does_not_know_is_not_packed(self):
        tree = self.trees[0]
        git = ["git", "-c", "user.name=a", "-c", "user.email=a@example", "-c", "commit.gpgsign=false"]
        for words in (["init", "-q"], ["add", "-f", "."], ["commit", "-q", "-m", "all"]):
            subprocess.run([*git, *words], cwd=tree, check=True, capture_output=True)
        self.assertEqual(self.make(tree, "tarball").returncode, 0)
        for name in (
            "tools/installed/cmsproof_tools/mine.py",
            "tools/installed/cmsproof-mine",
            "man/mine.1",
            "data/records/mine",
        ):
            (tree / name).write_text("the builder's\n")
            done = self.make(tree, "tarball", f"GIT_DIR={tree.parent / 'none'}")
            self.assertNotEqual(done.returncode, 0)
            self.assertIn(f"what would be packed is not as git knows it: error: pathspec '{name}'", done.stderr)
            (tree / name).unlink()

    def test_what_cannot_be_packed_is_refused(self):
        for name, text, told in (
            ("dist/SHA256SUMS", "", "no sum of"),
            ("CHANGELOG.md", "# no version\n", "CHANGELOG.md has no line"),
            ("tools/installed/cmsproof_tools/__init__.py", "", "has no line of the version"),
        ):
            was = (self.trees[0] / name).read_text()
            (self.trees[0] / name).write_text(text)
            done = self.make(self.trees[0], "tarball")
            self.assertNotEqual(done.returncode, 0)
            self.assertIn(told, done.stderr)
            (self.trees[0] / name).write_text(was)
        self.assertIn("there is no package for riscv64", self.make(self.trees[0], "tarball", "ARCHES=riscv64").stderr)

    def test_a_disk_that_fills_leaves_no_part_of_a_package(self):
        odd = self.trees[0].parent / "odd"
        odd.mkdir()
        (odd / "gzip").write_text(
            f"#!/bin/sh\ncase $* in -9n) head -c 9; exit 1;; *) exec {shutil.which('gzip')} \"$@\";; esac\n"
        )
        (odd / "gzip").chmod(0o755)
        self.assertNotEqual(self.make(self.trees[0], "tarball", f"PATH={odd}:{os.environ['PATH']}").returncode, 0)
        self.assertEqual(list((self.trees[0] / "packages").iterdir()), [])

    def test_a_changed_dist_is_refused(self):
        with open(self.trees[0] / "dist" / "runtime.c", "a", encoding="ascii") as file:
            file.write("\n")
        for target in ("tarball", "deb"):
            done = self.make(self.trees[0], target)
            self.assertNotEqual(done.returncode, 0)
            self.assertIn("runtime.c: FAILED", done.stdout)
            self.assertEqual(list((self.trees[0] / "packages").iterdir()), [])


@unittest.skipIf(ARCH is None, "there are packages for two kinds of machines, and this is another one")
@needs("make", "cc", "ld", "openssl")
class Unpacked(unittest.TestCase):
    """The tarball and the package for Debian, of dist/ as it is, unpacked into a folder: each finds all that it needs there."""

    @classmethod
    def setUpClass(cls):
        cls.temporary = tempfile.TemporaryDirectory()
        cls.addClassCleanup(cls.temporary.cleanup)
        cls.folder = Path(cls.temporary.name)
        tree = cls.folder / "tree"
        tree.mkdir()
        copied(tree, 0o022)
        shutil.copytree(TOP / "dist", tree / "dist")
        (tree / "cmsproof").write_text(""), (tree / "tools/installed/cmsproof/libcmsproof.so.1").write_text("")
        targets = ["tarball", *(["deb"] if shutil.which("dpkg-deb") else [])]
        built = ["-o", "cmsproof", "-o", "tools/installed/cmsproof/libcmsproof.so.1"]
        words = ["make", "-s", *built, *targets]
        alone = {name: text for name, text in os.environ.items() if not name.startswith("MAKE")}
        done = subprocess.run(words, cwd=tree, capture_output=True, text=True, check=False, env=alone)
        if done.returncode:
            raise AssertionError(done.stderr)
        (tarball,) = (tree / "packages").glob("*.tar.gz")
        with tarfile.open(tarball) as tar:
            tar.extractall(cls.folder / "tarball")
        cls.roots = [cls.folder / "tarball" / tarball.name.replace(".tar.gz", "")]
        for package in (tree / "packages").glob("cmsproof_*.deb"):
            subprocess.run(["dpkg-deb", "--extract", package, cls.folder / "deb"], check=True)
            cls.roots.append(cls.folder / "deb" / "usr")
        # (what made the packages is not there any more)
        shutil.rmtree(tree)

    def pythons(self, root):
        """How the tools are run, and whether PDF is read so: by the Python that reads it, and as they say themselves, if that one has the
        library cryptography."""
        packaged = root.parent.name == "deb"
        first = (root / "bin" / "cmsproof-archive").read_text().partition("\n")[0]
        self.assertEqual(first, "#!/usr/bin/python3 -I" if packaged else "#!/usr/bin/env python3")
        own = DEBIAN if packaged else shutil.which("python3")
        yield [PYTHON, "-I"], PDF
        if own and has(own, "cryptography"):
            yield [], has(own, "pikepdf")

    def test_each_module_is_imported(self):
        wanted = {name: "" for name in map(module_name, filter(is_module, modules_there()))}
        for root in self.roots:
            told = imported_alone(f"{PYTHON} -I", root / "lib" / "cmsproof", cwd=self.folder)
            self.assertEqual(told, wanted, root)

    def test_the_commands_of_the_guide(self):
        for root in self.roots:
            # (Debian's package is run by Debian's Python, which is what the guide calls python3 then)
            debian = [str(Path(DEBIAN).parent)] if root.parent.name == "deb" else []
            if debian and not has(DEBIAN, "cryptography"):
                self.skipTest(f"{DEBIAN} has no library cryptography, so of the packages the guide of the tarball was run")
            path = os.pathsep.join([str(root / "bin"), *debian, os.environ["PATH"]])
            guide = root / "share" / "doc" / "cmsproof" / "GUIDE.md"
            words = [sys.executable, TOP / "tools" / "trying" / "docs_test.py", guide]
            alone = {**os.environ, "PATH": path, "CMSPROOF_TREE": str(root)}
            alone.pop("CMSPROOF_COUNTS", None)
            done = subprocess.run(words, capture_output=True, text=True, check=False, env=alone)
            self.assertRegex(done.stdout, r"GUIDE\.md: 1\d\d commands, 0 differ\n", done.stderr)

    def test_a_file_of_each_kind(self):
        """The folder of README.md, with a PDF, ASiC, mail, PEM, BER and DER in it."""
        for root in self.roots:
            place = self.folder / f"files of {root.name}"
            place.mkdir()
            maker = containers.Maker(place, root / "bin" / "cmsproof")
            (place / "letters").mkdir()
            for name, octets in containers.one_of_each(maker).items():
                (place / "letters" / name).write_bytes(octets)
            for python, reads_pdf in self.pythons(root):
                words = [*python, root / "bin" / "cmsproof-archive", "--trust", "trust.txt", "letters"]
                alone = {name: text for name, text in os.environ.items() if not name.startswith("PYTHON")}
                done = subprocess.run(words, cwd=place, capture_output=True, text=True, check=False, env=alone)
                lines = dict(line.rsplit(": ", 1) for line in done.stdout.splitlines())
                names = {name for name, line in lines.items() if line.startswith("accepted ")}
                wanted = {f"letters/{name}" for name in (*ACCEPTED, "files.asice META-INF/signature1.p7s")}
                wanted |= {"letters/contract.pdf Signature1"} if reads_pdf else set()
                self.assertEqual(names, wanted, done.stdout + done.stderr)
                if not reads_pdf:
                    self.assertIn("install Debian's python3-pikepdf", done.stderr)
                self.assertEqual(lines["letters/table.xml"], "refused F1 UnknownForm")
        if not PDF:
            self.skipTest("pikepdf is missing, so of the packages all kinds but PDF were read")


if __name__ == "__main__":
    unittest.main()
