"""Tests of `make` from dist/ and of tools/dist.py, without the toolchain: a small tree, with a program in place of cmsproof."""
import contextlib
import gzip
import io
import os
import shutil
import subprocess
import sys
import tempfile
import unittest
from pathlib import Path
from unittest import mock

TOOLS = Path(__file__).resolve().parent.parent
sys.path.insert(0, str(TOOLS))
import dist  # noqa: E402
import proving  # noqa: E402

# It prints its first argument, as the program gets it.
PROGRAM = """
long rattle_arg(unsigned long, unsigned char *, unsigned long);
long write(int, const void *, unsigned long);
int main(void) { unsigned char word[9]; long n = rattle_arg(1, word, 9); write(1, word, n < 0 ? 0 : (unsigned long)n); return n == -2; }
"""
FILES = {
    "crates.txt": "low: kit\nmiddle: low\ncmsproof: middle kit\nbeside: low\ncmsproof_c staticlib: low\nworkloads: low\n",
    "HANDLES": "Handles allowed: none.\n",
    "crates/low/src/lib.rt": "fn low() {}\n",
    "crates/low/specs/Low.antt": "low = 1\n",
    "crates/middle/src/lib.rt": "fn middle() {}\n",
    "crates/middle/proofs/Middle.antt": "proof = refl\n",
    "crates/cmsproof/src/main.rt": "fn main() {}\n",
    "crates/cmsproof_c/src/lib.rt": "fn version() {}\n",
    "crates/workloads/src/main.rt": "fn main() {}\n",
    "crates/beside/src/lib.rt": "fn beside() {}\n",
}
NAMES = [*dist.ASSEMBLY.values(), "runtime.c", "PROVENANCE"]


def assembly():
    """The program as assembly of this machine."""
    done = subprocess.run(
        ["cc", "-O1", "-fPIE", "-S", "-x", "c", "-", "-o", "-"], input=PROGRAM.encode(), capture_output=True, check=True
    )
    return done.stdout


class Tree(unittest.TestCase):
    """A tree with sources, a dist/ of them, and what builds it."""

    texts = {}

    @classmethod
    def setUpClass(cls):
        cls.texts = {target: assembly() for target in dist.ASSEMBLY}

    def setUp(self):
        temporary = tempfile.TemporaryDirectory()
        self.addCleanup(temporary.cleanup)
        self.top = Path(temporary.name) / "tree"
        for name, text in FILES.items():
            (self.top / name).parent.mkdir(parents=True, exist_ok=True)
            (self.top / name).write_text(text)
        (self.top / "tools").mkdir()
        for name in ("build.sh", "sources.sh"):
            shutil.copy(TOOLS / name, self.top / "tools")
        shutil.copy(TOOLS.parent / "Makefile", self.top)
        self.dist = self.top / "dist"
        self.dist.mkdir()
        shutil.copy(TOOLS.parent / "dist" / "runtime.c", self.dist)
        dist.write(self.dist, self.texts, self.record())

    def record(self):
        return dist.provenance(
            self.digest(), ["kit-1", "logic", "abc"], "clang 1", {place: "logic=proved" for place in dist.ASSEMBLY}
        )

    def digest(self):
        done = subprocess.run(["sh", "tools/sources.sh"], cwd=self.top, capture_output=True, text=True, check=True)
        return done.stdout.strip()

    def build(self, *words, **environment):
        """The status of `make cmsproof`, or with these words, what it printed and what it complained of, also where a `make` runs these
        tests."""
        inherited = {name: value for name, value in os.environ.items() if name not in ("MAKEFLAGS", "MAKELEVEL", "MFLAGS")}
        done = subprocess.run(
            ["make", *(words or ("cmsproof",))],
            cwd=self.top,
            env={**inherited, **environment},
            capture_output=True,
            text=True,
            check=False,
        )
        return done.returncode, done.stdout, done.stderr

    def is_refused(self, word, *words, **environment):
        """Asserts that `make` ends with one line of its own that has the word, and builds nothing."""
        status, out, err = self.build(*words, **environment)
        lines = [line for line in err.splitlines() if not line.startswith("make")]
        self.assertNotEqual(status, 0, out)
        self.assertEqual(len(lines), 1, err)
        self.assertIn(word, lines[0])
        self.assertFalse((self.top / "cmsproof").exists())

    def stand_in(self, name, text):
        """A folder whose command of this name says something else, before all others on the path."""
        folder = self.top.parent / "bin"
        folder.mkdir(exist_ok=True)
        (folder / name).write_text(f"#!/bin/sh\n{text}\n")
        (folder / name).chmod(0o755)
        return f"{folder}:{os.environ['PATH']}"


class Building(Tree):
    """`make`: what it builds, and when it builds nothing."""

    def test_it_builds_the_program_and_says_so_in_one_line(self):
        status, out, err = self.build()
        self.assertEqual((status, len(out.splitlines()), err), (0, 1, ""))
        self.assertIn("says that it is of these sources", out)
        for word, wanted in (
            ("word", (0, b"word")),
            ("", (0, b"")),
            ("123456789", (0, b"123456789")),
            ("1234567890", (1, b"")),
        ):
            done = subprocess.run([self.top / "cmsproof", word], capture_output=True, check=False)
            self.assertEqual((done.returncode, done.stdout), wanted)
        self.assertEqual(subprocess.run([self.top / "cmsproof"], capture_output=True, check=True).stdout, b"")
        self.assertEqual(self.build()[1], "make: 'cmsproof' is up to date.\n")

    def test_the_program_is_independent_of_its_place_and_its_links_are_read_only(self):
        self.assertEqual(self.build()[0], 0)
        self.assertEqual((self.top / "cmsproof").read_bytes()[16:18], b"\3\0")
        if shutil.which("readelf"):
            said = subprocess.run(["readelf", "-Wld", self.top / "cmsproof"], capture_output=True, text=True, check=True).stdout
            self.assertIn("GNU_RELRO", said)
            self.assertIn("BIND_NOW", said)
            self.assertRegex(said, r"GNU_STACK .* RW ")

    def test_one_octet_of_a_file_changed(self):
        for name in NAMES:
            with self.subTest(name):
                was = (self.dist / name).read_bytes()
                (self.dist / name).write_bytes(was[:-1] + bytes([was[-1] ^ 1]))
                self.is_refused(name)
                (self.dist / name).unlink()
                self.is_refused(name)
                (self.dist / name).write_bytes(was)

    def test_sums_that_are_missing(self):
        was = (self.dist / "SHA256SUMS").read_text()
        for text in ("", *("".join(line for line in was.splitlines(True) if name not in line) for name in NAMES)):
            (self.dist / "SHA256SUMS").write_text(text)
            self.is_refused("no sum of")
        (self.dist / "SHA256SUMS").unlink()
        self.is_refused("SHA256SUMS is missing")

    def test_another_processor_system_or_no_compiler(self):
        self.is_refused("no program for riscv64 under Linux", MACHINE="riscv64")
        self.is_refused("no program for s under s", PATH=self.stand_in("uname", "echo s"))
        self.is_refused("no C compiler nothing-here", "CC=nothing-here")
        self.is_refused("make proved", MACHINE="riscv64")

    def test_other_sources_are_built_and_said(self):
        (self.top / "crates/low/src/lib.rt").write_text("fn low() { }\n")
        status, out, err = self.build()
        self.assertEqual((status, len(out.splitlines()), err), (0, 1, ""))
        self.assertIn("NOT of the sources", out)
        self.assertTrue((self.top / "cmsproof").exists())

    def test_what_fails_leaves_nothing(self):
        self.is_refused("did not build", "CC=false")
        # (as `install` ends where the disk is full)
        self.is_refused("was not written", PATH=self.stand_in("install", 'for last; do :; done; echo part > "$last"; exit 1'))

    def test_a_library_that_hands_constructors_nothing(self):
        # (as the headers of musl, which has no __GLIBC__)
        headers = self.top.parent / "include"
        headers.mkdir()
        (headers / "errno.h").write_text("#include_next <errno.h>\n#undef __GLIBC__\n")
        status, _, err = self.build(f"CC=cc -isystem {headers}")
        self.assertNotEqual(status, 0)
        self.assertIn("they need the GNU C library", err)
        self.assertFalse((self.top / "cmsproof").exists())

    def test_another_tree_on_cdpath(self):
        other = shutil.copytree(self.top, self.top.parent / "other")
        (self.dist / "runtime.c").write_text("")
        self.is_refused("runtime.c", CDPATH=str(other))
        done = subprocess.run(
            ["sh", "tools/build.sh"], cwd=self.top, env={**os.environ, "CDPATH": str(other)}, capture_output=True, check=False
        )
        self.assertNotEqual(done.returncode, 0)
        self.assertFalse((other / "cmsproof").exists())

    def test_no_sources_are_not_those_of_a_dist_that_names_none(self):
        (self.dist / "PROVENANCE").write_text("kit x\n")
        (self.dist / "SHA256SUMS").write_text(dist.sums(self.dist))
        (self.top / "HANDLES").unlink()
        (self.top / "Makefile").write_text("cmsproof:\n\t@sh tools/build.sh\n")
        status, out, _ = self.build()
        self.assertEqual(status, 0)
        self.assertIn("NOT of the sources", out)

    def test_a_newer_program_is_not_tested_in_the_place_of_dist(self):
        (self.top / "cmsproof").write_text("another program\n")
        library = self.top / "tools/installed/cmsproof/libcmsproof.so.1"
        library.parent.mkdir(parents=True)
        (self.top / "include").mkdir()
        library.write_text("another library\n")
        for name in ("tools/library.sh", "include/cmsproof.h"):
            (self.top / name).write_text('mkdir -p "$1"; echo a library > "$1/libcmsproof.so.1"\n')
            os.utime(self.top / name, (0, 0))
        for path in self.dist.iterdir():
            os.utime(path, (0, 0))
        self.build("test-all", "PYTHON=true")
        self.assertNotEqual((self.top / "cmsproof").read_bytes(), b"another program\n")
        self.assertEqual(library.read_bytes(), b"a library\n")


class Sources(Tree):
    """The digest of the sources."""

    def test_what_changes_it(self):
        was = self.digest()
        for name, changes in (
            ("crates/low/src/lib.rt", True),
            ("crates/low/specs/Low.antt", True),
            ("crates/middle/proofs/Middle.antt", True),
            ("crates/cmsproof/src/main.rt", True),
            ("crates/cmsproof_c/src/lib.rt", True),
            ("crates/workloads/src/main.rt", True),
            ("HANDLES", True),
            ("crates/beside/src/lib.rt", False),
            ("crates/low/out/left", False),
        ):
            with self.subTest(name):
                path = self.top / name
                before = path.read_bytes() if path.exists() else b""
                path.parent.mkdir(exist_ok=True)
                path.write_bytes(before + b" ")
                self.assertEqual(self.digest() != was, changes)
                path.write_bytes(before)
        (self.top / "crates/low/src/new.rt").write_text("")
        self.assertNotEqual(self.digest(), was)

    def test_what_would_lead_to_another_text_is_refused(self):
        for name in ("crates/low/src/lib.rt", "crates/low/specs", "crates/middle/proofs/link"):
            with self.subTest(name):
                path = self.top / name
                if path.exists():
                    path.rename(self.top / "aside")
                path.symlink_to(self.top / "aside")
                done = subprocess.run(["sh", "tools/sources.sh"], cwd=self.top, capture_output=True, text=True, check=False)
                self.assertEqual((done.returncode, done.stdout), (1, ""))
                self.assertIn(name, done.stderr)
                path.unlink()
                if (self.top / "aside").exists():
                    (self.top / "aside").rename(path)

    def test_lists_of_crates_as_rt_reads_them(self):
        for text in (
            "low: kit\nmiddle:low\ncmsproof: middle\n",
            "low\n  middle : low # its own\ncmsproof: kit,middle\n",
            "low: kit\nMiddle: low\ncmsproof opt_level=1:\tMiddle\n",
        ):
            with self.subTest(text):
                (self.top / "crates.txt").write_text(text)
                was = self.digest()
                (self.top / "crates/low/src/lib.rt").write_text(text)
                self.assertNotEqual(self.digest(), was)

    def test_the_lines_of_the_list_of_crates(self):
        was, text = self.digest(), FILES["crates.txt"]
        for changed, changes in (
            (text.replace("low: kit", "low: kit other"), True),
            (text.replace("beside: low", "beside: low middle"), False),
            (text.replace("staticlib: low", "staticlib: low middle"), True),
            (text.replace("workloads: low", "workloads: low middle"), True),
            ("".join(reversed(text.splitlines(True))), False),
        ):
            (self.top / "crates.txt").write_text(changed)
            self.assertEqual(self.digest() != was, changes, changed)


class Comparing(Tree):
    """What is written to dist/, and what differs from it."""

    def test_two_writings_are_the_same_octets(self):
        other = self.top / "other"
        other.mkdir()
        shutil.copy(self.dist / "runtime.c", other)
        dist.write(other, self.texts, self.record())
        for path in self.dist.iterdir():
            self.assertEqual((other / path.name).read_bytes(), path.read_bytes())
        self.assertEqual(gzip.compress(b"", mtime=0)[4:8], (self.dist / NAMES[0]).read_bytes()[4:8])
        self.assertEqual((self.dist / NAMES[0]).read_bytes()[3], 0)

    def test_what_differs_is_named(self):
        self.assertEqual(dist.differing(self.dist, self.texts, self.record()), [])
        for target, name in dist.ASSEMBLY.items():
            self.assertEqual(
                dist.differing(self.dist, {**self.texts, target: self.texts[target] + b"\n"}, self.record()), [name]
            )
        self.assertEqual(dist.differing(self.dist, self.texts, self.record() + "x"), ["PROVENANCE"])
        (self.dist / "runtime.c").write_text("")
        self.assertEqual(dist.differing(self.dist, self.texts, self.record()), ["SHA256SUMS"])
        (self.dist / NAMES[0]).write_bytes(b"no gzip")
        self.assertIn(NAMES[0], dist.differing(self.dist, self.texts, self.record()))

    def test_the_digest_that_is_said(self):
        self.assertEqual(dist.said_sources(self.dist), self.digest())
        (self.dist / "PROVENANCE").write_text("kit x\n")
        self.assertEqual(dist.said_sources(self.dist), "")
        (self.dist / "PROVENANCE").unlink()
        self.assertEqual(dist.said_sources(self.dist), "")

    def test_another_packing_of_the_same_text_stays(self):
        path = self.dist / NAMES[0]
        path.write_bytes(gzip.compress(self.texts["cmsproof", "x86_64"], compresslevel=1))
        was = path.read_bytes()
        dist.write(self.dist, self.texts, self.record())
        self.assertEqual(path.read_bytes(), was)
        self.assertEqual(dist.differing(self.dist, self.texts, self.record()), [])

    def test_another_kit_of_the_same_logic_may_compare(self):
        made = self.record()
        for other, said in (
            (made.replace("kit kit-1", "kit kit-2").replace("clang 1", "clang 2"), "made by kit-1, and compared by kit-2"),
            (made.replace("logic abc", "logic abd"), None),
            (made.replace("logic=proved", "logic=none"), None),
            (made.replace(self.digest(), "0" * 64), None),
        ):
            with self.subTest(other), mock.patch.object(dist, "DIST", self.dist):
                printed = io.StringIO()
                with contextlib.redirect_stdout(printed):
                    if said:
                        dist.compare(self.texts, other)
                    else:
                        self.assertRaisesRegex(proving.Stopped, "PROVENANCE", dist.compare, self.texts, other)
                self.assertIn(said or "", printed.getvalue())

    def test_what_changed_while_the_gate_ran_is_not_compared(self):
        self.assertRaisesRegex(proving.Stopped, "changed since", dist.gate, 0, "0" * 64)

    def test_what_is_taken_out_of_assembly_and_verdicts(self):
        self.assertEqual(proving.plain(b"\tret\n\t.addrsig\n\t.addrsig_sym a\n.L:\n"), b"\tret\n.L:\n")
        self.assertEqual(
            proving.told("logic=proved functions=2 logic-built=trusted incremental=trusted"), "logic=proved functions=2"
        )

    def test_verdicts_that_are_not_enough(self):
        """The words are those by which `rt ci` fails a crate."""
        none, some = "Handles allowed: none.\n", "Handles allowed: Threads, Wait.\n"
        proved = "logic=proved functions=2 axioms=39 target=x86_64-unknown-linux-gnu"
        table = [
            (proved, none, ""),
            (f"{proved} main=Abort may-abort=1", none, "may-abort main=Abort"),
            (f"{proved} foreign=1", some, "foreign"),
            (f"{proved} partial=1 hides=2 bugs=1", some, "hides partial bugs"),
            (f"{proved} main=Wait+Net may-wait=1", none, "may-wait main=Wait main=Net"),
            (f"{proved} main=Wait+Net may-wait=1", some, "main=Net"),
        ]
        for verdict, handles, words in table:
            self.assertEqual(proving.looseness(verdict, handles).rpartition("allow: ")[2], words)

    @unittest.skipUnless(shutil.which("rt"), "no command rt is on the PATH")
    def test_a_function_that_aborts_is_not_proved(self):
        """Whatever its contract says: it never comes back to break it."""
        text = (
            "//! Numbers.\n#![tactic(auto)]\n\nghost use Rattle.std.specs.Prelude.{◌≡◌};\n\nuse std::process::Abort;\n\n"
            '/// Five, it says.\npub fn five<R: Abort>(rt: &R) -> u8\n    ensures { result ≡ 5 }\n{\n    panic!(rt; "never")\n}\n'
        )
        (self.top / "crates.txt").write_text("cmsproof may_abort=1:\ncmsproof_c staticlib:\nworkloads:\n")
        for name in ("dist.py", "proving.py", "kept_sums.py", "jobs.sh"):
            shutil.copy(TOOLS / name, self.top / "tools")
        main = "\n\nfn main(rt: HostRuntime) {\n    let _ = five(&rt);\n}\n"
        (self.top / "crates/cmsproof/src/main.rt").write_text(text + main)
        (self.top / "crates/cmsproof_c/src/lib.rt").write_text("//! Nothing.\n")
        done = subprocess.run(
            [sys.executable, "tools/dist.py", "make"], cwd=self.top, capture_output=True, text=True, check=False
        )
        self.assertEqual(done.returncode, 1, done.stdout)
        self.assertIn("cmsproof: cmsproof: a function need not keep its contract", done.stderr)


if __name__ == "__main__":
    unittest.main()
