"""Tests of the library for C that `make library` builds from dist/: what a C program is told is what the command says."""
import os
import re
import shlex
import shutil
import subprocess
import sys
import unittest
from pathlib import Path

from making import ACCEPTED, INSTALLED, PROGRAM, REAL, TOP, folder_of, need_tools
from oracle import der, forms, identifiers

need_tools()

NEEDED = ("cc", "ar", "ld", "objcopy", "nm", "readelf")
SOURCES = TOP / "tools" / "tests" / "library"
RECORDS = TOP / "data" / "records"
# the programs that the document names
CHECK, STAMP = TOP / "docs" / "check.c", TOP / "docs" / "stamp.c"
SANITIZED = ["-fsanitize=address,undefined", "-fno-sanitize-recover=all"]


def run(*words, **how):
    """Runs a command that must end with status 0, and gives what it prints."""
    return subprocess.run([str(word) for word in words], capture_output=True, check=True, **how).stdout


@unittest.skipUnless(all(map(shutil.which, NEEDED)), "a C compiler or binutils are missing")
class Library(unittest.TestCase):
    """The library, built in a folder of its own."""

    def setUp(self):
        self.folder = folder_of(self)
        self.built = self.folder / "library"
        run("sh", TOP / "tools" / "library.sh", self.built)

    def program(self, source, *flags):
        """A program over the library of objects."""
        place = self.folder / "program"
        warned = ("-std=c99", "-Wall", "-Wextra", "-Werror")
        run("cc", *warned, *flags, "-I", TOP / "include", "-o", place, source, self.built / "libcmsproof.a")
        return place

    def answers(self, file):
        """The answers list of a file, of those questions whose signature is good."""
        place, words = self.folder / "answers", [PROGRAM, "questions", "--trust", REAL / "trust.txt", file]
        asked = subprocess.run(words, capture_output=True, check=False)
        questions = asked.stdout if asked.returncode == 0 else b"cmsproof questions 1\n"
        place.write_bytes(run(INSTALLED / "cmsproof-verify", input=questions))
        return place

    def said(self, file, answers):
        """What the command says of a file."""
        words = [PROGRAM, "check", "--trust", REAL / "trust.txt", "--answers", answers, file]
        return subprocess.run(words, capture_output=True, check=False).stdout

    def test_real_files_and_calls_in_a_wrong_order(self):
        program = self.program(SOURCES / "lines.c", *SANITIZED)
        files = sorted(REAL.glob("*.p7s"))
        accepted = 0
        for file in files:
            with self.subTest(file.name):
                answers = self.answers(file)
                line = run(program, REAL / "trust.txt", answers, file).split(b"\n")[0] + b"\n"
                self.assertEqual(line, self.said(file, answers))
                accepted += line.startswith(b"accepted ")
        self.assertGreater(accepted, 0)

    def test_the_program_of_the_documents(self):
        program, file, other = self.program(CHECK), REAL / "rsa_attached_ts.p7s", REAL / "rsa_attached.p7s"
        answers = self.answers(file)
        self.assertEqual(run(program, REAL / "trust.txt", answers, file), self.said(file, answers))
        refused = (REAL / "trust.txt", answers, other)
        good = (REAL / "trust.txt", answers, file)
        (self.folder / "long").write_bytes(bytes(1 << 24))
        for words, status in ((refused, 1), ((answers, answers, file), 2), ((REAL / "trust.txt", REAL / "trust.txt", file), 2)):
            done = subprocess.run([program, *words], capture_output=True, check=False)
            self.assertEqual((done.returncode, done.stdout[:8] == b"accepted"), (status, False))

        # what cannot be read is no file that is malformed, nor a list that is none
        for place in range(3):
            for other in (REAL / "none", self.folder, self.folder / "long"):
                words = [*good[:place], other, *good[place + 1 :]]
                done = subprocess.run([program, *words], capture_output=True, text=True, check=False)
                self.assertEqual((done.returncode, done.stdout, len(done.stderr.splitlines())), (4, "", 1))
                self.assertIn(str(other), done.stderr)
        with open("/dev/full", "wb") as full:
            done = subprocess.run([program, *good], stdout=full, stderr=subprocess.PIPE, check=False)
        self.assertEqual(done.returncode, 4)

    def stamped(self, name):
        """The token of a real file's one signer by itself, and beside it the signature's octets, which it stamps."""
        (signer,) = forms.read_signed_data((REAL / name).read_bytes()).signers
        wanted = der.oid_contents(identifiers.TIME_STAMP_TOKEN)
        (token,) = [value.whole() for of, values in signer.unsigned if of == wanted for value in values]
        for place, octets in ("stamp", token), ("data", signer.signature), ("other", signer.signature + b"x"):
            (self.folder / place).write_bytes(octets)
        asked = run(PROGRAM, "stamp", "questions", "--trust", REAL / "trust.txt", self.folder / "stamp")
        (self.folder / "answers").write_bytes(run(INSTALLED / "cmsproof-verify", input=asked))
        return [self.folder / place for place in ("answers", "stamp", "data")]

    def test_the_program_of_stamps(self):
        program, trust, good = self.program(STAMP), REAL / "trust.txt", self.stamped("rsa_attached_ts.p7s")
        answers, stamp, data = good
        for under, line, status in ((data, ACCEPTED, 0), (self.folder / "other", "refused K9 ImprintDiffers", 1)):
            command = [PROGRAM, "stamp", "check", "--trust", trust, "--answers", answers, stamp, under]
            for words in command, [program, trust, answers, stamp, under]:
                done = subprocess.run(words, capture_output=True, text=True, check=False)
                self.assertEqual((done.returncode, done.stdout, done.stderr), (status, line + "\n", ""))
        # what cannot be read is no stamp that is refused, nor data of no octets
        (self.folder / "long").write_bytes(bytes(1 << 26))
        for place in range(4):
            for other in (REAL / "none", self.folder, self.folder / "long"):
                words = [program, *[trust, *good][:place], other, *[trust, *good][place + 1 :]]
                done = subprocess.run(words, capture_output=True, text=True, check=False)
                self.assertEqual((done.returncode, done.stdout, len(done.stderr.splitlines())), (4, "", 1))
                self.assertIn(str(other), done.stderr)
        with open("/dev/full", "wb") as full:
            done = subprocess.run([program, trust, *good], stdout=full, stderr=subprocess.PIPE, check=False)
        self.assertEqual(done.returncode, 4)

    def test_what_programs_were_built_on_is_there(self):
        said = subprocess.run([sys.executable, SOURCES / "abi.py", self.built], capture_output=True, text=True, check=False)
        self.assertEqual((said.returncode, said.stdout), (0, ""))

    def known(self):
        """The trust list, an answers list of all real files, and the content of those that have it beside them."""
        run("sh", SOURCES / "known.sh", self.folder)
        return REAL / "trust.txt", self.folder / "answers", REAL / "blob.bin"

    def test_each_allocation_refused_in_turn(self):
        program = self.program(SOURCES / "refused.c", "-Wl,--wrap=malloc,--wrap=realloc,--wrap=free")
        messages = [TOP / "crates" / "real_files" / "data" / f"rsa_attached.1.{end}" for end in ("tok", "tsq", "tsr")]
        said = run(program, *self.known(), *messages, *sorted(REAL.glob("*.p7s")))
        self.assertGreater(int(said.split()[1]), 2000)

    def test_evidence_records_and_each_allocation_refused(self):
        program = self.program(SOURCES / "evidence.c", "-Wl,--wrap=malloc,--wrap=realloc,--wrap=free")
        trust, until, late = RECORDS / "trust.txt", "sha1=20160101000000Z sha256=20350101000000Z", "20261231000000Z"
        two, trees, tokens = "two_documents_in_the_first_list", *(f"bouncy_castle_renewed_by_a_{by}" for by in ("hash_tree", "time_stamp"))
        for name, numbers, ends, at, whole, said in (
            (trees, "0", until, late, "0", ("accepted 20150601120000Z", "1 -0 0 0")),
            (trees, "0", "sha512=20250101000000Z", late, "0", ("refused chain 2 stamp 1 W6 Weak", "2 W6 2 1")),
            (tokens, "0", "sha256=20200101000000Z", late, "0", ("refused chain 1 stamp 2 W6 Weak", "2 W6 1 2")),
            (two, "01", "", "", "1", ("accepted 20160201120000Z", "1 -0 0 0")),
            (two, "1", "", "", "1", ("refused chain 1 stamp 1 W8 Others", "2 W8 1 1")),
            (two, "", "", "", "0", ("refused V3 NoData", "2 V3 0 0")),
            ("changed_signature", "0", "", "", "0", ("refused chain 1 stamp 1 W4 K14 SignatureFails", "2 K14 1 1")),
            ("encrypted", "3", "", "", "0", ("refused V2 Encrypted", "2 V2 0 0")),
            ("octet_behind_the_record", "3", "", "", "0", ("malformed M7 Trailing at 1100", "3 V1 0 0")),
        ):
            data = [RECORDS / "files" / f"document_{number}" for number in numbers]
            words = [program, trust, RECORDS / "answers.txt", ends, at, whole, RECORDS / "records" / f"{name}.ers", *data]
            self.assertEqual(tuple(run(*words, text=True).splitlines()), said)

    def test_threads_with_lists_of_their_own(self):
        program = self.program(SOURCES / "threads.c", "-pthread")
        self.assertIn(b" in 8 threads", run(program, *self.known(), 0, *sorted(REAL.glob("*.p7s"))))

    def test_changed_files_beside_the_command(self):
        program, answers = self.program(SOURCES / "changed.c", "-O1"), self.known()[1]
        files = REAL / "rsa_detached_ts.p7s", REAL / "noattr.p7s"
        said = run(sys.executable, SOURCES / "beside.py", program, answers, 400, *files).decode()
        self.assertEqual(len(said.splitlines()), 2, said)


@unittest.skipUnless(all(map(shutil.which, (*NEEDED, "make", "c++", "pkg-config"))), "a compiler or pkg-config is missing")
class Installed(unittest.TestCase):
    """What `make install-library` puts into a folder, as a program finds it by pkg-config."""

    def setUp(self):
        self.folder = folder_of(self)
        self.root, self.place = self.folder / "root", "/opt/cmsproof"
        self.make("install-library")

    def make(self, target):
        """Runs make."""
        words = (
            "make",
            "-s",
            "-C",
            TOP,
            target,
            f"BUILT={self.folder / 'built'}",
            f"DESTDIR={self.root}",
            f"PREFIX={self.place}",
        )
        run(*words, env={name: value for name, value in os.environ.items() if not name.startswith("MAKE")})

    def flags(self, *words):
        """What pkg-config says, for what is not installed yet in its own place."""
        found = f"{self.root}{self.place}/lib/pkgconfig"
        said = run(
            "pkg-config",
            *words,
            "cmsproof",
            env={**os.environ, "PKG_CONFIG_LIBDIR": found, "PKG_CONFIG_SYSROOT_DIR": self.root},
        )
        return shlex.split(said.decode())

    def test_programs_built_by_pkg_config(self):
        lines = self.folder / "lines.cc"
        lines.write_text((SOURCES / "lines.c").read_text())
        run("sh", SOURCES / "known.sh", self.folder)
        words = REAL / "trust.txt", self.folder / "answers", REAL / "rsa_attached_ts.p7s"
        warned, found = ("-Wall", "-Wextra", "-Wpedantic", "-Werror"), self.flags("--cflags", "--libs")
        for builds in (
            ("cc", "-std=c99", *warned, CHECK, *found),
            ("c++", "-std=c++11", *warned, "-I", SOURCES, lines, *found),
            ("cc", "-std=c99", *warned, "-static", CHECK, *self.flags("--static", "--cflags", "--libs")),
        ):
            with self.subTest(builds[0], static="-static" in builds):
                program = self.folder / "program"
                run(*builds, "-o", program)
                said = run(program, *words, env={"LD_LIBRARY_PATH": f"{self.root}{self.place}/lib"})
                self.assertEqual(said.split(b"\n")[0], b"accepted 20261122071759Z")
                needed = b"libcmsproof.so.1" in run("readelf", "-dW", program)
                self.assertEqual(needed, "-static" not in builds)

    def test_the_programs_that_are_timed(self):
        run("sh", SOURCES / "known.sh", self.folder)
        program, file, benchmarks = self.folder / "timed", REAL / "rsa_attached_ts.p7s", TOP / "benchmarks"
        run(
            "cc",
            "-std=c99",
            "-Werror",
            "-o",
            program,
            benchmarks / "library_check.c",
            *self.flags("--static", "--cflags", "--libs"),
        )
        words, found = (REAL / "trust.txt", self.folder / "answers", file, 2), {
            "LD_LIBRARY_PATH": f"{self.root}{self.place}/lib"
        }
        self.assertGreater(int(run(program, *words, env=found)), 1000)
        refused = subprocess.run([program, *map(str, words[:2]), REAL / "noattr.p7s", "2"], env=found, check=False)
        self.assertEqual(refused.returncode, 1)
        if not Path("/usr/include/openssl/cms.h").exists():
            self.skipTest("there is no header of OpenSSL (libssl-dev)")
        run("cc", "-std=c99", "-Werror", "-o", program, benchmarks / "cms_verify.c", "-lcrypto")
        self.assertGreater(int(run(program, file, 2)), 1000)

    def test_what_is_installed_and_what_is_left_of_it(self):
        names = ("libcmsproof.a", "libcmsproof.so", "libcmsproof.so.1", "pkgconfig/cmsproof.pc")
        wanted = {f"lib/{name}" for name in names} | {"include/cmsproof.h"}
        folder = Path(f"{self.root}{self.place}")
        self.assertEqual({str(path.relative_to(folder)) for path in folder.rglob("*") if not path.is_dir()}, wanted)
        header = (TOP / "include" / "cmsproof.h").read_text()
        high, low = divmod(int(re.search(r"CMSPROOF_VERSION UINT32_C\((0x\w+)\)", header)[1], 16), 1 << 16)
        self.assertEqual(self.flags("--modversion"), [f"{high}.{low}"])
        self.make("uninstall-library")
        self.assertEqual([path for path in self.root.rglob("*") if not path.is_dir()], [])


if __name__ == "__main__":
    unittest.main()
