"""Tests of `tools/soak.py` and `tools/changes.py`: which edits are tried, in small repositories, with a stand-in for `rt`."""
import os
import shutil
import signal
import subprocess
import sys
import tempfile
import time
import unittest
from pathlib import Path

TOOLS = Path(__file__).resolve().parent.parent
sys.path.insert(0, str(TOOLS))
from changes import less_code, less_definitions, less_derived, lines_of, meaning  # noqa: E402

# It refuses each edit, but for those that say otherwise, and notes what it was asked.
STAND_IN = f"""#!{sys.executable}
import os, pathlib, sys, time
verb, name = sys.argv[1], sys.argv[2] if sys.argv[1] == "must-fail" else os.path.basename(os.getcwd())
with open(os.environ["SOAK_LOG"], "a") as log:
    print(verb, name, os.environ["RT_JOBS"], os.getpid(), file=log)
if verb == "ci":
    print("3 passed, 0 failed")
    sys.exit(0)
if verb == "check":
    if any("behind" in it.read_text() for it in pathlib.Path("src").glob("*.rt")):
        print("note: src/lib.rt:1:1: it is not proved that it returns")
    sys.exit(1 if pathlib.Path("src/unproved.rt").exists() else 0)
status = 0
for edit in sorted(pathlib.Path("crates", name, "must-fail").glob("*.edit")):
    text = edit.read_text()
    if "slow" in text:
        time.sleep(100)
    if "silent" in text:
        continue
    status = 1 if "harmless" in text else status
    told = "NOT REFUSED" if "harmless" in text else "refused, as it must be: note"
    told = "refused, as it must be (only by a limit of the prover): note" if "limit" in text else told
    by_hand = "refused, as it must be: ./proofs/low/Answers.antt:1:1: error: the two types differ"
    told = by_hand if "by_hand" in text else told
    print(f"rt: must-fail {{name}}/{{edit.name}}: {{told}}", file=sys.stderr)
sys.exit(status)
"""
CODE = 'pub fn low() -> u8 {\n    // what it gives\n    say("a // b"); 1\n}\n'
FILES = {
    "crates.txt": "# crates\nhigh: low kit\nlow: kit\nbeside: low\n",
    "HANDLES": "Handles allowed: none.\n",
    "crates/low/src/lib.rt": CODE,
    "crates/low/src/beside.rt": "fn beside() {}\n",
    "crates/low/specs/Low.antt": "-- what low is\nlow : N\nlow = f 1\n  where f = id\n",
    "crates/low/proofs/Low.antt": "proof = refl\n",
    "crates/low/must-fail/two.edit": "file: src/lib.rt\nold: 1\nnew: 2\n",
    "crates/high/src/lib.rt": "fn high() {}\n",
    "crates/high/must-fail/one.edit": "file: src/lib.rt\nold: {}\nnew: { high() }\n",
    "crates/high/more-edits/one.edit": "file: src/lib.rt\nold: {}\nnew: { low() }\n",
    "crates/beside/src/lib.rt": "fn beside() {}\n",
}


class Repository(unittest.TestCase):
    """A repository of three crates, of which two have edits, `high` and below it `low`."""

    def setUp(self):
        temporary = tempfile.TemporaryDirectory()
        self.addCleanup(temporary.cleanup)
        self.folder = Path(temporary.name)
        self.top, self.log, self.rooms = self.folder / "top", self.folder / "log", self.folder / "rooms"
        for name in ("bin", "rooms", "home"):
            (self.folder / name).mkdir()
        self.put({"rt": STAND_IN}, self.folder / "bin")
        (self.folder / "bin" / "rt").chmod(0o755)
        self.put(FILES)
        (self.top / "tools").mkdir()
        for name in ("soak", "changes", "visible", "items", "pieces", "kept_sums", "together", "timed_runs"):
            shutil.copy(TOOLS / f"{name}.py", self.top / "tools")
        self.surroundings = dict(
            {name: value for name, value in os.environ.items() if not name.startswith("GIT_")},
            PATH=f"{self.folder / 'bin'}:{os.environ['PATH']}",
            HOME=str(self.folder / "home"),
            TMPDIR=str(self.rooms),
            SOAK_LOG=str(self.log),
            PYTHONDONTWRITEBYTECODE="1",
            GIT_CONFIG_NOSYSTEM="1",
        )
        self.git("init", "-q", "-b", "main")
        self.commit("first")

    def put(self, files, top=None):
        """Writes files; one with no text is removed."""
        for path, text in files.items():
            place = (top or self.top) / path
            place.parent.mkdir(parents=True, exist_ok=True)
            place.unlink() if text is None else place.write_text(text)

    def git(self, *words, top=None):
        """What git prints, in the repository."""
        names = ["-c", "user.name=a", "-c", "user.email=a@example.com"]
        ran = ["git", "-C", str(top or self.top), *names, *words]
        return subprocess.run(ran, check=True, capture_output=True, text=True, env=self.surroundings).stdout.strip()

    def commit(self, message):
        """Commits all files: the name of the commit."""
        self.git("add", "-A")
        self.git("commit", "-q", "--allow-empty", "-m", message)
        return self.git("rev-parse", "HEAD")

    def soaked(self, *lines):
        """Writes `soaked`, with the lines of both crates if none is given."""
        head = self.git("rev-parse", "HEAD")
        self.put({"soaked": "".join(f"{line}\n" for line in lines or (f"high {head}", f"low {head}"))})
        self.commit("soaked")

    def soak(self, *words, top=None):
        """Runs the script: its status and what it prints; the copy is removed again."""
        self.log.write_text("")
        ran = [sys.executable, str((top or self.top) / "tools" / "soak.py"), *words]
        done = subprocess.run(ran, capture_output=True, text=True, env=self.surroundings)
        self.assertEqual(list(self.rooms.iterdir()), [])
        return done.returncode, done.stdout + done.stderr

    def tried(self):
        """The crates whose edits were tried, in their order."""
        return [line.split()[1] for line in self.log.read_text().splitlines() if line.startswith("must-fail")]

    def running(self):
        """The stand-ins that still run."""
        pids = [line.split()[3] for line in self.log.read_text().splitlines()]
        return [pid for pid in pids if Path(f"/proc/{pid}").exists()]

    def lines(self):
        """The lines of `soaked`."""
        place = self.top / "soaked"
        return place.read_text().splitlines() if place.exists() else None


class Meanings(unittest.TestCase):
    """What counts of a text."""

    SAME = [
        (".rt", "a // b\nc", "a\nc"),
        (".rt", "a\n/// b\n//! c\nd", "a d"),
        (".rt", "a /* b /* c */ d */ e", "a e"),
        (".rt", "a(\n    b,\n)", "a( b, )"),
        (".rt", "f('\"', 1) // a\n;", "f('\"', 1)\n;"),
        (".rt", "f::<'a>(x) // '\n;", "f::<'a>(x) ;"),
        (".rt", "f('\\'', \"\\\"\") // a", "f('\\'', \"\\\"\")"),
        (".rt", 'r#"a"b"# // c', 'r#"a"b"#'),
        (".antt", "-- a\nb = c -- d\n\n", "b = c\n"),
        (".antt", "a  =  b", "a = b"),
        (".antt", 'a = "\\"" -- b', 'a = "\\""'),
        (".antt", "  -- a\n  -- ---- b\nc", "c"),
        (".antt", "a : b\n    → c\n    → d\ne", "a : b → c → d\ne"),
        (".antt", "use a.{b, c}", "use a.{b}\nuse a.{c}"),
        (".rt", "ghost use a.{b, c};", "ghost use a.{b};\nghost use a.{c};"),
        (".edit", "a\nfile: b\nold: c\nnew: d\n", "file: b\nold: c\nnew: d"),
    ]
    OTHER = [
        (".rt", "a(1)", "a(2)"),
        (".rt", '"a // b"', '"a // c"'),
        (".rt", '"a  b"', '"a b"'),
        (".rt", '"\\" // b"', '"\\" // c"'),
        (".rt", 'r"\\" + "// a"', 'r"\\" + "// b"'),
        (".rt", 'r#"" // a"#', 'r#"" // b"#'),
        (".rt", 'br##""# // a"##', 'br##""# // b"##'),
        (".rt", 'b\'"\' + "// a"', 'b\'"\' + "// b"'),
        (".rt", '\'"\'; "// a"', '\'"\'; "// b"'),
        (".rt", '/* " */ "// a"', '/* " */ "// b"'),
        (".rt", "// a /*\nb", "// a /*\nc"),
        (".rt", "#[a]\nb", "#[c]\nb"),
        (".rt", "a & & b", "a && b"),
        (".rt", "n+n", "n + n"),
        (".antt", "a = 1", "a = 2"),
        (".antt", 'a = "b -- c"', 'a = "b -- d"'),
        (".antt", 'a = "b  c"', 'a = "b c"'),
        (".antt", "a\n  b", "a\nb"),
        (".antt", "a\n  b", "a b"),
        (".antt", "use a.{b, c}", "use a.{b}\nuse d.{c}"),
        (".rt", "ghost use a.{b, c};", "ghost use a.{b};"),
        (".antt", "a--b c", "a--b d"),
        (".antt", "a --b", "a --c"),
        (".antt", "{- -- -} a", "{- -- -} b"),
        (".edit", "old: a", "old: a "),
        (".edit", "file: a\nold: // a", "file: a\nold: // b"),
        (".bin", "// a", "// b"),
    ]

    # whether the second says what the first does, but for modules, what types derived, or definitions that are gone
    LESS_CODE = [
        ("#![a] mod b; mod c; pub use b::d; pub use c::e;", "#![a] mod c; pub use c::e;", True),
        ("mod b; mod c;", "mod c; mod b;", False),
        ("mod b; mod c;", "mod c; mod d;", False),
        ("mod b; mod c; fn a() {}", "mod c;", False),
        ("mod b; mod c; const A: u8 = 1;", "mod c; const A: u8 = 2;", False),
        ("pub use a::{b, c};", "pub use a::{b};", False),
        ("mod b;", "mod b;", False),
    ]
    LESS_DERIVED = [
        ("#[derive(Clone, Copy, Debug)] pub enum A { B }", "#[derive(Clone, Copy)] pub enum A { B }", True),
        ("#[derive(Clone, Debug)] #[b] pub(crate) struct A;", "#[derive(Clone)] #[b] pub(crate) struct A;", True),
        ("#[derive(Clone, PartialEq)] struct A;", "#[derive(Clone)] struct A;", False),
        ("#[derive(Debug, Drop)] struct A;", "#[derive(Drop)] struct A;", True),
        ("#[derive(Debug, Drop)] struct A;", "#[derive(Debug)] struct A;", False),
        ("#[derive(Clone, Copy)] struct A;", "#[derive(Clone)] struct A;", False),
        ("#[derive(Drop)] struct A;", "#[derive(Debug, Drop)] struct A;", False),
        ("#[derive(Debug, Drop)] struct A { b: u8 }", "#[derive(Drop)] struct A { b: u16 }", False),
        ("#[derive(Eq, Drop)] struct A; fn b() {}", "#[derive(Drop)] struct A; fn b() { c() }", False),
        ("#[derive(Debug, Drop)] struct A; #[derive(Debug, Drop)] struct B;", "#[derive(Drop)] struct A;", False),
    ]
    LESS_DEFINITIONS = [
        ("abbrev pub a : T\na x = y\nb = c", "b = c", True),
        ("abbrev pub a : T\na x = y\nb = a", "b = a", False),
        ("a = b\nc = d", "c = e", False),
        ("record a where\n  pub b : T\n  pub c : T", "record a where\n  pub b : T", False),
        ("pub use d.{a}\npub use d.{b}", "pub use d.{b}", True),
        ("pub mod A\npub mod B", "pub mod B", True),
        ("a = b\nc = d", "c = d\na = b", False),
        # a clause of an operator, which begins with what it takes, how it groups, what it may unfold, and what another name is for
        ("pub ◌▸◌ : T\nzero ▸ n = a\nm ▸ n = b", "pub ◌▸◌ : T\nm ▸ n = b", False),
        ("infixr 3 ◌▸◌\npub ◌▸◌ : T\nm ▸ n = b", "pub ◌▸◌ : T\nm ▸ n = b", False),
        ("pub a : T\nunfolding b\na = c", "pub a : T\na = c", False),
        ("pub use d.{b as a}\nc = a", "c = a", False),
    ]

    def test_crates(self):
        # (as rt reads them: of each crate the libraries, and what else its line says)
        wanted = {"high": [":", "low", "kit"], "low": ["staticlib", ":", "kit"], "kit": [":"]}
        for text in ("high: low kit\nlow staticlib: kit\nkit:", "# a\nhigh : low,kit # b\n\nlow  staticlib:kit\nkit\n"):
            self.assertEqual(lines_of(text), wanted)

    def test_what_went_as_a_whole(self):
        tables = ((less_code, self.LESS_CODE), (less_derived, self.LESS_DERIVED), (less_definitions, self.LESS_DEFINITIONS))
        for is_less, rows in tables:
            for before, after, wanted in rows:
                with self.subTest(before=before, after=after):
                    self.assertEqual(is_less(before, after), wanted)

    def test_comments_and_layout(self):
        for is_same, rows in ((True, self.SAME), (False, self.OTHER)):
            for suffix, one, other in rows:
                with self.subTest(suffix=suffix, one=one, other=other):
                    self.assertEqual(meaning("a" + suffix, one.encode()) == meaning("a" + suffix, other.encode()), is_same)


@unittest.skipUnless(shutil.which("git"), "there is no git")
class Changed(Repository):
    """Which edits `--changed` tries, by what changed since they were tried."""

    HIGH_EDIT = "file: src/lib.rt\nold: {}\nnew: { high(); high() }\n"
    ROWS = [
        ({}, []),
        ({"crates/low/src/lib.rt": CODE.replace("what it gives", "another")}, []),
        ({"crates/low/src/lib.rt": CODE.replace("say", "/* a */ say")}, []),
        ({"crates/low/src/lib.rt": CODE.replace("fn", "/// Gives 1.\nfn")}, []),
        # a body counts for its own crate alone; what can be seen of a function, for those too that name it
        ({"crates/low/src/lib.rt": CODE.replace("1", "3")}, ["low"]),
        ({"crates/low/src/lib.rt": CODE.replace("// b", "// c")}, ["low"]),
        ({"crates/low/src/lib.rt": CODE.replace("u8", "u16")}, ["low", "high"]),
        ({"crates/low/src/lib.rt": CODE.replace("{\n", "ensures { result ≡ 1 } {\n")}, ["low", "high"]),
        ({"crates/low/src/lib.rt": CODE + "pub fn other() {}\n"}, ["low"]),
        ({"crates/low/src/lib.rt": CODE + "macro_rules! other { () => {}; }\n"}, ["low", "high"]),
        ({"crates/low/src/lib.rt": CODE + "}\n"}, ["low", "high"]),
        ({"crates/low/src/lib.rt": None}, ["low", "high"]),
        ({"crates/low/src/other.rt": ""}, ["low"]),
        ({"crates/low/src/beside.rt": None}, []),
        ({"crates/low/src/beside.rt": None, "crates/low/src/lib.rt": CODE.replace("u8", "u16")}, ["low", "high"]),
        ({"crates/low/specs/Low.antt": FILES["crates/low/specs/Low.antt"].replace("what low is", "low")}, []),
        ({"crates/low/specs/Low.antt": FILES["crates/low/specs/Low.antt"].replace("1", "2")}, ["low", "high"]),
        ({"crates/low/specs/Low.antt": FILES["crates/low/specs/Low.antt"] + "other : N\n"}, ["low"]),
        ({"crates/low/proofs/Low.antt": "proof = sym refl\n"}, []),
        ({"crates/high/src/lib.rt": "fn high() { low(); }\n"}, ["high"]),
        ({"crates/high/src/lib.rt": "fn high() { low(); }\n", "crates/low/src/lib.rt": "fn low() {}"}, ["low", "high"]),
        ({"crates/high/more-edits/two.edit": HIGH_EDIT}, ["high"]),
        ({"crates/high/must-fail/one.edit": HIGH_EDIT}, ["high"]),
        ({"crates/low/must-fail/two.edit": FILES["crates/low/must-fail/two.edit"] + "a remark\n"}, []),
        (
            {
                "crates/low/must-fail/two.edit": None,
                "crates/low/more-edits/other.edit": FILES["crates/low/must-fail/two.edit"],
            },
            [],
        ),
        ({"crates/beside/src/lib.rt": "fn beside() { low() }\n"}, []),
        ({"crates.txt": FILES["crates.txt"].replace("low: kit", "low: kit other")}, ["low", "high"]),
        ({"crates.txt": FILES["crates.txt"].replace("low: kit", "low: other")}, ["low", "high"]),
        # a library that nothing names went; one that an edit names
        ({"crates.txt": FILES["crates.txt"].replace("low: kit", "low:")}, []),
        ({"crates.txt": FILES["crates.txt"].replace("high: low kit", "high: kit")}, ["high"]),
        ({"README.md": "text"}, []),
    ]

    def test_what_changed(self):
        self.soaked()
        before = self.git("rev-parse", "HEAD")
        for is_committed in (True, False):
            for files, crates in self.ROWS:
                with self.subTest(files=files, is_committed=is_committed):
                    self.put(files)
                    if is_committed:
                        self.commit("a change")
                    lines = self.lines()
                    status, told = self.soak("--changed")
                    self.assertEqual((status, self.tried()), (0, crates), told)
                    self.assertEqual(self.lines(), lines)
                    self.git("add", "-A")
                    self.git("reset", "-q", "--hard", before)

    def test_what_is_said(self):
        self.soaked()
        since = self.lines()[0].split()[1][:7]
        self.put({"crates/low/src/lib.rt": "fn low() {}"})
        _, told = self.soak("--changed")
        self.assertIn(f"soak: high: crates/low/src/lib.rt changed since {since}\n", told)
        self.assertIn("soak: high: 2 edits refused", told)
        ran = [sys.executable, str(self.top / "tools" / "changes.py"), since, "low", "high"]
        done = subprocess.run(ran, check=True, capture_output=True, text=True, env=self.surroundings)
        self.assertEqual(done.stdout, "low crates/low/src/lib.rt own\nhigh crates/low/src/lib.rt below, by low\n")

    def test_own_changes_come_first(self):
        for name in ("middle", "unknown"):
            edit = "file: src/lib.rt\nold: a\nnew: b\n"
            self.put({f"crates/{name}/src/lib.rt": "fn own() { low::low() }\n", f"crates/{name}/must-fail/a.edit": edit})
        self.put({"crates.txt": "unknown:\nhigh: middle low\nmiddle: low\nlow:\n"})
        head = self.commit("other crates")
        self.soaked("unknown " + "0" * 40, *(f"{name} {head}" for name in ("high", "low", "middle")))
        self.put({"crates/high/src/lib.rt": "fn high() { low(); }\n", "crates/low/src/lib.rt": "fn low() {}"})
        self.soak("--changed")
        self.assertEqual(self.tried(), ["low", "high", "middle", "unknown"])

    def test_edits_that_are_not_refused(self):
        low = "crates/low/must-fail/two.edit"
        rows = [
            ({low: "file: src/lib.rt\nold: 1\nnew: harmless\n"}, "NOT REFUSED"),
            ({low: "file: src/lib.rt\nold: 1\nnew: silent\n"}, "not all of its 1 edits were tried and refused"),
            ({"crates/low/src/unproved.rt": ""}, "not all of its 1 edits were tried and refused"),
        ]
        self.soaked()
        for files, words in rows:
            with self.subTest(files=files):
                self.put(files)
                status, told = self.soak("--changed")
                self.assertEqual(status, 1)
                self.assertIn(words, told)
                self.assertIn("soak: not refused or not tried, of: low", told)
                self.put({path: FILES.get(path) for path in files})

    def test_time(self):
        self.soaked()
        self.put({"crates/low/must-fail/two.edit": "file: src/lib.rt\nold: 1\nnew: slow\n"})
        self.put({"crates/high/src/lib.rt": "fn high() { low(); }\n"})
        for minutes, crates in (("0", []), ("0.05", ["low"])):
            with self.subTest(minutes=minutes):
                begun = time.monotonic()
                status, told = self.soak("--changed", "--minutes", minutes)
                self.assertLess(time.monotonic() - begun, 50)
                self.assertEqual((status, self.tried()), (0, crates))
                self.assertIn(f"the {minutes} minutes are over", told)
                self.assertTrue(told.endswith(": low high\n"), told)
                self.assertEqual(self.running(), [])


@unittest.skipUnless(shutil.which("git"), "there is no git")
class Lines(Repository):
    """What the lines of `soaked` may be, and a clone that can't compare."""

    def test_lines(self):
        first = self.git("rev-parse", "HEAD")
        self.git("checkout", "-q", "-b", "other")
        other = self.commit("of another branch")
        self.git("checkout", "-q", "main")
        self.git("tag", "low")
        self.commit("second")
        good = f"high {first}"
        rows = [
            ((good, f"low {first}"), 0, [], "no edit is owed"),
            (
                (good,),
                0,
                [],
                "soaked has no line of these crates, so that not all of their edits are known to be refused; only the",
            ),
            ((good,), 0, [], "only the edits that the gate keeps are tried: low\n"),
            ((), 0, [], "only the edits that the gate keeps are tried: low high\n"),
            ((good, f"low {other}"), 0, ["low"], f"low: soaked names {other[:7]}, which is no commit that HEAD comes after"),
            ((good, "low " + "0" * 40), 0, ["low"], "low: soaked names 0000000, which is no commit that HEAD comes after"),
            ((good, "low HEAD"), 1, [], "line 2: it is not a crate and the whole name of a commit"),
            ((good, "low low"), 1, [], "line 2: it is not a crate and the whole name of a commit"),
            ((good, f"low {first[:12]}"), 1, [], "line 2: it is not a crate and the whole name of a commit"),
            ((good, f"low {first} "), 1, [], "line 2: it is not a crate and the whole name of a commit"),
            ((good, "low"), 1, [], "line 2: it is not a crate and the whole name of a commit"),
            ((good, f"low {first}", good), 1, [], "line 3: high has a line already"),
            ((good, f"low {first}", f"none {first}"), 1, [], "line 3: crates.txt has no such crate"),
            ((good, f"low {first}", f"../low {first}"), 1, [], "line 3: crates.txt has no such crate"),
            ((good, f"low {first}", f"kit {first}"), 1, [], "line 3: crates.txt has no such crate"),
        ]
        for lines, status, crates, words in rows:
            with self.subTest(lines=lines):
                self.put({"soaked": "".join(f"{line}\n" for line in lines)})
                ended, told = self.soak("--changed")
                self.assertEqual((ended, self.tried()), (status, crates), told)
                self.assertIn(words, told)

    def test_what_was_tried_on_another_branch(self):
        self.git("checkout", "-q", "-b", "other")
        self.put({"crates/low/src/lib.rt": "fn low() {}"})
        other = self.commit("a body that was tried nowhere else")
        self.git("checkout", "-q", "main")
        self.put({"crates/low/src/lib.rt": "fn low() {}"})
        self.commit("the same body")
        self.soaked(f"high {other}", f"low {other}")
        self.soak("--changed")
        self.assertEqual(self.tried(), ["low", "high"])

    def test_edits_that_show_little(self):
        self.put({"crates/low/must-fail/two.edit": "file: src/lib.rt\nold: 1\nnew: limit\n"})
        head = self.commit("an edit at which the prover stops")
        status, told = self.soak("low")
        self.assertEqual((status, self.lines()), (0, [f"low {head}"]))
        self.assertIn("rt: must-fail low/two.edit: refused, as it must be (only by a limit of the prover): note\n", told)
        self.assertIn("soak: low: 1 of these edits show little or nothing of a contract", told)

    def test_by_what_edits_are_refused(self):
        for name, new in (("two", "by_hand"), ("three", "behind by_hand"), ("four", "limit"), ("five", "7")):
            self.put({f"crates/low/must-fail/{name}.edit": f"file: src/lib.rt\nold: 1\nnew: {new}\n"})
        self.commit("edits of each kind")
        status, told = self.soak("low")
        by_hand = "only since an answer by hand no longer has its goal's type"
        counts = f"refused 2 by an open goal, 1 {by_hand}, 1 for a name that is gone or by a limit"
        self.assertEqual((status, len(self.lines())), (0, 1))
        for line in (f"low: {counts}", f"low: {by_hand}: two", f"in all: {counts}"):
            self.assertIn(f"soak: {line}\n", told)

    def test_no_history(self):
        self.soaked()
        self.put({"crates/low/src/lib.rt": "fn low() {}"})
        self.commit("a change")
        shallow, bare, inside = (self.folder / name for name in ("shallow", "bare", "inside"))
        self.git("clone", "-q", "--depth", "1", f"file://{self.top}", str(shallow))
        shutil.copytree(self.top, bare, ignore=shutil.ignore_patterns(".git"))
        shutil.copytree(self.top, inside / "inner", ignore=shutil.ignore_patterns(".git"))
        self.git("init", "-q", top=inside)
        for top, words in ((shallow, "lacks the commits"), (bare, "no history"), (inside / "inner", "no history")):
            with self.subTest(top=top.name):
                status, told = self.soak("--changed", top=top)
                self.assertEqual((status, self.tried(), told.count("\n")), (0, [], 1 + (top == shallow)), told)
                self.assertIn(words, told)
                self.assertIn("only the edits that the gate keeps are tried", told)

    def test_no_git(self):
        self.soaked()
        self.put({"crates/low/src/lib.rt": "fn low() {}"})
        self.surroundings["PATH"] = str(self.folder / "bin")
        status, told = self.soak("--changed")
        self.assertEqual((status, self.tried()), (0, []))
        self.assertEqual(told, "soak: no history (there is no command git); only the edits that the gate keeps are tried\n")

    def test_no_file(self):
        status, told = self.soak("--changed")
        self.assertEqual((status, self.tried()), (0, []))
        self.assertEqual(told, "soak: there is no file 'soaked'; only the edits that the gate keeps are tried\n")

    def test_another_repository_in_the_surroundings(self):
        self.soaked()
        self.put({"crates/low/src/lib.rt": "fn low() {}"})
        self.surroundings["GIT_DIR"] = str(self.folder / "none")
        self.soak("--changed")
        self.assertEqual(self.tried(), ["low", "high"])


@unittest.skipUnless(shutil.which("git"), "there is no git")
class Soaking(Repository):
    """What a whole run tries, and which lines it writes."""

    def test_all(self):
        head = self.git("rev-parse", "HEAD")
        status, told = self.soak()
        self.assertEqual((status, self.tried()), (0, ["low", "high"]), told)
        self.assertEqual(self.lines(), [f"high {head}", f"low {head}"])
        self.assertIn("high: 2 edits refused", told)
        self.assertEqual(self.git("status", "--porcelain"), "?? soaked")

    def test_jobs(self):
        self.soak("--jobs", "3")
        self.assertEqual([line.split()[2] for line in self.log.read_text().splitlines()], ["3"] * 4)

    def test_crates(self):
        head, old = self.git("rev-parse", "HEAD"), "1" * 40
        self.put({"soaked": f"low {old}\n"})
        self.assertEqual((self.soak("high")[0], self.tried()), (0, ["high"]))
        self.assertEqual(self.lines(), [f"high {head}", f"low {old}"])

    def test_names(self):
        for name in ("beside", "none", "kit", "../low", "crates/low"):
            with self.subTest(name=name):
                status, told = self.soak(name)
                self.assertEqual((status, self.tried(), self.lines()), (2, [], None))
                self.assertIn(f"no crate of crates.txt that has edits is named {name}", told)

    def test_what_head_does_not_have(self):
        rows = [
            ({"crates/low/src/lib.rt": CODE + "// a\n"}, [], "crates/low/src/lib.rt"),
            ({"crates/high/src/new.rt": ""}, ["low"], "crates/high/src/new.rt"),
            ({"crates/high/more-edits/new.edit": "file: src/lib.rt\n"}, ["low"], "crates/high/more-edits/new.edit"),
            ({"crates/low/must-fail/new.edit": "file: src/lib.rt\n"}, ["high"], "crates/low/must-fail/new.edit"),
            ({"crates/low/proofs/Low.antt": None}, [], "crates/low/proofs/Low.antt"),
            ({"crates.txt": FILES["crates.txt"] + "\n"}, [], "crates.txt"),
        ]
        for files, written, path in rows:
            with self.subTest(files=files):
                self.put(files)
                status, told = self.soak()
                self.assertEqual((status, self.tried()), (0, ["low", "high"]))
                self.assertEqual([line.split()[0] for line in self.lines() or []], written)
                self.assertIn(f"no line: {path} is not as HEAD has it", told)
                self.git("add", "-A")
                self.git("reset", "-q", "--hard")

    def test_failures(self):
        self.put({"crates/low/must-fail/two.edit": "file: src/lib.rt\nold: 1\nnew: harmless\n"})
        head = self.commit("a harmless edit")
        status, told = self.soak()
        self.assertEqual((status, self.tried(), self.lines()), (1, ["low", "high"], [f"high {head}"]))
        self.assertIn("soak: not refused or not tried, of: low", told)

    def test_an_edit_that_its_name_hides(self):
        # (where the others are left to try alone, `rt` itself says that it is bad)
        edit = "file: src/lib.rt\nold: 1\nnew: harmless\n"
        for name in ("more.edits", "more.edit.txt", "more edit.edit", "more/one.edit"):
            with self.subTest(name=name):
                self.put({f"crates/low/more-edits/{name}": edit})
                self.commit("an edit that is not tried")
                status, told = self.soak("low")
                self.assertEqual((status, self.tried(), self.lines()), (1, [], None))
                self.assertIn(f"low: {name.partition('/')[0]} lies among the edits, and by its name is none", told)
                self.assertIn("soak: not refused or not tried, of: low", told)
                self.put({f"crates/low/more-edits/{name}": None})
        shutil.rmtree(self.top / "crates/low/more-edits")
        self.put({"crates/low/more-edits/README.md": "what they are"})
        self.commit("what they are")
        self.assertEqual((self.soak("low")[0], len(self.lines())), (0, 1))

    def test_no_history(self):
        shutil.rmtree(self.top / ".git")
        status, told = self.soak()
        self.assertEqual((status, self.tried(), self.lines()), (0, ["low", "high"], None))
        self.assertIn("no line: ", told)

    def test_a_run_that_is_ended(self):
        self.put({"crates/high/must-fail/slow.edit": "file: src/lib.rt\nold: fn\nnew: slow\n"})
        head = self.commit("a slow edit")
        self.log.write_text("")
        ran = [sys.executable, str(self.top / "tools" / "soak.py")]
        with subprocess.Popen(ran, stdout=subprocess.DEVNULL, env=self.surroundings) as running:
            for _ in range(300):
                if self.tried() == ["low", "high"]:
                    break
                time.sleep(0.1)
            running.send_signal(signal.SIGTERM)
            self.assertEqual(running.wait(30), 128 + signal.SIGTERM)
        self.assertEqual((self.tried(), self.lines(), self.running()), (["low", "high"], [f"low {head}"], []))
        self.assertEqual(list(self.rooms.iterdir()), [])


@unittest.skipUnless(shutil.which("git"), "there is no git")
class Gate(Repository):
    """`.ci/run` and `make test`, with a stand-in for `rt`."""

    def test_the_gate(self):
        for name in ("Makefile", ".ci/run", "tools/jobs.sh", "tools/proofs.sh"):
            (self.top / name).parent.mkdir(exist_ok=True)
            shutil.copy(TOOLS.parent / name, self.top / name)
        # in place of what compares dist/ and PROVED with the sources, and of what builds, tries, installs and measures the program
        names = ("dist", "api", "lines", "program_rows", "on_installed", "instructions")
        stand_ins = [*(f"{name}.py" for name in names), "sources.sh", "build.sh"]
        self.put({f"tools/{name}": "" for name in stand_ins})
        self.commit("the gate")
        self.soaked()
        low = "crates/low/must-fail/two.edit"
        rows = [
            ({}, 0, [], "3 passed, 0 failed", True),
            ({"tools/program_rows.py": "raise SystemExit('1 differ')"}, 1, [], "1 differ", True),
            ({"tools/program_rows.py": "", "tools/on_installed.py": "raise SystemExit('1 failed')"}, 1, [], "1 failed", True),
            ({"tools/build.sh": "echo no compiler; exit 1", "tools/on_installed.py": ""}, 1, [], "no compiler", True),
            ({"tools/build.sh": "", low: "file: src/lib.rt\nold: 1\nnew: 7\n"}, 0, ["low"], "3 passed, 0 failed", True),
            ({low: "file: src/lib.rt\nold: 1\nnew: harmless\n"}, 1, ["low"], "soak: not refused or not tried, of: low", False),
            ({"tools/lines.py": "raise SystemExit('a line is wide')"}, 1, [], "a line is wide", False),
            ({"tools/api.py": "raise SystemExit('a table is stale')"}, 1, [], "a table is stale", False),
            ({"tools/dist.py": "raise SystemExit('dist/ is of other sources')"}, 1, [], "dist/ is of other sources", False),
        ]
        for files, status, crates, last, proved in rows:
            with self.subTest(files=files):
                self.put(files)
                self.log.write_text("")
                ran = ["bash", str(self.top / ".ci" / "run")]
                done = subprocess.run(ran, capture_output=True, text=True, env=self.surroundings)
                self.assertEqual((bool(done.returncode), self.tried()), (bool(status), crates), done.stdout + done.stderr)
                self.assertEqual("ci" in self.log.read_text().split(), proved)
                self.assertEqual(done.stdout.splitlines()[-1], last)
                self.assertRegex(done.stdout, "the gate took [0-9]+ minutes on")


if __name__ == "__main__":
    unittest.main()
