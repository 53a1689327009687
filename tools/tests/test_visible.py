"""Tests of `tools/visible.py` and `items.py`: whether a crate sees what changed below it, in small texts; how code is read."""

import re
import sys
import unittest
from pathlib import Path

TOOLS = Path(__file__).resolve().parent.parent
sys.path.insert(0, str(TOOLS))
from changes import MEANT, files_of, meaning, read_crates  # noqa: E402
from visible import Below, changed_items, changes_seen, items_of, words_used  # noqa: E402

# `high` stands above `low`, that above `kit`; `side` is below `high` alone
SEES = {"kit": {"kit"}, "low": {"low", "kit"}, "side": {"side", "kit"}, "high": {"high", "low", "side", "kit"}}


def code(text):
    """A crate above that has this code."""
    return {"high/src/lib.rt": text}


CALLS = code("use low::f;\nfn high() { f(1) }")
TAKES = code("use low::take;\nfn high() { take().len() }")
NAMES = code("use low::{A, B, Held, S, T};")
PROVES = code("ghost use Rattle.low.specs.Low.{IsLow};\nfn high() ensures { IsLow 1 } { 1 }")
BEHIND = code("ghost use Rattle.low.specs.Low as l;\nfn high() ensures { l.IsLow 1 } { 1 }")
NONE = code("fn high(f: u8) { f + g(IsLow) }")
GHOST = "ghost use Rattle.low.specs.Low.{IsLow};\n"
SMALL = "pub fn f(x: u8) -> u8\n    requires small { x < 9 }\n    ensures { IsLow result }\n{\n    x + 1\n}\n"
OWN, INNER = SMALL.replace("pub ", ""), SMALL.replace("pub", "pub(crate)")
FROM = "use kit::Held;\n"
HELD = "#[derive(Debug, Drop)]\npub struct Held {\n    n: u8,\n}\n"
PAIR, INNER_PAIR = "pub struct Held(pub (crate::A, u8));\n", "pub struct Held(pub(in crate::a) (crate::A, u8));\n"
WIDE, CLONED = HELD.replace("n: u8", "n: u16"), HELD.replace("Drop", "Clone")
TAKE = "pub fn take() -> Held { Held { n: 1 } }\nimpl Held {\n    pub fn len(&self) -> u8 { self.n }\n    fn own(&self) {}\n}\n"
MODEL = """impl Model for Held {
    ghost Value = { N };
    ghost view = { λ h. h.n };
    ghost invariant = { λ h. h.n < 9 };
}
"""
OTHER_VIEW, OTHER_VALUE = MODEL.replace("λ h. h.n }", "λ h. 9 - h.n }"), MODEL.replace("{ N }", "{ List N }")
INVERSE = MODEL.replace("    ghost view", "    ghost inverse = { g };\n    ghost view")
FIRST, NAMES_FIRST = "pub const FIRST: Held = Held { n: 1 };\n", code("use low::FIRST;")
OF_IMPL, OF_T = (f"impl{of} Held{of} {{\n    pub const FIRST: Self = Self {{ n: 1 }};\n}}\n" for of in ("", "<T>"))
EQUAL = "impl PartialEq for Held { ghost eq = { same }; }\n"
CONSTANTS = "const A: u8 = 1;\npub const B: u8 = A + 1;\n"
MACRO, MADE = "macro_rules! m { () => { END + 1 }; }\n", "const END: u8 = 1;\npub const B: u8 = m!();\n"
MADE_2 = MADE.replace("= 1", "= 2")
CALLED = "pub const B: u8 = one();\nconst fn one() -> u8 { 1 }\n"
LOW = "pub IsLow : N → Type 0\nIsLow n = n < bound\n\nabbrev pub bound : N\nbound = 9\n"
OPERATOR = "infixl 6 ◌▸◌\nabbrev pub ◌▸◌ : N → N → N\nf ▸ g = g f\n" + LOW.replace("n <", "n ▸")
BLOCK = "module _ (n : N) where\n  pub IsLow : N\n  IsLow = n\n"
FROM_KIT = "use Rattle.kit.specs.Kit.{bound}\npub IsLow : N\nIsLow = bound\n"


def seen(before, after, above):
    """The names by which `high`, with some files, sees what changed from some files of crates below to others."""
    items, changed, words = [], [], set()
    for place in sorted({**before, **after}):
        path = f"crates/{place}"
        texts = [meaning(path, files[place].encode()) if place in files else None for files in (before, after)]
        changed += changed_items(path, *texts)
        items += [item for text in texts if text is not None for item in items_of(path, text)]
    for place, text in above.items():
        words |= words_used(f"crates/{place}", meaning(place, text.encode()))
    return set(changes_seen(Below(items, SEES), changed, "high", words).values())


class Seen(unittest.TestCase):
    """What a crate sees of a change: what a file of `low` was and is, the crate above, and the names by which it sees it."""

    CODE = [
        # a body, and what stands only in it; the contract, for one that names the function and one that doesn't
        (SMALL, SMALL.replace("x + 1", "1 + x"), CALLS, set()),
        (SMALL, SMALL.replace("x + 1", "use kit::a; a(x)"), CALLS, set()),
        (SMALL, "#[tactic(auto, using(a))]\n#[inline]\n" + SMALL, CALLS, set()),
        (SMALL, SMALL.replace("x < 9", "x < 8"), CALLS, {"f"}),
        (SMALL, SMALL.replace("x < 9", "x < 8"), NONE, set()),
        (SMALL, SMALL.replace("IsLow result", "IsLow x"), CALLS, {"f"}),
        (SMALL, SMALL.replace("u8", "u16"), CALLS, {"f"}),
        (SMALL, "#[must_use]\n" + SMALL, CALLS, {"f"}),
        (SMALL, OWN, CALLS, {"f"}),
        (SMALL, "", CALLS, {"f"}),
        (SMALL, SMALL + SMALL.replace("f(", "g("), CALLS, set()),
        # other ways to name it: a path, another name, all names of the crate, an edit
        (SMALL, SMALL.replace("x < 9", "x < 8"), code("fn high() { low::a::f(1) }"), {"f"}),
        (SMALL, SMALL.replace("x < 9", "x < 8"), code("use low::f as g;\nfn high() { g(1) }"), {"f"}),
        (SMALL, SMALL.replace("x < 9", "x < 8"), code("use low::*;\nfn high() { f(1) }"), {"f"}),
        (SMALL, SMALL.replace("x < 9", "x < 8"), {"high/more-edits/a.edit": "old: 1\nnew: f(2)"}, {"f"}),
        (SMALL, SMALL.replace("x < 9", "x < 8"), code("use low::{b::{f, c::{d}}, g};\nfn high() { f(1) }"), {"f"}),
        # names that a body brings in: one, several, all
        (SMALL, SMALL.replace("x < 9", "x < 8"), code("fn high() { use low::f; f(1) }"), {"f"}),
        (SMALL, SMALL.replace("x < 9", "x < 8"), code("use low::{A};\nfn high() { use low::{f, g}; f(1) }"), {"f"}),
        (SMALL, SMALL.replace("x < 9", "x < 8"), code("use low::{A};\nfn high() { use low::*; f(1) }"), {"f"}),
        (SMALL, SMALL.replace("x < 9", "x < 8"), code("fn high() { use r#low::{f, g}; f(1) }"), {"f"}),
        (SMALL, SMALL.replace("x < 9", "x < 8"), code("use {low::{A}};\nfn high() { use {low::{f, g}}; f(1) }"), {"f"}),
        # a private function, and one for the crate alone
        (OWN, OWN.replace("x < 9", "x < 8"), CALLS, set()),
        (INNER, INNER.replace("x < 9", "x < 8"), CALLS, set()),
        # an import that is added, that goes, and one by which a name of the contract is another
        (SMALL, "use kit::a;\n" + SMALL, CALLS, set()),
        (GHOST + "use kit::a;\n" + SMALL, GHOST + SMALL, CALLS, set()),
        (GHOST + SMALL, GHOST.replace("low", "kit") + SMALL, CALLS, {"f"}),
        (GHOST + SMALL, GHOST.replace("{IsLow}", "{Other as IsLow}") + SMALL, CALLS, {"f"}),
        (GHOST + SMALL, GHOST.replace("{IsLow}", "{IsLow, Other}") + SMALL, CALLS, set()),
        # a name that is passed on
        ("mod a;\npub use a::f;", "mod a;\nmod b;\npub use a::f;", CALLS, set()),
        ("mod a;\npub use a::f;", "mod a;\npub use b::f;", CALLS, {"f"}),
        ("mod a;\nuse kit::T;", "mod a;\nuse side::T;", NAMES, {"T"}),
        # types: fields, also of a type that a function takes or gives, and of one in a type
        ("pub struct S { pub n: u8 }", "pub struct S { pub n: u16 }", NAMES, {"S"}),
        (HELD + TAKE, WIDE + TAKE, TAKES, {"take"}),
        (HELD + TAKE, WIDE + TAKE, CALLS, set()),
        (HELD + "pub enum S { A(Held) }", WIDE + "pub enum S { A(Held) }", code("fn high(s: low::S) {}"), {"S"}),
        # private fields behind a model, its view and invariant; its value; what only prints it
        (HELD + MODEL + TAKE, WIDE + MODEL + TAKE, TAKES, set()),
        (HELD + MODEL + TAKE, HELD + OTHER_VIEW + TAKE, TAKES, set()),
        (HELD + MODEL + TAKE, HELD + OTHER_VALUE + TAKE, TAKES, {"take"}),
        (HELD + MODEL + TAKE, CLONED + MODEL + TAKE, TAKES, {"take"}),
        (HELD + MODEL + TAKE, HELD.replace("Debug, ", "") + MODEL + TAKE, TAKES, set()),
        # a constant is what its model makes of it
        (HELD + MODEL + FIRST, HELD + OTHER_VIEW + FIRST, NAMES_FIRST, {"FIRST"}),
        (HELD + MODEL + OF_IMPL, HELD + OTHER_VIEW + OF_IMPL, code("fn high() { low::Held::FIRST }"), {"FIRST"}),
        (HELD + MODEL + OF_T, HELD + OTHER_VIEW + OF_T, code("fn high() { low::Held::FIRST }"), {"FIRST"}),
        (HELD + MODEL + FIRST, HELD + OTHER_VIEW + FIRST, NAMES, set()),
        # what a model hides is seen by what is derived of it, by a public field, by a further member, and by some proofs
        (CLONED + MODEL + TAKE, CLONED + OTHER_VIEW + TAKE, TAKES, {"take"}),
        (HELD.replace("n:", "pub n:") + MODEL + TAKE, HELD.replace("n:", "pub n:") + OTHER_VIEW + TAKE, TAKES, {"take"}),
        (HELD.replace("n:", "pub(crate) n:") + MODEL + TAKE, WIDE.replace("n:", "pub(crate) n:") + MODEL + TAKE, TAKES, set()),
        (PAIR + MODEL + TAKE, PAIR.replace("u8", "u16") + MODEL + TAKE, TAKES, {"take"}),
        (INNER_PAIR + MODEL + TAKE, INNER_PAIR.replace("u8", "u16") + MODEL + TAKE, TAKES, set()),
        (HELD + INVERSE + TAKE, WIDE + INVERSE + TAKE, TAKES, {"take"}),
        (HELD + MODEL, WIDE + MODEL, code("ghost use Rattle.low.specs.contracts.Held.{the_row};"), {"Held"}),
        (HELD + MODEL, WIDE + MODEL, code("const SIZE: usize = size_of::<low::Held>();"), {"Held"}),
        (HELD + MODEL, WIDE + MODEL, NAMES, set()),
        # a function of a type, for a crate that sees the type, and one that names another so; one of a type that none sees
        (HELD + TAKE, HELD + TAKE.replace("-> u8", "-> u16"), TAKES, {"len"}),
        (HELD + TAKE, HELD + TAKE.replace("-> u8", "-> u16"), code("fn high(s: &[u8]) -> usize { s.len() }"), set()),
        (HELD + TAKE, HELD + TAKE.replace("own(&self)", "own(self)"), TAKES, set()),
        (HELD + TAKE, HELD + TAKE + "impl Held {\n    pub fn own(&self) {}\n}\n", TAKES, set()),
        ("struct A;\nimpl A { pub fn len(&self) {} }", "struct A;\nimpl A { pub fn len(self) {} }", NAMES, set()),
        # constants, in other constants and in clauses; one that calls
        (CONSTANTS, CONSTANTS.replace("= 1", "= 2"), NAMES, {"A"}),
        (CONSTANTS, CONSTANTS.replace("= 1", "= 2"), code("use low::B;"), {"B"}),
        (CONSTANTS, CONSTANTS.replace("= 1", "= 2"), CALLS, set()),
        (CONSTANTS + SMALL.replace("9", "A"), CONSTANTS.replace("= 1", "= 2") + SMALL.replace("9", "A"), CALLS, {"f"}),
        (CALLED, CALLED.replace("{ 1 }", "{ 2 }"), NAMES, {"B"}),
        # traits, and an `impl` of one, which is used without being named
        ("pub trait T { fn t(&self) { a() } }", "pub trait T { fn t(&self) { b() } }", NAMES, set()),
        ("pub trait T { fn t(&self); }", "pub trait T { fn t(&self) { b() } }", NAMES, {"T"}),
        ("pub trait T { ghost g: { N }; }", "pub trait T { ghost g: { Z }; }", NAMES, {"T"}),
        ("pub trait T { fn t(&self); }", "pub trait T { fn t(self); }", code("use low::*;\nfn high(x: u8) { x.t() }"), {"t"}),
        (HELD + TAKE, HELD + TAKE + EQUAL, TAKES, {"take"}),
        (HELD + TAKE, HELD + TAKE + EQUAL, CALLS, set()),
        (HELD + TAKE, HELD + TAKE + "impl From<Held> for u8 { ghost g = { a }; }", TAKES, {"take"}),
        ("impl T for u8 { fn t(&self) { a() } }", "impl T for u8 { fn t(&self) { b() } }", CALLS, set()),
        ("impl T for u8 { fn t(&self) {} }", "impl T for u8 { fn t(&self) requires { p } {} }", CALLS, {""}),
        (HELD, HELD + "impl Drop for Held { fn drop(self) ensures { a } { let Held { n: _ } = self; } }", CALLS, {""}),
        # what works without being named, and what can't be read for sure
        ("macro_rules! m { () => { 1 }; }", "macro_rules! m { () => { 2 }; }", NONE, {""}),
        ("#![tactic(auto)]\nmod a;", "#![tactic(none)]\nmod a;", NONE, set()),
        ("#![no_std]\nmod a;", "mod a;", NONE, {""}),
        ("#[cfg(test)]\nmod a;", "mod b;", NONE, set()),
        ("#[path = 1]\nmod a;", "mod a;", NONE, {""}),
        ("made!(a);", "made!(b);", NONE, {""}),
        ("fn g() { impl T for U {} }", "fn g() { impl T for V {} }", NONE, {""}),
        ("mod inner { fn a() {} }", "mod inner { fn b() {} }", NONE, {""}),
        (SMALL + ")", SMALL, NONE, {""}),
    ]
    DEFINITIONS = [
        # one that a contract above cites, and one that such a one cites; none that it doesn't
        (LOW, LOW.replace("n < bound", "n < 9"), PROVES, {"IsLow"}),
        (LOW, LOW.replace("= 9", "= 8"), PROVES, {"IsLow"}),
        (LOW, LOW.replace("= 9", "= 8"), NONE, set()),
        (LOW, LOW + "abbrev pub Other : N\nOther = bound\n", PROVES, set()),
        (LOW, LOW.replace("= 9", "= 8"), {"high/proofs/a/b/A.antt": "a = Rattle.low.specs.Low.IsLow 1\n"}, {"IsLow"}),
        (LOW, LOW.replace("= 9", "= 8"), BEHIND, {"IsLow"}),
        # whether it unfolds, and its clauses, wherever they stand
        (LOW, LOW.replace("pub IsLow", "abbrev pub IsLow"), PROVES, {"IsLow"}),
        (LOW, LOW.replace("IsLow n =", "unfolding bound\nIsLow n ="), PROVES, {"IsLow"}),
        (LOW + "IsLow 0 = a\n", LOW + "IsLow 0 = b\n", PROVES, {"IsLow"}),
        (LOW, "bound = 9\n" + LOW, NONE, {""}),
        # imports
        (LOW, "use Rattle.kit.specs.Kit.{a}\n" + LOW, PROVES, set()),
        (FROM_KIT, FROM_KIT.replace("Kit", "Up"), PROVES, {"IsLow"}),
        ("pub use Rattle.kit.specs.Kit.{IsLow}", "pub use Rattle.side.specs.Kit.{IsLow}", PROVES, {"IsLow"}),
        ("pub mod A", "pub mod A\npub mod B", PROVES, set()),
        # other kinds, and what can't be read for sure
        ("pub record IsLow : Type 0 where\n  pub n : N", "pub record IsLow : Type 0 where\n  pub n : Z", PROVES, {"IsLow"}),
        ("pub data T : Type 0 where\n  pub IsLow : T", "pub data T : Type 0 where\n  pub IsLow : N → T", PROVES, {"IsLow"}),
        (BLOCK, BLOCK.replace("= n", "= 1"), PROVES, {"IsLow"}),
        (OPERATOR, OPERATOR.replace("g f", "f g"), PROVES, {"IsLow"}),
        (OPERATOR, OPERATOR.replace("infixl", "infixr"), PROVES, {"IsLow"}),
        (LOW, LOW + "pub «data» : N\n«data» = 1\n", NONE, {""}),
        (LOW, "{- a -}\n" + LOW, NONE, {""}),
        (LOW, "  a\n" + LOW, NONE, {""}),
    ]
    # several files, and what becomes of some
    SEVERAL = [
        # a definition that a contract of another file names, which is of the same crate, of one below that, or of one beside it
        ({"low/specs/Low.antt": LOW, "low/src/a.rt": GHOST + SMALL}, {"low/specs/Low.antt": "a : N"}, CALLS, {"f"}),
        ({"low/specs/Low.antt": LOW, "low/src/a.rt": SMALL}, {"low/specs/Low.antt": "a : N"}, CALLS, set()),
        ({"kit/specs/Low.antt": LOW, "low/src/a.rt": GHOST + SMALL}, {"kit/specs/Low.antt": "a : N"}, CALLS, {"f"}),
        ({"side/specs/Low.antt": LOW, "low/src/a.rt": GHOST + SMALL}, {"side/specs/Low.antt": "a : N"}, CALLS, set()),
        # two constants of one name, each of its file; a function that moves; a type of another crate
        ({"low/src/a.rt": CONSTANTS, "low/src/b.rt": CONSTANTS}, {"low/src/a.rt": ""}, code("use low::b::B;"), {"B"}),
        ({"low/src/a.rt": "const A: u8 = 1;", "low/src/b.rt": CONSTANTS}, {"low/src/a.rt": ""}, code("use low::B;"), set()),
        ({"low/src/a.rt": SMALL, "low/src/b.rt": ""}, {"low/src/a.rt": "", "low/src/b.rt": SMALL}, CALLS, {"f"}),
        ({"kit/src/a.rt": HELD, "low/src/a.rt": FROM + TAKE}, {"kit/src/a.rt": WIDE}, TAKES, {"take"}),
        # an `impl` in a crate that the type's crate can't name; one whose type is of no crate here
        ({"kit/src/a.rt": HELD, "low/src/a.rt": FROM + TAKE}, {"side/src/a.rt": FROM + EQUAL}, TAKES, {"take"}),
        ({"kit/src/a.rt": HELD, "low/src/a.rt": FROM + TAKE}, {"side/src/a.rt": EQUAL.replace("Held", "u8")}, TAKES, {""}),
        # a constant that a macro names, of the crate below or of another file, where it is called
        ({"kit/src/a.rt": MACRO, "low/src/a.rt": "use kit::m;\n" + MADE}, {"low/src/a.rt": "use kit::m;\n" + MADE_2}, NAMES, {"B"}),
        ({"low/src/b.rt": MACRO, "low/src/a.rt": MADE}, {"low/src/a.rt": MADE_2}, NAMES, {"B"}),
        ({"low/src/a.bin": "a"}, {"low/src/a.bin": "b"}, NONE, {""}),
    ]

    def test_code_and_definitions(self):
        for place, rows in (("low/src/lib.rt", self.CODE), ("low/specs/Low.antt", self.DEFINITIONS)):
            for before, after, above, names in rows:
                with self.subTest(before=before, after=after, above=above):
                    self.assertEqual(seen({place: before}, {place: after}, above), names)

    def test_several_files(self):
        for before, after, above, names in self.SEVERAL:
            with self.subTest(before=before, after=after, above=above):
                self.assertEqual(seen(before, {**before, **after}, above), names)


class Read(unittest.TestCase):
    """How code is taken apart."""

    # functions, and what is left of each without its body
    FUNCTIONS = [
        ("pub fn f() {}", "pub fn f() {"),
        ("pub fn f(x: u8) -> [u8; { N }] { [0; N] }", "pub fn f(x: u8) -> [u8; { N }] {"),
        ("pub fn f() -> Buf<{ W::K }> { g() }", "pub fn f() -> Buf<{ W::K }> {"),
        ("pub fn f<F: Fn(u8) -> u8>(g: F) where F: Drop, { g(1) }", "pub fn f<F: Fn(u8) -> u8>(g: F) where F: Drop, {"),
        ("pub fn f() requires { a } ensures b { c } { d }", "pub fn f() requires { a } ensures b { c } {"),
        ("pub fn f() ghost t: { N } requires* { a {x = b} } { d }", "pub fn f() ghost t: { N } requires* { a {x = b} } {"),
        ("pub fn f() ensures { codes \"{ \" ≡ s' } { '{'; \"}\" }", "pub fn f() ensures { codes \"{ \" ≡ s' } {"),
        ("pub unsafe extern \"C\" fn f<'a>(x: &'a u8) { '}' }", "pub unsafe extern \"C\" fn f<'a>(x: &'a u8) {"),
        ("pub fn f() { || -> u8 requires { a } { 1 } }", "pub fn f() {"),
        ("pub const fn f() -> u8 { 1 }", "pub const fn f() -> u8 { 1 }"),
        ("pub fn f() { /* } /* { */ */ r#\"}\"#; // }\n }", "pub fn f() {"),
    ]

    def test_functions(self):
        path, end = "crates/low/src/a.rt", "const END: u8 = 1;"
        for text, left in self.FUNCTIONS:
            with self.subTest(text=text):
                items = items_of(path, meaning(path, f"{text}\n{end}".encode()))
                self.assertEqual([item.text for item in items], [left, end])

    def test_what_is_cited_of_proofs(self):
        """Code and definitions cite of them what is proved, and nothing that is defined there: a change of that would make no edit owed."""
        top, cited = TOOLS.parent, re.compile(r"use Rattle\.(\w+)\.proofs\.?([\w.'-]*?)(?:\.\{([^{}]*)\})?;?$", re.M)
        crates, found = read_crates(top), []
        for crate in crates:
            for path, octets in files_of(top, crate, MEANT).items():
                found += [(path, *it) for it in cited.findall(octets.decode()) if it[0] in crates]
        self.assertTrue(found)
        for path, crate, module, names in found:
            text = (top / "crates" / crate / "proofs" / f"{module.replace('.', '/')}.antt").read_text()
            for name in re.split(r",\s*", names):
                with self.subTest(path=path, module=module, name=name):
                    signatures = re.findall(rf"^ *((?:\w+ )*?){re.escape(name)} :((?:.|\n {{4,}})*)", text, re.M)
                    self.assertEqual([mark for mark, _ in signatures], ["pub "])
                    self.assertNotRegex(signatures[0][1].rstrip(), r"\bType \S+$")

    def test_every_file(self):
        top = TOOLS.parent
        for crate in read_crates(top):
            for path, octets in files_of(top, crate, MEANT).items():
                with self.subTest(path=path):
                    items = items_of(path, meaning(path, octets))
                    self.assertNotIn("unread", [item.kind for item in items])


if __name__ == "__main__":
    unittest.main()
