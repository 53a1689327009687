"""Tests of tools/lines.py on lines that are made up: where they are broken, that a second run leaves them, what is not
broken, and that a file whose tokens might change, a line that stays too wide, and one that `rt fmt` lays out otherwise,
are told."""
import contextlib
import io
import shutil
import sys
import tempfile
import unittest
from pathlib import Path
from unittest import mock

TOP = Path(__file__).resolve().parent.parent.parent
sys.path.insert(0, str(TOP / "tools"))
import lines  # noqa: E402

A, B, C = "a" * 50, "b" * 50, "c" * 50
# the line, and the lines that it becomes: the same where it stays
BROKEN = (
    ("narrow enough", f"f : {A} → {B}", [f"f : {A} → {B}"]),
    ("an arrow", f"f : {A} → {B} → {C}", [f"f : {A} → {B}", f"    → {C}"]),
    ("deeper by four", f"  f : {A} → {B} → {C}", [f"  f : {A} → {B}", f"      → {C}"]),
    ("the outer operator", f"f : {A} ≡ g ({B} → {C})", [f"f : {A}", f"    ≡ g ({B} → {C})"]),
    ("before the operator", f"f = {A} ++ {B} ∙ {C}", [f"f = {A} ++ {B}", f"    ∙ {C}"]),
    ("behind a let", f"    let x = {A} in {B} {C}", [f"    let x = {A} in", f"        {B} {C}"]),
    ("a let that fits below", f"f {A} = let x = {B} in {C[:20]}", [f"f {A} =", f"    let x = {B} in {C[:20]}"]),
    ("not in a binder", f"f (λ {A} {B} y. {C})", [f"f (λ {A} {B} y.", f"    {C})"]),
    ("not in a text", f'f = g "{A} {B} {C}"', ["f =", f'    g "{A} {B} {C}"']),
    ("not in a comment behind", f"f = g -- {A} {B} {C}", ["f =", f"    g -- {A} {B} {C}"]),
    ("names", f"use M.{{{A}, {B}, v.{{w, x, y, z}}, v}}", [f"use M.{{{A}, {B}}}", "use M.{v.{w, x, y, z}, v}"]),
    ("a module alone", f"use {A}{B}{C}", [f"use {A}{B}{C}"]),
    ("a comment", f"-- {A} {B} {C} x", [f"-- {A} {B}", f"-- {C} x"]),
    ("a comment that goes on", f"-- {A} {B} {C}\n-- and so on", [f"-- {A} {B}", f"-- {C} and so on"]),
    ("a comment of a name", f"-- {A} {B} {C}\n-- `x`.", [f"-- {A} {B}", f"-- {C} `x`."]),
    ("a comment that ends", f"-- {A} {B} {C}.\n-- Then", [f"-- {A} {B}", f"-- {C}.", "-- Then"]),
    ("a comment of parts", f"-- {A} {B} {C}\n-- - Then", [f"-- {A} {B}", f"-- {C}", "-- - Then"]),
)
# a line of a .rt file, and what it becomes
OF_CODE = (
    ("code", f"let x = {A} + {B} + {C};", [f"let x = {A} + {B} + {C};"]),
    ("a comment", f"    // {A} {B} {C}", [f"    // {A} {B}", f"    // {C}"]),
    ("what a user reads", f"    /// {A} {B} {C}", [f"    /// {A} {B}", f"    /// {C}"]),
    ("what clap reads", f"use clap::Parser;\n/// {A} {B} {C}", ["use clap::Parser;", f"/// {A} {B} {C}"]),
    ("a clause", f"    ensures a {{ {A} {B} {C} }}", [f"    ensures a {{ {A} {B}", f"        {C} }}"]),
    ("names of clauses", f"ghost use M.{{{A}, {B}, {C}}};", [f"ghost use M.{{{A}, {B}}};", f"ghost use M.{{{C}}};"]),
)
TOKENS = (
    ("a word less", "f = a b", "f = a", False),
    ("words joined", "f = a b", "f = ab", False),
    ("words on two lines", "f = a b", "f = a\n  b", True),
    ("a text on two lines", 'f = "a b"', 'f = "a\nb"', False),
    ("a comment that ends in code", "f = a -- b c", "f = a -- b\nc", False),
    ("a name less", "use M.{a, b}", "use M.{a}\nuse M.{c}", False),
    ("names of another module", "use M.{a, b}", "use M.{a}\nuse N.{b}", False),
    ("names on two lines", "use M.{a, b}", "use M.{a}\nuse M.{b}", True),
    ("a comment that begins before code", "-- a\nf = b", "-- a f = b", False),
)


class Lines(unittest.TestCase):
    def test_broken(self):
        for name, text, wanted in BROKEN:
            with self.subTest(name):
                self.assertEqual(lines.narrowed(text, True).split("\n"), wanted)
                self.assertEqual(lines.narrowed("\n".join(wanted), True).split("\n"), wanted)
                self.assertEqual(lines.kept(text), lines.kept("\n".join(wanted)))
        for name, text, wanted in OF_CODE:
            with self.subTest(name):
                self.assertEqual(lines.narrowed(text, False).split("\n"), wanted)

    def test_tokens(self):
        for name, text, other, same in TOKENS:
            with self.subTest(name):
                self.assertEqual(lines.kept(text) == lines.kept(other), same)

    def run_on(self, text, words):
        """What is said of a crate with one file of this text, the status, and the text afterwards."""
        with tempfile.TemporaryDirectory() as folder:
            path = Path(folder, "crates", "cups", "proofs", "Cups.antt")
            path.parent.mkdir(parents=True)
            path.write_text(text, encoding="utf-8")
            said = io.StringIO()
            with contextlib.redirect_stdout(said), mock.patch.object(lines.shutil, "which", lambda _name: None):
                status = lines.main(words, Path(folder))
            return status, said.getvalue(), path.read_text(encoding="utf-8")

    def test_said(self):
        wide, narrow, text = f"f : {A} → {B} → {C}\n", f"f : {A} → {B}\n    → {C}\n", f'    g "{A} {B} {C}"\n'
        self.assertEqual(self.run_on(wide, []), (0, "", narrow))
        self.assertEqual(self.run_on(narrow, ["--check", "cups"]), (0, "", narrow))
        for name, begun, words, says in (
            ("--check writes nothing", wide, ["--check"], "Cups.antt:1: 160 columns\n"),
            ("a text", text, [], "Cups.antt:1: 160 columns\n"),
            ("a comment within a line", "{- x -}\n" + wide, [], "Cups.antt: it is left as it was"),
        ):
            with self.subTest(name):
                status, said, kept = self.run_on(begun, words)
                self.assertEqual((status, kept), (1, begun))
                self.assertIn(says, said)

    @unittest.skipUnless(shutil.which("rt"), "rt isn't there")
    def test_layout(self):
        for text, wanted in (("pub fn one() -> u8 {\n    1\n}\n", 0), ("pub fn one() -> u8 { 1 }\n", 1)):
            with self.subTest(text), tempfile.TemporaryDirectory() as folder:
                top = Path(folder)
                path = top / "crates" / "cups" / "src" / "lib.rt"
                path.parent.mkdir(parents=True)
                path.write_text(text)
                (top / "crates.txt").write_text("cups:\n")
                said = io.StringIO()
                with contextlib.redirect_stdout(said):
                    status = lines.main(["--check"], top)
                self.assertEqual((status, "lib.rt: rt fmt lays it out otherwise" in said.getvalue()), (wanted, wanted == 1))
                self.assertEqual(path.read_text(), text)


if __name__ == "__main__":
    unittest.main()
