"""Tests of `tools/together.py`: which edits go into one check, and what is believed of what a check says; and of `tools/edits.py`."""
import os
import sys
import tempfile
import unittest
from pathlib import Path
from unittest import mock

sys.path.insert(0, str(Path(__file__).resolve().parent.parent))
import edits  # noqa: E402
import together  # noqa: E402

CODE = """//! A list.
const ROOM: usize = 4;

/// The first.
pub fn first(list: &List) -> Option<u8>
    ensures { result ≡ head list.now }
{
    let at = 0;
    list.get(at)
}

fn none() {}

trait Next {
    fn next(&mut self) -> u8
        ensures { result ≡ 1 };
}

impl<'a, I: Item<'a>> Next for List<'a, I> {
    fn next(&mut self) -> u8 {
        self.step(2)
    }
}

impl<'a> List<'a> {
    #[tactic(auto)]
    pub(crate) fn len(
        &self,
    ) -> usize
        ensures { result ≡ length self.now }
    {
        self.count
    }

    pub const fn room() -> usize {
        ROOM
    }
}
"""
# path, folder of proofs, and lines from 1: the first, where the body begins, its end
FUNCTIONS = [
    ("src/list.rt", "list/first", 5, 7, 10),
    ("src/list.rt", "list/ListNext/next", 20, 20, 22),
    ("src/list.rt", "list/List/len", 26, 31, 33),
]
# what an edit has, and the folders of the functions whose bodies it changes
EDITS = [
    ("old: let at = 0;\nnew: let at = 1;", ["list/first"]),
    ("old: self.step(2)\nnew: 1", ["list/ListNext/next"]),
    ("old: self.step(2)\nnew: 1\nold: self.count\nnew: 0", ["list/List/len", "list/ListNext/next"]),
    ("old: self.count\nnew: 0\nold: usize = 4\nnew: usize = 5", []),  # a constant
    ("old: head list.now\nnew: head []", []),  # a contract
    ("old: result ≡ 1\nnew: result ≡ 2", []),
    ("old: fn none() {}\nnew: fn none() { first() }", []),
    ("old: self.count\nnew: 0 } fn more() { 0", []),
    ("old:         ROOM\nnew:         5", []),  # a `const fn`, whose value others may take
    ("old: list\nnew: none", []),  # it stands there more than once
    ("old: absent\nnew: here", []),
    ("new: here", []),
    ("old: self.count\nnew: 0\nnew: 1", []),  # which `rt` takes for a bad edit
    ("old: self.count\nnew: 0\nold: self.count\nnew: 1", []),  # the second can't be applied
    # what another edit could end: `rt` can read none of these by itself
    ("old: self.count\nnew: self.count /*", []),
    ("old: self.count\nnew: self.count */", []),
    ("old: self.count\nnew: { self.count", []),
    ("old: self.count\nnew: self.count }", []),
    ('old: self.count\nnew: "', []),
    ("old: self.count\nnew: { self.count }", ["list/List/len"]),
    ("nothing", []),
]
GOAL, BY_HAND = together.GOAL, together.ANSWER
OPEN = "note: src/list.rt:5:1: it is not proved that what the function ensures holds when it returns (`returns`)"
INSIDE = (
    "note: src/list.rt:21:9: it is not proved that what is asked there holds (`next`); `search` gave up at one of its limits"
)
LATER = "note: src/list.rt:31:1: it is not proved that what the function ensures holds when it returns (`returns`)"
WAITS = "fn it::list::List::len: no proof: it calls `it::list::first`, which is not proved"
ANSWER = "./proofs/list/List/len/Answers.antt:9:50: error: `returns`: computed as far as they go, the two types differ"
GONE = "./proofs/list/List/len/Answers.antt:9:50: error: `returns`: `c.at` has no field `at`"
SAID = "logic=not-proved functions=3 sum=0"
# what a check of edits of all three functions says, and the folders of those that it refuses, with by what; None: it tells nothing
TOLD = [
    ([OPEN, SAID], {"list/first": GOAL}),
    ([INSIDE, WAITS, SAID, "rt: rt check --only says less"], {"list/ListNext/next": GOAL}),
    ([ANSWER, LATER, SAID], {"list/List/len": GOAL}),
    ([LATER, ANSWER, SAID], {"list/List/len": GOAL}),
    ([ANSWER, GONE, SAID], {"list/List/len": BY_HAND}),
    (
        [OPEN, ANSWER, "./proofs/list/List/len/Answers.antt:8:5: note: a trial run was refused too", SAID],
        {"list/List/len": BY_HAND, "list/first": GOAL},
    ),
    ([WAITS, SAID], {}),
    ([GONE, SAID], {}),
    ([OPEN], None),  # no verdict
    ([OPEN, "logic=proved functions=3"], None),
    ([OPEN, "note: src/other.rt:5:1: it is not proved that it returns", SAID], None),
    ([OPEN, "note: src/list.rt:12:1: it is not proved that it returns", SAID], None),  # a function without an edit
    ([OPEN, "./proofs/Lists.antt:3:1: error: the two types differ", SAID], None),  # a lemma
    ([OPEN, "src/list.rt:8:9: error: `at` is not in scope", SAID], None),
    ([OPEN, "error[E0308]: mismatched types", SAID], None),
    ([OPEN, "note: src/list.rt:8:9: this is never read", SAID], None),
    # a library whose kept work can't be used
    ([OPEN, "the module `Rattle-low-4f` was built of other sources. Run the lower steps again", SAID], None),
]


def folders(functions):
    """The folders of functions, in order."""
    return sorted(it.folder for it in functions)


class Edits(unittest.TestCase):
    def test_functions(self):
        found = [
            (it.path, it.folder, it.first + 1, it.body + 1, it.last + 1) for it in together.functions_of("src/list.rt", CODE)
        ]
        self.assertEqual(found, FUNCTIONS)

    def test_what_an_edit_changes(self):
        for text, wanted in EDITS:
            with self.subTest(text):
                self.assertEqual(folders(together.changed_by(f"file: src/list.rt\n{text}\n", {"src/list.rt": CODE})), wanted)
        self.assertEqual(together.changed_by("file: specs/List.antt\nold: 1\nnew: 2\n", {"src/list.rt": CODE}), frozenset())

    def test_batches_have_no_function_twice(self):
        changed = {f"{name}{number}": frozenset(name) for name in "abc" for number in range(3)} | {"both": frozenset("ab")}
        changed |= {f"other{number}": frozenset([number]) for number in range(40)}
        batches = together.in_batches(changed)
        self.assertEqual(sorted(name for batch in batches for name in batch), sorted(changed))
        for batch in batches:
            met = [it for name in batch for it in changed[name]]
            self.assertEqual(len(met), len(set(met)))
            self.assertLessEqual(len(batch), together.MOST)


class Faults(unittest.TestCase):
    """What `tools/edits.py` says of edits that `rt must-fail` calls bad."""

    ROWS = [
        ("old: two\nnew: 2", ""),
        ("old: two\nnew: three\nold: three\nnew: 3", ""),
        ("old: two\nnew: two + 1\nnew: 2", "a 'new:' text has no 'old:' text before it: 2"),
        ("new: 2", "a 'new:' text has no 'old:' text before it: 2"),
        ("old: two\nnew: 2\nold: two\nnew: 3", "an 'old:' text is in src/lib.rt 0 times: two"),
        ("old: two\nnew: two", "it changes nothing: two"),
        ("old: two", "it has no pair of 'old:' and 'new:'"),
    ]

    def test_faults(self):
        with tempfile.TemporaryDirectory() as folder:
            code, edit = Path(folder, "src/lib.rt"), Path(folder, "more-edits/one.edit")
            for place in (code, edit):
                place.parent.mkdir()
            code.write_text("fn one() {\n    two\n}\n")
            for text, wanted in self.ROWS:
                with self.subTest(text):
                    edit.write_text(f"file: src/lib.rt\n{text}\n")
                    self.assertEqual(edits.fault_of(edit), wanted)


class Lines(unittest.TestCase):
    def test_what_a_check_tells(self):
        functions = set(together.functions_of("src/list.rt", CODE))
        for lines, wanted in TOLD:
            with self.subTest(lines):
                found = together.refused_by("\n".join(lines), functions)
                self.assertEqual(None if found is None else {it.folder: by for it, by in found.items()}, wanted)


class Rounds(unittest.TestCase):
    """Edits of a crate of four functions, and a stand-in for `rt check` that refuses a body with the word wrong, but not where
    the body of another function has the word hidden, and says nothing where one has the word broken."""

    def setUp(self):
        temporary = tempfile.TemporaryDirectory()
        self.addCleanup(temporary.cleanup)
        self.top, self.checks = Path(temporary.name), []
        bodies = "".join(f"fn {name}() {{\n    {name}_body\n}}\n\n" for name in "abcd")
        (self.top / "crates" / "low" / "src").mkdir(parents=True)
        (self.top / "crates" / "low" / "src" / "lib.rt").write_text(bodies)
        (self.top / "crates.txt").write_text("high: low\nlow:\n")
        (self.top / "HANDLES").write_text("")

    def rt(self, words, folder, jobs, until):
        """What the stand-in says."""
        self.assertEqual(words, [*together.kept_sums.rt(), "check", "--jobs", "1"])
        self.assertEqual((folder.parent.parent / "crates.txt").read_text(), "low:\n")
        lines = (folder / "src" / "lib.rt").read_text().split("\n")
        self.checks.append(sum("_body" not in line for line in lines if line.startswith("    ")))
        if any("broken" in line for line in lines):
            return 1, "error[E1]"
        hidden = any("hidden" in line for line in lines)
        shown = [number for number, line in enumerate(lines, 1) if "wrong" in line and ("first" in line or not hidden)]
        said = [f"note: src/lib.rt:{number}:5: it is not proved that it returns" for number in shown]
        return (1, "\n".join([*said, SAID])) if said else (0, "logic=proved")

    def tried(self, **edits):
        """The edits that are refused together, given the new body of a function by its name and a number."""
        for name, body in edits.items():
            self.put(f"{name[0]}_body", body, name)
        return self.refused()

    def put(self, old, new, name):
        """Makes an edit."""
        (self.top / f"{name}.edit").write_text(f"file: src/lib.rt\nold: {old}\nnew: {new}\n")

    def refused(self):
        """The edits that are refused together."""
        paths = sorted(self.top.glob("*.edit"))
        with mock.patch.object(together, "run", self.rt):
            refused, checks = together.refused_together(self.top, {"high": ["low"], "low": []}, "low", paths, 2, None)
        return sorted(it.stem for it in refused), checks

    def test_all_in_one_check(self):
        self.assertEqual(self.tried(a="wrong", b="wrong", c="wrong"), (["a", "b", "c"], 1))
        self.assertEqual(self.checks, [3])

    def test_one_function_twice(self):
        self.assertEqual(self.tried(a1="wrong", a2="wrong", b="wrong"), (["a1", "a2", "b"], 2))

    def test_what_is_not_refused_is_left(self):
        self.assertEqual(self.tried(a="wrong", b="right", c="right too"), (["a"], 2))

    def test_what_another_hides_comes_in_a_later_round(self):
        self.assertEqual(self.tried(a="wrong first hidden", b="wrong", c="wrong"), (["a", "b", "c"], 2))

    def test_where_one_check_tells_nothing_its_halves_are_tried(self):
        self.assertEqual(self.tried(a="wrong", b="broken", c="wrong", d="wrong")[0], ["a", "c", "d"])

    def test_what_one_puts_there_is_not_changed_by_another(self):
        # (the first is right; together with the second, which would change it too, it would be refused)
        self.put("a_body", "b_body", "first")
        self.put("b_body", "wrong", "second")
        self.put("c_body", "wrong", "third")
        self.assertEqual(self.refused(), (["second", "third"], 1))

    def test_what_applies_only_beside_another_is_no_edit(self):
        # (the first is right; the second, by itself, has no place for its second pair, and beside the first it would change that one)
        self.put("    a_body", "b_body", "first")
        self.put("    b_body", "right\nold: b_body\nnew: wrong", "second")
        self.put("c_body", "wrong", "third")
        self.put("d_body", "wrong", "fourth")
        self.assertEqual(self.refused(), (["fourth", "third"], 1))

    def test_one_alone_is_not_tried(self):
        self.assertEqual(self.tried(a="wrong"), ([], 0))
        self.assertEqual(self.checks, [])

    def test_what_is_kept_has_a_second_place(self):
        kept = self.top / "crates" / "low" / "out" / "incremental"
        kept.mkdir(parents=True)
        (kept / "one.oantt").write_text("proved")
        (kept / "other").write_text("a list")
        with tempfile.TemporaryDirectory() as folder:
            room = together.room_of(self.top, {"low": []}, "low", folder)
            same = [
                os.path.samefile(kept / name, room / "crates/low/out/incremental" / name) for name in ("one.oantt", "other")
            ]
        self.assertEqual(same, [True, False])


if __name__ == "__main__":
    unittest.main()
