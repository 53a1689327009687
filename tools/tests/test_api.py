"""Tests of tools/api.py on crates that are made up: which calls are public and which are told, whose words a clause gets and where
they stand, and that a stale list is told; and that the decisions which code names are there."""
import contextlib
import io
import re
import sys
import tempfile
import unittest
from pathlib import Path

TOP = Path(__file__).resolve().parent.parent.parent
sys.path.insert(0, str(TOP / "tools"))
import api  # noqa: E402

DOOR = "pub use cups::{\n    Cup, Holds, fill,\n};\n"
ROOT = "mod cups;\npub mod open;\n\npub use cups::{Cup, Holds, fill};\npub use devices::Sink;\n"
BODY = "{\n    0\n}\n"
METHOD = "    {\n        0\n    }\n}\n"
# the text of cups.rt, and the lines of all its public calls
LISTS = (
    (
        "the words above a clause",
        "/// Fills it.\npub fn fill() -> u8\n    // Puts tea in.\n    ensures tea { result ≡ 1 }\n" + BODY,
        ["- `fill`: `tea`: Puts tea in."],
    ),
    (
        "words of two lines",
        "pub fn fill() -> u8\n    // Puts tea in, and\n    // milk.\n    ensures { result ≡ 1 }\n" + BODY,
        ["- `fill`: Puts tea in, and milk."],
    ),
    (
        "the first sentence, with a number in it",
        "/// Fills it (X.690 8.1). Never empties it.\npub fn fill() -> u8\n    ensures { result ≡ 1 }\n" + BODY,
        ["- `fill`: Fills it (X.690 8.1)."],
    ),
    (
        "a doc above attributes",
        "/// Fills it.\n#[tactic(auto, using(a::b))]\npub fn fill() -> u8\n    ensures { result ≡ 1 }\n" + BODY,
        ["- `fill`: Fills it."],
    ),
    (
        "a clause of two lines with a brace in a text",
        'pub fn fill() -> u8\n    // One.\n    ensures a { codes "}"\n        ≡ {x} }\n    // Two.\n'
        "    ensures b { result ≡ 1 }\n" + BODY,
        ["- `fill`:", "  - `a`: One.", "  - `b`: Two."],
    ),
    (
        "a bar in the words",
        "pub fn fill() -> u8\n    // a | b\n    ensures { result ≡ 1 }\n" + BODY,
        ["- `fill`: a | b"],
    ),
    (
        "a comment that is not directly above",
        "/// Fills it.\npub fn fill() -> u8\n    // Far.\n\n    ensures { result ≡ 1 }\n" + BODY,
        ["- `fill`: Fills it."],
    ),
    (
        "a method",
        "impl<'a> Cup<'a> {\n    pub fn size(&self) -> u8\n        // Says its size.\n        ensures { result ≡ 1 }\n"
        + METHOD,
        ["- `Cup::size`: Says its size."],
    ),
    ("a private method", "impl Cup {\n    fn size(&self) -> u8\n        ensures { result ≡ 1 }\n" + METHOD, []),
    (
        "a method for the crate alone",
        "impl Cup {\n    pub(crate) fn size(&self) -> u8\n        ensures { result ≡ 1 }\n" + METHOD,
        [],
    ),
    (
        "a method of a trait",
        "pub trait Holds {\n    fn held(&self) -> u8\n        // Says what it holds.\n        ensures { result ≡ 1 };\n}\n",
        ["- `Holds::held`: Says what it holds."],
    ),
    (
        "a method of a trait for a type",
        "impl<S: Into<u8>> Holds for Cup<S> {\n    fn held(&self) -> u8\n        // Says it.\n        ensures { result ≡ 1 }\n"
        + METHOD,
        ["- `Cup::held`: Says it."],
    ),
    (
        "what is printed",
        "impl fmt::Display for Cup {\n    ghost output = { λ c. c };\n\n    fn fmt(&self) -> u8 {\n        0\n    }\n}\n",
        ["- `Display` of `Cup`: `output`: The exact text."],
    ),
    ("a type that is not exported", "impl Pot {\n    pub fn size(&self) -> u8\n        ensures { result ≡ 1 }\n" + METHOD, []),
    ("a function that is not exported", "pub fn spill() -> u8\n    ensures { result ≡ 1 }\n" + BODY, []),
    ("a function without a clause", "pub fn fill() -> u8 " + BODY, []),
    (
        "the same words twice",
        "".join(
            f"impl Cup {{\n    pub fn {name}(&self) -> u8\n        // Says it.\n        ensures {{ result ≡ 1 }}\n" + METHOD
            for name in ("size", "height")
        ),
        ["- `Cup::size`, `Cup::height`: Says it."],
    ),
    (
        "words that two clauses share",
        "/// Fills it.\npub fn fill() -> u8\n    ensures a { x }\n    // Two.\n    ensures b { x }\n    ensures { x }\n" + BODY,
        ["- `fill`:", "  - `a`, one clause: Fills it.", "  - `b`: Two."],
    ),
    (
        "words that stand at an earlier call",
        "".join(
            f"impl Cup {{\n    pub fn {name}(&self) -> u8\n        // It stays as full as it was.\n        ensures full {{ x }}\n"
            "        // It stays as warm as it was.\n        ensures warm { x }\n"
            f"        // Few words.\n        ensures few {{ x }}\n        // It is {what} to say.\n        ensures said {{ x }}\n"
            + METHOD
            for name, what in (("size", "very easy"), ("height", "hard"))
        ),
        [
            "- `Cup::size`:",
            "  - `full`: It stays as full as it was.",
            "  - `warm`: It stays as warm as it was.",
            "  - `few`: Few words.",
            "  - `said`: It is very easy to say.",
            "- `Cup::height`:",
            "  - `few`: Few words.",
            "  - `said`: It is hard to say.",
            "  - `full`, `warm`: as `Cup::size`.",
        ],
    ),
    (
        "what two calls say alike but for a phrase",
        "".join(
            f"impl Cup {{\n    pub fn {name}(&self) -> u8\n        // It holds a {what} of tea.\n        ensures tea {{ x }}\n"
            f"        // It is good.\n        ensures good {{ x }}\n        // There is one {what}.\n        ensures one {{ x }}\n"
            + METHOD
            for name, what in (("size", "cup"), ("height", "pot made of tin"))
        ),
        [
            "- `Cup::size`:",
            "  - `tea`: It holds a cup of tea.",
            "  - `good`: It is good.",
            "  - `one`: There is one cup.",
            "- `Cup::height`: as `Cup::size`, with `pot made of tin` for `cup`.",
        ],
    ),
    (
        "what two calls say alike but for a word, in two places or one",
        "".join(
            f"impl Cup {{\n    pub fn {name}(&self) -> u8\n        // The {what} holds tea, or the {what}'s handle is hot.\n"
            f"        ensures tea {{ x }}\n        // It is in no {other}.\n        ensures pot {{ x }}\n" + METHOD
            for name, what, other in (
                ("size", "cup", "`pot`"),
                ("height", "jug", "`pot`"),
                ("depth", "cup", "`pan`"),
                ("width", "jug", "`pan`"),
                ("weight", "cup", "iron pot"),
            )
        ),
        [
            "- `Cup::size`:",
            "  - `tea`: The cup holds tea, or the cup's handle is hot.",
            "  - `pot`: It is in no `pot`.",
            "- `Cup::height`: as `Cup::size`, with `jug` for `cup`.",
            "- `Cup::depth`: as `Cup::size`, with `pan` for `pot`.",
            "- `Cup::width`:",
            "  - `tea`: The jug holds tea, or the jug's handle is hot.",
            "  - `pot`: It is in no `pan`.",
            "- `Cup::weight`:",
            "  - `pot`: It is in no iron pot.",
            "  - `tea`: as `Cup::size`.",
        ],
    ),
    (
        "the same words under another name",
        "".join(
            f"impl Cup {{\n    pub fn {name}(&self) -> u8\n        // It stays as full as it was.\n        ensures {name} {{ x }}\n"
            + METHOD
            for name in ("size", "height")
        ),
        ["- `Cup::size`: `size`: It stays as full as it was.", "- `Cup::height`: `height`: It stays as full as it was."],
    ),
    (
        "a method that gives what its doc says",
        "impl Cup {\n    /// Its size.\n    pub fn size(&self) -> u8\n        ensures { x }\n" + METHOD,
        ["- `Cup::size`: Its size."],
    ),
)
# the text of cups.rt, and which of its calls the document tells, if cmsproof_api exports Cup, Holds and fill
CUP = "impl Cup {{\n    /// Says it.\n    pub fn {}(&self) -> u8\n        ensures {{ x }}\n" + METHOD.replace(
    "{", "{{"
).replace("}", "}}")
TOLD = (
    ("a function of the door", "/// Fills it.\npub fn fill() -> u8\n    ensures { x }\n" + BODY, ["fill"]),
    ("a method that reads", CUP.format("read"), ["Cup::read"]),
    ("a method that gives a part", CUP.format("size"), []),
    ("worked rows", CUP.format("rows_hold"), []),
    (
        "what a trait demands",
        "pub trait Holds {\n    /// Holds it.\n    fn held(&self) -> u8\n        ensures { x };\n}\n",
        ["Holds::held"],
    ),
    (
        "a text",
        "impl fmt::Display for Cup {\n    ghost output = { λ c. c };\n\n    fn fmt(&self) -> u8 {\n        0\n    }\n}\n",
        [],
    ),
)
# the clauses of `fill` with what is above it, and the names of those that have no words
WORDLESS = (
    ("/// Fills it.\n", ("", "ensures { a }"), []),
    ("", ("", "ensures { a }"), ["-"]),
    ("/// Fills it.\n", ("// Tea.", "ensures tea { a }", "ensures milk { b }"), ["milk"]),
    ("/// Fills it.\n", ("// Tea.", "ensures tea { a }", "// Milk.", "ensures milk { b }"), []),
)


class Lists(unittest.TestCase):
    """A repository of one crate and a document."""

    def setUp(self):
        temporary = tempfile.TemporaryDirectory()
        self.addCleanup(temporary.cleanup)
        self.top = Path(temporary.name)
        self.put("crates.txt", "cups: devices\nvectors_cups: cups\n")
        self.put("crates/cmsproof_api/src/lib.rt", DOOR)
        self.put("crates/cups/src/lib.rt", ROOT)
        self.put("crates/cups/src/open.rt", "")
        self.put("docs/PROVED.md", "# Proved\n\n<!-- api: cups -->\n<!-- end -->\n\nThe end.\n")

    def put(self, name, text):
        """Writes a file of the repository."""
        path = self.top / name
        path.parent.mkdir(parents=True, exist_ok=True)
        path.write_text(text)

    def lines(self, name="cups.rt", text=""):
        """The lines of all public calls of the crate with this text in a file."""
        self.put(f"crates/cups/src/{name}", text)
        return api.all_calls(self.top, ["cups"])[2:]

    def told(self, name="cups.rt", text=""):
        """The paths of the calls that the document tells, of the crate with this text in a file."""
        self.put(f"crates/cups/src/{name}", text)
        return [call.path for call in api.told_of(self.top, "cups", api.exported(self.top))]

    def test_lines(self):
        for case, text, lines in LISTS:
            with self.subTest(case):
                self.assertEqual(self.lines(text=text), lines)

    def test_told(self):
        for case, text, paths in TOLD:
            with self.subTest(case):
                self.assertEqual(self.told(text=text), paths)

    def test_laws(self):
        self.put("crates/cups/src/lib.rt", ROOT.replace("open;", "tea_laws;"))
        holds = "/// It holds.\npub fn tea_holds() -> u8\n    ensures { x }\n" + BODY
        self.assertEqual(self.told("tea_laws.rt", holds), [])
        self.put("crates/cups/src/cups.rt", LISTS[0][1])
        self.assertEqual(self.ended("--laws"), (0, "## cups\n\n- `tea_holds`: It holds.\n"))

    def test_clauses_of_devices(self):
        text = "/// Fills it.\npub fn fill()\n    ensures telling { x }\n    // It is full.\n    ensures full { x }\n" + BODY
        self.assertEqual(self.lines(text=text), ["- `fill`:", "  - `telling`: Fills it.", "  - `full`: It is full."])
        (call,) = api.told_of(self.top, "cups", api.exported(self.top))
        self.assertEqual([clause.name for clause in call.clauses], ["full"])

    def test_not_of_the_door(self):
        spill = "/// Spills it.\npub fn spill() -> u8\n    ensures { x }\n" + BODY
        self.assertEqual((self.told("open.rt", spill), self.lines("open.rt", spill)), ([], ["- `spill`: Spills it."]))

    def test_what_is_left_out(self):
        (name, *_) = api.LEFT_OUT
        self.put("crates/cmsproof_api/src/lib.rt", DOOR.replace("Cup", f"Cup, {name}"))
        self.put("crates/cups/src/lib.rt", ROOT.replace("Cup", f"Cup, {name}"))
        self.assertEqual(self.told(text=TOLD[1][1].replace("Cup", name)), [])

    def test_calls_of_one_name(self):
        door = DOOR.replace("fill", "fill, spill")
        self.put("crates/cmsproof_api/src/lib.rt", door)
        self.put("crates/cups/src/lib.rt", ROOT + "pub mod shut;\n")
        spill = "/// {}\npub fn spill() -> u8\n    ensures {{ x }}\n" + BODY.replace("{", "{{").replace("}", "}}")
        self.put("crates/cups/src/shut.rt", spill.format("Spills nothing."))
        self.assertEqual(
            self.lines("open.rt", spill.format("Spills it.")),
            ["- `open::spill`: Spills it.", "- `shut::spill`: Spills nothing."],
        )

    def test_words_of_another_crate(self):
        fill = "pub fn {}() -> u8\n    // It stays as full as it was.\n    ensures full {{ x }}\n" + BODY.replace(
            "{", "{{"
        ).replace("}", "}}")
        self.put("crates/cmsproof_api/src/lib.rt", DOOR + "pub use pots::pour;\n")
        self.put("crates/pots/src/lib.rt", "mod pots;\npub use pots::pour;\n")
        self.put("crates/pots/src/pots.rt", fill.format("pour"))
        self.put("crates/cups/src/cups.rt", fill.format("fill"))
        self.put("docs/PROVED.md", "<!-- api: cups -->\n<!-- end -->\n<!-- api: pots -->\n<!-- end -->\n")
        lists = api.lists_of(self.top, (self.top / api.DOCUMENT).read_text())
        self.assertEqual(lists["pots"], ["- `pour`: `full`: as `fill`."])
        both = "<!-- api: cups pots -->\n%s<!-- end -->\n"
        written = api.document_of(self.top, both % "")
        self.assertEqual(written, both % "- `fill`: `full`: It stays as full as it was.\n- `pour`: `full`: as `fill`.\n")
        self.put("docs/PROVED.md", written)
        self.assertEqual(api.checked(self.top), [])

    def test_wordless(self):
        for doc, lines, names in WORDLESS:
            with self.subTest(lines):
                self.lines(text=f"{doc}pub fn fill() -> u8\n" + "".join(f"    {line}\n" for line in lines if line) + BODY)
                (call,) = api.public_calls(self.top, "cups")
                self.assertEqual([clause.name for clause in api.wordless(call)], names)

    def ended(self, word):
        """The status of the tool in this repository, and what it prints."""
        said = io.StringIO()
        with contextlib.redirect_stdout(said):
            status = api.run(self.top, [word])
        return status, said.getvalue()

    def test_stale(self):
        path = self.top / api.DOCUMENT
        self.lines(text=LISTS[0][1])
        status, said = self.ended("--check")
        self.assertEqual(
            (status, said.splitlines()), (1, ["the list of cups is not what the code says", f"{api.COMMAND} mends the lists"])
        )
        self.assertEqual((self.ended("--write"), self.ended("--check")), ((0, ""), (0, "")))
        written = path.read_text()
        self.assertIn("\n- `fill`: `tea`: Puts tea in.\n<!-- end -->\n\nThe end.\n", written)
        for old, new, told in (
            ("tea in", "milk in", "the list of cups is not"),
            ("api: cups", "api: pots", "a list of pots, which is no crate"),
            ("<!-- api: cups -->", "", "has no list of cups"),
            ("<!-- end -->", "", "has no end of the list of cups"),
            ("<!-- end -->", "<!-- end -->\n<!-- api: cups -->\n<!-- end -->", "has 2 lists of cups"),
        ):
            with self.subTest(told):
                path.write_text(written.replace(old, new))
                status, said = self.ended("--check")
                self.assertEqual(status, 1)
                self.assertIn(told, said)

    def test_what_is_not_overwritten(self):
        path = self.top / api.DOCUMENT
        for text in (
            "<!-- api: cups -->\nwords\n\n## pots\n\n<!-- api: pots -->\n<!-- end -->\n",
            "<!-- api: pots -->\nwords\n<!-- end -->\n",
        ):
            path.write_text(text)
            self.assertEqual(self.ended("--write")[0], 1)
            self.assertEqual(path.read_text(), text)

    def test_document(self):
        self.assertEqual(api.checked(TOP), [])

    def test_what_the_tool_names_is_there(self):
        calls = {crate: api.public_calls(TOP, crate) for crate in api.crates_of(TOP)}
        self.assertEqual([crate for crate in api.WHOLE if not calls.get(crate)], [])
        names = {clause.name for found in calls.values() for call in found for clause in call.clauses}
        self.assertEqual(set(api.DEVICES) - names, set())
        paths = {call.path for found in calls.values() for call in found}
        self.assertEqual([path for path in api.READS if path not in paths], [])
        owners = {call.owner or call.path for found in calls.values() for call in found}
        self.assertEqual([owner for owner in api.LEFT_OUT if owner not in owners], [])

    def test_all_have_words(self):
        self.assertEqual([(crate, call.path, clause.name) for crate, call, clause in api.all_wordless(TOP)], [])


class Decisions(unittest.TestCase):
    """The numbers of docs/DECISIONS.md that stand in code."""

    def test_each_that_code_names_is_there(self):
        code = "".join(path.read_text() for path in (TOP / "crates").glob("*/src/**/*.rt"))
        named = re.findall(r"\b[Dd]ecisions?[\s/!]+([0-9]+(?:(?:, |,? and )[0-9]+)*)", code)
        heads = re.findall(r"^\*\*([0-9, ]+)\. ", (TOP / "docs" / "DECISIONS.md").read_text(), re.M)
        cited, there = ({number for found in texts for number in re.findall("[0-9]+", found)} for texts in (named, heads))
        self.assertLessEqual({"85", "91", "123", "124", "244"}, cited)
        self.assertEqual(cited - there, set())


if __name__ == "__main__":
    unittest.main()
