"""Tests of the pictures of hash trees: which nodes a tree has, worked out by hashlib; what is not drawn; and names that a stranger gave files."""
import hashlib
import os
import re
import unittest

from making import PROGRAM, need_tools, run_tool

need_tools()

from cmsproof_tools import trees  # noqa: E402
from cmsproof_tools.trees import (
    MOST_LEAVES,
    MOST_LEVELS,
    MOST_VALUES,
    Picture,
    Undrawn,
    Way,
    placed,
    tree_of,
    way_in,
    way_of,
)  # noqa: E402
from samples.building import Token  # noqa: E402
from samples.recorded import archive_stamp, record_of  # noqa: E402
from stamping_world import WithAuthority  # noqa: E402


def digest(*values):
    """The SHA-256 of values one behind the other."""
    return hashlib.sha256(b"".join(values)).digest()


# The tree of RFC 4998 4.2: a document 1, a group of three documents 2 and a document 3
H1, H2A, H2B, H2C, H3 = (digest(name) for name in (b"d1", b"d2a", b"d2b", b"d2c", b"d3"))
H2ABC = digest(*sorted([H2A, H2B, H2C]))
H12 = digest(*sorted([H1, H2ABC]))
H123 = digest(*sorted([H12, H3]))
# the reduced lists there: of document 1, of the group, and of document 3
OF_1, OF_2, OF_3 = ((H1, H2ABC), (H3,)), ((H2B, H2C, H2A), (H1,), (H3,)), ((H3, H12),)
# names that mean something to a page or a terminal, or are long
NAMES = [
    "</svg><script>alert(1)</script>",
    "<img src=x onerror=alert(1)>",
    '" onload="alert(1)',
    "a\u202eb",
    "\x1b[31m",
    "n" * 300,
]


def way(lists, root=H123):
    """What a record by SHA-256 says."""
    return Way("sha256", tuple(map(tuple, lists)), root)


def record(lists, imprint, alg="sha256"):
    """A record of one time-stamp with these lists."""
    token = Token("20260101000000Z", imprint=imprint, alg=alg)
    return record_of([archive_stamp(token.octets, lists)])


class Trees(unittest.TestCase):
    def test_the_tree_of_the_standard(self):
        """Each record has what leads to the root, and all of them have the tree: values in ascending order."""
        whole = {H123: (H12, H3), H12: (H1, H2ABC), H2ABC: (H2A, H2B, H2C)}
        rows = [
            ([OF_1], {H123, H12}),
            ([OF_2], {H123, H12, H2ABC}),
            ([OF_3], {H123}),
            ([OF_1, OF_2], {H123, H12, H2ABC}),
            ([OF_3, OF_2, OF_1], {H123, H12, H2ABC}),
        ]
        for several, nodes in rows:
            found = tree_of([way(lists) for lists in several])
            self.assertEqual((found.root, found.parts), (H123, {node: tuple(sorted(whole[node])) for node in nodes}))

    def test_ways(self):
        """From a leaf to the root."""
        tree = tree_of([way(OF_1), way(OF_2)])
        rows = [(H1, [H1, H12, H123]), (H2B, [H2B, H2ABC, H12, H123]), (H3, [H3, H123]), (H123, [H123]), (bytes(32), [])]
        self.assertEqual([way_of(tree, leaf) for leaf, _ in rows], [found for _, found in rows])
        self.assertEqual(way_of(tree_of([way((), H1)]), H1), [H1])

    def test_places(self):
        """A row for each value of which no values are known, nodes between theirs, and each a level right of what is in it."""
        found = placed(tree_of([way(OF_1), way(OF_2)]))
        seen = {}

        def look(one):
            seen[one.value] = one.level
            for below in one.below:
                look(below)

        look(found)
        self.assertEqual(seen, {H123: 3, H12: 2, H2ABC: 1, **dict.fromkeys((H1, H2A, H2B, H2C, H3), 0)})
        self.assertEqual(
            sorted(one.high for one in trees.leaves(found)), [trees.TOP + trees.ROW * (row + 0.5) for row in range(5)]
        )
        self.assertEqual([one.value for one in found.below], sorted([H12, H3]))

    def test_records(self):
        """What is read of a record is what is in it: also without lists, and where a list has one value."""
        for lists, root in (
            (OF_1, H123),
            (OF_2, H123),
            ((), H1),
            (((H1,),), H1),
            (((H1,), (H2A,)), digest(*sorted([H1, H2A]))),
        ):
            found = way_in(record(lists, root))
            self.assertEqual(found, way(lists, root))
            self.assertEqual(tree_of([found]).root, root)
        for name in ("sha1", "sha384", "sha512"):
            values = [trees.digest_by(name, one) for one in (b"1", b"2")]
            root = trees.digest_by(name, b"".join(sorted(values)))
            found = way_in(record([values], root, name))
            self.assertEqual((found, tree_of([found]).root), (Way(name, (tuple(values),), root), root))

    def test_undrawn(self):
        """What leads elsewhere, is too much, or is no record."""
        twice = [(H1, H1), *([[]] * 3)]
        grown = [(H1, H1)]
        found = digest(H1, H1)
        for _ in range(MOST_LEVELS - 2):
            grown.append((found,))
            found = digest(found, found)
        many = [digest(bytes([number])) for number in range(MOST_LEAVES + 1)]
        root = digest(*sorted(many))
        rows = [
            (lambda: tree_of([way(OF_1, H12)]), "its root is not what was stamped"),
            (lambda: tree_of([way(OF_1), way(twice, digest(H1, H1))]), "its root is not what was stamped"),
            (lambda: placed(tree_of([way(grown, found)])), f"it has more than {MOST_LEAVES} leaves"),
            (lambda: placed(tree_of([way([many], root)])), f"it has more than {MOST_LEAVES} leaves"),
            (lambda: way_in(record([(H1,)] * (MOST_LEVELS + 1), H1)), f"it has more than {MOST_LEVELS} levels"),
            (lambda: way_in(record([[H1] * (MOST_VALUES + 1)], H1)), f"its record has more than {MOST_VALUES} values"),
            (lambda: way_in(b""), "its record cannot be read"),
            (lambda: way_in(b"\x30\x80"), "its record cannot be read"),
            (lambda: way_in(record(OF_1, H123)[:-1]), "its record cannot be read"),
        ]
        for call, said in rows:
            with self.assertRaises(Undrawn) as raised:
                call()
            self.assertEqual(str(raised.exception), said)

    def test_a_picture(self):
        """Each value has a dot: those of the way are marked, and those that its record has beside it; all of other names is text."""
        tree = tree_of([way(OF_1), way(OF_2)])
        drawn = Picture(tree, {H1: NAMES, H3: ["three"]}, H1).drawn("<title>", ["<b>", "stamp"])
        kinds = re.findall(r'<circle class="(\w+)"', drawn)
        # (H1, H12 and the root; the group and H3; the three of the group)
        self.assertEqual({kind: kinds.count(kind) for kind in kinds}, {"way": 3, "held": 2, "node": 3})
        for value, shown in [*((one, 8) for one in (H1, H2A, H2B, H2C, H3)), *((one, 6) for one in (H2ABC, H12, H123))]:
            self.assertIn(f">{value.hex()[:shown]}\u2026<title>{value.hex()}</title>", drawn)
        self.assertIn(">three<title>three</title>", drawn)
        self.assertEqual(drawn.count("of other files"), 3)
        self.assertEqual(set(re.findall(r"<(\w+)", drawn)), {"svg", "title", "path", "text", "circle", "rect"})
        self.assertEqual(set(re.findall(r" (on\w+)=", re.sub(r">[^<]*<", "><", drawn))), set())


class Reported(WithAuthority):
    def test_a_folder(self):
        """The report of a folder that was stamped at once has its tree, with the names of the files; of records that were changed since none."""
        for name in NAMES[:5]:
            self.put(os.path.join("files", name.replace("/", "_")), name.encode())
        words = (
            "--program",
            PROGRAM,
            "--tsa",
            self.authority.address,
            "--trust",
            "list",
            "--into",
            "records",
            "--state",
            "stamped",
        )
        self.assertEqual(run_tool("cmsproof-archive", "stamp", "files", *words, cwd=self.folder)[0], 0)
        judged = ("--trust", "list", "--records", "records", "--under", "files", "--state", "state", "files")
        self.assertEqual(run_tool("cmsproof-archive", *judged, cwd=self.folder)[0], 0)
        asked = ("report", "state", "--html", "-", "--records", "records", "--under", "files")
        status, page, said = run_tool("cmsproof-archive", *asked, cwd=self.folder)
        self.assertEqual((status, said), (0, ""))
        drawn = page.decode().partition('aria-label="The hash tree of')[2].partition("</svg>")[0]
        for octets in (b"one", b"two", b"three", b""):
            self.assertIn(hashlib.sha256(octets).hexdigest(), drawn)
        self.assertIn(">files/b/c.tif<", drawn)
        self.assertEqual((drawn.count("<circle"), drawn.count("of other files")), (17, 0))
        self.assertNotIn("<script", drawn)
        for name in ("records/b/c.tif.ers", "./records/b/c.tif.ers", self.folder / "records" / "b" / "c.tif.ers"):
            (self.folder / "alone").unlink(missing_ok=True)
            self.assertEqual(run_tool("cmsproof-archive", *judged[:-2], "alone", name, cwd=self.folder)[0], 0)
            page = run_tool("cmsproof-archive", "report", "alone", *asked[2:], cwd=self.folder)[1].decode()
            self.assertIn(f'aria-label="The hash tree of {name}"', page)
        # nothing is written over a record, whatever it is called; a page beside them is none
        record, more = self.folder / "records" / "b" / "c.tif.ers", ("--records", "by", "--under", "files")
        before = record.read_bytes()
        os.symlink("records/b/c.tif.ers", self.folder / "link"), os.symlink("records", self.folder / "by")
        refused = ("records/b/c.tif.ers", record, "link", "by/b/c.tif.ers", "by/new.ers")
        for out, status in (*((one, 3) for one in refused), ("by/page", 0)):
            self.assertEqual(run_tool("cmsproof-archive", *asked[:2], "--html", out, *more, cwd=self.folder)[0], status, out)
            self.assertEqual(record.read_bytes(), before, out)
        for path in (self.folder / "records").rglob("*.ers"):
            path.write_bytes(path.read_bytes() + b"\0")
        page = run_tool("cmsproof-archive", *asked, cwd=self.folder)[1].decode()
        self.assertIn("Its hash tree is not drawn: its record is another one now than was judged.", page)

    def test_words(self):
        """--records is for the page, and --under for that."""
        for words in (("--under", "files", "--html", "-"), ("--records", "records", "--csv", "-")):
            self.assertEqual(run_tool("cmsproof-archive", "report", "state", *words, cwd=self.folder)[0], 3)


if __name__ == "__main__":
    unittest.main()
