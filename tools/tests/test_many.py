"""Tests that one run over some hundred files of every kind says of each what the proved commands say of it, by however
many processes, with a state and without."""
import json
import os
import random
import subprocess
import sys
import unittest
from unittest import mock

from making import MODULES, PROGRAM, REAL, folder_of, need_tools, run_tool
from test_alike import FAULT, FOUND, STAMPED, spoiled

need_tools()

from samples import hierarchy
from samples.hierarchy import issue, root, signed, together

from cmsproof import ListRefused, TrustList, check, questions
from cmsproof.calls import check_several
from cmsproof.verdicts import Said
from cmsproof.verifiers import ByCryptography, Vouching
from cmsproof_tools import checking, deciding, descriptors, issuing, pairs, telling, verify, verifying
from cmsproof_tools.containers import twofold
from cmsproof_tools.deciding import usual_grounds
from cmsproof_tools.issuer_words import Asked
from cmsproof_tools.names import BLOCK, Names
from cmsproof_tools.outcomes import Outcome, text_lines
from cmsproof_tools.pairs import USUAL, Pairs, is_regular
from cmsproof_tools.rows import Noting, keys_of
from cmsproof_tools.running import Stop
from cmsproof_tools.texts import PLACE
from cmsproof_tools.workers import MOST

# a time in each of these months
TIMES = [f"2024{month:02}15093000Z" for month in range(1, 13)]


class World:
    """Signers of one issuer, two authorities, and a stranger."""

    def __init__(self):
        self.root, self.clocks = root(), root("Clocks")
        self.clock = issue("Clock", self.clocks, [hierarchy.STAMPING])
        self.other = issue("Other clock", self.clocks, [hierarchy.STAMPING])
        self.people = [issue(f"Person {number}", self.root) for number in range(6)]
        self.stranger = issue("Stranger", root("Elsewhere"))

    def trust(self):
        """The list of all but the stranger."""
        entries = [("tsa", self.clock), ("tsa", self.other), *(("signer", who) for who in self.people)]
        return "".join(f"{role} - - {who.octets.hex()}\n" for role, who in entries)

    def files(self):
        """Files by their names: each kind of signers and stamps, and many signers, whose questions are long."""
        for number, at in enumerate(TIMES):
            who, next_one = self.people[number % 6], self.people[(number + 1) % 6]
            yield f"one{number}", signed(who, [(self.clock, at)])
            yield f"two stamps{number}", signed(who, [(self.other, at), (self.clock, TIMES[0])])
            yield f"two signers{number}", together([(who, [(self.clock, at)]), (next_one, [(self.other, at)])])
            yield f"unstamped{number}", signed(who, [])
            yield f"one of two is unstamped{number}", together([(who, [(self.clock, at)]), (next_one, [])])
            yield f"by a stranger{number}", signed(self.stranger, [(self.clock, at)], sid=hierarchy.sid_of(who))
            yield f"stamped by a stranger{number}", signed(who, [(self.stranger, at)])
        for count in (5, 20, 60):
            yield f"many{count}", together([(who, [(self.clock, at)]) for who, at in zip(self.people * 10, TIMES * 5)][:count])


def all_files(world, chance):
    """The octets of files of every kind, and what an archive has beside them, by names."""
    found = dict(world.files())
    found.update((f"real {path.parent.name} {path.name}", path.read_bytes()) for path in FOUND)
    for which, name in enumerate(STAMPED):
        whole, other = (REAL / f"{name}.p7s").read_bytes(), (REAL / f"{STAMPED[which - 1]}.p7s").read_bytes()
        found.update((f"changed {name} {number}", octets) for number, octets in enumerate(spoiled(whole, other, chance)))
    for name, octets in list(world.files())[:40]:
        at = chance.randrange(len(octets))
        found[f"changed {name}"] = octets[:at] + bytes([octets[at] ^ chance.choice((1, 0x10, 0x80))]) + octets[at + 1 :]
    found.update({"empty": b"", "begun": b"\x30", "random": b"\x30" + chance.randbytes(5000), "twice": found["one0"]})
    return found


@unittest.skipUnless(PROGRAM.exists(), "the program is not built")
class Many(unittest.TestCase):
    """All files in one run, and in one command."""

    @classmethod
    def setUpClass(cls):
        cls.world = World()
        cls.files = all_files(cls.world, random.Random(61))

    def setUp(self):
        self.folder = folder_of(self)
        (self.folder / "trust").write_text((REAL / "trust.txt").read_text() + self.world.trust())
        (self.folder / "files").mkdir()
        names = list(self.files)
        random.Random(7).shuffle(names)
        for number, name in enumerate(names):
            (self.folder / "files" / f"{number:04}").write_bytes(self.files[name])
        self.names = [f"files/{number:04}" for number in range(len(names))]
        self.kinds = dict(zip(self.names, names))
        (self.folder / "names").write_text("".join(f"{name}\n" for name in self.names))

    def by_commands(self):
        """The lines of `check` of all files, with the answers of cmsproof-verify for all questions."""
        words = ["--trust", "trust", "--files-from", "names"]
        asked = subprocess.run([PROGRAM, "questions", *words], cwd=self.folder, capture_output=True, check=False).stdout
        (self.folder / "questions").write_bytes(asked)
        status, _, err = run_tool("cmsproof-verify", "questions", "answers", cwd=self.folder)
        self.assertEqual(status, 0, err)
        words = [PROGRAM, "check", *words, "--answers", "answers"]
        return subprocess.run(words, cwd=self.folder, capture_output=True, text=True, check=False).stdout.splitlines()

    def by_tool(self, *words):
        """The lines of the tool."""
        words = ["--trust", "trust", "--files-from", "names", *words]
        return run_tool("cmsproof-archive", *words, cwd=self.folder)[1].decode().splitlines()

    def test_each_line_is_the_line_of_the_command(self):
        wanted, lines = self.by_commands(), self.by_tool("--jobs", "3")
        self.assertEqual((len(wanted), len(lines)), (len(self.names), len(self.names)))
        others, accepted = 0, 0
        for name, line, other in zip(self.names, wanted, lines):
            (at, said), (its, found) = line.split(": ", 1), other.split(": ", 1)
            self.assertEqual((at, its), (name, name))
            if said != found and FAULT.match(said) and (FAULT.match(found) or found == "refused F1 UnknownForm"):
                others += 1
                continue
            self.assertEqual(said, found, self.kinds[name])
            accepted += said.startswith("accepted ")
        self.assertTrue(len(lines) > 300 and accepted > 60 and others < 20, (len(lines), accepted, others))
        # (the order and the neighbours of a file change nothing, nor does who notes it)
        self.assertEqual(self.by_tool("--jobs", "1"), lines)
        self.assertEqual(self.by_tool("--jobs", "2", "--state", "state"), lines)
        self.assertEqual(self.by_tool("--state", "state", "--recheck"), lines)
        found = [json.loads(line) for line in self.by_tool("--json")[:-1]]
        self.assertEqual([f"{one['file']}: {one['line']}" for one in found], lines)


class Several(unittest.TestCase):
    """What several processes do with a part of what is to be done."""

    def test_faults_of_many_questions(self):
        text = subprocess.run(
            [PROGRAM, "questions", "--trust", REAL / "trust.txt", REAL / "two_attached_ts.p7s"], capture_output=True, check=True
        ).stdout
        first, *good = text.splitlines()
        bad = good[0][:-2] + (b"00" if good[0][-2:] != b"00" else b"01")
        # (there are lines that say nothing, and ends of lines of two octets)
        lines = [first] + [bad if number % 97 == 0 else good[number % len(good)] for number in range(2, 2 * verify.MANY)]
        for number in (300, 301, 1300):
            lines[number - 1] = b"# nothing" if number % 2 else b""
        vouched = [b"cmsproof answers 1", *(line for line in lines[1:] if line in good), b""]
        lines[500] += b"\r"
        for end in (b"", b"\n", b"\n\n", b"\n#"):
            text = b"\n".join(lines) + end
            answers, faults = verify.answers_for(text)
            self.assertEqual(answers, b"\n".join(vouched), end)
            self.assertEqual([number for number, _ in faults], list(range(97, 2 * verify.MANY, 97)))
            with mock.patch.object(verify, "MANY", len(lines) + 9):
                self.assertEqual(verify.answers_for(text), (answers, faults))
        # the first line that is no question is named
        lines[1501], lines[701] = b"no", b"00 00 00 00"
        for many in (verify.MANY, len(lines)):
            with mock.patch.object(verify, "MANY", many), self.assertRaisesRegex(ValueError, "^line 702 is no question"):
                verify.answers_for(b"\n".join(lines))
        with mock.patch.object(verify, "judged", lambda _: verify.os._exit(0)):
            self.assertRaises(Stop, verify.answers_for, text)

    def test_what_a_verifier_says_that_is_no_list(self):
        """It costs no other file, and nothing but octets reaches the library; octets are as long as they are, whatever they say."""

        class Saying(Vouching):
            def __init__(self, said):
                self.answers = lambda _: said

        class Long(bytes):
            def __len__(self):
                return 1 << 40

        octets, none = (REAL / "rsa_attached_ts.p7s").read_bytes(), b"cmsproof answers 1\n"
        trust, said = TrustList.from_file(REAL / "trust.txt"), [none.decode(), 1, bytearray(none), None, b"no", none]
        files, verifiers = [octets] * len(said), [*map(Saying, said), ByCryptography(), ByCryptography()]
        found = check_several([*files, octets, Long(octets)], trust=trust, verifiers=verifiers)
        self.assertEqual([type(one) for one in found], [*[TypeError] * 4, ListRefused, *[Said] * 3])
        verdict, refused = check(octets, trust=trust), check(octets, trust=trust, verifier=lambda _: False)
        wanted = [(one.verdict, one.code, one.line) for one in (refused, verdict, verdict)]
        self.assertEqual((found[5:], verdict.accepted), (wanted, True))

    def test_no_file_is_read_twice(self):
        """Nor is one opened to be read and left, because others of its kind are judged otherwise."""
        folder, signed = folder_of(self), (REAL / "rsa_attached_ts.p7s").read_bytes()
        kinds = {
            "der": signed,
            "ber": b"\x30\x80" + signed,
            "text": b"no\n",
            "empty": b"",
            "long": signed + bytes(checking.SHORT),
        }
        for name, octets in {**kinds, "of.p7s": signed, "of": b"", "pdf": b"%PDF-1.4\n"}.items():
            (folder / name).write_bytes(octets)
        names = [str(folder / name) for name in (*kinds, "pdf", "der")]
        work = checking.Work(
            TrustList.from_file(REAL / "trust.txt"), None, False, False, {}, Pairs({}, USUAL), frozenset(), False, False
        )
        alone = [checking.outcomes_of(work, name) for name in names]
        read, file_at, copied = [], checking.file_at, descriptors.copied

        def copy(name, most):
            found = copied(name, most)
            read.extend([name] * (found is not None))
            return found

        with mock.patch.object(checking, "file_at", lambda *words: read.append(words[1]) or file_at(*words)), mock.patch.object(
            descriptors, "copied", copy
        ):
            self.assertEqual(checking.outcomes_of_several(work, names), alone)
            self.assertEqual(sorted(read), sorted(names))
            # (that there is a content beside it is seen once it is read)
            pair = [str(folder / "of.p7s")]
            self.assertEqual(checking.outcomes_of_several(work, pair), [checking.outcomes_of(work, pair[0])])

    def test_what_takes_the_place_of_a_file(self):
        """It is not read for the file, and not waited for; and what is no regular file is not opened."""
        folder, signed = folder_of(self), (REAL / "rsa_attached_ts.p7s").read_bytes()
        name, other, opened = folder / "a.p7s", folder / "b", os.open
        work = checking.Work(
            TrustList.from_file(REAL / "trust.txt"), None, False, False, {}, Pairs({}, USUAL), frozenset(), False, False
        )

        def copy():
            other.write_bytes(signed)
            os.utime(other, ns=(0, 0))

        def grown():
            other.write_bytes(signed + b"\0")

        def changed():
            name.write_bytes(signed[::-1])

        for make in (lambda: os.mkfifo(other), other.mkdir, lambda: other.symlink_to("/dev/zero"), copy, grown, changed):
            name.write_bytes(signed)
            os.utime(name, ns=(0, 0))

            def late(path, *words):
                if path == str(name):
                    make()
                    if make is not changed:
                        name.unlink()
                        other.rename(name)
                return opened(path, *words)

            self.assertIsNotNone(checking.short(work, str(name)))
            with mock.patch.object(descriptors.os, "open", late):
                self.assertIsNone(checking.short(work, str(name)))
            if not name.is_file():
                with mock.patch.object(descriptors.os, "open") as called:
                    self.assertIsNone(checking.short(work, str(name)))
                called.assert_not_called()
            name.rmdir() if name.is_dir() else name.unlink()

    def test_words_that_are_looked_for_in_pairs(self):
        """They are found wherever they stand, and nowhere else."""
        chance = random.Random(7)
        self.assertEqual([word for word, _, _ in (twofold.OBJECT, twofold.ENDS)], [b"obj", b"PK\5\6"])
        for _ in range(20000):
            letters = chance.choice([b"objPK\5\6", b"ob", b"objx", b"PK\5\6\0\xff", bytes(range(256))])
            octets = bytes(chance.choices(letters, k=chance.randrange(14)))
            if chance.random() < 0.3:
                at = chance.randrange(len(octets) + 1)
                octets = octets[:at] + chance.choice([b"obj", b"PK\5\6"]) + octets[at:]
            for word, even, odd in (twofold.OBJECT, twofold.ENDS):
                self.assertEqual(twofold.has_word(octets, twofold.in_pairs(octets), word, even, odd), word in octets, octets)

    def test_whether_a_regular_file_is_there(self):
        """It is asked in two ways, of which one needs a newer system; both say the same."""
        folder = folder_of(self)
        (folder / "file").write_bytes(b""), (folder / "folder").mkdir(), os.mkfifo(folder / "pipe")
        (folder / "link").symlink_to("file"), (folder / "lost").symlink_to("none")
        for name in ("file", "folder", "pipe", "link", "lost", "none", "file/none", "", "a\0b", "\udcff", "x" * 300):
            path = f"{folder}/{name}"
            with mock.patch.object(pairs, "ASKED_SO", True):
                found = is_regular(path)
            with mock.patch.object(pairs, "ASKED_SO", False):
                self.assertEqual((found, is_regular(path)), (name == "file",) * 2, name)
        with mock.patch.object(pairs.os, "access", lambda *_, **__: False):
            self.assertFalse(pairs.is_asked_so())
        with mock.patch.object(pairs.os, "access", side_effect=NotImplementedError):
            self.assertFalse(pairs.is_asked_so())

    def test_what_is_kept_by_a_part_of_a_key(self):
        """It is that of the line which is asked about, also where another one has the same octets in that place."""
        trust, octets = TrustList.from_file(REAL / "trust.txt"), (REAL / "rsa_attached_ts.p7s").read_bytes()
        good = [one.line for one in questions(octets, trust=trust).asked]
        fields = [line.split(b" ") for line in good]
        other = [b" ".join([key, b"300b0609608648016503040202", *rest]) for key, _, *rest in fields]
        changed = [b" ".join([key[:-2] + b"00", *rest]) for key, *rest in fields]
        self.assertEqual([line[PLACE] for line in good], [line[PLACE] for line in changed])
        self.keep_nothing()
        once = {line: verifying.fault_in(line) for line in (*good, *other, *changed)}
        self.assertEqual([once[line] for line in good], [None] * 2)
        self.assertNotIn(None, [once[line] for line in (*other, *changed)])
        chance, noting = random.Random(8), Noting(keys_of(trust.text), b"", {})
        for line in chance.choices(list(once), k=200):
            self.assertEqual(verifying.fault_in(line), once[line])
        for bad in (b"", b"no", b"- - - - -", good[0] + b" 00", good[0][:-1], good[0].rpartition(b" ")[0], b" " + good[0]):
            with self.subTest(bad):
                self.keep_nothing()
                first = self.said_of_line(bad)
                verifying.fault_in(good[0])
                self.assertEqual(self.said_of_line(bad), first)
        for two in chance.choices([good, [good[0], other[1]], [good[0], changed[1]], [changed[0], good[1]]], k=40):
            fresh = noting._replace(usual={})
            self.assertEqual(usual_grounds(octets, two, noting), usual_grounds(octets, two, fresh))
        self.assertEqual(usual_grounds(octets, [good[0], good[0]], noting), "")

    def keep_nothing(self):
        """Lets go what is kept of keys."""
        verifying.KEPT.clear(), verifying.BY_FIELDS.clear()

    def test_keys_with_several_algorithms(self):
        """What each of them asks is found out once, in whatever order they come; and of no more is kept than is said."""
        trust, octets = TrustList.from_file(REAL / "trust.txt"), (REAL / "rsa_attached_ts.p7s").read_bytes()
        good = questions(octets, trust=trust).asked[0].line
        key, _, *rest = good.split(b" ")
        lines = [good, *(b" ".join([key, b"300b060960864801650304020%d" % number, *rest]) for number in (2, 3, 4))]
        self.assertEqual(len({line[PLACE] for line in lines}), 1)
        self.keep_nothing()
        with mock.patch.object(verifying, "asking_in", wraps=verifying.asking_in) as asked:
            for _ in range(3):
                found = [verifying.fault_in(line) for line in lines]
                self.assertEqual(found, [None] + [verifying.UNHOLDING] * 3)
            self.assertEqual(asked.call_count, len(lines))
            # (what is no question is none, whatever is kept of its fields)
            for bad in (good + b" 00", good[:-1], good.rpartition(b" ")[0], b" ".join([key, *lines[1].split(b" ")[1:3]])):
                self.assertRaises(ValueError, verifying.fault_in, bad)
            self.keep_nothing()
            with mock.patch.object(verifying, "MOST_KEPT", 2):
                for line in lines * 2:
                    self.assertEqual(verifying.fault_in(line), None if line == good else verifying.UNHOLDING)
            self.assertLessEqual(max(len(verifying.BY_FIELDS), len(verifying.KEPT)), 2)
        self.keep_nothing()

    def test_grounds_of_keys_with_several_algorithms(self):
        """They are found once, in whatever order files come; and of no more are they kept than is said."""
        trust, octets = TrustList.from_file(REAL / "trust.txt"), (REAL / "rsa_attached_ts.p7s").read_bytes()
        first, second = (question.line for question in questions(octets, trust=trust).asked)
        key, _, *rest = first.split(b" ")
        several = [[b" ".join([key, b"300b060960864801650304020%d" % number, *rest]), second] for number in (1, 2, 3)]
        noting = Noting(keys_of(trust.text), b"", {})
        expected = [usual_grounds(octets, lines, noting._replace(usual={})) for lines in several]
        self.assertEqual((len(set(expected)), len({lines[0][PLACE] for lines in several})), (3, 1))
        for most, count in ((4096, 6), (2, 18)):
            noting.usual.clear()
            with mock.patch.object(deciding, "question_of", wraps=deciding.question_of) as asked:
                with mock.patch.object(deciding, "MOST_KEPT", most):
                    for _ in range(3):
                        self.assertEqual([usual_grounds(octets, lines, noting) for lines in several], expected)
                    self.assertLessEqual(len(noting.usual), most)
            self.assertEqual(asked.call_count, count)

    def said_of_line(self, line):
        """What is said of a line, or the fault by which it is none."""
        try:
            return verifying.fault_in(line)
        except ValueError as error:
            return type(error)

    def test_what_is_noted_of_files_in_turn(self):
        """It is what is noted of each alone."""
        folder, trust = folder_of(self), TrustList.from_file(REAL / "trust.txt")
        names = []
        for number, (name, octets) in enumerate(all_files(World(), random.Random(9)).items()):
            if name.startswith(("real", "changed")) and number % 3 == 0:
                names.append(str(folder / str(number)))
                (folder / str(number)).write_bytes(octets)
        noting = Noting(keys_of(trust.text), b"", {})
        work = checking.Work(trust, None, False, False, {}, Pairs({}, USUAL), frozenset(), False, False, noting)
        alone = [checking.all_noted(work, [checking.outcomes_of(work, name)]) for name in names]
        several = checking.all_noted(work, checking.outcomes_of_several(work, names))
        # (a mark is there only if the file is older than a moment, which it is not for both alike)
        self.assertEqual([self.noted(one) for one in several], [self.noted(one) for (one,) in alone])
        self.assertTrue(any(one[0].status == 0 for one in several))
        self.assertNotIn(None, [one.record for outcomes in several for one in outcomes])

    def noted(self, outcomes):
        """What is said of the parts of a file and kept of them, but the marks."""
        return [(one[:-1], one.record[:2], one.record[3:]) for one in outcomes]

    def test_what_is_said_of_many_at_a_time(self):
        """It is in the order of the files; what is said of one alone stands by itself."""
        usual = [(b"%d\n" % number, (), number % 3, [str(number)], [[]], []) for number in range(200)]
        apart = {
            40: (b"a\n", ("!",), 1, ["a"], [[]], []),
            41: (b"b\n", (), 1, ["b"], [[]], [1]),
            199: (b"c\n", ("!",), 0, ["c"], [[]], []),
        }
        several = [apart.get(number, told) for number, told in enumerate(usual)]
        found = telling.joined(several)
        self.assertEqual([count for count, _ in found], [40, 1, 1, 64, 64, 29, 1])
        self.assertEqual(b"".join(told[0] for _, told in found), b"".join(told[0] for told in several))
        self.assertEqual([one for _, told in found for one in told[3]], [one for told in several for one in told[3]])
        self.assertEqual([told for count, told in found if count == 1], list(apart.values()))
        self.assertEqual((telling.joined([]), found[0][1][1:3], len(found[0][1][4])), ([], ((), 2), 40))

    def test_lines_that_are_made_at_once(self):
        """They are those that are made one by one, and each file has what is said of it."""
        good, bad = Outcome("a\n", 0, "accepted 20260101000000Z"), Outcome("b", 1, "refused C2 NoSigners", part="x")
        loud = [bad._replace(notes=("a note",)), bad._replace(kind="a kind"), good._replace(faults=("a fault",))]
        ways = [[good], [bad], [], [good, bad], [good, loud[0]], *([one] for one in loud)]
        work = checking.Work(TrustList(b"cmsproof trust 2\n"), None, False, False, {}, Pairs({}, {}), frozenset(), False, False)
        chance = random.Random(10)
        for count, is_known in [(0, False), (1, False), (70, False), (300, False), (40, True)]:
            several = chance.choices(ways[:1] * 200 + ways, k=count)
            alone = [telling.told_of(one, text_lines, False, is_known) for one in several]
            found = telling.all_told(work, text_lines, several, is_known)
            at = 0
            for number, told in found:
                ((_, wanted),) = telling.joined(alone[at : at + number])
                self.assertEqual((told, number <= MOST), (wanted, True))
                at += number
            self.assertEqual(at, count)

    def test_names_that_workers_do_not_have(self):
        """They are those of the list, whatever is in them, and are handed out and judged as those of few files."""
        strange = ["", "é", "\udcff\udc80", "a" * 300, "\U0001f600", "\ud800", " ", "\n"]
        for several in ([], [""], strange, [f"{number}{strange[number % 8]}" for number in range(2 * BLOCK + 7)]):
            held = Names(several)
            self.assertEqual((list(held), len(held), held[:]), (several, len(several), several))
            self.assertEqual([held[at] for at in range(len(several))], several)
            for part in (slice(BLOCK - 3, BLOCK + 3), slice(BLOCK, 2 * BLOCK), slice(9, 2), slice(-9, None), slice(None, 9, 4)):
                self.assertEqual(held[part], several[part])
            self.assertRaises(IndexError, lambda: held[len(several)])
        folder = folder_of(self)
        code = f"import sys; sys.path[:0] = [{str(MODULES)!r}]; from cmsproof_tools import archive, running\n"
        (folder / "changed.py").write_text(f"{code}archive.MANY = 2\nrunning.start('archive')\n")
        (folder / "names").write_text("".join(f"{REAL}/{name}.p7s\n" for name in ["none", *STAMPED] * 90))
        words = ["--trust", REAL / "trust.txt", "--files-from", "names", "--jobs", "3"]
        wanted = run_tool("cmsproof-archive", *words, cwd=folder)
        for more in ([], ["--state", "state"]):
            command = [sys.executable, "changed.py", *words, *more]
            done = subprocess.run(command, cwd=folder, capture_output=True, check=False)
            self.assertEqual((done.returncode, done.stdout), wanted[:2])

    def test_a_list_of_issuers_by_several_processes(self):
        """It has the same entries and tells the same lines, in whichever order files of new signers come."""
        world, folder = World(), folder_of(self)
        (folder / "root").write_bytes(world.root.octets), (folder / "clocks").write_bytes(world.clocks.octets)
        names = []
        for number, (name, octets) in enumerate([*world.files(), ("empty", b""), ("mail", b"Subject: none\n\n")] * 3):
            (folder / str(number)).write_bytes(octets)
            names.append(str(folder / str(number)))
        names.insert(40, str(folder / "none"))
        asked = Asked(issuers=[str(folder / "root")], tsa_issuers=[str(folder / "clocks")])
        was, issuing.FIRST = issuing.FIRST, 8
        looked, look = [], issuing.look
        issuing.look = lambda names, *rest: looked.extend(names) or look(names, *rest)
        try:
            for several in (names, names[::-1]):
                found, taken = [], []
                for jobs in (1, 3):
                    told, unread = [], []
                    looked.clear()
                    found.append(
                        (issuing.list_text(asked, [], several, told.append, unread.append, jobs), sorted(told), unread)
                    )
                    taken.append(len(looked))
                self.assertEqual(found[0], found[1])
                self.assertLess(taken[1], taken[0])
        finally:
            issuing.FIRST, issuing.look = was, look


if __name__ == "__main__":
    unittest.main()
