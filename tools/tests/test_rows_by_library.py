"""Tests that the library, through the package for Python, says what the rows of the program want, where it has the call."""
import sys
import unittest
from types import SimpleNamespace

from making import TOP, need_tools

need_tools()

import cmsproof
from cmsproof import commands
from cmsproof.calls import asked_of, written
from cmsproof.evidence import verdict_under, words_of
from cmsproof.lists import Held
from cmsproof.octets import of_bytes
from cmsproof import library as lib

sys.path.insert(0, str(TOP / "tools"))
import program_rows  # noqa: E402
from program_rows import Untold  # noqa: E402


ALGORITHMS = ("sha1", "sha224", "sha256", "sha384", "sha512", "sha512-224", "sha512-256")
REPEATED = ("--end",)


class Given:
    """The words of a command: its options, those that may stand more than once, those that stand alone, and the files."""

    def __init__(self, place, words, options, flags=()):
        self.place, self.found, self.many, self.flags, self.files = place, {}, {}, set(), []
        rest = list(words)
        while rest:
            word = rest.pop(0)
            if word in flags and word not in self.flags:
                self.flags.add(word)
            elif word in REPEATED and word in options and rest:
                self.many.setdefault(word, []).append(rest.pop(0))
            elif word in options and word not in self.found and rest:
                self.found[word] = rest.pop(0)
            elif word.startswith("-"):
                raise Untold("no call of the library has such words")
            else:
                self.files.append(word)

    def octets(self, name):
        """The octets of a file."""
        path = self.place.folder / name
        if not path.is_file() or name.startswith("/proc/") or path.stat().st_size > 1 << 30:
            raise Untold("no call of the library opens a file")
        return path.read_bytes()

    def option(self, name):
        """The octets of the file that an option names."""
        if name not in self.found:
            raise Untold("no call of the library has such words")
        return self.octets(self.found[name])

    def writes(self, name, octets):
        """Writes a file that the program would write."""
        path = self.place.folder / name
        others = [self.place.folder / other for other in self.files + [*self.found.values()] if other is not name]
        same = path.exists() and any(other.exists() and other.samefile(path) for other in others)
        if same or not path.parent.is_dir() or path.is_dir() or path.is_symlink():
            raise Untold("no call of the library opens a file")
        path.write_bytes(octets)

    def shown(self, kind, name, text):
        """Fails unless the dictionary has each word of the lines."""
        found = " ".join(words_in(cmsproof.show(kind, self.place.folder / name))).split(" ")
        words = [word for line in text.decode().splitlines() for word in line.split(" ")]
        missing = set(words) - {*found, "agrees", "differs", "absent", "-"}
        if missing:
            raise program_rows.Bad(f"the dictionary has no {missing}")


# what the command keeps of a regular file without `--buffer`, in octets
DEFAULT_ROOM = 64 << 20


def words_in(found):
    """The words of the keys and values in a dictionary."""
    for key, value in found.items():
        yield str(key)
        for one in value if isinstance(value, list) else [value]:
            yield from words_in(one) if isinstance(one, dict) else [str(one)]


def stated(file):
    """How many octets of contents the outermost element says that it has, in the long form of X.690 8.1.3.5; else 0."""
    count = file[1] & 0x7F if len(file) > 1 and file[1] > 0x80 else 0
    return int.from_bytes(file[2 : 2 + count], "big")


def check(given):
    """What `check` says, in memory: as with a buffer in which the file has room."""
    if "--evidence" in given.found:
        return check_under(given)
    if "--at" in given.found or "--end" in given.many:
        raise Untold("no call of the library has such words")
    (name,) = given.files
    trust, answers = cmsproof.TrustList(given.option("--trust")), Held("answers", given.option("--answers"))
    content = given.option("--content") if "--content" in given.found else None
    file = given.octets(name)
    if int(given.found.get("--buffer", len(file))) < len(file) or "--buffer" not in given.found and stated(file) > DEFAULT_ROOM:
        raise Untold("the library has no buffer")
    with trust.held.taken() as trusted, answers.taken() as vouched:
        words = (*of_bytes(file), *of_bytes(content or b""), content is not None, "--sha1" in given.flags)
        return written(lib.library().cmsproof_check, trusted, vouched, *words)


def stated_in(given):
    """The ends and the moment of the words."""
    ends, at = given.many.get("--end", []), given.found.get("--at")
    if at == "" or any(not word or " " in word for word in ends):
        raise Untold("an empty value is none, and a space ends a word")
    return " ".join(ends).encode(), (at or "").encode()


def check_under(given):
    """What `check --evidence` says, in memory."""
    if "--sha1" in given.flags or "--buffer" in given.found:
        raise Untold("the library has no such word")
    ends, at = stated_in(given)
    trust, answers = cmsproof.TrustList(given.option("--trust")), Held("answers", given.option("--answers"))
    record, file = of_bytes(given.option("--evidence")), of_bytes(given.octets(given.files[0]))
    content = given.option("--content") if "--content" in given.found else None
    words = (*file, *of_bytes(content or b""), content is not None, *record, ends, len(ends), at, len(at))
    with trust.held.taken() as trusted, answers.taken() as vouched:
        status, answer, text = written(lib.library().cmsproof_check_under, trusted, vouched, *words)
    if status != lib.USAGE:
        assert verdict_under(status, answer, text).accepted == (status == lib.DONE)
    return status, answer, text


def questions(given):
    """What `questions` says; a malformed file's fault stands in the numbers alone."""
    (name,) = given.files
    trust = cmsproof.TrustList(given.option("--trust"))
    status, answer, text = asked_of(trust, of_bytes(given.octets(name)))
    if status != lib.DONE:
        raise Untold("the library has no line of a file without questions")
    return status, answer, text


def stamp(given):
    """What `stamp check` and `stamp questions` say. Data that are not there are none: only a stamp that K1 to K8 refuse is judged so."""
    kind, *files = given.files
    trust = cmsproof.TrustList(given.option("--trust"))
    if (kind, len(files)) == ("questions", 1) and not given.flags and "--answers" not in given.found:
        with trust.held.taken() as trusted:
            said = written(lib.library().cmsproof_stamp_questions, trusted, *of_bytes(given.octets(files[0])))
        if said[0] != lib.DONE:
            raise Untold("the library has no line of a file without questions")
        return said
    if (kind, len(files)) != ("check", 2):
        raise Untold("no call of the library has such words")
    answers, octets = Held("answers", given.option("--answers")), given.octets(files[0])
    there = (given.place.folder / files[1]).exists()
    words = (*of_bytes(octets), *of_bytes(given.octets(files[1]) if there else b""), "--sha1" in given.flags)
    with trust.held.taken() as trusted, answers.taken() as vouched:
        status, answer, text = written(lib.library().cmsproof_stamp_check, trusted, vouched, *words)
    if not there and (status == lib.DONE or answer.letter == ord("K") and answer.number > 8):
        raise Untold("no call of the library opens a file")
    return status, answer, text


def evidence(given):
    """What `evidence check` and `evidence questions` say. The command judges words before files, and reads no data for a record that has
    none to be judged over."""
    kind, *files = given.files
    trust = cmsproof.TrustList(given.option("--trust"))
    if (kind, len(files)) == ("questions", 1) and not given.flags and "--answers" not in given.found:
        with trust.held.taken() as trusted:
            said = written(lib.library().cmsproof_evidence_questions, trusted, *of_bytes(given.octets(files[0])))
        if said[0] != lib.DONE:
            raise Untold("the library has no line of a file without questions")
        return said
    if kind != "check" or len(files) < 2:
        raise Untold("no call of the library has such words")
    ends, at = stated_in(given)
    answers, octets = Held("answers", given.option("--answers")), of_bytes(given.octets(files[0]))
    objects = [of_bytes(given.octets(name)) for name in files[1:]]
    words = words_of(objects, ends, at, "--whole" in given.flags)
    with trust.held.taken() as trusted, answers.taken() as vouched:
        return written(lib.library().cmsproof_evidence_check, trusted, vouched, *octets, *words)


def number_in(given, name):
    """The number that an option has, or 1."""
    text = given.found.get(name, "1")
    if not text.isdecimal() or not 0 < int(text) < 1 << 64 or text != str(int(text)):
        raise Untold("no call of the library has such words")
    return int(text)


def told(result):
    """The status and the line of a result."""
    status = {"refused": 2, "different": 2, "collision": 2, "malformed": 3, "failed": 5}.get(result.verdict, 1)
    return status, None, f"{result.line}\n".encode() if result.line else b""


def fit(given):
    """What `fit` says."""
    content = given.option("--content") if "--content" in given.found else None
    return told(cmsproof.fit(given.octets(given.files[0]), content=content, sha1="--sha1" in given.flags))


def compare(given):
    """What `compare` says."""
    first, second = map(given.octets, given.files)
    signers = {"first_signer": number_in(given, "--first"), "second_signer": number_in(given, "--second")}
    return told(cmsproof.compare(first, second, **signers))


def match(given):
    """What `match` says, and the token that it writes."""
    result = cmsproof.match(*map(given.octets, given.files[:2]))
    if result.done and given.files[2:]:
        given.writes(given.files[2], result.octets)
    return told(result)


def attach(given):
    """What `attach` says, and the file that it writes."""
    token, signer = given.option("--token"), number_in(given, "--signer")
    result = cmsproof.attach(given.octets(given.files[0]), token, signer=signer)
    if result.done:
        given.writes(given.files[1], result.octets)
    return told(result)


def request(given):
    """What `request` says, and the request that it writes."""
    of = "--of" in given.found
    if ("--digest" in given.found) == of or ("--signer" in given.found and not of):
        raise Untold("no call of the library has such words")
    try:
        digest, nonce = (bytes.fromhex(given.found.get(name, "")) for name in ("--digest", "--nonce"))
    except ValueError as error:
        raise Untold("the library takes octets in place of hexadecimal") from error
    if any(given.found.get(name) == "" for name in ("--nonce", "--policy")):
        raise Untold("an empty value is none")
    words = {"algorithm": given.found.get("--alg", "sha256"), "policy": given.found.get("--policy", "")}
    if words["algorithm"] not in ALGORITHMS:
        raise Untold("the words of the command are judged first")
    words |= {"nonce": nonce, "certificate": "--cert" in given.flags}
    try:
        if of:
            result = cmsproof.request_of_signature(given.option("--of"), signer=number_in(given, "--signer"), **words)
            octets = result.octets
        else:
            result, octets = None, cmsproof.request(digest=digest, **words)
    except ValueError as error:
        return lib.USAGE, None, f"{error}\n".encode()
    if octets is not None:
        given.writes(given.files[0], octets)
    return told(result) if result is not None else (lib.DONE, None, b"")


def show(given):
    """What `show` and `cert` print: the lines, of which the dictionary is made."""
    kind, name = given.files if len(given.files) == 2 else ("certificate", given.files[0])
    if kind not in commands.TYPES or (kind == "certificate") != (len(given.files) == 1):
        raise Untold("no call of the library has such words")
    status, _, text = written(lib.library().cmsproof_show, commands.TYPES[kind], *of_bytes(given.octets(name)))
    if status == lib.DONE:
        given.shown(kind, name, text)
    return status, None, text


# each call, its options, those that stand alone, and how many files it may have
CALLS = {
    "check": (check, ("--trust", "--answers", "--content", "--buffer", "--evidence", "--end", "--at"), ("--sha1",), (1,)),
    "questions": (questions, ("--trust",), (), (1,)),
    "stamp": (stamp, ("--trust", "--answers"), ("--sha1",), (2, 3)),
    "evidence": (evidence, ("--trust", "--answers", "--end", "--at"), ("--whole",), range(2, 99)),
    "fit": (fit, ("--content",), ("--sha1",), (1,)),
    "compare": (compare, ("--first", "--second"), (), (2,)),
    "match": (match, (), (), (2, 3)),
    "attach": (attach, ("--token", "--signer"), (), (2,)),
    "request": (request, ("--digest", "--of", "--signer", "--alg", "--policy", "--nonce"), ("--cert",), (1,)),
    "show": (show, (), (), (2,)),
    "cert": (show, (), (), (1,)),
}


class ByLibrary(program_rows.Place):
    """The library in the place of the program."""

    def run(self, words, descriptors=()):
        """What the program would print, and its status, which is that of the library less one."""
        command, *rest = words or [""]
        if command not in CALLS or descriptors:
            raise Untold("the library has no such call")
        call, options, flags, counts = CALLS[command]
        given = Given(self, rest, options, flags)
        if len(given.files) not in counts:
            raise Untold("no call of the library has such words")
        try:
            status, _, text = call(given)
        except cmsproof.ListRefused as refused:
            status, text = lib.MALFORMED, f"{refused}\n".encode()
        done = SimpleNamespace(returncode=status - 1, stdout=text, stderr=b"")
        if status - 1 >= 3:
            done.stdout, done.stderr = b"", text
        return program_rows.Outcome(done)


class Rows(unittest.TestCase):
    """All rows of the program."""

    def test_none_differs(self):
        counts, reasons, faults = program_rows.judged("", program_rows.FOLDER, place=ByLibrary)
        self.assertEqual((faults, counts["differs"]), ([], 0))
        self.assertGreater(counts["agrees"], 540, reasons)


if __name__ == "__main__":
    unittest.main()
