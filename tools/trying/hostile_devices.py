"""Families of hostile.py about what is round the program: words of the command line, lines of lists, files and outputs that
fail."""
from __future__ import annotations

import os
import resource
import signal
import subprocess

from oracle import evidence, expected, lists, rules
from samples.building import request_of, sha
from trying.hostile_inputs import CHECK, FILE, REQUEST, RESPONSE, SIGNER, STAMP_CHECK, STAMP_QUESTIONS, TERMS, TRUST, migrated
from trying.record_inputs import BEGUN, DATA, EVIDENCE_CHECK, EVIDENCE_QUESTIONS, OF_OLD, SAID, SMALL
from trying.under_inputs import ENDING, UNDER

ACCEPTED = "accepted 20240115100000Z\n"
DIGEST = sha(b"abc").hex()
QUESTIONS = expected.questions(FILE, TERMS)[0]
OF_STAMP = expected.stamp_questions(RESPONSE, TERMS)[0]
OF_RECORD = evidence.questions(OF_OLD, TERMS)[0]
# words with their input files, and what they print where all is well; None is some text
PRINTING = [
    (CHECK + ["file"], ACCEPTED),
    (["questions", "--trust", "trust", "file"], QUESTIONS),
    (["fit", "file"], "fits 1\n"),
    (["match", "request", "response"], "answers\n"),
    (STAMP_CHECK + ["token", "content"], ACCEPTED),
    (STAMP_CHECK + ["response", "file"], "refused K9 ImprintDiffers\n"),
    (STAMP_QUESTIONS + ["response"], OF_STAMP),
    (EVIDENCE_CHECK + SAID + ["of-old", "content"], f"accepted {BEGUN}\n"),
    (EVIDENCE_CHECK + ["of-old", "content"], "refused chain 1 stamp 1 W6 Weak\n"),
    (EVIDENCE_CHECK + ["encrypted", "missing"], "refused V2 Encrypted\n"),
    (EVIDENCE_QUESTIONS + ["of-old"], OF_RECORD),
    (UNDER + ["record-under", *ENDING, "file"], ACCEPTED),
    (UNDER + ["group-under", "--content", "content", "detached"], ACCEPTED),
    (UNDER + ["record-under", "detached"], "refused record chain 1 stamp 1 W3 NotCovered\n"),
    (UNDER + ["encrypted", "missing"], "refused record V2 Encrypted\n"),
    (["compare", "unstamped", "file"], "same\n"),
    (["cert", "signer"], None),
    (["show", "signed", "file"], None),
    (["show", "request", "request"], None),
    (["show", "response", "response"], None),
    (["show", "evidence", "record"], None),
    (["fit", "empty"], "malformed M1 End at 0\n"),
    (["fit", "detached"], "refused C4 NoContent\n"),
    (["check", "--trust", "empty", "--answers", "answers", "file"], "trust L1 Version at line 1\n"),
    (["--help"], None),
    (["--version"], None),
]
REHASH = ["evidence", "rehash", "--alg", "sha256", "--into", ".", "--alone"]
# words that make the file `out`, with its octets
MAKING = [
    (["request", "--digest", DIGEST, "out"], request_of(sha(b"abc"))),
    (["request", "--of", "file", "out"], request_of(sha(b"abc"))),
    (["attach", "--signer", "1", "--token", "token", "unstamped", "out"], FILE),
    (["migrate", "trust", "out"], migrated(TRUST)[2]),
    (["evidence", "request", "sums", "out"], request_of(sha(b"abc"))),
    (["evidence", "renew", "tree", "--request", "out"], request_of(sha(SMALL.tokens[-1].octets))),
    (REHASH + ["sums-tree", "--request", "out"], request_of(sha(sha(DATA) + sha(SMALL.archive_sequence())))),
    (["match", "request", "response", "out"], expected.matched(REQUEST, RESPONSE)[2]),
]
# words with a place for an input file, and how a failure to read it is told
READING = [
    (["check", "--trust", "?", "--answers", "answers", "file"], "read"),
    (["check", "--trust", "trust", "--answers", "?", "file"], "read"),
    (CHECK + ["?"], "X1"),
    (CHECK + ["--content", "?", "detached"], "X1"),
    (["fit", "?"], "read"),
    (["fit", "--content", "?", "detached"], "X1"),
    (["questions", "--trust", "?", "file"], "read"),
    (["questions", "--trust", "trust", "?"], "read"),
    (["stamp", "check", "--trust", "?", "--answers", "answers", "token", "content"], "read"),
    (["stamp", "check", "--trust", "trust", "--answers", "?", "token", "content"], "read"),
    (STAMP_CHECK + ["?", "content"], "read"),
    (STAMP_CHECK + ["token", "?"], "X1"),
    (STAMP_CHECK + ["response", "?"], "X1"),
    (["stamp", "questions", "--trust", "?", "token"], "read"),
    (STAMP_QUESTIONS + ["?"], "read"),
    (["evidence", "check", "--trust", "?", "--answers", "answers", "tree", "content"], "read"),
    (["evidence", "check", "--trust", "trust", "--answers", "?", "tree", "content"], "read"),
    (EVIDENCE_CHECK + ["?", "content"], "read"),
    (EVIDENCE_CHECK + ["tree", "?"], "X1"),
    (EVIDENCE_CHECK + ["of-group", "content", "?"], "X1"),
    (["evidence", "questions", "--trust", "?", "tree"], "read"),
    (EVIDENCE_QUESTIONS + ["?"], "read"),
    (["check", "--trust", "?", "--answers", "answers", "--evidence", "record-under", "file"], "read"),
    (["check", "--trust", "trust", "--answers", "?", "--evidence", "record-under", "file"], "read"),
    (UNDER + ["?", "file"], "read"),
    (UNDER + ["record-under", "?"], "read"),
    (UNDER + ["group-under", "--content", "?", "detached"], "read"),
    (["match", "?", "response"], "read"),
    (["match", "request", "?"], "read"),
    (["match", "?", "response", "out"], "read"),
    (["attach", "--signer", "1", "--token", "?", "unstamped", "out"], "read"),
    (["attach", "--signer", "1", "--token", "token", "?", "out"], "read"),
    (["compare", "?", "file"], "read"),
    (["compare", "file", "?"], "read"),
    (["request", "--of", "?", "out"], "read"),
    (["migrate", "?", "out"], "read"),
    (["evidence", "request", "?", "out"], "read"),
    (["evidence", "make", "--token", "?", "--into", "folder", "sums"], "read"),
    (["evidence", "make", "--token", "token", "--into", "folder", "?"], "read"),
    (["evidence", "renew", "--request", "out", "?"], "read"),
    (["evidence", "renew", "--token", "?", "tree"], "read"),
    (REHASH + ["--request", "out", "?"], "read"),
    (REHASH + ["--token", "?", "sums-tree"], "read"),
    (REHASH + ["--token", "token", "?"], "read"),
    (["cert", "?"], "read"),
    (["show", "signed", "?"], "read"),
    (["show", "request", "?"], "read"),
    (["show", "response", "?"], "read"),
    (["show", "tst", "?"], "read"),
    (["show", "evidence", "?"], "read"),
]


# what is told of zeros, in place of a file that is read in pieces: the first octet decides, however many come
ZEROS = expected.questions(bytes(2), TERMS)


def is_read_in_pieces(words):
    """Whether the command keeps no more of this input than it needs; the others have it whole in memory."""
    return words[0] in ("check", "questions") and words[-1] == "?" and "--evidence" not in words


def fill(runs):
    os.makedirs(os.path.join(runs.folder, "folder"), exist_ok=True)


def closed(*numbers):
    def close():
        for number in numbers:
            os.close(number)

    return close


def outputs(runs):
    """Standard output and standard error that are closed, full, or a pipe that nobody reads."""
    fill(runs)
    for words, _ in PRINTING:
        for how in ("closed", "full", "pipe"):
            answer = with_output(runs, words, how)
            what = None if answer[::2] == (4, "failed write -\n") else "4 and 'failed write -' are expected"
            runs.note(what, words + ["(standard output %s)" % how], answer)
    for words, octets in MAKING:
        runs.remove("out")
        answer = with_output(runs, words, "closed")
        told = (4, "failed write -\n") if words[0] == "match" else (0, "")
        what = None if answer[::2] == told and runs.get("out") == octets else "%s and the file are expected" % (told,)
        runs.note(what, words + ["(standard output closed)"], answer)
    for words, line in PRINTING:
        answer = runs.run(words, preexec_fn=closed(2), stderr=None)
        runs.note(None if line in (None, answer[1]) else "%r is expected" % line, words + ["(standard error closed)"], answer)
    for close in (closed(2), closed(1, 2)):
        for words in (CHECK + ["missing"], ["fit", "missing"], ["request", "--digest", DIGEST, "folder/none/out"]):
            answer = runs.run(words, preexec_fn=close, stdout=None, stderr=None)
            runs.note(None if answer[0] == 4 else "4 is expected", words + ["(streams closed)"], answer)


def with_output(runs, words, how):
    if how == "closed":
        return runs.run(words, preexec_fn=closed(1), stdout=None)
    if how == "full":
        with open("/dev/full", "wb") as full:
            return runs.run(words, stdout=full)
    read, write = os.pipe()
    os.close(read)
    try:
        return runs.run(words, stdout=write)
    finally:
        os.close(write)


def put_in(words, path):
    return [path if word == "?" else word for word in words]


def inputs(runs):
    """Input files that are missing, folders, not to be read, too long or more than memory holds."""
    fill(runs)
    for words, how in READING:
        out = None if "out" in words else False
        runs.case(put_in(words, "missing"), "failed open missing\n", 4, out=out)
        runs.case(put_in(words, "file/none"), "failed open file/none\n", 4, out=out)
        told = "failed X1 ReadFailed\n" if how == "X1" else "failed read folder\n"
        runs.case(put_in(words, "folder"), told, 4, out=out)
    large(runs)
    if os.getuid() == 0:
        unreadable(runs)


def large(runs):
    """Files of more than 4,294,967,301 octets, and of 1 GiB with little memory. They take no room on the disk."""
    for name, size in (("too-long", 4_294_967_302), ("long", 1 << 30)):
        runs.put(name, b"")
        os.truncate(os.path.join(runs.folder, name), size)

    def limit():
        resource.setrlimit(resource.RLIMIT_AS, (256 << 20, 256 << 20))

    for words, how in READING:
        out = None if "out" in words else False
        if is_read_in_pieces(words):
            whole, more = ZEROS, ZEROS
        elif how == "read":
            whole, more = ("failed size too-long\n", 4), ("failed memory\n", 4)
        else:
            continue
        runs.case(put_in(words, "too-long"), *whole, out=out)
        if not runs.checked:
            runs.case(put_in(words, "long"), *more, out=out, limit=limit)
            runs.case(put_in(words, "/dev/zero"), *more, out=out, limit=limit)
    for name in ("too-long", "long"):
        runs.remove(name)


def unreadable(runs):
    """As another user than root, with files and a folder of root's. The folder of the runs is opened to that user."""
    os.chmod(runs.folder, 0o755)
    runs.put("secret", FILE)
    os.chmod(os.path.join(runs.folder, "secret"), 0o600)

    def nobody():
        os.setgid(65534)
        os.setuid(65534)

    for words, _ in READING:
        runs.case(put_in(words, "secret"), "failed open secret\n", 4, limit=nobody)
    for words, _ in MAKING:
        runs.case(words, "failed write out\n", 4, out=None, limit=nobody)


def made_files(runs):
    """Output files that are full, folders, in no folder, cut by a limit, there already, or the input itself."""
    fill(runs)
    for words, octets in MAKING:
        for path in ("folder", "folder/none/out", "/dev/full", "file/out", ""):
            line = "failed write %s\n" % path
            runs.case(words[:-1] + [path], line, 4)
        for old in (b"", b"x" * 100_000):
            runs.put("there", old)
            answer = runs.run(words[:-1] + ["there"])
            runs.note(None if answer[0] == 0 and runs.get("there") == octets else "the file is not replaced", words, answer)
        cut_by_limit(runs, words, octets)
    kept(runs)
    runs.put("same", runs.get("unstamped"))
    answer = runs.run(["attach", "--signer", "1", "--token", "token", "same", "same"])
    runs.note(None if answer[0] == 0 and runs.get("same") == FILE else "the file is not replaced", ["attach", "same"], answer)
    for name, words in (
        ("trust", ["migrate", "same", "same"]),
        ("trust", ["migrate", "./same", "same"]),
        ("token", ["attach", "--signer", "1", "--token", "same", "unstamped", "same"]),
        ("unstamped", ["request", "--of", "same", "same"]),
    ):
        runs.put("same", runs.get(name))
        answer = runs.run(words)
        good = answer[::2] == (3, "usage OUT\n") and runs.get("same") == runs.get(name)
        runs.note(None if good else "the input is not left as it was", words, answer)


def cut_by_limit(runs, words, octets):
    """The system lets a file grow to so many octets: the file that was there stays, none is beside it, and the failure is told."""
    for size in (0, 1, len(octets) // 2, len(octets) - 1, len(octets)):

        def limit():
            signal.signal(signal.SIGXFSZ, signal.SIG_IGN)
            resource.setrlimit(resource.RLIMIT_FSIZE, (size, size))

        runs.put("out", b"as before")
        answer = runs.run(words, preexec_fn=limit, restore_signals=False)
        written, beside = runs.get("out"), runs.get("out.new0")
        if size == len(octets):
            good = (answer[0], written, beside) == (0, octets, None)
        else:
            good = (answer[0], answer[2], written, beside) == (4, "failed write out\n", b"as before", None)
        runs.note(
            None if good else "the file as it was and the line of a failure are expected", words + ["(limit %d)" % size], answer
        )


def kept(runs):
    """An output file that is there stays as it is where the command refuses."""
    for words in (
        ["attach", "--signer", "2", "--token", "token", "file"],
        ["migrate", "file"],
        ["match", "request", "file"],
        ["attach", "--signer", "1", "--token", "file", "file"],
        ["request", "--of", "token", "--signer", "9"],
        ["request", "--digest", "00"],
        ["request", "--of", "missing"],
    ):
        runs.put("there", b"as before")
        answer = runs.run(words + ["there"])
        runs.note(None if answer[0] != 0 and runs.get("there") == b"as before" else "the file changed", words, answer)


CERTIFICATE = SIGNER.hex().encode()
# a line of a list, and the rule that it fails
BAD_TRUST = [
    (b"signer", "L2"),
    (b"signer ", "L3"),
    (b"signer 3", "L2"),
    (b"signer 3000", "L3"),
    (b"signer  3000", "L2"),
    (b" signer 3000", "L2"),
    (b"Signer 3000", "L2"),
    (b"tsa 30 00", "L2"),
    (b"tsa 3000 ", "L2"),
    (b"tsa\t3000", "L2"),
    (b"tsa -", "L2"),
    (b"tsa 300g", "L2"),
    (b"tsa - - 3000", "L2"),
    (b"\0", "L2"),
    (b"\xff\xfe", "L2"),
    (b"\r", None),
    (b"\r\r", "L2"),
    (b"#\xff\0", None),
    (b" #", "L2"),
    (b"signer " + CERTIFICATE + b"00", "L3"),
    (b"signer " + CERTIFICATE[:-2], "L3"),
    (b"signer " + CERTIFICATE.upper() + b"\r", None),
    (b"signer " + CERTIFICATE + b" ", "L2"),
]
BAD_TRUST_2 = [
    (b"signer 3000", "L2"),
    (b"signer - - ", "L3"),
    (b"signer - -", "L2"),
    (b"tsa 20240101000000Z 20230101000000Z 3000", "L5"),
    (b"tsa 20240101000000Z 20230101000000Z 300", "L2"),
    (b"tsa 20240101000000Z 20240101000000Z 3000", "L3"),
    (b"tsa 20240101000000.50Z - 3000", "L2"),
    (b"tsa 20240101000000.5Z - 3000", "L3"),
    (b"tsa 20230229000000Z - 3000", "L2"),
    (b"tsa 240101000000Z - 3000", "L2"),
    (b"tsa - - - 3000", "L2"),
    (b"tsa -- - 3000", "L2"),
    (b"signer - - " + b"30" * 50000, "L3"),
    (b"tsa 20240101000000.000000001Z 20240101000000Z 3000", "L5"),
    (b"signer - - " + CERTIFICATE, None),
]
BAD_ANSWERS = [
    (b"- - - -", "B2"),
    (b"- - - - -", None),
    (b"- - - - - -", "B2"),
    (b"-  - - -", "B2"),
    (b"- - - - ", "B2"),
    (b"- - - - 0", "B2"),
    (b"- - - - 0g", "B2"),
    (b"- - - - --", "B2"),
    (b"- - - - -00", "B2"),
    (b"00 00 00 00 0A", None),
    (b" - - - - -", "B2"),
    (b"- - - - -\r", None),
    (b"cmsproof answers 1", "B2"),
    (b"# - -", None),
    (b"", None),
]
NAMES = {"L2": "Line", "L3": "Certificate", "L5": "Period", "B2": "Line"}
FIRST_LINES = [
    b"",
    b"cmsproof",
    b"cmsproof trust",
    b"cmsproof trust 3",
    b"cmsproof trust 1 ",
    b" cmsproof trust 1",
    b"cmsproof  trust 1",
    b"Cmsproof trust 1",
    b"#\ncmsproof trust 1",
    b"\ncmsproof trust 1",
    b"\xef\xbb\xbfcmsproof trust 1",
    b"cmsproof trust 1\0",
    b"cmsproof answers 1",
    b"cmsproof trust 01",
]


def bad_lists(runs):
    """Lists with one bad line, behind comments and empty lines and before other bad ones, with and without its end."""
    for before in (b"", b"#\n", b"\n\r\n# signer\n"):
        for behind in (b"", b"\n", b"\r\n", b"\nbad\n"):
            for of, rows in ((b"trust 1", BAD_TRUST), (b"trust 2", BAD_TRUST_2), (b"answers 1", BAD_ANSWERS)):
                for line, rule in rows:
                    one_line(runs, b"cmsproof " + of + b"\n" + before, line, rule, behind, of.split()[0].decode())
    for line in FIRST_LINES:
        for behind in (b"", b"\n", b"\nsigner 3"):
            runs.put("in", line + behind)
            runs.case(["migrate", "in", "out"], "trust L1 Version at line 1\n", 2, out=None)
            told = "answers B1 Version at line 1\n"
            if line != b"cmsproof answers 1":
                runs.case(["check", "--trust", "trust", "--answers", "in", "file"], told, 2)


def one_line(runs, before, line, rule, behind, command):
    runs.put("in", before + line + behind)
    number, form = before.count(b"\n") + 1, {"trust": "L2", "answers": "B2"}[command]
    if rule is None and behind == b"\nbad\n":
        rule, number = form, number + 1
    if rule is None and line.endswith(b"\r") and behind == b"\r\n":
        rule = form
    told = "%s %s %s at line %d\n" % (command, rule, NAMES[rule], number) if rule else None
    if command == "trust":
        out = None if told else migrated(before + line + behind)[2]
        runs.case(["migrate", "in", "out"], told or "", 2 if told else 0, out=out)
    else:
        line = expected.check(FILE, rules.Terms(TERMS.trust, lists.answers(before + line + behind)[0] or []))
        runs.case(["check", "--trust", "trust", "--answers", "in", "file"], told or line[0], 2 if told else line[1])


REQUEST_OF = ["request", "--digest", DIGEST]
BAD_DIGESTS = ["", "b", "ba78", DIGEST[:-1], DIGEST + "00", "g" * 64, "\u00e9" * 32, "0x" + DIGEST[2:], "00" * 50000]
BAD_POLICIES = [
    "",
    "2",
    "1..2",
    "1.40",
    "3.1",
    "01.2",
    "+1.2",
    "1.2.",
    ".1.2",
    "1.2 ",
    "1.-2",
    "hex:883703",
    "1." + "2." * 20000,
    "2.%d" % (2**128 - 80),
    "1.2.%d" % 2**128,
]
BAD_NONCES = ["", "0", "0005", "ffff", "zz", "5 "]
BAD_NUMBERS = ["", "x", "-1", "1.0", "18446744073709551616", "0x1"]
BAD_TIMES = ["", "-", "2024", "20240131000000", "20240230000000Z", "20240131000000.50Z", "240131000000Z", "20240131000000Z "]
BAD_ENDS = [
    "",
    "sha256",
    "=",
    "sha256=",
    "=20240131000000Z",
    "md5=20240131000000Z",
    "SHA256=20240131000000Z",
    "sha1==20240131000000Z",
]
BAD_ENDS += [f"sha256={time}" for time in BAD_TIMES] + ["sha256=20240131000000Z=", " sha1=20240131000000Z", "a" * 50000]
# words, and what is told of them; None is the text of the parser
WORDS = [
    *((["request", "--digest", digest, "out"], "usage digest\n") for digest in BAD_DIGESTS),
    *((REQUEST_OF + ["--policy", policy, "out"], "usage policy\n") for policy in BAD_POLICIES),
    *((REQUEST_OF + ["--nonce", nonce, "out"], "usage nonce\n") for nonce in BAD_NONCES),
    (["request", "--digest", "x", "--policy", "x", "--nonce", "x", "out"], "usage digest\n"),
    (REQUEST_OF + ["--policy", "x", "--nonce", "x", "out"], "usage policy\n"),
    (["request", "--of", "missing", "--nonce", "x", "out"], "usage nonce\n"),
    (["request", "out"], "usage digest\n"),
    *((EVIDENCE_CHECK + ["--end", end, "missing", "missing"], "usage end\n") for end in BAD_ENDS),
    *((EVIDENCE_CHECK + [f"--at={time}", "missing", "missing"], "usage at\n") for time in BAD_TIMES),
    (EVIDENCE_CHECK + ["--at", "x", "--end", "sha1=20240131000000Z", "--end", "x", "missing", "missing"], "usage end\n"),
    *((UNDER + ["missing", "--end", end, "missing"], "usage end\n") for end in BAD_ENDS),
    *((UNDER + ["missing", f"--at={time}", "missing"], "usage at\n") for time in BAD_TIMES),
    (UNDER + ["missing", "missing", "missing"], "usage FILE\n"),
    (REQUEST_OF + ["--of", "file", "out"], "usage digest\n"),
    (REQUEST_OF + ["--signer", "1", "out"], "usage digest\n"),
    *(
        (line, None)
        for line in (
            REQUEST_OF + ["--nonce", "-5", "out"],
            REQUEST_OF + ["--alg", "md5", "out"],
            REQUEST_OF + ["--alg", "SHA256", "out"],
            REQUEST_OF,
            [],
            [""],
            ["frob"],
            ["show"],
            ["show", "frob", "file"],
            ["show", "signed"],
            ["show", "signed", "file", "file"],
            ["fit"],
            ["fit", "--content"],
            ["fit", "--frob", "file"],
            ["check", "file"],
            ["check", "--trust", "trust", "file"],
            ["attach", "--token", "token", "file", "out"],
            ["compare", "file"],
            ["match", "request"],
            ["migrate", "trust"],
            ["stamp"],
            ["stamp", ""],
            ["stamp", "frob", "token"],
            ["stamp", "check"],
            ["stamp", "check", "token", "content"],
            STAMP_CHECK + ["token"],
            STAMP_CHECK + ["token", "content", "file"],
            STAMP_CHECK + ["--content", "content", "token", "content"],
            ["stamp", "questions", "token"],
            STAMP_QUESTIONS,
            STAMP_QUESTIONS + ["--answers", "answers", "token"],
            ["stamp", "request", "--digest", DIGEST, "out"],
            ["evidence"],
            ["evidence", "frob", "tree"],
            ["evidence", "check", "tree", "content"],
            EVIDENCE_CHECK + ["tree"],
            EVIDENCE_CHECK + ["--sha1", "tree", "content"],
            EVIDENCE_CHECK + ["--end"],
            EVIDENCE_CHECK + ["--at", "20240131000000Z", "--at", "20240131000000Z", "tree", "content"],
            EVIDENCE_CHECK + ["-", "-"],
            EVIDENCE_CHECK + ["tree", "-", "content", "-"],
            ["evidence", "questions", "tree"],
            UNDER + ["record-under", "--sha1", "file"],
            UNDER + ["record-under", "--evidence", "record-under", "file"],
            CHECK + ["--at", "20240131000000Z", "file"],
            CHECK + ["--end", "sha1=20240131000000Z", "file"],
            EVIDENCE_QUESTIONS,
            EVIDENCE_QUESTIONS + ["--answers", "answers", "tree"],
            *(["attach", "--signer", number, "--token", "token", "file", "out"] for number in BAD_NUMBERS),
            *(["compare", "--first", number, "file", "file"] for number in BAD_NUMBERS),
        )
    ),
]


def words(runs):
    """Words that are no command, and values that are none: status 3, nothing on standard output, and no file made."""
    for line, told in WORDS:
        runs.case(line, told, 3, out=None)
    for number in ("0", "2", "18446744073709551615"):
        runs.case(["attach", "--signer", number, "--token", "token", "file", "out"], "refused A2 NoSuchSigner\n", 1, out=None)
        runs.case(["request", "--of", "file", "--signer", number, "out"], "refused A2 NoSuchSigner\n", 1, out=None)
        runs.case(["compare", "--first", number, "file", "file"], "refused first E2 NoSuchSigner\n", 1)
        runs.case(["compare", "--second", number, "file", "file"], "refused second E2 NoSuchSigner\n", 1)
    for line in (["fit", b"\xff"], [b"\xff"], ["request", "--digest", b"\xc3", "out"]):
        done = subprocess.run([runs.program, *line], cwd=runs.folder, stdin=subprocess.DEVNULL, capture_output=True)
        answer = done.returncode, done.stdout, done.stderr
        told = answer == (3, b"", b"error: a word of the command line isn't UTF-8\n")
        runs.note(None if told else "status 3 and its line are expected", [str(word) for word in line], answer)


FAMILIES = {"words": words, "lists": bad_lists, "inputs": inputs, "outputs": outputs, "files made": made_files}
