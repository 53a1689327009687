#!/usr/bin/env python3
"""Checks signed files with a real verifier: the questions of each file are answered by `openssl`, and the program's verdict
is compared with the one that is expected.

    python3 tools/trying/verdicts.py [PROGRAM]

PROGRAM is ./cmsproof by default. The files are those of data/real: trust.txt (a trust list), blob.bin (the content of the
detached files) and the signed files. For each file the program is asked for its questions; `openssl dgst -verify` says of each
whether the signature holds; the lines that hold are the answers list. Then `check` runs with all of these answers, and once more with each of them
left out, when a signature of that signer or of its token must be missing (S9 or K14). What is expected of a file is told by
the table below: it was worked out from how the file was made, not by this program.
"""
import subprocess
import sys
import tempfile
from pathlib import Path

TOOLS = Path(__file__).resolve().parent.parent
sys.path.insert(0, str(TOOLS))
from oracle.answers import answers_text, holds, read_questions  # noqa: E402

# file, content, verdict when each question is answered: the beginning of the line
EXPECTED = [
    ("rsa_attached_ts.p7s", None, "accepted "),
    ("ec_attached_ts.p7s", None, "accepted "),
    ("two_attached_ts.p7s", None, "accepted "),
    ("gnutls_time_ts.p7s", None, "accepted "),
    ("rsa_detached_ts.p7s", "blob.bin", "accepted "),
    ("rsa_detached_ts.p7s", None, "refused C4 NoContent"),
    ("rsa_attached_ts.p7s", "blob.bin", "refused C5 ContentTwice"),
    ("rsa_attached.p7s", None, "refused signer 1 S10 NoToken"),
    ("rsa_detached.p7s", "blob.bin", "refused signer 1 S10 NoToken"),
    ("two_attached.p7s", None, "refused signer 1 S10 NoToken"),
    ("noattr.p7s", None, "refused signer 1 S1 NoSignedAttrs"),
    ("bc_attached_default.p7s", None, "malformed M3 Indefinite at 1"),
]


def run(words):
    done = subprocess.run(words, capture_output=True)
    return done.returncode, done.stdout.decode("latin-1"), done.stderr.decode("latin-1")


def check(program, files, answers, name, content, folder):
    (folder / "answers").write_bytes(answers_text(answers))
    words = [program, "check", "--trust", files / "trust.txt", "--answers", folder / "answers"]
    if content is not None:
        words += ["--content", files / content]
    return run(words + [files / name])


def questions(program, files, name):
    status, out, _err = run([program, "questions", "--trust", files / "trust.txt", files / name])
    return read_questions(out.encode()) if status == 0 else []


def judge(program, files, name, content, expected, folder):
    """The faults found with one file, and how many verdicts were compared."""
    asked = questions(program, files, name)
    answers = [question for question in asked if holds(question)[0]]
    _status, out, err = check(program, files, answers, name, content, folder)
    line = (out + err).rstrip("\n")
    faults = [] if line.startswith(expected) else [f"{name}: {line}, expected {expected}"]
    compared = 1
    if len(answers) < len(asked):
        faults.append(f"{name}: {len(asked) - len(answers)} of {len(asked)} signatures do not hold by openssl")
    if line.startswith("accepted"):
        for left_out in answers:
            rest = [a for a in answers if a.line != left_out.line]
            _status, out, _err = check(program, files, rest, name, content, folder)
            compared += 1
            if "S9 SignatureFails" not in out and "K14 SignatureFails" not in out:
                faults.append(f"{name}: {out.strip()} without the answer on line {left_out.number}")
    return faults, compared, len(asked), line


def main():
    program = Path(sys.argv[1] if len(sys.argv) > 1 else "cmsproof").resolve()
    files = TOOLS.parent / "data" / "real"
    faults, compared = [], 0
    with tempfile.TemporaryDirectory() as temporary:
        for name, content, expected in EXPECTED:
            found, count, asked, line = judge(program, files, name, content, expected, Path(temporary))
            faults += found
            compared += count
            print(f"{name:26} {asked} questions  {line}")
    for fault in faults:
        print("DIFFERS", fault)
    print(f"{compared} verdicts compared, {len(faults)} differ")
    raise SystemExit(1 if faults else 0)


if __name__ == "__main__":
    main()
