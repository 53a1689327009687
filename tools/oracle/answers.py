#!/usr/bin/env python3
"""Answers the questions of a signed file with the command `openssl`: reads a questions text and writes the answers list, which
has the lines whose signature holds. It is a second opinion beside the tool cmsproof-verify, and needs no library of Python.

    cmsproof questions --trust trusted.txt signed.p7s | python3 tools/oracle/answers.py > answers.txt

`openssl dgst -verify` says whether a signature is good under the key: RSA with PKCS #1 v1.5, ECDSA and DSA. A signature of
another kind does not hold here; it is told on the standard error. The exit status is 0, or 1 where the text is no questions
text.
"""
from __future__ import annotations

import subprocess
import sys
import tempfile
from pathlib import Path
from typing import NamedTuple, Optional

sys.path.insert(0, str(Path(__file__).resolve().parent.parent))
from oracle import der, forms, identifiers, lists  # noqa: E402

HEAD, ANSWERS = b"cmsproof questions 1", b"cmsproof answers 1"


# not shared with the installed cmsproof_tools.texts: a slip there must not be here too, since this is the second opinion
class Question(NamedTuple):
    """A question: the number of its line, the line, and its five fields (cmsproof-lists(5))."""

    number: int
    line: bytes
    key: bytes
    digest: bytes
    algorithm: bytes
    tail: bytes
    signature: bytes

    def signed(self) -> bytes:
        """The octets that were signed: the SET OF attributes (RFC 5652 5.4)."""
        return bytes([der.SET]) + self.tail


def read_questions(text: bytes) -> list[Question]:
    """The questions of a questions text. Raises ValueError, with a line that says where, if it is none."""
    lines = lists.lines_of(text)
    if lines[0] != HEAD:
        raise ValueError("no questions text: the first line is not `cmsproof questions 1`")
    found = []
    for number, line in lists.numbered(lines):
        fields = line.split(b" ")
        if len(fields) != 5 or not all(map(lists.is_answer_field, fields)):
            raise ValueError(f"line {number} is no question: five fields in hexadecimal, with a space between two")
        found.append(Question(number, line, *(b"" if field == b"-" else lists.hexadecimal(field) for field in fields)))
    return found


def answers_text(questions: list[Question]) -> bytes:
    """The answers list that vouches for these questions."""
    return b"".join(line + b"\n" for line in [ANSWERS, *(question.line for question in questions)])


def algorithm_of(octets: bytes) -> Optional[str]:
    """The identifier of an AlgorithmIdentifier, None where the octets are none."""
    try:
        return der.oid_text(forms.whole(octets, forms.algorithm).oid)
    except der.Fault:
        return None


def holds(question: Question) -> tuple[bool, str]:
    """Whether the signature of a question holds, by openssl, and a remark where it does not or cannot be said."""
    name = identifiers.DIGESTS.get(algorithm_of(question.digest) or "")
    if name is None or algorithm_of(question.algorithm) in (None, identifiers.RSA_PSS):
        return False, "openssl is not asked about this algorithm"
    with tempfile.TemporaryDirectory() as temporary:
        folder = Path(temporary)
        for file, octets in (("key", question.key), ("signed", question.signed()), ("signature", question.signature)):
            (folder / file).write_bytes(octets)
        made = subprocess.run(
            ["openssl", "pkey", "-pubin", "-inform", "DER", "-in", folder / "key", "-out", folder / "pem"],
            capture_output=True,
        )
        if made.returncode != 0:
            return False, "openssl cannot read the key"
        words = ["-" + name.replace("_", "-"), "-verify", "pem", "-signature", "signature", "signed"]
        said = subprocess.run(["openssl", "dgst", *words], cwd=folder, capture_output=True)
        return said.returncode == 0, "" if said.returncode == 0 else "the signature does not hold"


def main() -> None:
    """Answers the questions of standard input."""
    try:
        questions = read_questions(sys.stdin.buffer.read())
    except ValueError as error:
        raise SystemExit(f"answers.py: {error}") from error
    good = []
    for question in questions:
        held, remark = holds(question)
        if held:
            good.append(question)
        else:
            print(f"line {question.number}: {remark}", file=sys.stderr)
    sys.stdout.buffer.write(answers_text(good))


if __name__ == "__main__":
    main()
