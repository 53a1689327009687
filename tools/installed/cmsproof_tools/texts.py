"""The texts of trust lists, questions and answers (cmsproof-lists(5)), and of moments (docs/FORMAT.md, section 7)."""
from __future__ import annotations

import re
from binascii import unhexlify
from datetime import datetime, timezone
from typing import Iterable, Iterator, NamedTuple

QUESTIONS, ANSWERS = b"cmsproof questions 1", b"cmsproof answers 1"
TRUST_1 = b"cmsproof trust 1"
# what begins a line that says nothing, what stands before the end of one in some texts, and how long a short text is at most
COMMENT, RETURN, SHORT = 0x23, 0x0D, 1 << 14
# the octets of a question's line that most keys have for themselves, by which something is looked for that is the same for all lines with the
# same first three fields
PLACE = slice(60, 124)
# why a signature is not vouched for that can be judged
UNHOLDING = "the signature does not hold"
MOMENT = r"[0-9]{14}(?:\.[0-9]{0,8}[1-9])?Z"
# the line above an entry of a trust list that says until when its certificate serves
SERVES = re.compile(rf"# known until ({MOMENT}), serves until (-|{MOMENT})".encode())


class Question(NamedTuple):
    """A question: the number of its line, the line, and its five fields."""

    number: int
    line: bytes
    key: bytes
    digest: bytes
    algorithm: bytes
    tail: bytes
    signature: bytes

    def signed(self) -> bytes:
        """The octets that were signed: the SET OF attributes (RFC 5652 5.4)."""
        return b"\x31" + self.tail


class TrustEntry(NamedTuple):
    """An entry of a trust list: the number of its line, its role, the moments from when and until when, and the certificate; and until
    when that serves, if the line above says so, "" if not."""

    number: int
    role: str
    first: str
    last: str
    octets: bytes
    serves: str = ""


def is_moment(text: str) -> bool:
    """Whether a text is the GeneralizedTime of a moment: the year 0000 has the calendar of the year 2000."""
    if re.fullmatch(MOMENT, text) is None:
        return False
    try:
        month, day, hour, minute, second = (int(text[at : at + 2]) for at in range(4, 14, 2))
        datetime(int(text[:4]) or 2000, month, day, hour, minute, second)
    except ValueError:
        return False
    return True


def time_in(text: str) -> datetime:
    """The moment of a GeneralizedTime of whole seconds (RFC 5280 4.1.2.5.2). Raises ValueError where it is no such text: `strptime` alone
    takes one without the seconds for another moment."""
    if len(text) != len("00000101000000Z") or not is_moment(text):
        raise ValueError(f"{text!r} is no moment")
    return datetime.strptime(text, "%Y%m%d%H%M%SZ").replace(tzinfo=timezone.utc)


def in_order(first: str, last: str) -> bool:
    """Whether the first of two moments is not later than the second."""
    return (first[:14], first[15:-1]) <= (last[:14], last[15:-1])


def pieces_of(octets: bytes, octet: bytes) -> list[bytes]:
    """What stands between octets of a kind: as `split`, which looks at one octet at a time, and `find` at many."""
    found, at = [], 0
    while (end := octets.find(octet, at)) >= 0:
        found.append(octets[at:end])
        at = end + 1
    return [*found, octets[at:]]


def numbered_lines(text: bytes) -> Iterator[tuple[int, bytes]]:
    """The lines of a text with their numbers from 1, each without its end: a line feed, and one carriage return before it."""
    for number, line in enumerate(pieces_of(text, b"\n"), start=1):
        yield number, line[:-1] if line.endswith(b"\r") else line


def octets_of_fields(line: bytes) -> list[bytes]:
    """The octets that the fields of a line spell: each at least one in hexadecimal, or `-` for none. Raises ValueError where one spells
    none."""
    fields = pieces_of(line, b" ")
    if b"" in fields:
        raise ValueError("a field is empty")
    return [b"" if field == b"-" else unhexlify(field) for field in fields]


def fields_of(line: bytes) -> bytes:
    """The first three fields of a question's line, with the space behind each: all lines that begin so have the same key and algorithms."""
    return b" ".join([*line.split(b" ", 3)[:3], b""])


def no_question(number: int) -> ValueError:
    """What is raised where a line is no question: a line that says where."""
    return ValueError(f"line {number} is no question: five fields in hexadecimal, with a space between two")


def question_of(number: int, line: bytes) -> Question:
    """The question in a line. Raises ValueError, with a line that says where, if it is none."""
    try:
        key, digest, algorithm, tail, signature = octets_of_fields(line)
    except ValueError as error:
        raise no_question(number) from error
    return Question(number, line, key, digest, algorithm, tail, signature)


def lines_asked(text: bytes) -> list[bytes]:
    """The lines of a questions text that are to be questions. Raises ValueError if it does not begin as one."""
    # (whether an octet is there is asked by its number: of `bytes` Python first finds out, by an exception, that they are none)
    if len(text) > SHORT or RETURN in text:
        return [line for _, line in question_lines(text)]
    # (of a short text it is quick to take line after line from its front)
    found = []
    first, _, rest = text.partition(b"\n")
    while rest:
        line, _, rest = rest.partition(b"\n")
        if line and line[0] != COMMENT:
            found.append(line)
    return found if first == QUESTIONS else [line for _, line in question_lines(text)]


def begin_of(text: bytes) -> int:
    """Where the second line of a questions text begins. Raises ValueError if the first one is not as it must be."""
    end = text.find(b"\n")
    first = text[:end] if end >= 0 else text
    if (first[:-1] if first.endswith(b"\r") else first) != QUESTIONS:
        raise ValueError("no questions text: the first line is not `cmsproof questions 1`")
    return end + 1 if end >= 0 else len(text)


def question_lines(text: bytes) -> list[tuple[int, bytes]]:
    """The lines of a questions text that are to be questions, with their numbers. Raises ValueError if it does not begin as one."""
    begin_of(text)
    return [(number, line) for number, line in numbered_lines(text) if number > 1 and line and not line.startswith(b"#")]


def read_questions(text: bytes) -> list[Question]:
    """The questions of a questions text, in their order. Raises ValueError, with a line that says where, if it is none."""
    return [question_of(number, line) for number, line in question_lines(text)]


def answers_of(lines: Iterable[bytes]) -> bytes:
    """The answers text that vouches for the questions in these lines."""
    return b"\n".join([ANSWERS, *lines, b""])


def answers_text(questions: Iterable[Question]) -> bytes:
    """The answers text that vouches for these questions."""
    return answers_of(question.line for question in questions)


def serves_in(line: bytes, last: str) -> str:
    """Until when the certificate of an entry with this end serves, by the line above it; "" where that line says nothing of it."""
    found = SERVES.fullmatch(line)
    if found is None:
        return ""
    known, serves = found[1].decode(), found[2].decode()
    return serves if known == last != serves and (serves == "-" or is_moment(serves)) else ""


def trust_entries(text: bytes) -> Iterator[TrustEntry]:
    """The entries of a trust list, which the program took for one."""
    lines, above = numbered_lines(text), b""
    periods = ["-", "-"] if next(lines)[1] == TRUST_1 else []
    for number, line in lines:
        if line and not line.startswith(b"#"):
            role, *period, octets = line.decode("ascii").split(" ")
            first, last = period or periods
            yield TrustEntry(number, role, first, last, bytes.fromhex(octets), serves_in(above, last))
        above = line
