"""cmsproof-verify: answers a questions text by real verification."""
from __future__ import annotations

import os
from contextlib import closing
from typing import Generator, Iterator, NamedTuple, NoReturn, Union

from cmsproof_tools.running import DONE, FAILED, MALFORMED, Stop, Words, check_kept, module, read, shown, tell, write
from cmsproof_tools.texts import ANSWERS, Question, begin_of, no_question, numbered_lines

ABOUT = """Verifies the signatures that `cmsproof questions` asks about, and writes the answers that `cmsproof check` reads: the
questions whose signature is good, in their order.

    cmsproof questions --trust trust.txt signed.p7s | cmsproof-verify > answers.txt

RSA (PKCS #1 v1.5 and PSS), ECDSA, Ed25519, Ed448 and DSA are verified, by Python's library `cryptography`. A signature
that does not hold, or of an algorithm that cannot be judged, is not in the answers list: a line on standard error says so.

Exit status: 0 done, whatever the answers are; 2 the text is no questions text; 3 wrong words; 4 a file or the library failed.
"""
DER = "it looks like a file in DER: `cmsproof questions` makes a questions text of a signed file"
# from how many lines on several processes verify, and of how many octets what one gets at a time is
MANY, PART = 1000, 1 << 18


def fault_of(question: Question) -> str | None:
    """None where the signature of a question holds, and otherwise the line that says why it is not vouched for."""
    found: str | None = module("verifying").fault_in(question.line)
    return found


class Judged(NamedTuple):
    """What is said of a part of a questions text, whose lines are numbered from 0.

    lines   how many it has
    faults  the numbers of those whose questions are not vouched for, and why not
    good    the other questions, each with its end of a line; None where these are all that is in the part
    bad     the number of the first line that is no question, if there is one: then nothing else is said
    """

    lines: int
    faults: list[tuple[int, str]]
    good: bytes | None
    bad: int | None = None


def judged(text: bytes) -> Judged:
    """Verifies the questions in a part of a text."""
    fault_in = module("verifying").fault_in
    faults, good, lines = [], [], text.count(b"\n")
    for number, line in numbered_lines(text):
        if line and not line.startswith(b"#"):
            try:
                fault = fault_in(line)
            except ValueError:
                return Judged(lines, [], b"", number - 1)
            if fault is None:
                good.append(line)
            else:
                faults.append((number - 1, fault))
    # (nothing was left out that would make it longer)
    is_all = text.endswith(b"\n") and sum(map(len, good)) + len(good) == len(text)
    return Judged(lines, faults, None if is_all else b"".join([line + b"\n" for line in good]))


def parts_of(text: bytes, begin: int) -> Iterator[tuple[int, int]]:
    """Where parts of a text begin and end, each of whole lines."""
    while begin < len(text):
        end = text.find(b"\n", begin + PART) + 1 or len(text)
        yield begin, end
        begin = end


def judged_by_many(text: bytes, parts: list[tuple[int, int]]) -> Generator[Judged, None, None]:
    """What is said of the parts of a text, by as many processes as there are processors."""
    from cmsproof_tools.workers import Workers

    def task(place: str) -> Judged:
        begin, end = parts[int(place)]
        return judged(text[begin:end])

    def lost(_: str, by: int) -> NoReturn:
        raise Stop(FAILED, f"failed worker: it was ended by signal {by}" if by else "failed worker: it ended")

    module("verifying")
    with Workers(min(len(os.sched_getaffinity(0)), len(parts)), task) as workers:
        yield from workers.results(list(map(str, range(len(parts)))), lost)


def answers_for(text: bytes) -> tuple[bytes, list[tuple[int, str]]]:
    """The answers list for a questions text; the numbers of the lines whose questions are not vouched for, and why not. Raises ValueError,
    with a line that says where, if it is none."""
    begin, number, faults = begin_of(text), 2, list[tuple[int, str]]()
    parts, answers, whole = list(parts_of(text, begin)), list[Union[bytes, memoryview]]([ANSWERS + b"\n"]), memoryview(text)
    found = judged_by_many(text, parts) if text.count(b"\n") > MANY else (judged(text[first:end]) for first, end in parts)
    with closing(found):
        for (first, end), one in zip(parts, found):
            if one.bad is not None:
                raise no_question(number + one.bad)
            faults += [(number + at, fault) for at, fault in one.faults]
            answers.append(whole[first:end] if one.good is None else one.good)
            number += one.lines
    return b"".join(answers), faults


def main(tool: str, words: list[str]) -> int:
    """Runs the tool with these words and answers its exit status."""
    parser = Words(tool, description=ABOUT)
    parser.add_argument("questions", nargs="?", default="-", metavar="QUESTIONS", help="a questions text, or standard input")
    parser.add_argument("answers", nargs="?", default="-", metavar="ANSWERS", help="the answers list, or standard output")
    given = parser.parse_args(words)
    check_kept(given.answers, [given.questions])
    text = read(given.questions)
    try:
        answers, faults = answers_for(text)
    except ValueError as error:
        from cmsproof_tools.kinds import BEGINNING, kind_of

        kind = "" if text.startswith(b"cmsproof questions ") else kind_of(text[:BEGINNING]) or DER * text.startswith(b"\x30")
        raise Stop(MALFORMED, f"{shown(given.questions)}: {error}" + (f"; {kind}" if kind else "")) from error
    for number, fault in faults:
        tell(tool, f"line {number}: {fault}")
    write(given.answers, answers)
    return DONE
