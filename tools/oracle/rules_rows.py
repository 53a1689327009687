#!/usr/bin/env python3
"""rules_rows.py: compares what the rows of crates/vectors_run/data/rules want with what rules.py, lists.py and expected.py work
out, apart from the program and from the judge of the rows, and prints those that differ. Not told by it: texts of rules and lines
of refusals (`rule`, `line`), and sources and verifiers that fail.

    python3 tools/oracle/rules_rows.py
"""
from __future__ import annotations

import collections
import re
import sys
from pathlib import Path
from typing import Callable, Optional

TOOLS = Path(__file__).resolve().parent.parent
sys.path.insert(0, str(TOOLS))
from oracle import der, expected, forms, lists, rows, rules  # noqa: E402
from oracle.der import element, sequence  # noqa: E402
from oracle.forms import read_signed_data, whole  # noqa: E402
from oracle.identifiers import DATA, DIGEST_OIDS, SIGNED_DATA  # noqa: E402
from oracle.rows import blobs_of, octets_of  # noqa: E402

FOLDER = TOOLS.parent / "crates" / "vectors_run" / "data" / "rules"
QUESTION = "key", "digest_alg", "signature_alg", "tail"
NAME = sequence(element(der.SET, sequence(der.oid("2.5.4.3"), element(der.UTF8, b"A"))))


class Row(rows.Row):
    """A row of the rules."""

    def lines(self, name: str) -> bytes:
        """The text of this name: `;` divides lines, `,` words, and `^` is a CR at the end of a line."""
        made = []
        for line in self.values.get(name, "").split(";"):
            words = [octets_of(w, self.blobs).hex() if w.startswith("$") else w for w in line.rstrip("^").split(",")]
            made.append(" ".join(words) + "\r" * line.endswith("^"))
        return "\n".join(made).encode()

    def flag_given(self, name: str) -> bool:
        """Whether the row has a value of this name."""
        return name in self.values

    def signer_file(self, sid: bytes, algorithm: bytes) -> bytes:
        """A file with the content `abc` and one signer."""
        signed = self.given("signed")
        attributes = element(0xA0, signed) if signed else b""
        end = sequence(der.oid("2.999.1")), der.octets(b"abc")
        signer = sequence(der.number(1), sid, sequence(algorithm), attributes, *end)
        content = sequence(der.oid(DATA), element(0xA0, der.octets(b"abc")))
        listed = element(der.SET, sequence(der.oid(DIGEST_OIDS["sha256"])))
        data = sequence(der.number(1), listed, content, element(der.SET, signer))
        return sequence(der.oid(SIGNED_DATA), element(0xA0, data))


def yes(value: object) -> str:
    """Whether something is so, as a row has it."""
    return str(bool(value)).lower()


def rule_of(call: Callable[[], str]) -> str:
    """What a call gives, or the rule that it says is failed."""
    try:
        return call()
    except rules.Refused as rule:
        return str(rule)


def names(row: Row) -> str:
    """Whether a signer's identifier is that of a certificate, and whether its attributes name it."""
    octets = row.given("file") or row.signer_file(row.octets("sid"), der.oid(DIGEST_OIDS["sha256"]))
    signer, certificate = read_signed_data(octets).signers[0], whole(row.octets("of"), forms.certificate)
    signed = signer.signed or []
    found = (
        rules.matches(signer.sid, certificate),
        rules.names(signed, certificate, False),
        rules.names(signed, certificate, True),
    )
    return " ".join(map(yes, found))


def answers(row: Row) -> str:
    """What `match` says."""
    return expected.matched(row.octets("request"), row.octets("response"))[0].strip().replace("refused ", "")


def made(row: Row) -> bytes:
    """The file that a row has, or that is made of its parts."""
    return row.given("file") or row.signer_file(sequence(NAME, der.number(5)), row.octets("algorithm"))


def signer(row: Row) -> str:
    """Whether a signer fits a content."""
    content, of = row.octets("content", b"abc"), row.octets("type", rules.DATA)

    def fitting() -> str:
        rules.fit(read_signed_data(made(row)).signers[0], content, of, rules.weak_unless(row.flag_given("sha1")))
        return "fits"

    return rule_of(fitting)


def file(row: Row) -> str:
    """Whether a file fits a content, and how much of that is left."""
    content = row.given("content")
    line = expected.fits(row.octets("of"), content, row.flag_given("sha1"))[0].strip()
    left = 0 if line.startswith(("fits", "refused signer")) or content is None else len(content)
    return re.sub(r"fits (\d+)", r"\1 fit", line) + f", {left} left"


def token(row: Row) -> str:
    """The moment of a token."""
    trusted, vouched = lists.entries_of(row.lines("trust")), lists.answers_of(row.lines("answers"))
    terms = rules.Terms(trusted, vouched, row.flag_given("sha1"))
    return rule_of(lambda: der.time_text(rules.token_moment(row.octets("of"), row.octets("stamps"), terms)))


def compare(row: Row) -> str:
    """What `compare` says."""
    numbers = int(row.values["by"]), int(row.values["and"])
    line = expected.compared(row.octets("first"), row.octets("second"), signers=numbers)[0].strip()
    return line.capitalize() if line in ("same", "different", "collision") else line


def wrote(row: Row, text: Optional[object], line: str) -> str:
    """What is said of a call that writes this, or of the line of its refusal."""
    if "rooms" in row.values:
        size, rooms = len(text) if isinstance(text, (str, bytes)) else 0, int(row.values["rooms"])
        short = min(size, rooms)
        return f"{short} beginnings, each {line}, 1 failures; {rooms - short} whole"
    return f"{line}, 0 failures, 0 octets" if text is None else "written"


def attach(row: Row) -> str:
    """What `attach` says and writes."""
    line, _, new = expected.attached(row.octets("file"), int(row.values["signer"]), row.octets("token"))
    if new is None:
        return wrote(
            row, None, re.sub("^refused |^malformed (?=M)", lambda m: "" if m[0] == "refused " else "A1 ", line.strip())
        )
    return wrote(row, new, "A6 WriteFailed") if new == row.octets("new") else "other octets"


def questions(row: Row) -> str:
    """What `questions` says."""
    text, status = expected.questions(row.octets("of"), rules.Terms(lists.entries_of(row.lines("trust")), []))
    if status:
        return wrote(row, None, text.strip())
    return wrote(row, text, "failed write -") if text.encode() == row.lines("lines") else "other lines"


def report(row: Row) -> str:
    """What is written of an acceptance."""
    line = row.lines("line").decode()
    if "moment" in row.values:
        return wrote(row, line, "a write failed") if line == f"accepted {row.values['moment']}\n" else "another line"
    return "written"


def trust(row: Row) -> str:
    """The entries of a trust list."""
    entries, fault = lists.trust(row.lines("text"))
    if fault is not None:
        return fault.strip().replace("trust ", "")
    said = "".join(
        f"{e.role} {lists.end_text(e.first)} {lists.end_text(e.last)} {e.certificate.serial.hex()};" for e in entries or []
    )
    return said or "no entry"


def vouches(row: Row) -> str:
    """For which signatures an answers list vouches."""
    vouched, fault = lists.answers(row.lines("text"))
    if fault is not None:
        return fault.strip().replace("answers ", "")
    begin = " ".join(row.blobs[n].hex() for n in QUESTION)
    return " ".join(yes(f"{begin} {s}" in (vouched or [])) for s in row.values["signatures"].split(","))


def rewritten(row: Row) -> str:
    """Whether a trust list is written as this, and that again as it is."""
    text = lists.written(lists.entries_of(row.lines("text")))
    again = lists.written(lists.entries_of(text))
    return f"{yes(text == row.lines('as'))} {yes(again == text)}, {len(text)} octets"


TOLD = (names, answers, signer, file, token, compare, attach, questions, report, trust, vouches, rewritten)
KINDS: dict[str, Callable[[Row], str]] = {told.__name__: told for told in TOLD}
KINDS["made"] = lambda row: yes(made(row) == row.octets("as"))


def is_told(row: Row) -> bool:
    """Whether something is worked out for a row."""
    return row.kind in KINDS and row.values.get("source") != "failing" and row.values.get("asks") != "0"


def main() -> int:
    """Compares all rows."""
    blobs, wrong = blobs_of((FOLDER / "rules.blobs").read_text()), 0
    told: collections.Counter[str] = collections.Counter()
    untold: collections.Counter[str] = collections.Counter()
    for path in sorted(FOLDER.glob("*.rows")):
        for number, line in enumerate(path.read_text().splitlines(), start=1):
            if not line or line.startswith("#"):
                continue
            row = Row(line, blobs)
            (told if is_told(row) else untold)[row.kind] += 1
            said = KINDS[row.kind](row) if is_told(row) else row.wanted
            if said != row.wanted:
                wrong += 1
                print(f"{path.name}:{number}: wants `{row.wanted}`, the rules say `{said}`")
    beside = ", ".join(f"{count} {kind}" for kind, count in sorted(untold.items()))
    print(f"{sum(told.values())} rows told, {wrong} differ; not told: {beside}")
    return 1 if wrong or not told else 0


if __name__ == "__main__":
    sys.exit(main())
