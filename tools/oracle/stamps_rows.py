#!/usr/bin/env python3
"""stamps_rows.py: compares what the rows about stamps in crates/vectors_run/data/commands, of stamps.rows and standard_input.rows, want
with what lists.py and expected.py work out, apart from the program and from the judges of the rows, and prints those that differ. Not
told by it: lists of files.

    python3 tools/oracle/stamps_rows.py
"""
from __future__ import annotations

import sys
from pathlib import Path
from typing import Callable, Optional

TOOLS = Path(__file__).resolve().parent.parent
sys.path.insert(0, str(TOOLS))
from oracle import expected, lists, rows, rules  # noqa: E402
from oracle.expected import Said, Unread  # noqa: E402
from oracle.rows import blobs_of, octets_of  # noqa: E402

CRATE = TOOLS.parent / "crates" / "vectors_run"
FOLDER = CRATE / "data" / "commands"
BLOBS, ROWS = ("commands.blobs", "stamps.blobs"), ("stamps.rows", "standard_input.rows")


class Place:
    """The folder of a row: its files, folders, and files that are too long to be read whole."""

    def __init__(self) -> None:
        self.files: dict[str, bytes] = {"-": (CRATE / "stdin").read_bytes()}
        self.folders: set[str] = set()
        self.long: set[str] = set()

    def opened(self, name: str) -> None:
        """Raises `Unread` where there is nothing of this name."""
        if name not in self.files and name not in self.folders and name not in self.long:
            raise Unread(f"failed open {name}")

    def whole(self, name: str) -> bytes:
        """What is read of a file at once."""
        self.opened(name)
        if name in self.folders:
            raise Unread(f"failed read {name}")
        if name in self.long:
            raise Unread(f"failed size {name}")
        return self.files[name]

    def pieces(self, name: str) -> bytes:
        """What is read of a file in pieces."""
        self.opened(name)
        if name not in self.files:
            raise Unread("failed X1 ReadFailed")
        return self.files[name]


class Words:
    """The words behind `stamp check` and `stamp questions`: the values of options, those that stand alone, and the files."""

    def __init__(self, words: list[str]) -> None:
        self.values: dict[str, str] = {}
        self.flags: set[str] = set()
        self.files: list[str] = []
        rest = list(words)
        while rest:
            word = rest.pop(0)
            if word in ("--trust", "--answers", "--files-from"):
                self.values[word] = rest.pop(0)
            elif word in ("--sha1", "-0"):
                self.flags.add(word)
            else:
                self.files.append(word)


def text_of(value: str, blobs: dict[str, bytes]) -> str:
    """The text that a value spells: `,` is a space, `\\n` a line feed, and a word `$name` the digits of these octets."""
    texts = [[octets_of(w, blobs).hex() if w.startswith("$") else w for w in line.split(",")] for line in value.split("\\n")]
    return "\n".join(map(" ".join, texts))


def text_octets(value: str, blobs: dict[str, bytes]) -> bytes:
    """The octets of that text."""
    return text_of(value, blobs).encode()


READERS: list[tuple[str, Callable[[str, dict[str, bytes]], bytes]]] = [("files", octets_of), ("texts", text_octets)]


def trusted(place: Place, name: str) -> list[lists.Entry]:
    """The entries of the trust list of this name; a fault of it is an `Unread`."""
    entries, fault = lists.trust(place.whole(name))
    if entries is None:
        raise Unread((fault or "").strip())
    return entries


def checked(place: Place, words: Words) -> Said:
    """What `stamp check` says: of trust, answers, STAMP and DATA, in this order."""
    stamp, data = words.files
    try:
        entries = trusted(place, words.values["--trust"])
        vouched, fault = lists.answers(place.whole(words.values["--answers"]))
        if vouched is None:
            raise Unread((fault or "").strip())
        octets = place.whole(stamp)
    except Unread as failure:
        return f"{failure}\n", 4 if str(failure).startswith("failed") else 2
    terms = rules.Terms(entries, vouched, "--sha1" in words.flags)
    return expected.stamp_check(octets, lambda: place.pieces(data), terms)


def asked_of(place: Place, name: str, terms: rules.Terms) -> Said:
    """What `stamp questions` says of one file."""
    try:
        return expected.stamp_questions(place.whole(name), terms)
    except Unread as failure:
        return f"{failure}\n", 4


def asked(place: Place, words: Words) -> tuple[str, int, bool]:
    """What `stamp questions` says of one file or of several, and whether a failure stands in a text of several."""
    try:
        terms = rules.Terms(trusted(place, words.values["--trust"]), [])
    except Unread as failure:
        return f"{failure}\n", 4 if str(failure).startswith("failed") else 2, False
    if len(words.files) == 1:
        return (*asked_of(place, words.files[0], terms), False)
    text, worst = "cmsproof questions 1\n", 0
    for name in words.files:
        line, status = asked_of(place, name, terms)
        text += f"# {name}\n" + line.partition("\n")[2] if status == 0 else f"# {name}: {line}"
        worst = max(worst, status)
    return text, worst, worst == 4


def is_doubled(words: Words) -> bool:
    """Whether standard input is named twice."""
    return [*words.values.values(), *words.files].count("-") > 1


def ran(row: rows.Row) -> Optional[str]:
    """What a command line about a stamp says, None where it is not told here."""
    group, *words = row.text("words").split("+")
    if group != "stamp":
        return None
    row.takes("words files texts long folders out")
    place, given = Place(), Words(words[1:])
    for name, read in READERS:
        for part in filter(None, row.values.get(name, "").split(";")):
            path, _, value = part.partition(":")
            place.files[path] = read(value, row.blobs)
    place.folders = set(filter(None, row.values.get("folders", "").split(";")))
    place.long = {part.partition(":")[0] for part in filter(None, row.values.get("long", "").split(";"))}
    if is_doubled(given):
        return "3 usage -\\n"
    if "--files-from" in given.values:
        return None
    text, status, misplaced = (*checked(place, given), False) if words[0] == "check" else asked(place, given)
    if "out" in row.values and text == text_of(row.values["out"], row.blobs):
        return f"{status} as given"
    return f"{status}{' and on the other output' * misplaced} " + text.replace("\n", "\\n")


def stamped(row: rows.Row) -> str:
    """What `stamp check` says of a token or a response, with the answers to all questions without the word `silent`."""
    row.takes("trust stamp data silent words piped")
    trust = lists.entries_of(("cmsproof trust " + text_of(row.text("trust"), row.blobs)).encode())
    octets, data = row.octets("stamp"), row.given("data")

    def read() -> bytes:
        if data is None:
            raise Unread("failed open nowhere")
        return data

    lines, status = expected.stamp_questions(octets, rules.Terms(trust, []))
    silent = row.values.get("silent", "")
    vouched = [line for line in lines.splitlines()[1:] if status == 0 and silent not in line.split(" ")]
    terms = rules.Terms(trust, vouched, row.values.get("words") == "--sha1")
    line, status = expected.stamp_check(octets, read, terms)
    return f"{status} " + line.replace("\n", "\\n")


def main() -> int:
    """Compares all rows."""
    blobs: dict[str, bytes] = {}
    for name in BLOBS:
        blobs = blobs_of((FOLDER / name).read_text(), blobs)
    told, untold, wrong = 0, 0, 0
    for name in ROWS:
        for number, line in enumerate((FOLDER / name).read_text().splitlines(), start=1):
            if not line or line.startswith("#"):
                continue
            row = rows.Row(line, blobs)
            said = stamped(row) if row.kind == "stamp" else ran(row)
            told, untold = told + (said is not None), untold + (said is None)
            if said is not None and said != row.wanted:
                wrong += 1
                print(f"{name}:{number}: wants `{row.wanted}`, the rules say `{said}`")
    print(f"{told} rows told, {wrong} differ; not told: {untold}")
    return 1 if wrong or not told else 0


if __name__ == "__main__":
    sys.exit(main())
