#!/usr/bin/env python3
"""Runs the rows of crates/vectors_run/data/commands and files on the built program, and compares its lines, statuses and files with
what the rows want.

    python3 tools/program_rows.py [--few] [PROGRAM]

PROGRAM is ./cmsproof by default. It prints each row that differs and each that cannot be read, with the number of its line; how many
agree; and how many were not run, mostly because no program can show them, with the reason. The status is 1 if a row differs, if one
cannot be read, if a file has not as many rows as crates/vectors_run/stdout says, or is not named in args there, or if none was run. With
--few the rows `cuts` and `changes`, each of which is hundreds of runs, are left out and counted: for a program that is emulated."""
import collections
import concurrent.futures
import itertools
import os
import pathlib
import re
import subprocess
import sys
import tempfile

from oracle.rows import Bad, Row, blobs_of, number, octets_of

FOLDER = pathlib.Path(__file__).resolve().parent.parent / "crates" / "vectors_run"
AREAS = ("commands", "files")
# the files of rows that vectors_run does not read, and how many rows each has: it may not open its own standard input
ALONE = {"commands/standard_input.rows": "5"}


class Untold(Exception):
    """What no program can show, and why."""


def text_of(value, blobs):
    """The text that a value spells: `,` is a space, `\\n` a line feed, and a word `$name` the digits of these octets."""
    lines = [[octets_of(w, blobs).hex() if w.startswith("$") else w for w in line.split(",")] for line in value.split("\\n")]
    return "\n".join(map(" ".join, lines))


def words_of(value):
    """The words of a value; an empty one has none."""
    return value.split("+") if value else []


class Outcome:
    """What the program printed, and its status."""

    def __init__(self, done):
        outputs = done.stdout.decode(), done.stderr.decode()
        self.status = done.returncode
        self.printed, self.misplaced = outputs if self.status < 3 else reversed(outputs)

    def said(self, printed=None):
        """The status, and this of what was printed; what stands on the other output is said too."""
        printed = self.printed if printed is None else printed
        text = str(self.status) + (" " + printed.replace("\n", "\\n") if printed else "")
        return text + (" and on the other output " + self.misplaced.replace("\n", "\\n") if self.misplaced else "")


class Place:
    """The program, and the folder where a row is answered."""

    def __init__(self, program, folder):
        self.program, self.folder = program, pathlib.Path(folder)

    def put(self, path, octets):
        """Makes a file."""
        (self.folder / path).write_bytes(octets)

    def run(self, words, descriptors=()):
        """The outcome of these words. The standard input is the one that the rows are written for."""
        with open(FOLDER / "stdin", "rb") as given:
            done = subprocess.run(
                [self.program, *words], cwd=self.folder, stdin=given, capture_output=True, pass_fds=descriptors, check=False
            )
        return Outcome(done)


# Rows of the area `commands`: the words of a command line, the files where it runs, and what is then printed and written.


def files_of(row, octets, texts):
    """The files that a row has as `PATH:OCTETS;..` by one name and as `PATH:TEXT;..` by the other."""
    found = []
    for name, read in ((octets, octets_of), (texts, text_of)):
        for part in filter(None, row.values.get(name, "").split(";")):
            path, colon, value = part.partition(":")
            if not colon:
                raise Bad(f"`{part[:40]}` is no file")
            made = read(value, row.blobs)
            found.append((path, made if isinstance(made, bytes) else made.encode()))
    return found


def fill(row, place):
    """Makes the folders and files of a row, and one of zeros, `long=PATH:LENGTH`."""
    for path in filter(None, row.values.get("folders", "").split(";")):
        (place.folder / path).mkdir()
    for path, octets in files_of(row, "files", "texts"):
        place.put(path, octets)
    if "long" in row.values:
        path, _, length = row.values["long"].partition(":")
        place.put(path, b"")
        os.truncate(place.folder / path, number(length))


def state(path, octets):
    """How a file is beside what it should be."""
    if not path.exists():
        return "absent"
    found = path.read_bytes()
    return "as given" if found == octets else found.hex() or "-"


def run(row, place):
    """How words end, what they print, and the files that they make."""
    row.takes("words files texts long folders leaves made wrote has out")
    fill(row, place)
    outcome = place.run(words_of(row.text("words")))
    told = None
    if "has" in row.values and text_of(row.values["has"], row.blobs) in outcome.printed:
        told = "has it"
    elif "has" not in row.values and "out" in row.values and text_of(row.values["out"], row.blobs) == outcome.printed:
        told = "as given"
    made = [f", {path} {state(place.folder / path, octets)}" for path, octets in files_of(row, "made", "wrote")]
    return outcome.said(told) + "".join(made)


def put_trust(row, place):
    """Makes the trust list of a row."""
    place.put("trusted.txt", ("cmsproof trust " + text_of(row.text("trust"), row.blobs)).encode())


def asked_by(place, asking):
    """The lines that these words print; none where they are untold."""
    try:
        return place.run(words_of(asking)).printed.splitlines(keepends=True)
    except Untold:
        return []


def put_answers(row, place, *asking):
    """Makes the answers list of the questions that each of these words print, without those with a silent word."""
    asked = [line for words in asking for line in asked_by(place, words)]
    silent = row.values.get("silent", "")
    lines = [line for line in asked if line.startswith("30") and silent not in line.rstrip("\n").split(" ")]
    place.put("answers.txt", "".join(["cmsproof answers 1\n", *lines]).encode())


def put_lists(row, place):
    """Makes the lists and the content of a row."""
    put_trust(row, place)
    place.put("signed.p7s", row.octets("of" if "of" in row.values else "file"))
    put_answers(row, place, "questions+--trust+trusted.txt+signed.p7s")
    if "content" in row.values:
        place.put("content.txt", row.octets("content"))


def piped(place, words, octets):
    """The outcome of words whose last file is a pipe with these octets."""
    reader, writer = os.pipe()
    try:
        if os.write(writer, octets) != len(octets):
            raise Bad("the pipe takes not all")
        os.close(writer)
        return place.run([*words, f"/proc/self/fd/{reader}"], (reader,))
    finally:
        os.close(reader)


def checked(row, place, octets):
    """The outcome of a check of these octets, or of a question about them, from a file or from a pipe."""
    asks = row.kind == "ask"
    words = words_of("questions+--trust+trusted.txt" if asks else "check+--trust+trusted.txt+--answers+answers.txt")
    words += words_of("--content+content.txt") if "content" in row.values else []
    words += words_of(row.values.get("words", ""))
    if row.flag("piped"):
        return piped(place, words, octets)
    place.put("signed.p7s", octets)
    return place.run([*words, "signed.p7s"])


def check(row, place):
    """What `check` says of a file."""
    row.takes("trust file of silent content words piped")
    put_lists(row, place)
    return checked(row, place, row.octets("file")).said()


def ask(row, place):
    """What `questions` says of a file."""
    row.takes("trust file words piped")
    put_lists(row, place)
    return checked(row, place, row.octets("file")).said()


def stamp(row, place):
    """What `stamp check` says of a stamp over data, or of a path where none are."""
    row.takes("trust stamp data silent words piped")
    put_trust(row, place)
    place.put("stamp", row.octets("stamp"))
    put_answers(row, place, "stamp+questions+--trust+trusted.txt+stamp")
    words = words_of("stamp+check+--trust+trusted.txt+--answers+answers.txt")
    words += [*words_of(row.values.get("words", "")), "stamp"]
    if "data" not in row.values:
        return place.run([*words, "nowhere"]).said()
    if row.flag("piped"):
        return piped(place, words, row.octets("data")).said()
    place.put("data", row.octets("data"))
    return place.run([*words, "data"]).said()


def evidence(row, place):
    """What `evidence check` says of a record over its data."""
    row.takes("trust record data silent words")
    put_trust(row, place)
    place.put("record.er", row.octets("record"))
    put_answers(row, place, "evidence+questions+--trust+trusted.txt+record.er")
    words = words_of("evidence+check+--trust+trusted.txt+--answers+answers.txt")
    words += [*words_of(row.values.get("words", "")), "record.er"]
    for index, part in enumerate(row.text("data").split(";")):
        place.put(f"data-{index}", octets_of(part, row.blobs))
        words.append(f"data-{index}")
    return place.run(words).said()


def under(row, place):
    """What `check --evidence` says of a file beside a record."""
    row.takes("trust file content record silent words")
    put_trust(row, place)
    place.put("record.er", row.octets("record"))
    place.put("signed.p7s", row.octets("file"))
    put_answers(row, place, "evidence+questions+--trust+trusted.txt+record.er", "questions+--trust+trusted.txt+signed.p7s")
    words = words_of("check+--trust+trusted.txt+--answers+answers.txt+--evidence+record.er")
    if "content" in row.values:
        place.put("content.txt", row.octets("content"))
        words += words_of("--content+content.txt")
    return place.run([*words, *words_of(row.values.get("words", "")), "signed.p7s"]).said()


def cuts(row, place):
    """What `check` says of a file that is cut, at each of some places, if it is the same."""
    row.takes("trust file from to words")
    put_lists(row, place)
    octets, first, end = row.octets("file"), number(row.text("from")), number(row.text("to"))
    if end > len(octets):
        raise Bad("a cut behind the end")
    said = [checked(row, place, octets[:length]).said() for length in range(first, end)]
    differing = [at for at, line in enumerate(said, first) if line != said[0]]
    return f"at {differing[0]} {said[differing[0] - first]}" if differing else f"{len(said)} times {said[0]}"


def lengths(row, place):
    """How many octets a digest by an algorithm may have, of all numbers up to 65."""
    row.takes("alg")
    allowed = []
    for length in range(66):
        outcome = place.run(["request", "--alg", row.text("alg"), "--digest", "00" * length, "made.tsq"])
        if outcome.status == 0:
            allowed.append(str(length))
        elif outcome.said() != "3 usage digest\\n":
            return f"another fault than that of the digest: {outcome.said()}"
    return " ".join(allowed)


# Rows of the area `files`: what calls of the library say of a file. The program makes some of them, each with its words.


def call_words(call, row, octets):
    """The words of the command that makes a call: `check` and `stream/N`, whose buffer is as long as the file or `room`, `fits`,
    `questions` and `show`."""
    name = call.partition("/")[0]
    content = ["--content", "content.txt"] if "content" in row.values else []
    sha1 = ["--sha1"] if row.flag("sha1") else []
    lists = ["--trust", "trusted.txt"]
    if name in ("check", "stream"):
        room = max(1, number(row.values.get("room", str(len(octets)))))
        buffer = ["--buffer", str(room)] if name == "stream" else []
        return ["check", *lists, "--answers", "answers.txt", *content, *sha1, *buffer, "signed.p7s"]
    if name in ("fits", "questions", "show"):
        return {"fits": ["fit", *content, *sha1], "questions": ["questions", *lists], "show": ["show", "signed"]}[name] + [
            "signed.p7s"
        ]
    raise Untold(f"no command makes the call `{name}` alone")


STATUSES = {"accepted": 0, "fits": 0, "refused": 1, "malformed": 2, "failed": 4}


def call_line(call, outcome):
    """The line of a call, as the library has it, of what a command says."""
    line, name = outcome.printed, call.partition("/")[0]
    if outcome.misplaced or (line and not line.endswith("\n")):
        return outcome.said()
    if outcome.status == 0 and name in ("show", "questions"):
        return "shown" if name == "show" else f"written {len(line)} octets"
    if name == "show" and outcome.said() == "1 refused NotSignedData\\n":
        return "not a SignedData"
    told = line.count("\n") == 1 and STATUSES.get(line.split(" ")[0]) == outcome.status
    return line[:-1] if told else outcome.said()


def put_terms(row, place):
    """Makes the trust list, the answers list and the content of a row."""

    def lines(name, default):
        return row.octets(name, default).decode().splitlines()

    trust = [text_of(line, row.blobs) for line in row.values.get("trust", "").split(";")]
    place.put(
        "trusted.txt", "".join(f"{line}\n" for line in [f"cmsproof trust {row.values.get('version', '1')}", *trust]).encode()
    )
    missing = lines("missing", b"")
    vouched = [line for line in lines("vouched", row.blobs["asked_every"]) if line not in missing]
    place.put("answers.txt", "".join(f"{line}\n" for line in ["cmsproof answers 1", *vouched]).encode())
    if "content" in row.values:
        place.put("content.txt", row.octets("content"))


def runs_of(lines):
    """Lines, each with how often it follows itself."""
    return [(len(list(same)), line) for line, same in itertools.groupby(lines)]


def counted(lines):
    """The lines with their counts, `4 one, 1 other`."""
    return ", ".join(f"{count} {line}" for count, line in runs_of(lines))


def said_by_calls(row, place, octets):
    """What the calls of a row say of octets: once if all say the same. Of changes, a fault of form is ` M` alone."""
    calls = row.values.get("by", "check,check/1,stream/1,stream/2,stream/3,stream/7").split(",")
    commands = {call: tuple(call_words(call, row, octets)) for call in calls}
    place.put("signed.p7s", octets)
    outcomes = {words: place.run(words) for words in set(commands.values())}
    lines = [call_line(call, outcomes[commands[call]]) for call in calls]
    if row.kind == "changes":
        lines = [line.split(" M")[0] + (" M" if " M" in line else "") for line in lines]
    return lines[0] if len(runs_of(lines)) == 1 else counted(lines)


def of_file(row, place):
    """What calls say of a file, of its beginnings, or of it with one octet changed."""
    row.takes("of by room places trust version vouched missing sha1 expecting content lines fails calls")
    if "fails" in row.values:
        raise Untold("a device or a verifier fails")
    put_terms(row, place)
    octets = row.octets("of")
    if row.kind == "check":
        return said_by_calls(row, place, octets)
    if row.kind == "cuts":
        return counted(said_by_calls(row, place, octets[:length]) for length in range(len(octets)))
    first, _, end = row.values.get("places", f"0..{len(octets)}").partition("..")
    changed = (
        octets[:at] + bytes([octets[at] ^ mask]) + octets[at + 1 :]
        for at in range(number(first), number(end))
        for mask in (0x01, 0x80, 0xFF)
    )
    return counted(sorted(said_by_calls(row, place, other) for other in changed))


def untold(why):
    """A kind of row that no program can show."""

    def tell(_row, _place):
        raise Untold(why)

    return tell


KINDS = {
    "commands": {
        **{"run": run, "check": check, "ask": ask, "stamp": stamp, "evidence": evidence, "under": under, "cuts": cuts, "lengths": lengths},
        "task": untold("the task that words ask for is not printed"),
    },
    "files": {
        **dict.fromkeys(("check", "cuts", "changes"), of_file),
        "found": untold("no command makes the call `found` alone"),
        "written": untold("a device fails in the middle of what is written"),
    },
}
# what the library's calls say and the program does not: how much of a content is left, and whether other questions were asked
BESIDE = re.compile(", (?:[0-9]+ left|no other asked|others asked)$")


def told(program, area, line, blobs, few=False, place=Place):
    """Whether a row `agrees`, is `untold` or `differs`, and what is to be said of it."""
    try:
        row = Row(line, blobs)
        if row.kind not in KINDS[area]:
            raise Bad("a kind of row that is not known")
        if few and row.kind in ("cuts", "changes"):
            raise Untold("left out by --few")
        with tempfile.TemporaryDirectory() as folder:
            said = KINDS[area][row.kind](row, place(program, folder))
    except Untold as why:
        return "untold", str(why)
    except (Bad, ValueError, OSError) as bad:
        return "differs", f"bad row: {bad}"
    wanted = BESIDE.sub("", row.wanted) if area == "files" else row.wanted
    said = " ".join(said.splitlines())
    return ("agrees", "") if said == wanted else ("differs", f"wants `{wanted}`, the program says `{said}`")


def rows_of(folder):
    """The rows of the files of both areas, as (area, name of the file, number of the line, line, octet strings), and the faults of
    the files."""
    counts = dict(re.findall(r"^(\S+): ([0-9]+) of \2 rows agree$", (folder / "stdout").read_text(), re.M))
    alone = {name: count for name, count in ALONE.items() if folder == FOLDER}
    counts.update(alone)
    names, there = [*(folder / "args").read_text().split(), *alone], (folder / "data").rglob("*")
    left = sorted({path.relative_to(folder / "data").as_posix() for path in there if not path.is_dir()} - set(names))
    faults = [f"{name}: crates/vectors_run/args does not name it, so none of its rows is run" for name in left]
    found, blobs = [], {}
    for name in names:
        area, text = name.partition("/")[0], (folder / "data" / name).read_text()
        if area not in AREAS:
            continue
        if name.endswith(".blobs"):
            blobs[area] = blobs_of(text, blobs.get(area))
            continue
        lines = [(at, line) for at, line in enumerate(text.splitlines(), 1) if line and not line.startswith("#")]
        if counts.get(name) != str(len(lines)):
            faults.append(f"{name}: {len(lines)} rows, and {counts.get(name, 'none')} in crates/vectors_run/stdout")
        found += [(area, name, at, line, blobs.get(area, {})) for at, line in lines]
    return found, faults


def judged(program, folder, few=False, place=Place):
    """Runs all rows, side by side, by a program or what is in its place; what they came to by its word, the reasons of those that no program can show, and the faults."""
    rows, faults = rows_of(folder)
    with concurrent.futures.ThreadPoolExecutor(len(os.sched_getaffinity(0))) as pool:
        results = pool.map(lambda row: told(program, row[0], row[3], row[4], few, place), rows)
        counts, reasons = collections.Counter(), collections.Counter()
        for (_, name, at, _, _), (word, why) in zip(rows, results):
            counts[word] += 1
            if word == "untold":
                reasons[why] += 1
            elif word == "differs":
                faults.append(f"crates/vectors_run/data/{name}:{at}: {why}")
    return counts, reasons, faults


def main(words, folder=FOLDER):
    """Judges the rows of a folder with a program, and answers the exit status."""
    if None in (sys.stdin, sys.stdout, sys.stderr):
        return 1  # a pipe to the program would get the number of what is closed
    few, names = "--few" in words, [word for word in words if word != "--few"]
    program = str(pathlib.Path(names[0] if names else "cmsproof").resolve())
    try:
        counts, reasons, faults = judged(program, folder, few)
    except (Bad, OSError, ValueError) as bad:
        print(f"program_rows: {bad}")
        return 1
    for fault in faults:
        print(fault)
    print(f"program_rows: {counts['agrees']} rows agree, {counts['differs']} differ; {counts['untold']} were not run:")
    for why, count in sorted(reasons.items()):
        print(f"    {count}: {why}")
    return 1 if faults or counts["differs"] or not counts["agrees"] else 0


if __name__ == "__main__":
    sys.exit(main(sys.argv[1:]))
