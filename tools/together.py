"""Tries edits of a crate together: those that change the bodies of different functions, in one check.

A function is proved against the contracts of what it calls, never against their bodies. So where the bodies of several
functions are changed, each of them is refused or proved as if it alone were. A check of many costs little more than a check of
one, most of which goes into reading the libraries.

An edit counts as refused here if the check names a goal inside its function that is open, or an answer of that function that
no longer proves its goal. All else is no result, and such an edit is to be tried alone: one that changes a definition, a
contract or a constant; one whose function the check names only for a name that is gone, or because something that it calls is
not proved. A check that complains of anything beside the functions that were changed gives no result at all.
"""

import collections
import concurrent.futures
import os
import pathlib
import re
import shutil
import tempfile

import changes
import kept_sums
from timed_runs import run

# How many edits a check has at most: a check that gives no result costs no more than these.
MOST = 16
HEADER = re.compile(r"( *)(?:pub(?:\([^)]*\))? )?(?:unsafe )?(?:extern \"C\" )?fn (\w+)")
BLOCK = re.compile(r"(?:unsafe )?impl\s+(?:(?:\w+::)*(\w+)\s+for\s+)?(?:\w+::)*(\w+)")
OPEN_GOAL = re.compile(r"(?:note: )?(?:\./)?(src/\S+?):(\d+):\d+: it is not proved that ")
LOST_PROOF = re.compile(r"(?:\./)?proofs/(\S+)/[^/\s]+\.antt:\d+:\d+: error: (.*)")
# by what an edit is refused
GOAL, ANSWER = "by an open goal", "only since an answer by hand no longer has its goal's type"
NAME_GONE = re.compile(r"has no field|is not in scope|has no `|was not admitted")
# A line that places something in a file. What else the check says tells of no refusal.
PLACED = re.compile(r"(?:\./)?\S+:\d+:\d+: error|.*\berror\[[\w-]+\]|note: (?:\./)?src/\S+:\d+:\d+: ")
# What the kept work of a library that can't be used says, in the words by which `rt must-fail` knows that nothing was tried.
STALE = re.compile(r"module .Rattle-\w+-.*Run the lower steps again")

Function = collections.namedtuple("Function", "path folder first body last")


def block_above(lines, number, indent):
    """The name that proofs have for the `impl` block around a line: the type's and the trait's, or the empty text."""
    for line in reversed(lines[:number]):
        if line.strip() and len(line) - len(line.lstrip()) < indent:
            while re.search(r"<[^<>]*>", line):
                line = re.sub(r"<[^<>]*>", "", line)
            found = BLOCK.match(line.strip())
            return f"{found.group(2)}{found.group(1) or ''}" if found else None
    return ""


def body_of(lines, number, indent):
    """The lines at which the body of a function begins and ends, counted from 0, or None if it has none of its own lines."""
    for at in range(number, len(lines)):
        line = lines[at]
        if at > number and (line.endswith(";") or HEADER.match(line)):
            return None
        own = len(line) - len(line.lstrip()) == indent
        if own and line.endswith("{"):
            ends = [end for end in range(at + 1, len(lines)) if lines[end] == " " * indent + "}"]
            return (at, ends[0]) if ends else None
        if at == number and line.endswith("}"):
            return None
    return None


def functions_of(path, text):
    """The functions of a text of code as `rt fmt` writes it, each with the folder of its proofs and its lines from 0: the first, with what
    is said in `#[..]` of it, the one that begins its body, and the last."""
    lines, module = text.split("\n"), path[len("src/") : -len(".rt")]
    found = []
    for number, line in enumerate(lines):
        header = HEADER.match(line)
        block = header and block_above(lines, number, len(header.group(1)))
        body = header and block is not None and body_of(lines, number, len(header.group(1)))
        if body:
            first = number
            while lines[first - 1].strip().startswith("#["):
                first -= 1
            parts = [module] * (module != "lib") + [block] * bool(block) + [header.group(2)]
            found.append(Function(path, "/".join(parts), first, *body))
    return found


def pairs_of(text):
    """What an edit puts in the place of what, in which file: paths, old and new texts."""
    path, old, pairs = "", "", []
    for line in text.split("\n"):
        if line.startswith("file: "):
            path = line[len("file: ") :].strip()
        elif line.startswith("old: "):
            old = line[len("old: ") :]
        elif line.startswith("new:"):
            pairs.append((path, old, re.sub(r"\A ", "", line[len("new:") :])))
            old = ""  # (a second new text for it is none)
    return pairs


def edited(edit, texts):
    """The texts that an edit by itself makes of some files, given all by their paths, as `rt` applies it; None, if it can't be applied."""
    made = {}
    for path, old, new in pairs_of(edit):
        text = made.get(path, texts.get(path, ""))
        if not old or text.count(old) != 1:
            return None
        made[path] = text.replace(old, new)
    return made


def opens_alike(old, new):
    """Whether a new text opens what the old one does, so that what it opens or ends is opened or ended by no other edit."""
    texts = (old, new)
    depths, quotes = {it.count("{") - it.count("}") for it in texts}, {it.count('"') % 2 for it in texts}
    return len(depths) == len(quotes) == 1 and not any(mark in it for it in texts for mark in ("/*", "*/"))


def changed_by(edit, texts):
    """The functions whose bodies an edit changes, and nothing else; none, if it changes anything else or can't be applied."""
    functions = set()
    if edited(edit, texts) is None:
        return frozenset()
    for path, old, new in pairs_of(edit):
        text = texts.get(path, "")
        if text.count(old) != 1 or re.search(r"\bfn\b", old + new) or not opens_alike(old, new):
            return frozenset()
        number = text[: text.index(old)].count("\n")
        inside = [it for it in functions_of(path, text) if it.body < number < it.last]
        if len(inside) != 1:
            return frozenset()
        functions.update(inside)
    return frozenset(functions)


def in_batches(changed):
    """Edits in batches, no two of one batch in the same function, given the functions of each edit by its name."""
    batches = []
    for name in sorted(changed, key=lambda it: (-len(changed[it]), it)):
        fitting = [it for it in batches if len(it) < MOST and not any(changed[name] & changed[other] for other in it)]
        if fitting:
            min(fitting, key=len).append(name)
        else:
            batches.append([name])
    return batches


def refused_by(told, functions):
    """The functions of some that a check's lines refuse, and by what, or None if they say anything of others, or are no such lines."""
    lines = told.split("\n")
    if STALE.search(told) or not any(line.startswith("logic=not-proved") for line in lines):
        return None
    refused = {}
    for line in lines:
        goal, proof = OPEN_GOAL.match(line), LOST_PROOF.match(line)
        if goal:
            at = int(goal.group(2)) - 1
            met = [it for it in functions if it.path == goal.group(1) and it.first <= at <= it.last]
        elif proof:
            met = [it for it in functions if it.folder == proof.group(1)]
        elif PLACED.match(line):
            return None
        else:
            continue
        if len(met) != 1:
            return None
        if goal or not NAME_GONE.search(proof.group(2)):
            refused[met[0]] = GOAL if goal else refused.get(met[0], ANSWER)
    return refused


def link(one, other):
    """Gives a file a second place. A check replaces what is proved, and changes none; the rest is copied."""
    if one.endswith(".oantt") or "/out/rlib/" in one:
        try:
            return os.link(one, other)
        except OSError:
            pass
    return shutil.copy2(one, other)


def texts_of(top, crate):
    """The code of a crate, by the paths of its files."""
    place = top / "crates" / crate
    return {it.relative_to(place).as_posix(): it.read_text() for it in (place / "src").rglob("*.rt")}


def room_of(copy, crates, crate, folder):
    """A copy of a crate and of what stands below it, with what is proved of them."""
    room = pathlib.Path(folder)
    for name in [crate, *changes.below(crates, crate)]:
        shutil.copytree(copy / "crates" / name, room / "crates" / name, copy_function=link)
    shutil.copy(copy / "HANDLES", room)
    # it may name no crate that isn't there
    lines = (copy / changes.LISTING).read_text().split("\n")
    kept = [line for line in lines if any((room / "crates" / name).is_dir() for name in changes.lines_of(line))]
    (room / changes.LISTING).write_text("".join(f"{line}\n" for line in kept))
    return room


def check(copy, crates, crate, edits, until):
    """What a check says of a crate with edits, given their texts: each is applied to the crate as it stands, and the lines that it
    changes are put into one copy. So none changes what another put there, or is applied only because another was."""
    with tempfile.TemporaryDirectory(prefix="together-") as folder:
        room = room_of(copy, crates, crate, folder)
        texts = texts_of(room, crate)
        lines = {path: text.split("\n") for path, text in texts.items()}
        for path, text in [made for edit in edits for made in edited(edit, texts).items()]:
            for number, (was, now) in enumerate(zip(texts[path].split("\n"), text.split("\n"))):
                lines[path][number] = lines[path][number] if now == was else now
        for path, text in texts.items():
            if "\n".join(lines[path]) != text:
                (room / "crates" / crate / path).write_text("\n".join(lines[path]))
        return run([*kept_sums.rt(), "check", "--jobs", "1"], room / "crates" / crate, 1, until)


def try_batch(copy, crates, crate, batch, until):
    """The edits of a batch that are refused, and by what, given the text and the functions of each by its name. Where the check gives no
    result, each half is tried by itself."""
    status, told = check(copy, crates, crate, [text for text, _ in batch.values()], until)
    functions = {it for _, changed in batch.values() for it in changed}
    refused = refused_by(told, functions) if status == 1 else None
    if refused is not None:
        reasons = {name: {refused[it] for it in changed if it in refused} for name, (_, changed) in batch.items()}
        found = {name: GOAL if GOAL in by else ANSWER for name, by in reasons.items() if by}
        # at once, so that a run that is ended has told what it found
        print(f"soak: {crate}: {len(found)} of {len(batch)} refused in one check:", *sorted(it.stem for it in found), flush=True)
        return found
    names = sorted(batch)
    if status is None or len(names) < 2:
        return {}
    halves = [names[: len(names) // 2], names[len(names) // 2 :]]
    return joined(try_batch(copy, crates, crate, {it: batch[it] for it in half}, until) for half in halves)


def joined(parts):
    """What stands in any of these."""
    return {name: it for part in parts for name, it in part.items()}


def refused_together(copy, crates, crate, edits, jobs, until):
    """The edits of a crate of a copy, paths of files, that checks of several refuse, with by what, and how many checks were begun for it.
    The crate must be proved as it stands. What is not refused in one round is tried with fewer others in the next."""
    texts = texts_of(copy, crate)
    told = {edit: edit.read_text(errors="replace") for edit in edits}
    changed = {edit: changed_by(text, texts) for edit, text in told.items()}
    changed = {edit: functions for edit, functions in changed.items() if functions}
    refused, rounds = {}, 0
    while len(changed) > 1:
        batches = [{it: (told[it], changed[it]) for it in batch} for batch in in_batches(changed)]
        rounds += len(batches)
        with concurrent.futures.ThreadPoolExecutor(jobs) as pool:
            found = joined(pool.map(lambda batch: try_batch(copy, crates, crate, batch, until), batches))
        refused |= found
        changed = {edit: functions for edit, functions in changed.items() if edit not in found}
        if not found:
            break
    return refused, rounds
