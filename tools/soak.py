#!/usr/bin/env python3
"""Tries the edits of crates: wrong bodies that the check must refuse, those of must-fail/ and those of more-edits/.

    soak.py [CRATE ..]               all edits of these crates, or of all crates; a line in the file `soaked` for each crate
                                     of which all were refused, if what was tried is what HEAD has
    soak.py --changed --minutes N    those of crates in which something changed since their commit in `soaked`, as long as
                                     the time allows; it writes nothing

Each line of `soaked` is a crate and the commit at which all its edits were last tried and refused. A copy of the
repository is tried, which is removed again; edits of different functions are tried in one check (`together.py`) as far as that
tells, the others one by one (`rt must-fail`). The status is 1 if an edit isn't refused or can't be tried, if a crate isn't
proved as it stands, or if a line of `soaked` can't be read; edits that are owed because the time is over are named. So are those
that are refused only since an answer by hand no longer has its goal's type: that shows little of a contract, and fails nothing.
"""

import argparse
import collections
import contextlib
import os
import pathlib
import re
import shutil
import signal
import sys
import tempfile
import time

import changes
import kept_sums
import together
from timed_runs import end_all, run

LINE = re.compile(r"(\S+) ([0-9a-f]{40}|[0-9a-f]{64})")
REFUSED, FAILED, LATE = "refused", "failed", "late"
# by what else an edit is refused, beside GOAL and ANSWER of together.py
LITTLE = "for a name that is gone or by a limit"
KEPT_ALONE = "only the edits that the gate keeps are tried"
SHOWN = 3
# how `rt` wants an edit to be named, and what may lie beside them to be read
NAMED = re.compile(r"[A-Za-z0-9_-][A-Za-z0-9_.-]*\.edit|.*\.md")


def say(*words):
    """Prints a line at once."""
    print("soak:", *words, flush=True)


def edits_of(top, crate):
    """The edits of a crate, those of the gate first."""
    return [edit for folder in changes.EDITS for edit in sorted((top / "crates" / crate / folder).glob("*.edit"))]


def misnamed(top, crate):
    """What lies among the edits of a crate, and by its name is none: `rt must-fail` calls it bad, and no other check would try it."""
    there = [it for folder in changes.EDITS for it in sorted((top / "crates" / crate / folder).glob("*"))]
    return [it.name for it in there if it.is_dir() or not NAMED.fullmatch(it.name)]


def read_soaked(text, crates):
    """The commit of each crate in a text of `soaked`, and what is wrong with its lines."""
    commits, faults = {}, []
    for number, line in enumerate(text.split("\n"), 1):
        found = LINE.fullmatch(line)
        name = line.split(" ")[0]
        if not line:
            continue
        if name not in crates:
            faults.append(f"soaked, line {number}: crates.txt has no such crate")
        elif not found:
            faults.append(f"soaked, line {number}: it is not a crate and the whole name of a commit")
        elif name in commits:
            faults.append(f"soaked, line {number}: {name} has a line already")
        else:
            commits[name] = found.group(2)
    return commits, faults


def write_line(top, crate, commit):
    """Puts the line of a crate into `soaked`, which is written beside and renamed: a run that is killed loses no line."""
    place, beside = top / "soaked", top / "soaked.new"
    lines = place.read_text().split("\n") if place.exists() else []
    lines = [line for line in lines if line and line.split(" ")[0] != crate]
    with open(beside, "w") as written:
        written.write("\n".join(sorted([*lines, f"{crate} {commit}"])) + "\n")
        written.flush()
        os.fsync(written.fileno())
    os.replace(beside, place)


@contextlib.contextmanager
def copy_of(top):
    """A copy of what is proved, in a folder of its own that is removed again. Its edits are still apart. What is kept of proofs has
    a second name there, since it can take ten gigabytes."""
    with tempfile.TemporaryDirectory(prefix="soak-") as folder:
        copy = pathlib.Path(folder)
        shutil.copytree(top / "crates", copy / "crates", symlinks=True, copy_function=together.link)
        for name in (changes.LISTING, "HANDLES"):
            shutil.copy(top / name, copy)
        yield copy


def join_edits(copy):
    """Moves the further edits of a copy's crates to those of the gate; where two have one name, it gives another."""
    for crate in sorted((copy / "crates").iterdir()):
        must_fail = crate / "must-fail"
        for edit in sorted(crate.glob("more-edits/*")):
            must_fail.mkdir(exist_ok=True)
            place = must_fail / edit.name
            while os.path.lexists(place):
                place = must_fail / f"more-{place.name}"
            edit.rename(place)


def reason_of(copy, crates, crate, edit, said, until):
    """By what an edit is refused that was tried alone, given what is said of it first. Where that is of an answer by hand, a goal may
    be open behind it."""
    if said.startswith(" ("):
        return LITTLE
    if not re.match(r": (\./)?proofs/", said):
        return together.GOAL
    lines = together.check(copy, crates, crate, [edit.read_text(errors="replace")], until)[1].split("\n")
    return together.GOAL if any(together.OPEN_GOAL.match(line) for line in lines) else together.ANSWER


def tell_reasons(name, reasons):
    """Says how many edits were refused by what, given what each was."""
    counts = collections.Counter(reasons)
    say(f"{name}: refused " + ", ".join(f"{counts[by]} {by}" for by in (together.GOAL, together.ANSWER, LITTLE)))


def try_alone(copy, crates, crate, edits, jobs, until):
    """What tries of edits of a crate, one after the other, come to: by what each is refused, False if not all are, None if the time is
    over. What they say beside that is printed."""
    aside = copy / "crates" / crate / "tried-edits"
    aside.mkdir(exist_ok=True)
    for edit in edits_of(copy, crate):
        if edit not in edits:
            edit.rename(aside / edit.name)
    status, told = run([*kept_sums.rt(), "must-fail", crate], copy, jobs, until)
    if status is None:
        return None
    lines = re.findall(rf"^.*must-fail {re.escape(crate)}/(\S+): refused, as it must be(.*)$", told, re.M)
    if status == 0 and len(lines) == len(edits):
        said = dict(lines)
        reasons = {it: reason_of(copy, crates, crate, it, said[it.name], until) for it in edits}
        shallow = [it.name for it, by in reasons.items() if by == LITTLE]
        for name in shallow:
            print(f"rt: must-fail {crate}/{name}: refused, as it must be{said[name]}", flush=True)
        if shallow:
            say(f"{crate}: {len(shallow)} of these edits show little or nothing of a contract, as told above: choose others")
        return reasons
    print(told.rstrip("\n"), flush=True)
    return False


def try_crate(copy, crates, crate, jobs, until, reasons):
    """Whether all edits of a crate of a copy are refused: many in one check, as far as that tells, the others alone. By what each is, is
    added to the reasons."""
    edits, begun = edits_of(copy, crate), time.monotonic()
    hidden = misnamed(copy, crate)
    if hidden:
        say(f"{crate}: {listed(hidden)} lies among the edits, and by its name is none, so that it would not be tried: rename it")
        return FAILED
    # a crate that isn't proved as it stands would refuse every edit
    status, told = run([*kept_sums.rt(), "check", "--jobs", str(jobs)], copy / "crates" / crate, jobs, until)
    if status:
        print(told.rstrip("\n"), flush=True)
    if status == 0:
        refused, checks = together.refused_together(copy, crates, crate, edits, jobs, until)
        left = [edit for edit in edits if edit not in refused]
        well = try_alone(copy, crates, crate, left, jobs, until) if left else {}
        status = None if well is None else 1 if well is False else 0
        taken = f"in {(time.monotonic() - begun) / 60:.1f} minutes"
        if status == 0:
            say(
                f"{crate}: {len(edits)} edits refused, {len(refused)} by {checks} checks of several, {len(left)} alone, {taken}"
            )
            found = refused | well
            tell_reasons(crate, found.values())
            by_hand = sorted(it.stem for it, by in found.items() if by == together.ANSWER)
            if by_hand:
                say(f"{crate}: {together.ANSWER}:", *by_hand)
            reasons += found.values()
    if status:
        say(f"{crate}: not all of its {len(edits)} edits were tried and refused")
    return {None: LATE, 0: REFUSED}.get(status, FAILED)


def not_as_at_head(history, copy, crates, crate):
    """A file of a crate in a copy, or of a library below it, that isn't as HEAD has it, or the empty text."""
    for name in (changes.LISTING, "HANDLES"):
        if not history.is_as_in(history.head, name, (copy / name).read_bytes()):
            return name
    read = changes.MEANT + changes.PROOFS
    places = [(crate, read + changes.EDITS)] + [(it, read) for it in changes.below(crates, crate)]
    for name, folders in places:
        for path in changes.differing(history, history.head, copy, name, folders):
            return path
    return ""


def soak(top, crates, names, jobs):
    """Tries all edits of crates, and writes the line of each of which all are refused."""
    history, failed, reasons = changes.History(top), [], []
    with copy_of(top) as copy:
        hindered = {}
        for name in names:
            path = "" if history.fault else not_as_at_head(history, copy, crates, name)
            hindered[name] = history.fault or (f"{path} is not as HEAD has it" if path else "")
        join_edits(copy)
        for name in names:
            say(f"{name}: {len(edits_of(copy, name))} edits" + (f"; no line: {hindered[name]}" if hindered[name] else ""))
            if try_crate(copy, crates, name, jobs, None, reasons) != REFUSED:
                failed.append(name)
            elif not hindered[name]:
                write_line(top, name, history.head)
    tell_reasons("in all", reasons)
    if failed:
        say("not refused or not tried, of:", *failed)
    return 1 if failed else 0


def listed(paths):
    """The first paths of some, and how many more there are."""
    more = f" and {len(paths) - SHOWN} more" if len(paths) > SHOWN else ""
    return ", ".join(paths[:SHOWN]) + more


def why_owed(top, crates, history, commits, name):
    """Why edits of a crate that has a line are to be tried, and in which place, or None: first those of which something of their
    own changed, then those below which something did, then those whose commit tells nothing."""
    commit = commits[name]
    if not history.is_before_head(commit):
        return 2, f"soaked names {commit[:7]}, which is no commit that HEAD comes after"
    own, lower = changes.changes_of(history, commit, top, crates, name)
    if own or lower:
        return 0 if own else 1, f"{listed(own or lower)} changed since {commit[:7]}"
    return None


def find_owed(top, crates, names, history, commits):
    """The crates whose edits are to be tried, in their order, each with the reason. Edits follow changes, so a crate needs a line
    to compare with; in a clone that lacks commits, what was tried at one of them can't be compared either."""
    owed, lost = [], []
    never = [name for name in names if name not in commits]
    if never:
        say(
            f"soaked has no line of these crates, so that not all of their edits are known to be refused; {KEPT_ALONE}:", *never
        )
    for name in [it for it in names if it in commits]:
        if history.is_shallow and not history.is_before_head(commits[name]):
            lost.append(name)
            continue
        why = why_owed(top, crates, history, commits, name)
        if why:
            owed.append((why[0], len(owed), name, why[1]))
    if lost:
        say(f"this clone lacks the commits at which these crates were tried; of them {KEPT_ALONE}:", *lost)
    return [(name, why) for _, _, name, why in sorted(owed)]


def soak_owed(top, crates, owed, jobs, minutes):
    """Tries the edits of crates as long as the time allows."""
    until, late, failed = time.monotonic() + 60 * minutes, [], []
    for name, why in owed:
        say(f"{name}: {why}")
    with copy_of(top) if minutes else contextlib.nullcontext() as copy:
        if copy:
            join_edits(copy)
        for name, _ in owed:
            ended = LATE if time.monotonic() >= until else try_crate(copy, crates, name, jobs, until, [])
            {REFUSED: [], LATE: late, FAILED: failed}[ended].append(name)
    if late:
        say(f"the {minutes:g} minutes are over; edits are owed, which `make soak` tries, of:", *late)
    if failed:
        say("not refused or not tried, of:", *failed)
    return 1 if failed else 0


def soak_changed(top, crates, names, jobs, minutes):
    """Tries the edits of the crates in which something changed since they were last tried."""
    if not (top / "soaked").is_file():
        say(f"there is no file 'soaked'; {KEPT_ALONE}")
        return 0
    commits, faults = read_soaked((top / "soaked").read_text(errors="replace"), crates)
    for fault in faults:
        say(fault)
    history = changes.History(top)
    if history.fault:
        say(f"no history ({history.fault}); {KEPT_ALONE}")
        return 1 if faults else 0
    owed = find_owed(top, crates, names, history, commits)
    if not owed:
        say("no edit is owed: nothing that one stands on changed since it was tried")
    status = soak_owed(top, crates, owed, jobs, minutes) if owed else 0
    return 1 if faults else status


def stop(number, _):
    """Ends this script by what it has begun: the commands that run are ended, and the copies removed."""
    end_all()
    sys.exit(128 + number)


def read_words():
    """The words of the command line."""
    parser = argparse.ArgumentParser(
        description="Tries the edits of crates, which the check must refuse: those of must-fail/ and of more-edits/.",
        epilog="Without --changed it writes a line into the file 'soaked' for each crate of which all edits were refused.",
    )
    parser.add_argument("crates", nargs="*", metavar="CRATE", help="the crates; all, if none is named")
    parser.add_argument("--changed", action="store_true", help="only crates in which something changed since their line")
    parser.add_argument("--minutes", type=float, help="with --changed: how long; 20, if it isn't said")
    parser.add_argument("--jobs", type=int, default=1, help="how many edits are tried side by side; 1, if it isn't said")
    words = parser.parse_args()
    if words.minutes is not None and not (words.changed and words.minutes >= 0):
        parser.error("--minutes goes with --changed, and is 0 or more")
    if words.jobs < 1:
        parser.error("--jobs is 1 or more")
    return parser, words


def main(top=changes.TOP):
    parser, words = read_words()
    crates = changes.read_crates(top)
    names = [name for name in changes.lowest_first(crates) if edits_of(top, name)]
    for name in words.crates:
        if name not in names:
            parser.error(f"no crate of crates.txt that has edits is named {name}")
    names = [name for name in names if name in words.crates or not words.crates]
    for number in (signal.SIGTERM, signal.SIGHUP, signal.SIGINT):
        signal.signal(number, stop)
    if words.changed:
        return soak_changed(top, crates, names, words.jobs, 20 if words.minutes is None else words.minutes)
    return soak(top, crates, names, words.jobs)


if __name__ == "__main__":
    sys.exit(main())
