#!/usr/bin/env python3
"""Times cmsproof-archive with and without a state, and with 1, 2 and 4 workers:

    python3 benchmarks/states.py [--files N] [--pairs N] [--inside N] [--workers 1,2,4] [--rounds N] [--only jobs|beside|dask|ratio]
        [--state] [--dask PYTHON] [--folder FOLDER]

It copies data/real/rsa_attached_ts.p7s, of 7,010 octets, into N files (20,000 by default; more are other names of these) of a new folder
(in FOLDER: of memory, say), and times, in turn, so that what else the machine does hits all alike: pairs of runs, one without and one with
a new state, with as many jobs as there are processors; in this process, which does what the tool's processes do, groups of files without
and with a state, each group in turn (--inside: so many rounds over all files); runs with so many jobs; beside them so many runs side by
side with one job each, which share the files and nothing else, so that one sees what the machine gives; and with --dask, by a Python that
has python3-distributed and then runs all else too, runs by so many workers of a scheduler on the loopback. Python keeps compiled modules
in the folder, as an installed package has them.

What is to be done 0 times is left out, and --only leaves one of the ways to have several workers, or with `ratio` two of them: how many
files a second Dask does of what --jobs does, a worker. With --state each of these runs has a new state. In some two minutes of a machine
that has nothing else to do:

    python3 benchmarks/states.py --files 300000 --pairs 0 --rounds 2 --workers 4 --only ratio --dask /usr/bin/python3 --folder /dev/shm

Each line has the seconds on the clock and of the processor, of all processes, the files a second of both, and the load. Where others use
the machine, the second of them says more: with N workers N times as many files a second are done as the processor's seconds allow.
"""
from __future__ import annotations

import argparse
import hashlib
import os
import pickle
import re
import resource
import shutil
import statistics
import subprocess
import sys
import tempfile
import time
from pathlib import Path

from timing import REAL, TOP

TOOL = TOP / "tools" / "installed" / "cmsproof-archive"
sys.path.insert(0, str(TOOL.parent))
import cmsproof  # noqa: E402
from cmsproof_tools import archive, checking, outcomes, running, telling  # noqa: E402
from cmsproof_tools.pairs import USUAL, Pairs  # noqa: E402
from cmsproof_tools.progress import Progress  # noqa: E402
from cmsproof_tools.resuming import Resume  # noqa: E402
from cmsproof_tools.rows import Noting, keys_of  # noqa: E402
from cmsproof_tools.state import Basis, State  # noqa: E402
from cmsproof_tools.workers import MOST, PROTOCOL  # noqa: E402

FILE = REAL / "rsa_attached_ts.p7s"
# how many files are copies, of which the others are names
COPIES = 20000
# how little Dask watches itself, as docs/TOOLS.md has it
QUIET = {"DASK_DISTRIBUTED__WORKER__PROFILE__ENABLED": "False", "DASK_DISTRIBUTED__ADMIN__TICK__INTERVAL": "1s"}


def processor_seconds(processes):
    """The seconds of the processor that some processes have used, with what they waited for."""
    ticks = 0
    for process in processes:
        fields = Path(f"/proc/{process.pid}/stat").read_text().rpartition(")")[2].split()
        ticks += sum(map(int, fields[11:15]))
    return ticks / os.sysconf("SC_CLK_TCK")


def used():
    """The seconds of the processor of all processes that have ended."""
    found = resource.getrusage(resource.RUSAGE_CHILDREN)
    return found.ru_utime + found.ru_stime


def environment(folder):
    """The variables of a run, whose compiled modules are kept in the folder."""
    kept = {name: value for name, value in os.environ.items() if name != "PYTHONDONTWRITEBYTECODE"}
    return {**kept, **QUIET, "PYTHONPYCACHEPREFIX": str(folder / "compiled"), "PYTHONPATH": str(TOOL.parent)}


def write_names(folder, count, runs):
    """Writes the lists of names that so many runs get, which share the files."""
    for number in range(runs):
        (folder / f"names{number}").write_text("".join(f"{name}.p7s\n" for name in range(number, count, runs)))


def run(folder, count, words, python=sys.executable, others=(), runs=1):
    """Runs the tool over the files, or so many of it side by side: the seconds on the clock and of the processor."""
    write_names(folder, count, runs)
    command = list(map(str, [python, TOOL, "--trust", REAL / "trust.txt", *words, "--files-from"]))
    before, began = used() + processor_seconds(others), time.perf_counter()
    started = []
    for number in range(runs):
        with open(folder / f"lines{number}", "wb") as lines, open(folder / f"said{number}", "wb") as said:
            words = [*command, f"names{number}"]
            started.append(subprocess.Popen(words, cwd=folder, stdout=lines, stderr=said, env=environment(folder)))
    statuses = [process.wait() for process in started]
    clock, processor = time.perf_counter() - began, used() + processor_seconds(others) - before
    accepted = sum((folder / f"lines{number}").read_bytes().count(b": accepted ") for number in range(runs))
    if any(statuses) or accepted != count:
        sys.exit(f"status {statuses}: {(folder / 'said0').read_text()[-500:]}")
    return clock, processor


def shown(what, count, found):
    """Prints a line for some runs: the median of each time."""
    clock, processor = (statistics.median(times) for times in zip(*found))
    rates = f"{count / clock:6.0f} a second, {count / processor:6.0f} a second of the processor"
    print(f"{what:16} {clock:7.2f} s {processor:7.2f} s  {rates}  load {os.getloadavg()[0]:.1f}", flush=True)
    return clock, processor


def time_hash(count, copies=1000):
    """The seconds of the processor that SHA-256 of so many files takes by itself."""
    files = [bytes(bytearray(FILE.read_bytes())) for _ in range(copies)]
    began = time.process_time()
    for octets in files:
        hashlib.sha256(octets).digest()
    return (time.process_time() - began) * count / len(files)


def time_state(folder, count, pairs, jobs):
    """Times pairs without and with a state."""
    found, hashes = {"without": [], "with": []}, []
    for number in range(pairs):
        for what in ("without", "with") if number % 2 == 0 else ("with", "without"):
            words = ["--jobs", jobs] + (["--state", f"state{number}"] if what == "with" else [])
            found[what].append(run(folder, count, words))
            hashes.append(time_hash(count))
    without, with_state = (shown(f"{what} state", count, times) for what, times in found.items())
    each = [[other / one for one, other in zip(*pair)] for pair in zip(found["without"], found["with"])]
    ratios = " ".join(f"{ratio:.3f}" for _, ratio in each)
    print(
        f"with / without: clock {with_state[0] / without[0]:.3f}, processor {with_state[1] / without[1]:.3f}; each pair's: {ratios}"
    )
    print(
        f"SHA-256 alone: {statistics.median(hashes):.2f} s of the processor, {1 + statistics.median(hashes) / without[1]:.3f}"
    )


def work_of(noted):
    """The work on the files, which a state notes or not."""
    trust = cmsproof.TrustList.from_file(REAL / "trust.txt")
    noting = Noting(keys_of(trust.text), b"", {}) if noted else None
    return checking.Work(trust, None, False, False, {}, Pairs({}, USUAL), frozenset(), False, False, noting)


def judged(work, names, resume):
    """The seconds of the processor that a group of files takes: judged, handed from process to process, printed, and kept."""
    began = time.thread_time()
    found = checking.outcomes_of_several(work, names)
    handed = pickle.loads(pickle.dumps(telling.all_told(work, outcomes.text_lines, found), PROTOCOL))
    several = [[told for _, told in handed]]
    found = several if resume is None else resume.kept_of(names, several)
    archive.checked("states", found, Progress("states", len(names)))
    return time.thread_time() - began


def time_inside(folder, count, rounds):
    """Times groups of files, without and with a state in turn."""
    os.chdir(folder)
    running.OUTPUT = os.open(os.devnull, os.O_WRONLY)
    without, noted = work_of(False), work_of(True)
    given = argparse.Namespace(since=None, recheck=False, only=None, dask=None)
    names, totals = [f"{name}.p7s" for name in range(count)], []
    for number in range(rounds):
        total = [0.0, 0.0, 0.0]
        with State(f"inside{number}") as state:
            state.judge_by(Basis("0" * 64, "", "", "none"), b"")
            resume = Resume("states", state, given, noted)
            for at in range(0, count, MOST):
                group = names[at : at + MOST]
                for place in (0, 1) if at // MOST % 2 == number % 2 else (1, 0):
                    total[place] += judged(noted if place else without, group, resume if place else None)
                total[2] += time_hash(len(group), MOST)
        totals.append([seconds / count * 1e6 for seconds in total])
    least = [min(several) for several in zip(*totals)]
    ratios = sorted(noted / without for without, noted, _ in totals)
    print(
        f"inside: {least[0]:.0f} us a file without a state, {least[1]:.0f} with, SHA-256 {least[2]:.0f}: the least of {rounds}"
    )
    print(f"with / without: {statistics.median(ratios):.3f}, {ratios[0]:.3f} to {ratios[-1]:.3f}; ", end="")
    print(f"SHA-256 alone {statistics.median(1 + alone / without for without, _, alone in totals):.3f}", flush=True)


def scaled(what, count, found):
    """Prints what runs with more workers are of linear: processor's seconds a file of the first, divided by theirs, and on the clock."""
    times = {workers: shown(f"{what} {workers}", count, several) for workers, several in found.items()}
    first = min(times)
    for workers, (clock, processor) in times.items():
        of_clock, of_processor = times[first][0] * first / clock / workers, times[first][1] / processor
        print(f"{what} {workers}: {of_processor:.2f} of linear by the processor, {of_clock:.2f} on the clock")


def started(python, folder, number, *words):
    """Starts a process of Dask, and gives it and what it says of its address."""
    log = folder / f"log{number}"
    with open(log, "wb") as file:
        command = [python, "-m", f"distributed.cli.dask_{words[0]}", "--host", "127.0.0.1", "--no-dashboard", *words[1:]]
        process = subprocess.Popen(command, stdout=file, stderr=file, env=environment(folder), cwd=folder)
    wanted = r"Scheduler at: +(tcp://[0-9.:]+)" if words[0] == "scheduler" else r"Registered to: +(\S+)"
    while (found := re.search(wanted, log.read_text())) is None:
        time.sleep(0.1)
    return process, found[1]


def time_dask(folder, count, python, workers, words=()):
    """Times one run by so many workers, which judge a few files before."""
    processes = []
    try:
        scheduler, address = started(python, folder, 0, "scheduler", "--port", "0")
        processes.append(scheduler)
        for number in range(workers):
            processes.append(started(python, folder, number + 1, "worker", address, "--nthreads", "1", "--no-nanny")[0])
        run(folder, min(count, 400), ["--dask", address], python)
        return run(folder, count, ["--dask", address, *words], python, processes)
    finally:
        for process in reversed(processes):
            process.kill()
            process.wait()


def ways_of(folder, given):
    """What is timed for each number of workers, by the words of --only: what it is called, and how it is done."""
    count, python = given.files, given.dask or sys.executable

    def state():
        """The words by which a run has a new state, if it is to have one."""
        for path in folder.glob("kept*"):
            path.unlink()
        return ["--state", "kept"] if given.state else []

    ways = {
        "jobs": ("--jobs", lambda number: run(folder, count, ["--jobs", number, *state()], python)),
        "beside": ("side by side", lambda number: run(folder, count, ["--jobs", 1], python, runs=number)),
    }
    if given.dask is not None:
        ways["dask"] = ("--dask", lambda number: time_dask(folder, count, python, number, state()))
    meant = {None: ways, "ratio": ("jobs", "dask")}.get(given.only, (given.only,))
    return [way for word, way in ways.items() if word in meant]


def time_workers(folder, given, workers):
    """Times runs with so many workers, runs side by side, and runs by Dask."""
    ways = ways_of(folder, given)
    found = {what: {number: [] for number in workers} for what, _ in ways}
    for _ in range(given.rounds):
        for number in workers:
            for what, timed in ways:
                found[what][number].append(timed(number))
    for what, times in found.items():
        scaled(what, given.files, times)
    if {"--jobs", "--dask"} <= found.keys():
        compared(found["--jobs"], found["--dask"])


def compared(by_jobs, by_dask):
    """Prints how many files a second Dask does of what --jobs does with as many workers: the median of each round's."""
    for workers, pairs in ((number, list(zip(by_jobs[number], by_dask[number]))) for number in by_jobs):
        clock, processor = ([jobs[place] / dask[place] for jobs, dask in pairs] for place in (0, 1))
        of_all = f"{statistics.median(clock):.2f} on the clock, {statistics.median(processor):.2f} by the processor"
        print(f"--dask {workers} of --jobs {workers}: {of_all}; each round's: {' '.join(f'{one:.2f}' for one in clock)}")


def main():
    """Reads the words and times all."""
    parser = argparse.ArgumentParser()
    parser.add_argument("--files", default=20000, type=int)
    parser.add_argument("--pairs", default=6, type=int)
    parser.add_argument("--rounds", default=3, type=int)
    parser.add_argument("--inside", default=0, type=int)
    parser.add_argument("--workers", default="1,2,4")
    parser.add_argument("--only", choices=("jobs", "beside", "dask", "ratio"))
    parser.add_argument("--state", action="store_true")
    parser.add_argument("--dask")
    parser.add_argument("--folder")
    given = parser.parse_args()
    if given.only in ("dask", "ratio") and given.dask is None:
        parser.error(f"--only {given.only} needs --dask PYTHON")
    workers = [int(number) for number in given.workers.split(",")]
    with tempfile.TemporaryDirectory(dir=given.folder) as temporary:
        folder = Path(temporary)
        for name in range(given.files):
            if name < COPIES:
                shutil.copyfile(FILE, folder / f"{name}.p7s")
            else:
                os.link(folder / f"{name % COPIES}.p7s", folder / f"{name}.p7s")
        run(folder, 1, ["--state", "first"])
        shown("one file", 1, [run(folder, 1, ["--jobs", 1]) for _ in range(5)])
        if given.pairs:
            time_state(folder, given.files, given.pairs, len(os.sched_getaffinity(0)))
        if given.inside:
            time_inside(folder, given.files, given.inside)
        if given.rounds:
            time_workers(folder, given, workers)


if __name__ == "__main__":
    main()
