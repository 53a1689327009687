#!/usr/bin/env python3
"""Times the library and what stands on it, beside what a user would write instead:

    python3 benchmarks/library.py [--files N] [--again N] [--loop N] [--jobs N] [--turns N] [--folder FOLDER]

All of data/real/rsa_attached_ts.p7s, a file of 7,010 octets with one signer and one time-stamp token. In one run, the least of
--turns, taken in turn:

  in one process       microseconds of the processor: `cmsproof_check` with its answers read (library_check.c), OpenSSL's `CMS_verify`
                       of the same file (cms_verify.c), and in Python `cmsproof.check` from the questions to the verdict, with each
                       signature verified; the verification of these signatures alone, by `cryptography`
  a worker             microseconds of the processor a file, the least of groups of 64 files, which what else the machine does changes least:
                       a worker of `cmsproof-archive`, without a state and with one, and a process that reads each file and calls
                       `cryptography` for its signatures, and nothing else
  starting             seconds of the processor and on the clock: `cmsproof-archive` of one file, and its help
  many files           files a second by the clock, and microseconds of the processor a file: `cmsproof-archive --jobs N` over N copies,
                       each named --again times, without a state and with a new one, `cmsproof check` of all of them in one command
                       with the answers ready, `openssl cms -verify -noverify` in a loop, and N processes that read each file and call
                       `cryptography` for its signatures, and nothing else; and the most memory that a worker had

The copies are in a new folder (in FOLDER: of memory, say), where Python keeps compiled modules, as an installed package has them. It needs make, a C compiler, openssl with its headers, and Python's library `cryptography`.
"""
from __future__ import annotations

import argparse
import gc
import os
import pickle
import re
import resource
import shutil
import subprocess
import sys
import tempfile
import time
from pathlib import Path

from states import work_of
from timing import REAL, TOP, timed

INSTALLED = TOP / "tools" / "installed"
sys.path.insert(0, str(INSTALLED))
import cmsproof  # noqa: E402
from cmsproof_tools import checking, outcomes, telling, verifying  # noqa: E402
from cmsproof_tools.workers import MOST, PROTOCOL  # noqa: E402

FILE, TRUST = REAL / "rsa_attached_ts.p7s", REAL / "trust.txt"
VERIFY = 'openssl cms -verify -noverify -binary -inform DER -in "$file" -out /dev/null 2> /dev/null'
TIMES = 3000


def built(folder):
    """The two programs in C."""
    benchmarks, library = TOP / "benchmarks", TOP / "build" / "library"
    words = [
        "cc",
        "-O2",
        f"-I{library}",
        "-o",
        folder / "library_check",
        benchmarks / "library_check.c",
        library / "libcmsproof.a",
    ]
    subprocess.run(words, check=True)
    subprocess.run(["cc", "-O2", "-o", folder / "cms_verify", benchmarks / "cms_verify.c", "-lcrypto"], check=True)
    return folder / "library_check", folder / "cms_verify"


def printed(words):
    """The microseconds that a program in C prints, in nanoseconds."""
    return float(timed(words)[1].stdout) / 1000


def of_processor(call):
    """The microseconds of the processor that a call takes."""
    start = time.process_time()
    for _ in range(TIMES):
        call()
    return (time.process_time() - start) / TIMES * 1e6


def alone(asked):
    """The verification of signatures by `cryptography`, of keys and algorithms that are read."""
    calls = [(*verifying.asking(one.key, one.digest, one.algorithm), one.signature, one.signed()) for one in asked]
    return lambda: [public.verify(signature, signed, *words) for public, words, signature, signed in calls]


def in_one_process(folder, turns):
    """Times the calls in one process, and prints them."""
    library, other = built(folder)
    trust, octets = cmsproof.TrustList.from_file(TRUST), FILE.read_bytes()
    asked = cmsproof.questions(octets, trust=trust).asked
    answers = folder / "answers"
    answers.write_bytes(b"".join(line + b"\n" for line in [b"cmsproof answers 1", *(one.line for one in asked)]))
    if not cmsproof.check(octets, trust=trust).accepted:
        raise SystemExit("the file was not accepted")
    calls = {
        "cmsproof_check, answers read": lambda: printed([library, TRUST, answers, FILE, TIMES]),
        "CMS_verify": lambda: printed([other, FILE, TIMES]),
        "cmsproof.check, in Python": lambda: of_processor(lambda: cmsproof.check(octets, trust=trust)),
        "cryptography alone, in Python": lambda: of_processor(alone(asked)),
    }
    least = {name: min(times) for name, *times in zip(calls, *([call() for call in calls.values()] for _ in range(turns)))}
    for name, microseconds in least.items():
        print(
            f"{name:34} {microseconds:8.1f} microseconds  {microseconds / least['CMS_verify']:6.2f} of CMS_verify", flush=True
        )


def in_a_worker(folder, turns):
    """Times groups of files as a worker has them, and prints the least time of each way."""
    names = [folder / f"worker{number}.p7s" for number in range(16 * MOST)]
    for name in names:
        shutil.copyfile(FILE, name)
    verify = alone(cmsproof.questions(FILE, trust=cmsproof.TrustList.from_file(TRUST)).asked)

    def judging(work):
        lines = outcomes.text_lines
        return lambda some: pickle.dumps(
            telling.all_told(work, lines, checking.outcomes_of_several(work, list(map(str, some)))), PROTOCOL
        )

    ways = {
        "cmsproof-archive, a worker": judging(work_of(False)),
        "the same with a state": judging(work_of(True)),
        "cryptography alone, a process": lambda some: [(name.read_bytes(), verify()) for name in some],
    }
    # (as workers begin)
    gc.collect()
    gc.freeze()
    least = dict.fromkeys(ways, float("inf"))
    for way, done in [*ways.items()] * 2 * turns:
        for at in range(0, len(names), MOST):
            began = time.thread_time()
            done(names[at : at + MOST])
            least[way] = min(least[way], (time.thread_time() - began) / MOST * 1e6)
    gc.unfreeze()
    for way, microseconds in least.items():
        part = least["cryptography alone, a process"] / microseconds
        print(f"{way:34} {microseconds:8.1f} microseconds  {part:6.2f} of cryptography alone", flush=True)


def memory_of_workers(process):
    """The most memory, in MB, that a process which this one starts has until it ends."""
    most, children = 0, Path(f"/proc/{process.pid}/task/{process.pid}/children")
    while process.poll() is None:
        try:
            for worker in children.read_text().split():
                most = max(most, int(re.search(r"VmHWM:\s+(\d+)", Path(f"/proc/{worker}/status").read_text())[1]))
        except (OSError, TypeError):
            pass  # it has ended
        time.sleep(0.02)
    return most / 1024


def by_archive(folder, count, jobs, memory, more=()):
    """The seconds that cmsproof-archive takes for files, with these words more. The memory of its workers is put to `memory`."""
    words = [sys.executable, INSTALLED / "cmsproof-archive", "--trust", TRUST, "--files-from", folder / "names", "--jobs", jobs]
    (folder / "state").unlink(missing_ok=True)
    with open(folder / "lines", "wb") as lines:
        start = time.perf_counter()
        process = subprocess.Popen([*map(str, words), *map(str, more)], stdout=lines, stderr=subprocess.DEVNULL)
        memory.append(memory_of_workers(process))
        seconds = time.perf_counter() - start
    if (folder / "lines").read_bytes().count(b": accepted ") != count:
        raise SystemExit("a file was not accepted")
    return seconds


def starting(turns):
    """Times what takes no longer than its start, and prints it."""
    tool = [sys.executable, INSTALLED / "cmsproof-archive"]
    for name, words in (("one file", [*tool, "--trust", TRUST, FILE]), ("--help", [*tool, "--help"])):
        timed(words)
        found = []
        for _ in range(turns):
            before = of_children()
            clock, _ = timed(words)
            found.append((of_children() - before, clock))
        processor, clock = map(min, zip(*found))
        print(f"cmsproof-archive {name:17} {processor:8.3f} seconds of the processor  {clock:6.3f} on the clock", flush=True)


def answered(folder):
    """The words of `cmsproof check` over the files of a list, with the trust list and the answers for one of them."""
    program, asked, answers = TOP / "cmsproof", folder / "questions.txt", folder / "answers.txt"
    with open(asked, "wb") as taken:
        subprocess.run([program, "questions", "--trust", TRUST, FILE], stdout=taken, check=True)
    subprocess.run([sys.executable, INSTALLED / "cmsproof-verify", asked, answers], check=True)
    return [program, "check", "--trust", TRUST, "--answers", answers, "--files-from", folder / "names"]


def by_check(words, names):
    """The seconds that one command of the program takes for files, with the answers ready."""
    seconds, done = timed(words)
    if done.stdout.count(b": accepted ") != len(names):
        raise SystemExit("a file was not accepted")
    return seconds


def by_cryptography(names, jobs):
    """The seconds that processes take which read each file, and verify the signatures of one."""
    asked = cmsproof.questions(FILE, trust=cmsproof.TrustList.from_file(TRUST)).asked
    start, children = time.perf_counter(), []
    for number in range(jobs):
        child = os.fork()
        if child == 0:
            verify = alone(asked)
            for name in names[number::jobs]:
                name.read_bytes()
                verify()
            os._exit(0)
        children.append(child)
    if any(os.waitpid(child, 0)[1] for child in children):
        raise SystemExit("a signature does not hold")
    return time.perf_counter() - start


def of_children():
    """The seconds of the processor that ended children took."""
    used = resource.getrusage(resource.RUSAGE_CHILDREN)
    return used.ru_utime + used.ru_stime


def rated(calls, turns):
    """The most files a second by the clock, and the least microseconds of the processor a file, of each of some calls; they are made in
    turn, so that what else the machine does hits all alike."""
    found = {name: [] for name in calls}
    for _ in range(turns):
        for name, (files, call) in calls.items():
            before = of_children()
            found[name].append((files / call(), (of_children() - before) / files * 1e6))
    return {name: (max(rate for rate, _ in turned), min(cost for _, cost in turned)) for name, turned in found.items()}


def many_files(folder, count, again, loop, jobs, turns):
    """Times what checks many files, and prints it."""
    names = [folder / f"{number}.p7s" for number in range(count)]
    for name in names:
        shutil.copyfile(FILE, name)
    names, memory = names * again, []
    count, state = len(names), ["--state", folder / "state"]
    (folder / "names").write_text("".join(f"{name}\n" for name in names))
    words = answered(folder)
    script = ["sh", "-c", f"for file; do {VERIFY} || exit 1; done", "sh", *names[:loop]]
    calls = {
        f"cmsproof-archive --jobs {jobs}": (count, lambda: by_archive(folder, count, jobs, memory)),
        "the same with a new state": (count, lambda: by_archive(folder, count, jobs, memory, state)),
        "cmsproof check, answers ready": (count, lambda: by_check(words, names)),
        "openssl cms -verify in a loop": (loop, lambda: timed(script)[0]),
        f"cryptography alone, {jobs} processes": (count, lambda: by_cryptography(names, jobs)),
    }
    rates = rated(calls, turns)
    slowest, alone_rate = rates["openssl cms -verify in a loop"][0], rates[f"cryptography alone, {jobs} processes"][0]
    for name, (rate, cost) in rates.items():
        of_others = f"{rate / slowest:8.1f} times the loop  {rate / alone_rate:6.2f} of cryptography alone"
        print(f"{name:34} {rate:8.0f} files a second  {of_others}  {cost:8.0f} microseconds", flush=True)
    print(f"the most memory of a worker: {max(memory):.0f} MB")


def main():
    """Reads the words and times all."""
    parser = argparse.ArgumentParser()
    parser.add_argument("--files", default=10000, type=int)
    parser.add_argument("--loop", default=200, type=int)
    parser.add_argument("--jobs", default=4, type=int)
    parser.add_argument("--turns", default=3, type=int)
    parser.add_argument("--again", default=1, type=int)
    parser.add_argument("--folder")
    given = parser.parse_args()
    print(f"{FILE.stat().st_size} octets a file, {given.files * given.again} files, the best of {given.turns}")
    with tempfile.TemporaryDirectory(dir=given.folder) as temporary:
        os.environ.pop("PYTHONDONTWRITEBYTECODE", None)
        os.environ["PYTHONPYCACHEPREFIX"] = str(Path(temporary) / "compiled")
        in_one_process(Path(temporary), given.turns)
        in_a_worker(Path(temporary), given.turns)
        starting(5 * given.turns)
        many_files(Path(temporary), given.files, given.again, given.loop, given.jobs, given.turns)


if __name__ == "__main__":
    main()
