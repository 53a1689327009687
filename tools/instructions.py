#!/usr/bin/env python3
"""instructions.py [--gate | --write | --of=COMMIT] [JOB ..]: what jobs of dist/ cost, beside what bench/instructions.txt says of them.

Of each job, or of those that are named, it counts the instructions (by valgrind's callgrind), the pages of memory that it touches first,
and how high its stack is. The programs are those of dist/, linked statically with bench/measured.c in the place of C's library and
of the loader; only instructions of the assembly in dist/ and of the copying and filling in bench/measured.S are counted. So the figures
are the same on each machine for x86-64. Each job must print what the program prints as users have it.

The status is 1 where a job takes more than 1.02 of the instructions of its line, 1.02 of its pages and two more, or 4,096 octets more
stack, or has no line. Where it takes less than 0.98 of them, or so much less stack, it asks for the line to be written anew.

--write      writes the lines of these jobs, or of all, in place of those that are there
--gate       says that nothing was counted, and ends with status 0, where valgrind is missing or the processor is another one
--of=COMMIT  prints the lines that the dist/ of that commit would have, without workloads if it has none; the status is 0"""
import fcntl
import os
import re
import resource
import shutil
import struct
import subprocess
import sys
import tempfile
import termios
import threading
import time
from concurrent.futures import ThreadPoolExecutor
from pathlib import Path

import bench
import linking
from linking import TOP, Stopped
from samples import measured_files

FIGURES = TOP / "bench" / "instructions.txt"
HEAD = """# What jobs of dist/ cost on x86-64: instructions, pages of memory that are touched first, octets of stack. tools/instructions.py
# says how that is counted, and writes this file. Whoever has a line written anew says in the commit why it changed.
"""
SMALL = [f"small_{number:02}.p7s" for number in range(32)]
LINE = re.compile(r"([a-z0-9_-]+) ([0-9]+) ([0-9]+) ([0-9]+)")
STACK = 4096
# the jobs that begin first
HEAVY = ("workload-contents", "check-pipe")
CALLGRIND = "--command-line-only=yes --vgdb=no --compress-strings=no --compress-pos=no --demangle=no".split()
# after which a run of a job is ended
SECONDS = 600
# what copies and fills, whose cost is the program's, by the names in bench/measured.S
COPYING = {name: f"counted_{name}" for name in ("memcpy", "memmove", "memset")}


def check_of(trust, answers, *files):
    """The words of a check."""
    return ["check", "--trust", f"{trust}.txt", "--answers", f"{answers}.answers", *files]


# each answers list: the words of the commands that print the questions of which it has all
ANSWERS = {
    "small": [["questions", "--trust", "fifty.txt", *SMALL]],
    "signers": [["questions", "--trust", "few.txt", "many_ecdsa.p7s", "many_rsa.p7s", "twenty.p7s"]],
    "large": [["questions", "--trust", "few.txt", "large.p7s"]],
    "record": [["evidence", "questions", "--trust", "tsa.txt", "record.ers"]],
    "under": [["questions", "--trust", "under.txt", SMALL[0]], ["evidence", "questions", "--trust", "under.txt", "under.ers"]],
}
# each job: the program, and its words; one that begins with `<` is a file that comes through a pipe
JOBS = {
    "version": ("cmsproof", ["--version"]),
    "check-one": ("cmsproof", check_of("few", "small", SMALL[0])),
    "check-small": ("cmsproof", check_of("fifty", "small", *SMALL)),
    "check-list-5000": ("cmsproof", check_of("many", "small", SMALL[1])),
    "check-signers-1000": ("cmsproof", check_of("few", "signers", "many_ecdsa.p7s")),
    "check-rsa-300": ("cmsproof", check_of("few", "signers", "many_rsa.p7s", "twenty.p7s")),
    "questions-small": ("cmsproof", ["questions", "--trust", "fifty.txt", *SMALL[:16]]),
    "questions-signers-1000": ("cmsproof", ["questions", "--trust", "few.txt", "many_ecdsa.p7s"]),
    "show-signers-1000": ("cmsproof", ["show", "signed", "many_ecdsa.p7s"]),
    "show-small": ("cmsproof", ["show", "signed", SMALL[2]]),
    "fit-small": ("cmsproof", ["fit", SMALL[2]]),
    "fit-two": ("cmsproof", ["fit", SMALL[2], SMALL[5]]),
    "compare": ("cmsproof", ["compare", "before.p7s", "after.p7s"]),
    "cert": ("cmsproof", ["cert", "cert.der"]),
    "request": ("cmsproof", ["request", "--of", SMALL[0], "--signer", "1", "request.out"]),
    "match": ("cmsproof", ["match", "request.tsq", "response.tsr"]),
    "attach": ("cmsproof", ["attach", "--signer", "1", "--token", "token.tok", "unstamped.p7s", "attach.out"]),
    "migrate": ("cmsproof", ["migrate", "fifty.txt", "migrate.out"]),
    **{f"fit-{name}": ("cmsproof", ["fit", "--sha1", f"{name}.p7s"]) for name in measured_files.DIGEST_OIDS},
    "fit-content": ("cmsproof", ["fit", "--content", "content", "detached.p7s"]),
    # (refused by K9, once it has been read)
    "stamp-content": ("cmsproof", ["stamp", "check", "--trust", "few.txt", "--answers", "large.answers", "token.tok", "content"]),
    "evidence-check": ("cmsproof", ["evidence", *check_of("tsa", "record", "record.ers", "recorded")]),
    "evidence-questions": ("cmsproof", ["evidence", "questions", "--trust", "tsa.txt", "record.ers"]),
    "check-evidence": ("cmsproof", check_of("under", "under", "--evidence", "under.ers", SMALL[0])),
    "check-large": ("cmsproof", check_of("few", "large", "large.p7s")),
    "check-pipe": ("cmsproof", check_of("few", "large", "/dev/stdin", "<large.p7s")),
    "library": ("library_job", ["fifty.txt", "small.answers", SMALL[2], "token.tok", "unstamped.p7s"]),
    **{
        f"workload-{name}": ("workloads", [name, str(count), "parts.txt", "1"])
        for name, count in (("files", 150), ("questions", 120), ("lists", 1), ("signers", 1), ("contents", 1), ("looks", 80))
    },
}


def file_of(program):
    """The file of dist/ that a program is made of."""
    return linking.assembly_of("libcmsproof" if program == "library_job" else program)


class Programs:
    """The programs of the jobs, in a folder: as users have them, and as they are measured."""

    def __init__(self, folder, wanted, source):
        self.folder, self.names = folder, {}
        cc = linking.compiler()
        (folder / "runtime.c").write_bytes(source("runtime.c"))
        for name in ("measured.c", "measured.S"):
            linking.call(*cc, *linking.MEASURED, "-c", TOP / "bench" / name, "-o", folder / f"{name}.o")
        for name in sorted(wanted):
            linking.unpacked(source(file_of(name)), folder / f"{name}.s")
            linking.call(*cc, "-c", folder / f"{name}.s", "-o", folder / f"{name}.o")
            more = []
            if name == "library_job":
                more = [folder / "job.o"]
                job = [TOP / "bench" / "library_job.c", "-o", *more]
                linking.call(*cc, "-std=c11", "-O2", "-Wall", "-Wextra", f"-I{TOP / 'include'}", "-fno-builtin", "-c", *job)
            usual = [*linking.USUAL, folder / f"{name}.o", *more, folder / "runtime.c"]
            linking.call(*cc, *usual, "-o", folder / f"{name}.usual")
            renamed = [f"--redefine-sym={it}={counted}" for it, counted in COPYING.items()]
            linking.call("objcopy", *renamed, folder / f"{name}.o")
            alone = [folder / f"{name}.o", *more, folder / "measured.c.o", folder / "measured.S.o", "-lgcc"]
            linking.call(*cc, *linking.ALONE, *alone, "-o", folder / name)
            said = linking.call("nm", "--defined-only", folder / f"{name}.o")
            self.names[name] = {it.split()[2] for it in said.splitlines() if it.split()[1] in "tTwW"} | {*COPYING.values()}


def feed(octets, into, running):
    """Writes octets into the pipe of a process, 64 KiB at a time and each only once the pipe is empty: so each read gets as much at
    each run."""
    try:
        for at in range(0, len(octets), 65536):
            while struct.unpack("i", fcntl.ioctl(into, termios.FIONREAD, bytes(4)))[0]:
                if running.poll() is not None:
                    return
                time.sleep(0.0001)
            os.write(into, octets[at : at + 65536])
    except BrokenPipeError:
        pass
    finally:
        os.close(into)


def allow_stack():
    """Has the stack of children be as high as it may be measured."""
    hard = resource.getrlimit(resource.RLIMIT_STACK)[1]
    wanted = 1 << 24 if hard == resource.RLIM_INFINITY else min(1 << 24, hard)
    resource.setrlimit(resource.RLIMIT_STACK, (wanted, hard))


def ran(command, words, folder, **environment):
    """The status of a run, and what it printed."""
    source, into, octets = subprocess.DEVNULL, None, b""
    if words[-1].startswith("<"):
        octets, words = (folder / words[-1][1:]).read_bytes(), words[:-1]
        source, into = os.pipe()
    running = subprocess.Popen(
        [*command, *words],
        cwd=folder,
        env={name: str(value) for name, value in environment.items()},
        stdin=source,
        stdout=subprocess.PIPE,
        stderr=subprocess.DEVNULL,
    )
    if into is not None:
        os.close(source)
        feeder = threading.Thread(target=feed, args=(octets, into, running))
        feeder.start()
    try:
        out = running.communicate(timeout=SECONDS)[0]
    except subprocess.TimeoutExpired:
        running.kill()
        raise Stopped(f"{' '.join(map(str, [*command, *words]))} had not ended after {SECONDS} seconds") from None
    if into is not None:
        feeder.join()
    return running.returncode, out


def counted(text, names):
    """How many instructions of these functions a file of callgrind has."""
    total, function, is_call, unknown = 0, "", False, 0
    for line in text.splitlines():
        if line.startswith("fn="):
            function = line[3:]
        elif line.startswith("calls="):
            is_call = True
        elif line[:1].isdigit():
            # (a position and a cost, which is left out where it is 0)
            cost = 0 if is_call else int(line.split()[1]) if " " in line.strip() else 0
            is_call = False
            total += cost if function in names else 0
            unknown += cost if function.startswith(("???", "0x")) else 0
    if unknown or not total:
        raise Stopped("callgrind does not know the functions of the program, so nothing was counted")
    return total


def measure(name, programs, folder):
    """What a job costs: its instructions, pages and stack."""
    program, words = JOBS[name]
    usual, program = programs.folder / f"{program}.usual", programs.folder / program
    notes = programs.folder / f"{name}.notes"
    wanted = ran([usual], words, folder)

    def one(command, **environment):
        written = ran(command, words, folder, **environment)
        if written != wanted:
            raise Stopped(f"{name}: the program that is measured ends with status {written[0]}, and not as the other one")

    def number():
        return int(notes.read_text())

    pages = []
    for _ in range(2):
        one([program], MEASURED_PAGES=notes)
        pages.append(number())
    one([program], MEASURED_STACK=notes)
    stack = number()
    # (as `valgrind` itself does, without what a user has it do)
    one(["valgrind", "--tool=callgrind", f"--callgrind-out-file={notes}", *CALLGRIND, program], PATH=os.environ["PATH"])
    return counted(notes.read_text(), programs.names[JOBS[name][0]]), min(pages), stack


def measured(names, source=linking.of_here):
    """What these jobs cost, as many at a time as there are processors, those of most work first. The files of dist/ are what `source`
    gives."""
    found, slots = {}, len(os.sched_getaffinity(0))
    allow_stack()
    with tempfile.TemporaryDirectory(prefix="cmsproof-instructions-") as place:
        folder = Path(place) / "files"
        folder.mkdir()
        programs = Programs(Path(place), {JOBS[name][0] for name in names} | {"cmsproof"}, source)
        measured_files.make(folder)
        for name, commands in ANSWERS.items():
            texts = [ran([Path(place) / "cmsproof.usual"], words, folder)[1] for words in commands]
            lines = [line for text in texts for line in text.splitlines(keepends=True)[1:]]
            (folder / f"{name}.answers").write_bytes(b"".join([b"cmsproof answers 1\n", *lines]))
        with ThreadPoolExecutor(slots) as pool:
            ordered = sorted(names, key=lambda it: (it not in HEAVY, it))
            for name, costs in zip(ordered, pool.map(lambda it: measure(it, programs, folder), ordered)):
                found[name] = costs
    return {name: found[name] for name in names}


def measured_of(commit, names):
    """What these jobs cost, or all that there are, of the dist/ of a commit."""
    commit = bench.commit_of(commit)
    held = [name for name in names or JOBS if bench.held(commit, file_of(JOBS[name][0]))]
    return measured(held, lambda name: bench.of_commit(commit, name))


def read_figures(text):
    """The lines of bench/instructions.txt by their jobs."""
    found = {}
    for number, line in enumerate(text.splitlines(), 1):
        if line and not line.startswith("#"):
            read = LINE.fullmatch(line)
            if not read or read[1] in found:
                raise Stopped(
                    f"bench/instructions.txt, line {number}: it is not a job and three numbers, or the job has a line already"
                )
            found[read[1]] = tuple(map(int, read.groups()[1:]))
    return found


def judged(name, costs, line):
    """What is to be said of a job beside its line: of what is too much, and of what the line has too much."""
    if line is None:
        return [f"{name} has no line in bench/instructions.txt: python3 tools/instructions.py --write {name}"], []
    (instructions, pages, stack), (may, pages_may, stack_may) = costs, line
    above, below = [], []
    for what, is_one, had, is_above, is_below in (
        ("instructions", instructions, may, instructions * 100 > may * 102, instructions * 100 < may * 98),
        ("pages", pages, pages_may, (pages - 2) * 100 > pages_may * 102, (pages + 2) * 100 < pages_may * 98),
        ("octets of stack", stack, stack_may, stack >= stack_may + STACK, stack + STACK <= stack_may),
    ):
        said = f"{name} takes {is_one} {what}, {is_one / max(had, 1):.3f} of the {had} in its line of bench/instructions.txt"
        above += [said] if is_above else []
        below += [said] if is_below else []
    return above, below


def written(figures, costs):
    """The text of bench/instructions.txt with these costs in the place of what it says of their jobs, in the order of the jobs."""
    kept = {**figures, **costs}
    return HEAD + "".join(f"{name} {' '.join(map(str, kept[name]))}\n" for name in JOBS if name in kept)


def write(text, path=None):
    """Puts the text in the place of the file, whole or not at all."""
    path = path or FIGURES
    beside = path.with_name(f"{path.name}.new")
    try:
        beside.write_text(text, encoding="ascii")
        os.replace(beside, path)
    except OSError as error:
        beside.unlink(missing_ok=True)
        raise Stopped(f"bench/instructions.txt was not written, and is as it was: {error.strerror}") from None


def told(costs, figures):
    """Says what the jobs cost, and returns the status."""
    status, asked = 0, []
    for name, line in costs.items():
        above, below = judged(name, line, figures.get(name))
        status = 1 if above else status
        asked += [name] if below else []
        for said in (*above, *below):
            print(f"cmsproof: {said}", file=sys.stderr if above else sys.stdout, flush=True)
    if asked:
        words = " ".join(asked)
        print(
            f"cmsproof: less than the line: write it anew, in a commit that says why: python3 tools/instructions.py --write {words}"
        )
    return status


def missing():
    """Why nothing can be counted here, or nothing."""
    if linking.machine() != "x86_64":
        return f"bench/instructions.txt is of x86-64, and this is {linking.machine()}"
    return "" if shutil.which("valgrind") else "there is no valgrind: apt install valgrind"


def main(words):
    """Does what the words say."""
    flags, names = [word for word in words if word.startswith("-")], [word for word in words if not word.startswith("-")]
    flag, _, commit = (flags or [""])[0].partition("=")
    if len(flags) > 1 or flag not in ("", "--gate", "--write", "--of") or bool(commit) != (flag == "--of"):
        print(__doc__, file=sys.stderr)
        return 2
    try:
        if odd := [name for name in names if name not in JOBS]:
            raise Stopped(f"there is no job {odd[0]!r}; the jobs are {', '.join(JOBS)}")
        if why := missing():
            if flag != "--gate":
                raise Stopped(why)
            print(f"cmsproof: no instructions were counted: {why}", flush=True)
            return 0
        if commit:
            print(written({}, measured_of(commit, names)), end="")
            return 0
        began = time.monotonic()
        figures = read_figures(FIGURES.read_text(encoding="utf-8")) if FIGURES.exists() else {}
        costs = measured(names or list(JOBS))
        if flag == "--write":
            write(written({} if not names else figures, costs))
            print(f"cmsproof: wrote {len(costs)} lines of bench/instructions.txt: commit it, and say why they changed")
            return 0
        status = told(costs, figures)
        print(f"cmsproof: what {len(costs)} jobs cost was counted in {time.monotonic() - began:.0f} seconds", flush=True)
        return status
    except (OSError, Stopped) as why:
        print(f"cmsproof: {why}", file=sys.stderr)
        return 1


if __name__ == "__main__":
    sys.exit(main(sys.argv[1:]))
