"""Proves the program, the library for C, the program of workloads and the crates below them by the library of `rt`, and has the
toolchain's compiler write their assembly."""
import os
import re
import shlex
import shutil
import subprocess
import sys
import tempfile
import time
from concurrent.futures import FIRST_COMPLETED, ThreadPoolExecutor, wait
from pathlib import Path

import kept_sums

TOP = Path(__file__).resolve().parent.parent
# the processors of dist/, each the plainest of its kind, and how rattle names them
TARGETS = {
    "x86_64": ["--target", "x86_64-unknown-linux-gnu", "--cpu", "x86-64"],
    "aarch64": ["--target", "aarch64-unknown-linux-gnu", "--cpu", "generic"],
}
# the crates that dist/ has: a program, a static library, and the program that `bench/run` times
BUILT = ("cmsproof", "cmsproof_c", "workloads")
# It stands in the place of the compiler. What is to become machine code becomes assembly, which is kept, and code of that.
COMPILER = """#!/bin/sh
set -eu
case " $* " in *" -c "*) ;; *) exec {real} "$@" ;; esac
for word; do
    shift
    case $word in -c) word=-S ;; module.o) word={kept} ;; esac
    set -- "$@" "$word"
done
{real} "$@"
exec {real} {target} -c -x assembler {kept} -o module.o
"""
# a name in quotes, a name that needs none, and the lines in which quotes hold something else
QUOTED = re.compile(rb'"([^"\n]*)"')
PLAIN_NAME = re.compile(rb"[A-Za-z0-9_.$]*")
TEXTS = tuple(f"\t.{word}".encode() for word in ("section", "ascii", "asciz", "string", "file", "ident"))
# words of a verdict's line by which functions need not keep their contracts: they end the process, wait, or are written in C, say
LOOSE = ("foreign", "hides", "partial", "may-abort", "may-wait", "may-serve", "bugs")
# what of the environment has a check allow more, or compile by another compiler
ALLOWING = ("RT_ALLOW_C", "RT_BACKEND")


class Stopped(Exception):
    """Why nothing was made, in one line."""


def kit():
    """The library of `rt`, as that command uses it: some builds of the kit share kept work among a machine's copies of the repository."""
    for name in ALLOWING:
        os.environ.pop(name, None)
    command = shutil.which("rt")
    if not command:
        raise Stopped("no command 'rt' is on the PATH: install the Rattle toolchain")
    loaded = kept_sums.load(command)
    if hasattr(loaded, "share_work"):
        loaded.share_work(True)
    return loaded.rtlib


def below(tops):
    """All libraries that these stand on, each behind those that it needs."""
    found = []
    for top in tops:
        found += [crate for crate in top.below() if crate not in found]
    return found


def tops(library):
    """The crates that dist/ has, the program first. They and what is `below` them are locked until this process ends."""
    known = {}
    found = [library.Crate(str(TOP / "crates" / name), str(TOP), known) for name in BUILT]
    library.guarded()
    found[0].held = library.lock([*below(found), *found])
    return found


def weights(library, crates):
    """A measure of how long each crate's proof takes: its lines of code, and a quarter of those of definitions and proofs."""
    found = {}
    for crate in crates:
        texts = [library.text_of(file) for file in library.files_of(crate.folder) if file.endswith(".antt")]
        found[crate] = crate.count(rb"\n") + sum(text.count("\n") for text in texts) // 4 + 1
    return found


def chains(crates, weight):
    """For each crate how long the longest chain of proofs is that begins with it."""
    found = {}
    for crate in reversed(crates):
        found[crate] = weight[crate] + max((found[above] for above in found if crate in above.deps), default=0)
    return found


class Progress:
    """A line for each crate that is proved, with an estimate of what is left, by the weight of what was proved in this run."""

    def __init__(self, weight, slots, out=sys.stdout):
        self.weight, self.slots, self.out = weight, slots, out
        self.done, self.worked, self.seconds = set(), 0, 0.0

    def tell(self, crate, seconds, was_built):
        """Says that a crate is proved."""
        self.done.add(crate)
        if not was_built:
            self.worked, self.seconds = self.worked + self.weight[crate], self.seconds + seconds
        took = "kept" if was_built else f"{seconds / 60:.0f} min" if seconds >= 60 else f"{seconds:.0f} s"
        left = sum(weight for it, weight in self.weight.items() if it not in self.done)
        rest = ""
        if left and self.worked:
            rest = f"; about {self.seconds / self.worked * left / self.slots / 60 + 0.5:.0f} min left"
        print(f"proved {len(self.done)} of {len(self.weight)}: {crate.name} ({took}){rest}", file=self.out, flush=True)


def looseness(verdict, handles=None):
    """Why what a verdict's line says is not enough, in one line, or the empty text. `rt ci` holds each crate to HANDLES likewise."""
    handles = (TOP / "HANDLES").read_text(encoding="utf-8") if handles is None else handles
    said = dict(word.partition("=")[::2] for word in verdict.split())
    allowed = re.findall(r"\w+", handles.partition(":")[2])
    loose = [word for word in LOOSE if word in said and not (word == "may-wait" and "Wait" in allowed)]
    loose += [f"main={name}" for name in re.findall(r"\w+", said.get("main", "")) if name not in allowed]
    return f"a function need not keep its contract, or does what HANDLES does not allow: {' '.join(loose)}" if loose else ""


def prove_one(crate, flags):
    """Proves a library, or takes what was kept of the same text; returns its status, seconds, and whether it was kept."""
    began, was_built = time.monotonic(), crate.is_built()
    folder = Path(crate.folder) / "out"
    folder.mkdir(exist_ok=True)
    with open(folder / "proved.log", "w+", encoding="utf-8") as crate.out:
        status = crate.build_rlib(flags, False)
        crate.out.seek(0)
        why = looseness(" ".join(re.findall(r"^logic=.*$", crate.out.read(), re.M)))
        if why:
            crate.out.write(f"cmsproof: {crate.name}: {why}\n")
    return status or bool(why), time.monotonic() - began, was_built


def prove_below(library, tops, slots, flags):
    """Proves all libraries below the crates that dist/ has, so many at a time, those of the longest chain first."""
    crates = below(tops)
    weight = weights(library, [*crates, tops[0]])
    chain, progress = chains([*crates, tops[0]], weight), Progress(weight, slots)
    waiting, running, done = sorted(crates, key=lambda it: -chain[it]), {}, set()
    with ThreadPoolExecutor(slots) as pool:
        while waiting or running:
            ready = [it for it in waiting if all(lower in done for lower in it.below())]
            for crate in ready[: slots - len(running)]:
                waiting.remove(crate)
                running[pool.submit(prove_one, crate, flags)] = crate
            for ended in wait(running, return_when=FIRST_COMPLETED).done:
                crate, (status, seconds, was_built) = running.pop(ended), ended.result()
                if status:
                    end_with_log(crate)
                done.add(crate)
                progress.tell(crate, seconds, was_built)
    return progress


def end_with_log(crate):
    """Shows why a crate is not proved, and ends; what still runs ends with this process."""
    sys.stdout.write((Path(crate.folder) / "out" / "proved.log").read_text(encoding="utf-8", errors="replace"))
    print(f"cmsproof: {crate.name} is NOT PROVED, so nothing was built", flush=True)
    os._exit(1)


def checks_at_a_time():
    """How many checks there are processors and memory for."""
    said = subprocess.run(["sh", str(TOP / "tools" / "jobs.sh")], capture_output=True, text=True, check=True).stdout
    return min(int(said), len(os.sched_getaffinity(0)))


def slots_and_flags():
    """Two crates at a time with two jobs each, where there are processors and memory for four checks; else one, as `rt` has it."""
    return (2, ["--jobs", "2"]) if checks_at_a_time() >= 4 else (1, [])


def quoted(path):
    """A path as a word of the shell."""
    return shlex.quote(str(path))


def toolchain(library, folder, name, target):
    """A copy of the toolchain's folder, of links, whose compiler keeps the assembly in the file that is returned beside it."""
    real = Path(library.KIT) / "toolchain"
    copy, kept = Path(folder) / f"toolchain-{name}-{target}", Path(folder) / f"{name}-{target}.s"
    (copy / "bin").mkdir(parents=True)
    for entry in real.iterdir():
        if entry.name != "bin":
            (copy / entry.name).symlink_to(entry)
    for entry in (real / "bin").iterdir():
        if entry.name != "clang":
            (copy / "bin" / entry.name).symlink_to(entry)
    (copy / "bin" / "clang").write_text(
        COMPILER.format(real=quoted(real / "bin" / "clang"), kept=quoted(kept), target=f"--target={target}-unknown-linux-gnu")
    )
    (copy / "bin" / "clang").chmod(0o755)
    return copy, kept


def plain(assembly):
    """The assembly as every assembler reads it: GNU's does not know `.addrsig`, which only a linker's option uses, and an older one of
    GNU's takes no `#` or `'` in a name, not even in quotes, so that such a name becomes a number."""
    lines = [line for line in assembly.splitlines(keepends=True) if not line.startswith(b"\t.addrsig")]
    numbers = {}

    def numbered(found):
        if PLAIN_NAME.fullmatch(found[1]):
            return found[0]
        return b"cmsproof.%d" % numbers.setdefault(found[1], len(numbers))

    if any(b"cmsproof." in line for line in lines if not line.startswith(TEXTS)):
        raise Stopped("the compiler gives names that begin with 'cmsproof.': have plain() of tools/proving.py take others")
    return b"".join(line if line.startswith(TEXTS) else QUOTED.sub(numbered, line) for line in lines)


def assembled(library, top, target, folder, incremental, out):
    """Proves a crate over its libraries, which stand proved, and returns its assembly and the verdict's line."""
    copy, kept = toolchain(library, folder, top.name, target)
    words = top.words(["--jobs", "1"], keeps=False)
    words += ["--toolchain", str(copy), "--backend", "llvm", *TARGETS[target], "--incremental", incremental]
    made = Path(folder) / f"{top.name}-{target}.{'a' if top.is_static else 'o'}"
    with open(made.with_suffix(".log"), "w+", encoding="utf-8") as log:
        top.out = log
        status = top.call(library.RATTLE, "build", *words, "-o", str(made))
        log.seek(0)
        said = log.read()
    verdicts = re.findall(r"^logic=proved .*$", said, re.M)
    if status or len(verdicts) != 1 or not kept.is_file():
        out.write(said)
        raise Stopped(f"{top.name} is not proved for {target}, or was not compiled")
    if why := looseness(verdicts[0]):
        raise Stopped(f"{top.name}: {why}")
    return plain(kept.read_bytes()), told(verdicts[0])


def told(verdict):
    """A verdict's line without the words that say over which kept files the run went, which differ from run to run."""
    return " ".join(word for word in verdict.split() if not word.endswith("=trusted"))


def made(library, crates, incremental=None):
    """The assembly and the verdict's line of each crate and for each target, by both names, of as many crates at a time as there is
    room for; what a check keeps for the next goes to `incremental`."""

    def made_of(top):
        place = incremental or str(Path(folder) / f"incremental-{top.name}")
        return {(top.name, target): assembled(library, top, target, folder, place, sys.stderr) for target in TARGETS}

    with tempfile.TemporaryDirectory(prefix="cmsproof-dist-") as folder, ThreadPoolExecutor(checks_at_a_time()) as pool:
        # (the last crate takes longest, and so begins first)
        begun = {top: pool.submit(made_of, top) for top in reversed(crates)}
        return {place: it for top in crates for place, it in begun[top].result().items()}


def compiler_of(library):
    """The first line of what the toolchain's compiler says of itself."""
    real = Path(library.KIT) / "toolchain" / "bin" / "clang"
    return subprocess.run([real, "--version"], capture_output=True, text=True, check=True).stdout.splitlines()[0]


def names_of(library):
    """How the kit and its logic are called."""
    return (Path(library.KIT) / "KIT-ID").read_text(encoding="utf-8").split()
