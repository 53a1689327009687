#!/usr/bin/env python3
"""bench.py run SINCE [SEED] | build FOLDER [COMMIT]: the workloads of dist/, timed by bench/run against those of an earlier commit.

run     builds the program `workloads` of the dist/ of commit SINCE and of the one here, in a folder that is removed again, and runs
        bench/run OLD NEW SEED on both. It takes seconds beside what bench/run takes, and neither `rt` nor a proof.
build   builds it as FOLDER/crates/workloads/out/workloads, of dist/ here or of that commit: FOLDER is then an OLD or NEW for bench/run,
        beside one that was made otherwise, as by `rt run` in a checkout whose dist/ has no such file.

A commit whose dist/ has no file of the workloads ends it with status 1 and a line. $CC is the C compiler (cc)."""
import subprocess
import sys
import tempfile
from pathlib import Path

import dist
import linking
from linking import TOP, Stopped

PLACE = Path("crates") / "workloads" / "out" / "workloads"


def git(*words):
    """What git prints, as octets, or None where it fails."""
    try:
        done = subprocess.run(["git", *words], cwd=TOP, stdout=subprocess.PIPE, stderr=subprocess.DEVNULL, check=False)
    except OSError:
        raise Stopped("there is no command git, by which an earlier dist/ is found") from None
    return None if done.returncode else done.stdout


def commit_of(word):
    """The whole name of a commit."""
    if git("rev-parse", "--git-dir") is None:
        raise Stopped("this folder has no history of git, by which an earlier dist/ is found")
    found = None if word.startswith("-") else git("rev-parse", "--verify", "--quiet", f"{word}^{{commit}}")
    if found is None:
        raise Stopped(f"there is no commit {word!r} here")
    return found.decode().strip()


def held(commit, name):
    """The octets of a file of the dist/ of a commit, or None."""
    return git("cat-file", "blob", f"{commit}:dist/{name}")


def of_commit(commit, name):
    """The same, where it has the file."""
    found = held(commit, name)
    if found is None:
        raise Stopped(
            f"commit {commit[:12]} has no dist/{name}, so its workloads cannot be built from dist/: "
            "build them otherwise, and run bench/run OLD NEW (docs/PERF.md, Keeping it)"
        )
    return found


def build(folder, commit=None):
    """Builds the program of a commit, or the one here, where bench/run looks for it."""
    name = linking.assembly_of("workloads")
    found = [of_commit(commit, it) if commit else linking.of_here(it, TOP) for it in (name, "runtime.c")]
    linking.link_usual(*found, folder / PLACE)


def warn():
    """Says where dist/ here is not of the sources beside it."""
    try:
        same = dist.said_sources() == dist.sources()
    except subprocess.CalledProcessError:
        same = False
    if not same:
        print("cmsproof: dist/ here is NOT of the sources in crates/, so NEW is not what these do: make dist", flush=True)


def run(since, seed="1"):
    """Builds both and runs the benchmark; returns its status."""
    if not seed.isascii() or not seed.isdigit() or int(seed) >= 2**32:
        raise Stopped(f"SEED is a number below 2^32, and not {seed!r}")
    commit = commit_of(since)
    with tempfile.TemporaryDirectory(prefix="cmsproof-bench-") as folder:
        old, new = Path(folder) / "old", Path(folder) / "new"
        build(old, commit)
        build(new)
        warn()
        print(f"cmsproof: start is dist/ of commit {commit[:12]}, now is dist/ here; bench/run, by turns:", flush=True)
        return subprocess.run([sys.executable, TOP / "bench" / "run", old, new, seed], check=False).returncode


def main(words):
    """Does what the words say; a line says why it could not."""
    try:
        if words[:1] == ["run"] and len(words) in (2, 3) and all(words):
            return run(*words[1:])
        if words[:1] == ["run"] and not any(words[1:2]):
            raise Stopped("make bench SINCE=COMMIT [SEED=N]: SINCE is missing, the commit to compare with")
        if words[:1] == ["build"] and len(words) in (2, 3) and all(words):
            build(Path(words[1]).resolve(), commit_of(words[2]) if len(words) == 3 else None)
            return 0
    except (OSError, Stopped) as why:
        print(f"cmsproof: {why}", file=sys.stderr)
        return 1
    print(__doc__, file=sys.stderr)
    return 2


if __name__ == "__main__":
    sys.exit(main(sys.argv[1:]))
