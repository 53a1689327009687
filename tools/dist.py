#!/usr/bin/env python3
"""dist.py make|proved|verify|begin|gate T S|emulated: what dist/ is made of, and whether it is what these sources compile to.

make      proves the program, the library for C and the program of workloads, or takes what was kept of the same text, and writes
          dist/ but for runtime.c
proved    proves it and has the toolchain build ./cmsproof
verify    proves them and compares their assembly, text for text, and PROVENANCE with dist/; status 1 if they differ
begin     before `rt ci`: ends with status 1 if dist/ says that it is of other sources; removes libraries that an earlier text left
gate T S  after `rt ci`: as verify, over the libraries that it proved in this folder since the second T; S is the digest of the sources
          before it, so that what was changed meanwhile does not pass unproved
emulated  runs few of the rows on the program for aarch64, if qemu-aarch64 and a compiler for it are there, else says that it did not"""
import gzip
import hashlib
import io
import os
import shlex
import shutil
import subprocess
import sys
import tempfile
from pathlib import Path

import proving
from proving import Stopped

TOP = proving.TOP
DIST = TOP / "dist"
# the file of dist/ for each crate and target
STEMS = dict(zip(proving.BUILT, ("cmsproof", "libcmsproof", "workloads")))
ASSEMBLY = {(name, target): f"{STEMS[name]}-{target}-linux.s.gz" for name in proving.BUILT for target in proving.TARGETS}
MEND = "run make dist"
HEAD = """# What dist/ was made of. `sources` is what tools/sources.sh prints: the SHA-256 of a list of all files of the crates.
# The lines of verdicts are those of both programs and of the library for C, without the words that say which kept files a run went over.
"""


def sources():
    """The digest of this folder's sources."""
    done = subprocess.run(["sh", str(TOP / "tools" / "sources.sh")], capture_output=True, text=True, check=True)
    return done.stdout.strip()


def packed(octets):
    """Octets as gzip, without a name and a time."""
    buffer = io.BytesIO()
    with gzip.GzipFile(filename="", mode="wb", compresslevel=9, fileobj=buffer, mtime=0) as file:
        file.write(octets)
    return buffer.getvalue()


def unpacked(path):
    """What a file of dist/ holds, or nothing if it is missing or no whole file of gzip."""
    try:
        return gzip.decompress(path.read_bytes())
    except (OSError, EOFError, ValueError):
        return b""


def provenance(digest, names, compiler, verdicts):
    """The text of PROVENANCE."""
    lines = [f"sources sha256 {digest}", f"kit {names[0]}", f"logic {names[-1]}", f"compiler {compiler}"]
    lines += [f"verdict {name} {target} {verdicts[name, target]}" for name, target in sorted(verdicts)]
    return HEAD + "\n".join(lines) + "\n"


def said_sources(folder=DIST):
    """The digest of the sources that PROVENANCE names, or nothing."""
    try:
        lines = (folder / "PROVENANCE").read_text(encoding="utf-8").splitlines()
    except (OSError, UnicodeDecodeError):
        return ""
    return next((line.split()[-1] for line in lines if line.startswith("sources sha256 ")), "")


def sums(folder=DIST):
    """The text of SHA256SUMS, of all other files of the folder."""
    names = sorted(path.name for path in folder.iterdir() if path.name != "SHA256SUMS")
    return "".join(f"{hashlib.sha256((folder / name).read_bytes()).hexdigest()}  {name}\n" for name in names)


def write(folder, texts, record):
    """Writes dist/; a file that holds the same text already stays as it is, whichever zlib packed it."""
    for place, text in texts.items():
        if unpacked(folder / ASSEMBLY[place]) != text:
            (folder / ASSEMBLY[place]).write_bytes(packed(text))
    (folder / "PROVENANCE").write_text(record, encoding="utf-8")
    (folder / "SHA256SUMS").write_text(sums(folder), encoding="utf-8")


def differing(folder, texts, record):
    """The names of the files of dist/ that are not what was made just now."""
    found = [ASSEMBLY[place] for place in sorted(texts) if unpacked(folder / ASSEMBLY[place]) != texts[place]]
    here = {
        name: (folder / name).read_text(errors="replace") if (folder / name).is_file() else ""
        for name in ("PROVENANCE", "SHA256SUMS")
    }
    return found + [name for name, wanted in (("PROVENANCE", record), ("SHA256SUMS", sums(folder))) if here[name] != wanted]


def made_now(library, tops, incremental, digest):
    """The texts and the record of the sources with this digest, if they are still the same in the end."""
    made = proving.made(library, tops, incremental)
    if sources() != digest:
        raise Stopped("a source changed meanwhile: run this again")
    texts = {place: text for place, (text, _) in made.items()}
    verdicts = {place: verdict for place, (_, verdict) in made.items()}
    return texts, provenance(digest, proving.names_of(library), proving.compiler_of(library), verdicts)


def proved(library, tops):
    """Proves all libraries below the crates that dist/ has, with a line for each."""
    slots, flags = proving.slots_and_flags()
    print(
        f"cmsproof: proving {len(proving.below(tops)) + 1} crates, {slots} at a time; from nothing this takes long", flush=True
    )
    return proving.prove_below(library, tops, slots, flags)


def named(record, word):
    """What a record says behind this word, in the line that begins with it."""
    return next((line.partition(" ")[2] for line in record.splitlines() if line.startswith(f"{word} ")), "")


def by_maker_of(folder, record):
    """A record with the kit and the compiler that PROVENANCE names, if it names both. Another build of the kit, of the same logic, that
    writes the same text shows as much of dist/ as the one by which it was made."""
    try:
        said = (folder / "PROVENANCE").read_text(encoding="utf-8")
    except (OSError, UnicodeDecodeError):
        return record
    for word in ("kit", "compiler"):
        if named(said, word):
            record = record.replace(f"\n{word} {named(record, word)}\n", f"\n{word} {named(said, word)}\n", 1)
    return record


def compare(texts, record):
    """Says whether dist/ is what was made just now, by the kit that made it or by another of the same logic."""
    same = by_maker_of(DIST, record)
    found = differing(DIST, texts, same)
    if found:
        raise Stopped(f"dist/ is not what these sources compile to ({', '.join(found)}): {MEND}")
    targets = " and ".join(sorted(proving.TARGETS))
    print(f"cmsproof: dist/ is what these sources compile to, text for text, for {targets}", flush=True)
    if same != record:
        print(
            f"cmsproof: dist/ was made by {named(same, 'kit')}, and compared by {named(record, 'kit')} of the same logic",
            flush=True,
        )


def make_or_verify(verb):
    """Proves, and writes dist/ or compares it."""
    library, digest = proving.kit(), sources()
    tops = proving.tops(library)
    proved(library, tops)
    texts, record = made_now(library, tops, "out/incremental", digest)
    if verb == "verify":
        return compare(texts, record)
    write(DIST, texts, record)
    print("cmsproof: dist/ is made of these sources", flush=True)
    return None


def build_proved():
    """Proves all, and has `rt run` build the program by the toolchain."""
    library = proving.kit()
    tops = proving.tops(library)
    top, progress = tops[0], proved(library, tops)
    for held in top.held:
        os.close(held)
    began = proving.time.monotonic()
    done = subprocess.run(["rt", "run", "--", "--version"], cwd=top.folder, stdout=subprocess.PIPE, stderr=subprocess.STDOUT)
    if done.returncode:
        sys.stdout.buffer.write(done.stdout)
        raise Stopped("cmsproof is NOT PROVED, or was not built")
    progress.tell(top, proving.time.monotonic() - began, False)
    shutil.copy(Path(top.folder) / "out" / "cmsproof", TOP / "cmsproof.new")
    os.replace(TOP / "cmsproof.new", TOP / "cmsproof")
    print("cmsproof: ./cmsproof is built by the toolchain from these sources, all proved", flush=True)


def begin():
    """What `make test` does before `rt ci`. It removes the libraries, which may be of any text, unless rt's stamps say that all are
    kept of this one."""
    if said_sources() != sources():
        raise Stopped(f"dist/ is not of these sources (PROVENANCE): {MEND}")
    library = proving.kit()
    crates = proving.below(proving.tops(library))
    if not all(crate.is_built() for crate in crates):
        for crate in crates:
            shutil.rmtree(Path(crate.folder) / "out" / "rlib", ignore_errors=True)


def is_new(crate, began):
    """Whether the library that stands there was put there since that second, and is none that rt keeps: so `rt ci` leaves them."""
    rlib = Path(crate.rlib)
    return (rlib / "format").is_file() and rlib.stat().st_mtime >= began and not (rlib.parent / "stamp").exists()


def gate(began, before):
    """What `make test` does after `rt ci` passed, whose verdict stands: only the text of the assembly is compared here. The libraries
    are those of `rt ci`, or, if those that were kept of the same text stand there again, these; never some of each."""
    digest = sources()
    if digest != before:
        raise Stopped("a source changed since the gate began: run make test again")
    library = proving.kit()
    tops = proving.tops(library)
    crates = proving.below(tops)
    if not all(crate.is_built() for crate in crates) and not all(is_new(crate, began) for crate in crates):
        raise Stopped("the libraries in crates/*/out are not all of one run: remove crates/*/out/rlib and run make test again")
    compare(*made_now(library, tops, None, digest))


def emulated():
    """Runs the rows on the program for aarch64."""
    compiler, machine = shutil.which("aarch64-linux-gnu-gcc"), shutil.which("qemu-aarch64")
    if not compiler or not machine:
        print("cmsproof: aarch64's program was not run: qemu-aarch64 or aarch64-linux-gnu-gcc is missing", flush=True)
        return
    with tempfile.TemporaryDirectory(prefix="cmsproof-dist-") as folder:
        program, script = Path(folder) / "cmsproof", Path(folder) / "emulated"
        environment = {**os.environ, "MACHINE": "aarch64", "CC": compiler}
        subprocess.run(["sh", str(TOP / "tools" / "build.sh"), str(program)], env=environment, check=True)
        script.write_text(
            f'#!/bin/sh\nexec {shlex.quote(machine)} -L /usr/aarch64-linux-gnu {shlex.quote(str(program))} "$@"\n'
        )
        script.chmod(0o755)
        # (each run of the program costs the emulator a good part of a second)
        subprocess.run([sys.executable, str(TOP / "tools" / "program_rows.py"), "--few", str(script)], check=True)


CALLS = {
    ("make",): lambda: make_or_verify("make"),
    ("verify",): lambda: make_or_verify("verify"),
    ("proved",): build_proved,
    ("begin",): begin,
    ("emulated",): emulated,
}


def main(words):
    """Does what the words say; a line says why it could not."""
    call = CALLS.get(tuple(words))
    if len(words) == 3 and words[0] == "gate" and words[1].isdigit():
        call = lambda: gate(int(words[1]), words[2])  # noqa: E731
    if call is None:
        print(__doc__, file=sys.stderr)
        return 2
    try:
        call()
    except Stopped as why:
        print(f"cmsproof: {why}", file=sys.stderr)
        return 1
    except subprocess.CalledProcessError as error:
        print(f"cmsproof: status {error.returncode}: {' '.join(map(str, error.cmd))}", file=sys.stderr)
        return 1
    return 0


if __name__ == "__main__":
    sys.exit(main(sys.argv[1:]))
