"""Programs of the assembly in dist/, linked by the C compiler $CC (cc): as users have them, or with bench/measured.c in the place of
C's library, so that what they cost does not depend on this machine's."""
import gzip
import hashlib
import os
import re
import shlex
import shutil
import subprocess
from pathlib import Path

TOP = Path(__file__).resolve().parent.parent
# as tools/build.sh has them
USUAL = "-std=c11 -O2 -fPIE -pie -Wall -Wextra -Wpedantic -Wconversion -Wl,-z,relro,-z,now -Wl,-z,noexecstack".split()
MEASURED = "-std=gnu11 -O2 -ffreestanding -fno-stack-protector -fno-pie -Wall -Wextra".split()
ALONE = "-static -nostdlib -no-pie -Wl,-z,noexecstack".split()


class Stopped(Exception):
    """Why something was not done, in one line."""


def machine():
    """The processor here, as dist/ names it."""
    found = {"arm64": "aarch64"}.get(os.uname().machine, os.uname().machine)
    if found not in ("x86_64", "aarch64") or os.uname().sysname != "Linux":
        raise Stopped(f"dist/ has no program for {found} under {os.uname().sysname}, only for x86_64 and aarch64 under Linux")
    return found


def assembly_of(name):
    """The name of a file of dist/ for this processor."""
    return f"{name}-{machine()}-linux.s.gz"


def compiler():
    """The words that call the C compiler."""
    words = shlex.split(os.environ.get("CC") or "cc")
    if not words or not shutil.which(words[0]):
        raise Stopped(f"there is no C compiler {' '.join(words)}: apt install build-essential, or make CC=NAME")
    return words


def of_here(name, top=TOP):
    """The octets of a file of dist/, which are as its sums say."""
    folder = top / "dist"
    try:
        octets, sums = (folder / name).read_bytes(), (folder / "SHA256SUMS").read_text(encoding="utf-8")
    except (OSError, UnicodeDecodeError):
        raise Stopped(f"dist/ here has no {name}, or no sums: make dist") from None
    found = re.search(rf"^([0-9a-f]{{64}})  {re.escape(name)}$", sums, re.M)
    if not found or found[1] != hashlib.sha256(octets).hexdigest():
        raise Stopped(f"dist/{name} was changed or damaged: check it out again, or make it anew: make dist")
    return octets


def call(*words):
    """Calls the compiler, or another command that it comes with."""
    done = subprocess.run([str(word) for word in words], stdout=subprocess.PIPE, stderr=subprocess.STDOUT, check=False)
    if done.returncode:
        said = done.stdout.decode(errors="replace").strip().splitlines() or ["nothing"]
        raise Stopped(f"{words[0]} did not build {words[-1]}: {said[0]}")
    return done.stdout.decode()


def unpacked(packed, to):
    """Writes what a file of dist/ holds."""
    try:
        to.write_bytes(gzip.decompress(packed))
    except (OSError, EOFError, ValueError):
        raise Stopped(f"{to.name} is no whole file of gzip") from None


def link_usual(packed, runtime, program):
    """Builds a program of assembly and of the text of runtime.c, as tools/build.sh does."""
    program.parent.mkdir(parents=True, exist_ok=True)
    text, beside = program.with_name(f"{program.name}.s"), program.with_name("runtime.c")
    unpacked(packed, text)
    beside.write_bytes(runtime)
    call(*compiler(), *USUAL, text, beside, "-o", program)
    text.unlink()
    beside.unlink()
