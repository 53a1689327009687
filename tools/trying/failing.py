#!/usr/bin/env python3
"""Runs each command of the built program with the Nth growth of memory refused, the Nth open, read, write, seek, sync, link, rename or removal, or
the Nth new folder failing, or moving one octet alone, N from 1 until a run meets none of it. Commands over several files are among them:
there each file's lines must be those of the whole run, or say what failed, and a run that stops has a beginning of that. So are files over 1 MiB, made here, which
`check` and `questions` read in two, three and four passes, each with more memory.

    python3 tools/trying/failing.py [PROGRAM] [--test NAME]

With --test PROGRAM is that of a crate's tests, which `rt ci` builds as out/CRATE_tests, and the test of this name must pass with each
growth refused, as `--test tests::memory::the_next_call_gives_all` of failure_tests does.
A library that stands before the C library's calls does it; it is compiled here (it needs `cc`). A run that met the fault and ends with
the status 0 must have printed and written all that the command gives; another one must say on the standard error what failed, `failed
memory` for memory, or X4 where a record is judged, and nothing but that, with status 4, and have printed a beginning at most, and
written a beginning at most. After a short move all is as ever. The last run, which met no fault, gives all. Prints a line for each
command and fault.
"""
from __future__ import annotations

import argparse
import functools
import os
import re
import shutil
import subprocess
import sys
import tempfile
from pathlib import Path

sys.path.insert(0, str(Path(__file__).resolve().parent.parent))
from oracle.der import octets  # noqa: E402
from samples.building import attribute  # noqa: E402
from trying import hostile_devices, record_inputs  # noqa: E402
from trying.hostile_inputs import CHECK, QUESTIONS, write  # noqa: E402
from trying.hostile_runs import octets_in  # noqa: E402
from trying.hostile_sizes import OTHER, stamped_with  # noqa: E402
from trying.record_inputs import EVIDENCE_CHECK, EVIDENCE_QUESTIONS  # noqa: E402
from trying.under_inputs import UNDER  # noqa: E402

LIBRARY = r"""
#define _GNU_SOURCE
#include <errno.h>
#include <fcntl.h>
#include <stdarg.h>
#include <stdlib.h>
#include <string.h>
#include <sys/stat.h>
#include <sys/syscall.h>
#include <sys/uio.h>
#include <unistd.h>
void *__libc_malloc(size_t), *__libc_realloc(void *, size_t), *__libc_calloc(size_t, size_t);
static const char *what = "";
static long left = -1;
__attribute__((constructor)) static void begin(void) {
    what = getenv("FAULT") ? getenv("FAULT") : "";
    left = getenv("CALL") ? atol(getenv("CALL")) : -1;
}
/* Whether this call is the one: then a file tells so. */
static int meets(const char *call) {
    if (left <= 0 || strcmp(what, call) != 0 || --left != 0) return 0;
    long met = syscall(SYS_openat, AT_FDCWD, "met", O_CREAT | O_WRONLY, 0644);
    if (met >= 0) syscall(SYS_close, met);
    return 1;
}
static int fails(const char *call, int with) { if (!meets(call)) return 0; errno = with; return 1; }
void *malloc(size_t n) { return fails("memory", ENOMEM) ? NULL : __libc_malloc(n); }
void *realloc(void *p, size_t n) { return fails("memory", ENOMEM) ? NULL : __libc_realloc(p, n); }
void *calloc(size_t n, size_t m) { return fails("memory", ENOMEM) ? NULL : __libc_calloc(n, m); }
ssize_t read(int fd, void *to, size_t n) {
    if (fails("read", EIO) || fails("read interrupted", EINTR)) return -1;
    if (n > 1 && meets("short read")) n = 1;
    return syscall(SYS_read, fd, to, n);
}
ssize_t write(int fd, const void *from, size_t n) {
    if (fails("write", ENOSPC) || fails("write interrupted", EINTR)) return -1;
    if (n > 1 && meets("short write")) n = 1;
    return syscall(SYS_write, fd, from, n);
}
ssize_t writev(int fd, const struct iovec *parts, int count) {
    if (fails("write", ENOSPC) || fails("write interrupted", EINTR)) return -1;
    return syscall(SYS_writev, fd, parts, count);
}
off_t lseek(int fd, off_t to, int whence) { return fails("seek", EIO) ? -1 : syscall(SYS_lseek, fd, to, whence); }
off_t lseek64(int fd, off_t to, int whence) { return lseek(fd, to, whence); }
int fsync(int fd) { return fails("sync", EIO) ? -1 : syscall(SYS_fsync, fd); }
int fdatasync(int fd) { return fails("sync", EIO) ? -1 : syscall(SYS_fdatasync, fd); }
int link(const char *from, const char *to) {
    return fails("link", ENOSPC) ? -1 : syscall(SYS_linkat, AT_FDCWD, from, AT_FDCWD, to, 0);
}
int linkat(int at, const char *from, int by, const char *to, int flags) {
    return fails("link", ENOSPC) ? -1 : syscall(SYS_linkat, at, from, by, to, flags);
}
int rename(const char *from, const char *to) {
    return fails("rename", ENOSPC) ? -1 : syscall(SYS_renameat2, AT_FDCWD, from, AT_FDCWD, to, 0);
}
int unlink(const char *path) { return fails("remove", EIO) ? -1 : syscall(SYS_unlinkat, AT_FDCWD, path, 0); }
int mkdir(const char *path, mode_t mode) { return fails("folder", ENOSPC) ? -1 : syscall(SYS_mkdirat, AT_FDCWD, path, mode); }
static int opens(int at, const char *path, int flags, va_list more) {
    int mode = va_arg(more, int);
    va_end(more);
    if (fails("open", EMFILE)) return -1;
    return syscall(SYS_openat, at, path, flags, mode);
}
int open(const char *path, int flags, ...) { va_list more; va_start(more, flags); return opens(AT_FDCWD, path, flags, more); }
int open64(const char *path, int flags, ...) { va_list more; va_start(more, flags); return opens(AT_FDCWD, path, flags, more); }
int openat(int at, const char *path, int flags, ...) { va_list more; va_start(more, flags); return opens(at, path, flags, more); }
int openat64(int at, const char *path, int flags, ...) { va_list more; va_start(more, flags); return opens(at, path, flags, more); }
"""
FAULTS = [
    "memory",
    "open",
    "read",
    "read interrupted",
    "write",
    "write interrupted",
    "seek",
    "short read",
    "short write",
    "sync",
    "link",
    "rename",
    "remove",
    "folder",
]
# the files that commands make, one of them or several in this order; and the records that they replace, which are as they were before each run
MADE = ("out", "out.ers", "a/b.ers", "c\\\n.ers")
REPLACED = record_inputs.CHANGED
MORE = [
    CHECK + ["--content", "content", "detached"],
    ["fit", "--content", "content", "detached"],
    ["show", "tst", "stamp"],
    ["request", "--digest", hostile_devices.DIGEST, "--policy", "2.999.3", "--nonce", "05", "--cert", "out"],
    ["request", "--digest", "00", "out"],
    ["migrate", "file", "out"],
    ["fit", "missing"],
    ["fit", "--frob"],
    ["check", "--help"],
    EVIDENCE_CHECK + ["--whole", "of-group", "content", "other"],
    EVIDENCE_CHECK + ["tree", "missing"],
    EVIDENCE_CHECK + ["tree", "long"],
    EVIDENCE_CHECK + ["--end", "x", "tree", "content"],
    UNDER + ["record-under", "missing"],
    UNDER + ["record-under", "long"],
    UNDER + ["record-under", "--buffer", "499", "file"],
    UNDER + ["record-under", "--end", "x", "file"],
    ["evidence", "request", "--policy", "2.999.3", "--nonce", "05", "--cert", "sums", "out"],
    ["evidence", "make", "--token", "token", "--into", ".", "sums"],
    ["evidence", "make", "--token", "token", "--into", "missing", "sums"],
    ["evidence", "renew", "--request", "out", "tree", "of-group"],
    ["evidence", "renew", "--token", "token", "tree"],
    ["evidence", "make", "--token", "of-sums", "--into", ".", "sums-two"],
    ["evidence", "renew", "--token", "renewing", "again"],
    ["evidence", "renew", "--token", "renewing", "again", "again.ers"],
    hostile_devices.REHASH + ["--token", "rehashing", "sums-again"],
    hostile_devices.REHASH + ["--token", "token", "sums-tree"],
    hostile_devices.REHASH + ["--request", "out", "sums"],
]
# the second one is told while a record is judged
NO_MEMORY = b"failed memory\n", b"failed X4 OutOfMemory\n"
MIB = 1 << 20
# files over 1 MiB: how long an attribute is that nobody reads, and where the file is cut. A pass has room for 1 MiB, the one after it
# for as many octets as the file has, the next one for 8 MiB, the last one for as many as the words allow: `long` takes two passes,
# `cut`, whose elements state 2 MiB, three, and `far`, whose elements state 9 MiB, four
LONG = {"long": (MIB + 5_000, None), "cut": (2 * MIB, MIB + 4_096), "far": (9 * MIB, MIB + 4_096)}
PASSES = [
    CHECK + ["long"],
    CHECK + ["--content", "content", "long-detached"],
    CHECK + ["cut"],
    CHECK + ["--buffer", str(10 * MIB), "far"],
    QUESTIONS + ["long"],
    QUESTIONS + ["cut"],
    QUESTIONS + ["--buffer", str(10 * MIB), "far"],
]
# over several files: the words before their names, and the names
SEVERAL = [
    (CHECK, ["file", "missing", "detached"]),
    (["fit", "--content", "content"], ["detached", "file"]),
    (QUESTIONS, ["file", "missing", "stamp", "file"]),
    (CHECK, ["file", "cut", "long", "detached"]),
    (QUESTIONS, ["cut", "file", "long"]),
    (EVIDENCE_QUESTIONS, ["tree", "missing", "encrypted", "of-old", "file"]),
]


class Failing:
    def __init__(self, program, library, folder):
        self.program, self.folder = os.path.abspath(program), folder
        self.environment = {"LD_PRELOAD": library}

    def run(self, words, fault, call):
        """Whether the fault was met, the exit status, both streams, what was made, and what is in the place of what is replaced."""
        for name in ("met", *MADE):
            if os.path.exists(os.path.join(self.folder, name)):
                os.unlink(os.path.join(self.folder, name))
        shutil.rmtree(os.path.join(self.folder, "a"), ignore_errors=True)
        for name, contents in REPLACED.items():
            with open(os.path.join(self.folder, name), "wb") as file:
                file.write(contents)
        done = subprocess.run(
            [self.program, *words],
            cwd=self.folder,
            stdin=subprocess.DEVNULL,
            capture_output=True,
            timeout=60,
            env={**self.environment, "FAULT": fault, "CALL": str(call)},
        )
        met, *made = (octets_in(self.folder, name) for name in ("met", *MADE))
        there = [one for one in made if one is not None]
        replaced = [octets_in(self.folder, name) for name in REPLACED]
        return met is not None, done.returncode, done.stdout, done.stderr, b"".join(there) if there else None, replaced

    def sweep(self, words, fault, fault_of):
        """How many calls met the fault, how many of those runs ended with each status, and what is wrong with them."""
        whole, met, statuses, wrong = self.run(words, "none", 1), 0, {}, []
        while True:
            answer = self.run(words, fault, met + 1)
            if not answer[0]:
                break
            met += 1
            statuses[answer[1]] = statuses.get(answer[1], 0) + 1
            said = fault_of(fault, whole[1:], answer[1:])
            if said:
                wrong.append((met, said, answer[1:4]))
        if answer[1:] != whole[1:]:
            wrong.append((met + 1, "the run that met nothing differs", answer[1:4]))
        return met, statuses, wrong


def fault_of(fault, whole, answer, memory=NO_MEMORY[:1]):
    """What is wrong with an answer, each being status, standard output, standard error, what was made and what is in the place of what is
    replaced, where `memory` is what may be told of a want of it; or None."""
    status, out, err, file, replaced = answer
    if answer == whole:
        return None
    if fault.startswith("short"):
        return "a short move changes the answer"
    if status != 4 and (status, out, file, replaced) != (whole[0], whole[1], whole[3], whole[4]):
        return "another answer in place of a failure"
    if status == 4 and fault == "memory" and err not in (*memory, b""):
        return "want of memory is told as something else"
    if not whole[1].startswith(out) and out:
        return "what was printed is no beginning"
    if file is not None and (whole[3] is None or not whole[3].startswith(file)):
        return "what was written is no beginning"
    if any(one not in (old, due) for one, old, due in zip(replaced, REPLACED.values(), whole[4])):
        return "a record is neither the old one nor the new one"
    if status == 4 and not err and "write" not in fault:
        return "nothing is told"
    return None


def lines_of_several(printed, names):
    """What is printed of several files: the lines before the first, and those of each; its name and what is said stand in the first."""
    lines = [line + b"\n" for line in printed.split(b"\n")]
    lines[-1] = lines[-1][:-1]
    blocks, left = [b""], [name.encode() for name in names]
    for line in filter(None, lines):
        if left and line.removeprefix(b"# ").startswith((left[0] + b": ", left[0] + b"\n")):
            blocks.append(b"")
            left.pop(0)
        blocks[-1] += line
    return blocks


def fault_of_several(names, fault, whole, answer):
    """The same for a command over these files."""
    status, out, err, *_ = answer
    if answer == whole or fault.startswith("short") or status != whole[0] == 4 or status != 4:
        return fault_of(fault, whole, answer)
    *before, last = lines_of_several(out, names)
    for found, wanted, name in zip(before, lines_of_several(whole[1], names), ["", *names]):
        failed = name and re.fullmatch(
            rb"(# )?%s: failed (memory|X1 ReadFailed|(open|read) (%s|content))\n" % (name.encode(), name.encode()), found
        )
        if found != wanted and not failed:
            return "something else is told of %s" % (name or "all")
    if err and len(before) == len(names) and last.endswith(b"\n") and "write" not in fault:
        return "all is told, and a failure too"
    return None


def commands():
    printing = [words for words, _ in hostile_devices.PRINTING]
    return printing + [words for words, _ in hostile_devices.MAKING] + MORE + PASSES


def write_long(folder):
    """Writes the files over 1 MiB, each with its content and, with `-detached` behind its name, without."""
    for name, (size, end) in LONG.items():
        more = attribute(OTHER, octets(bytes(size)))
        for path, whole in ((name, stamped_with(more)), (name + "-detached", stamped_with(more, content=None))):
            with open(os.path.join(folder, path), "wb") as file:
                file.write(whole[:end])


def library_in(folder):
    library, source = os.path.join(folder, "failing.so"), os.path.join(folder, "failing.c")
    with open(source, "w") as file:
        file.write(LIBRARY)
    subprocess.run(["cc", "-O1", "-shared", "-fPIC", "-o", library, source], check=True)
    return library


def test(failing, name):
    """The runs of a test with each growth refused, and how many of them fail."""
    met, differing = 0, 0
    while True:
        answer = failing.run([name], "memory", met + 1)
        if answer[1] != 0:
            differing += 1
            print("DIFFERS growth %d | %r" % (met + 1, answer[1:4]))
        if not answer[0]:
            return met + 1, differing
        met += 1


def told_of(words):
    """What says what is wrong with an answer of this command."""
    judges = words[:2] == EVIDENCE_CHECK[:2] or "--evidence" in words
    return functools.partial(fault_of, memory=NO_MEMORY) if judges else fault_of


def all_commands(failing):
    runs, differing = 0, 0
    several = [(words + names, functools.partial(fault_of_several, names)) for words, names in SEVERAL]
    for words, told in [(words, told_of(words)) for words in commands()] + several:
        for fault in FAULTS:
            met, statuses, wrong = failing.sweep(words, fault, told)
            runs, differing = runs + met + 1, differing + len(wrong)
            print("%-70s %-18s %4d met, statuses %s" % (" ".join(words)[:70], fault, met, statuses))
            for number, said, answer in wrong:
                print("DIFFERS", " ".join(words), "|", fault, number, "|", said, "|", repr(answer)[:300])
    return runs, differing


def main():
    parser = argparse.ArgumentParser(description=__doc__, formatter_class=argparse.RawDescriptionHelpFormatter)
    parser.add_argument("program", nargs="?", default="./cmsproof")
    parser.add_argument("--test")
    words = parser.parse_args()
    with tempfile.TemporaryDirectory() as folder:
        write(folder)
        write_long(folder)
        failing = Failing(words.program, library_in(folder), folder)
        runs, differing = test(failing, words.test) if words.test else all_commands(failing)
    print("%d runs, %d differ" % (runs, differing))
    sys.exit(1 if differing else 0)


if __name__ == "__main__":
    main()
