#!/usr/bin/env python3
"""kept_sums.py WORDS..: does what `rt WORDS..` does, but takes the sum of each crate, and lists the crates below it, once in a call.

Some builds of `rt` take a crate's sum, by which they see whether a library is built, once for each path through the graph of crates,
and read each time all files of the crate: for one at the top 100,000 times and more, minutes of a call. The sum is the same. `rt ci`,
which builds all anew, takes two sums of each library and looks at none; but for each constant that a crate imports it goes all these
paths to list what is below the crate, which took it minutes before the first proof. The list is the same.
"""
import importlib.machinery
import importlib.util
import os
import shutil
import sys
import threading
from pathlib import Path


def keep_sums(kind):
    """Has a crate's sum take that of each crate below it once, given the type of crates of the library of `rt`."""
    compute, sums, alone, outer = kind.stamp, {}, threading.RLock(), []

    def stamp(crate):
        with alone:
            if outer:
                if crate.folder not in sums:
                    sums[crate.folder] = compute(crate)
                return sums[crate.folder]
            outer.append(crate)
            try:
                return compute(crate)
            finally:
                outer.clear()
                sums.clear()

    kind.stamp = stamp


def keep_lists(kind):
    """Has a crate list the crates below it once, given the type of crates of the library of `rt`."""
    compute = kind.below

    def below(crate):
        if not hasattr(crate, "listed"):
            crate.listed = compute(crate)
        return list(crate.listed)

    kind.below = below


def load(command):
    """What the command `rt` of this path is made of, with sums and lists that are kept."""
    sys.dont_write_bytecode = True
    loader = importlib.machinery.SourceFileLoader("rt", str(Path(command).resolve()))
    loaded = importlib.util.module_from_spec(importlib.util.spec_from_loader("rt", loader))
    loader.exec_module(loaded)
    keep_sums(loaded.rtlib.Crate)
    keep_lists(loaded.rtlib.Crate)
    return loaded


def rt():
    """The words that begin a command of `rt`: by this script, where `rt` is made of what it takes."""
    command = shutil.which("rt")
    library = command and Path(command).resolve().with_name("rtlib.py")
    return [sys.executable, str(Path(__file__).resolve())] if library and library.is_file() else ["rt"]


if __name__ == "__main__":
    found = shutil.which("rt")
    if not found:
        sys.exit("kept_sums: no command 'rt' is on the PATH: install the Rattle toolchain")
    if rt() == ["rt"]:
        os.execv(found, ["rt", *sys.argv[1:]])
    sys.exit(load(found).main(sys.argv[1:]))
