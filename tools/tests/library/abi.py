#!/usr/bin/env python3
"""abi.py LIBRARY [--write]: whether libcmsproof.so.1 in the folder LIBRARY fits what programs were built on, as abi.txt keeps it.

It says, a line each, the names that the shared library exports with their version, those that it takes from the C library (so that
it can print, open, wait or ask a clock by none of them), its soname, what it needs, whether its stack may be executed, the types of
each function in the header, and of each struct the size and of each field the place and the size, as a small C program prints them,
with the constants' values. A program that was built before breaks if one of these changes or goes: that takes another soname. What
is new is a line more, which `--write` adds. The status is 1 if anything differs. (libabigail reads debug data, which assembly lacks.)
"""
from __future__ import annotations

import re
import subprocess
import sys
import tempfile
from pathlib import Path

HERE = Path(__file__).resolve().parent
HEADER = HERE.parent.parent.parent / "include" / "cmsproof.h"
KEPT = HERE / "abi.txt"
SONAME = "libcmsproof.so.1"


def printed(*words: object) -> str:
    """What a command prints that ends with status 0."""
    return subprocess.run([str(word) for word in words], capture_output=True, text=True, check=True).stdout


def plain_header() -> str:
    """The header without comments, with one space between words."""
    return re.sub(r"/\*.*?\*/", " ", HEADER.read_text(encoding="ascii"), flags=re.S)


def functions(header: str) -> list[str]:
    """The declaration of each function."""
    found = re.findall(r"^((?:\w+ )+\**cmsproof_\w+\([^)]*\));", header, re.M)
    if len(found) != len(set(re.findall(r"\bcmsproof_\w+(?=\()", header))):
        sys.exit("abi.py: a declaration in the header has another form")
    # (a parameter may get another name)
    return ["function " + re.sub(r" ?(?<![(])\b\w+(?=[,)])", "", " ".join(text.split())) for text in found]


def structs(header: str) -> dict[str, list[str]]:
    """The names of the fields of each struct; none of one that only the library sees."""
    found = re.findall(r"typedef struct (\w+) \{(.*?)\} (\w+);", header, re.S)
    if len(found) + len(re.findall(r"typedef struct (\w+) \w+;", header)) != header.count("struct "):
        sys.exit("abi.py: a struct in the header has another form")
    return {name: re.findall(r"(\w+);", body) for _, body, name in found}


def layout(header: str, folder: Path) -> list[str]:
    """Sizes, places and values, as a C program prints them that the header goes into."""
    code = ["#include <cmsproof.h>", "#include <stdio.h>", "int main(void) {"]
    for name, fields in structs(header).items():
        code.append(f'printf("struct {name} %zu\\n", sizeof({name}));')
        for field in fields:
            place = f"offsetof({name}, {field}), sizeof((({name} *)0)->{field})"
            code.append(f'printf("field {name}.{field} at %zu of %zu\\n", {place});')
    for name in re.findall(r"typedef \w+ (cmsproof_\w+);", header):
        code.append(f'printf("type {name} %zu\\n", sizeof({name}));')
    for name in re.findall(r"#define (CMSPROOF_\w+) UINT32_C", header):
        # (the version of the header may grow)
        code += [] if name == "CMSPROOF_VERSION" else [f'printf("constant {name} %lu\\n", (unsigned long){name});']
    source, program = folder / "layout.c", folder / "layout"
    source.write_text("\n".join(code + ["return 0;", "}", ""]), encoding="ascii")
    printed("cc", "-std=c99", "-Wall", "-Wextra", "-Wpedantic", "-Werror", "-I", HEADER.parent, "-o", program, source)
    return printed(program).splitlines()


def exported(library: Path) -> list[str]:
    """What the shared library exports and takes, its soname and what it needs, and whether its stack may be executed."""
    names = [line.split()[1:] for line in printed("nm", "-D", "--defined-only", library).splitlines()]
    taken = re.findall(r" U (\w+)", printed("nm", "-D", "--undefined-only", library))
    dynamic = printed("readelf", "-dW", library)
    stack = re.search(r"GNU_STACK.* (RW?E?) ", printed("readelf", "-lW", library))
    lines = [f"export {kind} {name}" for kind, name in names]
    lines += [f"takes {name}" for name in taken]
    lines += [f"soname {name}" for name in re.findall(r"\(SONAME\).*\[(.*)\]", dynamic)]
    lines += [f"needs {name}" for name in re.findall(r"\(NEEDED\).*\[(.*)\]", dynamic)]
    return lines + [f"stack {stack[1] if stack else 'not said'}"]


def main() -> int:
    """Compares, and says what differs."""
    library, header = Path(sys.argv[1]) / SONAME, plain_header()
    with tempfile.TemporaryDirectory() as folder:
        seen = sorted(exported(library) + functions(header) + layout(header, Path(folder)))
    if sys.argv[2:] == ["--write"]:
        KEPT.write_text("\n".join(seen) + "\n", encoding="ascii")
    kept = KEPT.read_text(encoding="ascii").splitlines()
    for line in sorted(set(kept) - set(seen)):
        print(f"abi.txt has, and the library has not: {line}")
    for line in sorted(set(seen) - set(kept)):
        print(f"the library has, and abi.txt has not: {line}")
    return 0 if seen == kept else 1


if __name__ == "__main__":
    sys.exit(main())
