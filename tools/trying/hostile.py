#!/usr/bin/env python3
"""Families of hostile inputs, tried on the built program; each answer is compared with what the rules say (expected.py), each
file that is well formed is shown to OpenSSL too. Prints a line for each family: its cases, the seconds that it took, how many
answers differ. Status 1 where one does.

    python3 tools/trying/hostile.py [PROGRAM] [--only FAMILY ..] [--commands NAME ..] [--every] [--step N] [--checked]

PROGRAM is ./cmsproof by default. With --every each octet of a signed file takes each other value: 140,000 files, some minutes. The
large inputs need 1 GiB in the temporary folder. With --step N each Nth octet alone is changed, and with --checked the program has as
much memory and stack as it takes, which one that is built with address checks needs.
"""
from __future__ import annotations

import argparse
import resource
import sys
import tempfile
import time
from pathlib import Path

sys.path.insert(0, str(Path(__file__).resolve().parent.parent))
from oracle import der, expected, openssl_judge  # noqa: E402
from trying import hostile_devices, hostile_sizes, record_inputs, record_sizes  # noqa: E402
from trying.hostile_inputs import CHECK, COMMANDS, FILE, TERMS, TOKEN, UNSTAMPED, WITH_ALL, write  # noqa: E402
from trying.hostile_runs import Runs  # noqa: E402

MASKS = (0x01, 0x80, 0xFF)
MEMORY = 64 << 20


def nothing_beside(octets):
    """No file."""
    return {}


def tried(runs, octets, words, expect, beside=nothing_beside, limit=None):
    """The status of a command with this input, in the file `in`, which is a record's too, and with the files that are made of it."""
    line, status, *out = expect(octets)
    for name, contents in {"in": octets, "in.ers": octets, **record_inputs.CHANGED, **beside(octets)}.items():
        runs.put(name, contents)
    return runs.case(words, line, status, out=out[0] if out else False, limit=limit)


def cuts(runs):
    """Each beginning of each input of each command, the empty one first."""
    for _, octets, *command in runs.commands:
        for size in range(0, len(octets), runs.step):
            tried(runs, octets[:size], *command)


def changed(octets, at, octet):
    return octets[:at] + bytes([octet]) + octets[at + 1 :]


def changes(runs):
    """Each octet of each input of each command changed by exclusive or with 01, 80 and ff."""
    for name, octets, *command in runs.commands:
        done = 0
        for at in range(0, len(octets), runs.step):
            for mask in MASKS:
                done += tried(runs, changed(octets, at, octets[at] ^ mask), *command) == 0
        print("    %-40s %5d octets, %5d files with status 0" % (name, len(octets), done))


def every(runs):
    """Each octet of the stamped file with each other value, by `check`."""
    done = 0
    for at in range(0, len(FILE), runs.step):
        for octet in range(256):
            if octet != FILE[at]:
                done += tried(runs, changed(FILE, at, octet), CHECK + ["in"], lambda o: expected.check(o, TERMS)) == 0
    print("    %d with status 0" % done)


def moved(runs):
    """Each octet of each input left out, doubled, and followed by 00."""
    for _, octets, *command in runs.commands:
        for at in range(0, len(octets), runs.step):
            tried(runs, octets[:at] + octets[at + 1 :], *command)
            tried(runs, octets[: at + 1] + octets[at:], *command)
            tried(runs, octets[: at + 1] + b"\0" + octets[at + 1 :], *command)


def headers(octets, at=0, end=None):
    """Where each element of the octets begins, those inside strings too, with its length octets."""
    c = der.Cursor(octets, at, end)
    try:
        while c.at < c.end:
            element = c.take()
            yield element.at, element.at + 1, element.start
            if element.tag & 0x20 or element.tag == der.OCTETS:
                yield from headers(octets, element.start, element.stop)
    except der.Fault:
        return


def lengths(runs):
    """Each length of each input replaced by one of up to 4 GiB, and by forms that DER doesn't have, in 64 MiB of memory."""
    spelled = [
        bytes.fromhex(h)
        for h in (
            "84ffffffff",
            "8480000000",
            "84ffffffffff",
            "83ffffff",
            "82ffff",
            "81ff",
            "80",
            "8100",
            "820000",
            "85ffffffffff",
            "ff",
            "7f",
            "00",
            "84",
        )
    ]

    def limit():
        resource.setrlimit(resource.RLIMIT_AS, (MEMORY, MEMORY))

    for _, octets, *command in runs.commands:
        if octets.startswith(b"cmsproof"):
            continue
        for _, first, last in list(headers(octets))[:: runs.step]:
            for length in spelled:
                tried(runs, octets[:first] + length + octets[last:], *command, limit=None if runs.checked else limit)


def openssl(runs):
    """Each octet of four files changed as above, left out and doubled: where the program reads the file, OpenSSL reads it too,
    unless a part differs that the program leaves opaque; what OpenSSL reads and writes as it was has no fault of DER."""
    for octets in (FILE, UNSTAMPED, TOKEN, WITH_ALL):
        known = openssl_judge.opaque_parts(octets)
        for at in range(0, len(octets), runs.step):
            files = [changed(octets, at, octets[at] ^ mask) for mask in MASKS]
            for file in files + [octets[:at] + octets[at + 1 :], octets[: at + 1] + octets[at:]]:
                runs.put("in", file)
                answer = runs.run(["show", "signed", "in"])
                runs.note(openssl_judge.differs(file, answer[1], known), ["show", "signed", file.hex()], answer)


FAMILIES = {
    "cuts": cuts,
    "changes": changes,
    "moved": moved,
    "lengths": lengths,
    "openssl": openssl,
    "every": every,
    **hostile_devices.FAMILIES,
    **hostile_sizes.FAMILIES,
    **record_sizes.FAMILIES,
}


def main():
    parser = argparse.ArgumentParser(description=__doc__, formatter_class=argparse.RawDescriptionHelpFormatter)
    parser.add_argument("program", nargs="?", default="./cmsproof")
    parser.add_argument("--only", nargs="*", choices=FAMILIES)
    parser.add_argument("--commands", nargs="*", choices=[name for name, *_ in COMMANDS])
    parser.add_argument("--every", action="store_true")
    parser.add_argument("--step", type=int, default=1)
    parser.add_argument("--checked", action="store_true")
    words = parser.parse_args()
    names = words.only or [name for name in FAMILIES if name != "every" or words.every]
    with tempfile.TemporaryDirectory() as folder:
        runs = Runs(words.program, folder)
        runs.step, runs.checked = words.step, words.checked
        runs.commands = [row for row in COMMANDS if not words.commands or row[0] in words.commands]
        write(folder)
        for name in names:
            runs.family, before, began = name, len(runs.differences), time.perf_counter()
            FAMILIES[name](runs)
            print(
                "%-10s %7d cases %7.1f seconds %5d differ"
                % (name, runs.counts.get(name, 0), time.perf_counter() - began, len(runs.differences) - before),
                flush=True,
            )
    print("%d cases, %d differ" % (sum(runs.counts.values()), len(runs.differences)))
    sys.exit(1 if runs.differences else 0)


if __name__ == "__main__":
    main()
