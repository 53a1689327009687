#!/usr/bin/env python3
"""Writes the cases of devices.sh for `rt try --cases`.

    python3 tools/trying/device_cases.py FOLDER

The files of the commands go into FOLDER/data, and into FOLDER/cases for each command its words and what it prints where nothing
fails, output files included: they are standard output.
"""
from __future__ import annotations

import os
import sys
from pathlib import Path

sys.path.insert(0, str(Path(__file__).resolve().parent.parent))
from oracle import evidence, expected  # noqa: E402
from trying.hostile_inputs import CHECK, DETACHED, FILE, REQUEST, RESPONSE, STAMP_CHECK, STAMP_QUESTIONS  # noqa: E402
from trying.hostile_inputs import TERMS, TOKEN, TRUST, UNSTAMPED, migrated, signature_request, write  # noqa: E402
from trying.record_inputs import BEGUN, EVIDENCE_CHECK, EVIDENCE_QUESTIONS, OF_OLD, SAID  # noqa: E402
from trying.under_inputs import UNDER, judged  # noqa: E402

OUT = "/dev/stdout"
CASES = [
    (CHECK + ["file"], expected.check(FILE, TERMS)[0]),
    (CHECK + ["--content", "content", "detached"], expected.check(DETACHED, TERMS, b"abc")[0]),
    (["questions", "--trust", "trust", "file"], expected.questions(FILE, TERMS)[0]),
    (STAMP_CHECK + ["response", "content"], expected.stamp_check(RESPONSE, lambda: b"abc", TERMS)[0]),
    (STAMP_QUESTIONS + ["token"], expected.stamp_questions(TOKEN, TERMS)[0]),
    (EVIDENCE_CHECK + SAID + ["of-old", "content"], f"accepted {BEGUN}\n"),
    (UNDER + ["group-under", "--content", "content", "detached"], judged(DETACHED, b"abc")[0]),
    (EVIDENCE_QUESTIONS + ["of-old"], evidence.questions(OF_OLD, TERMS)[0]),
    (["fit", "file"], expected.fits(FILE)[0]),
    (["match", "request", "response", OUT], expected.matched(REQUEST, RESPONSE)[2] + b"answers\n"),
    (["attach", "--signer", "1", "--token", "token", "unstamped", OUT], expected.attached(UNSTAMPED, 1, TOKEN)[2]),
    (["compare", "unstamped", "file"], expected.compared(UNSTAMPED, FILE)[0]),
    (["migrate", "trust", OUT], migrated(TRUST)[2]),
    (["request", "--of", "file", OUT], signature_request(FILE)[2]),
]


def main(folder):
    data, cases = os.path.join(folder, "data"), os.path.join(folder, "cases")
    os.makedirs(data)
    os.makedirs(cases)
    write(data)
    for number, (words, printed) in enumerate(CASES, start=1):
        path = os.path.join(cases, "case%d" % number)
        printed = printed.encode() if isinstance(printed, str) else printed
        for name, octets in (("", b""), (".args", "".join(word + "\n" for word in words).encode()), (".stdout", printed)):
            with open(path + name, "wb") as file:
                file.write(octets)


if __name__ == "__main__":
    main(sys.argv[1])
