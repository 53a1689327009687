#!/usr/bin/env python3
"""Looks for files that cmsproof-archive would accept, and of which some program shows what was not signed.

    python3 tools/trying/viewers.py [--minutes M] [--seed S] [--kinds pdf,zip,mail] [--keep FOLDER]

Makes PDF, ASiC and mails in which two programs may see two things (twofold_pdf.py, twofold_zip.py, twofold_mail.py), with another word in
each text that they may show, and a signature of data/real in each. Of those in which the front end finds a signature over the whole file,
and nothing else, it asks each viewer that is there (viewing.py) for its text: only words may be in it that are signed. Whether the
signature holds is not asked. Of a PDF it asks also what is shown of it without the signature, as of a file that was signed beside.

Keeps each file with another word in FOLDER, by default viewers-findings. Status 1 if there is one. A run with the same seed makes
the same files in the same order.
"""
from __future__ import annotations

import argparse
import io
import random
import re
import sys
import time
from collections import Counter
from itertools import cycle
from pathlib import Path

TOOLS = Path(__file__).resolve().parent.parent
sys.path[:0] = [str(TOOLS), str(TOOLS / "installed")]
from samples import containers as made  # noqa: E402
from trying import twofold_mail, twofold_pdf, twofold_zip, viewing  # noqa: E402

from cmsproof_tools.finding import found_in  # noqa: E402
from cmsproof_tools.found import Found  # noqa: E402

SIGNED = (TOOLS.parent / "data/real/rsa_detached_ts.p7s").read_bytes()
# words that no program divides, and that are no part of each other
WORDS = (
    "alpha bravo charlie delta echoes foxtrot golfing hotels indigo juliet kilos limas mikes novem oscar papas".encode().split()
)
STRING = re.compile(rb"<[0-9a-f]{9000}>")


class Octets:
    """A file as the front ends get it."""

    def __init__(self, octets):
        self.octets = octets


def words_in(text):
    """The words that a text has."""
    return {word.decode() for word in WORDS if word in text}


def pages_of(octets):
    """The texts of the pages of a PDF by its tables."""
    import pikepdf

    found = b""
    with pikepdf.open(io.BytesIO(octets), attempt_recovery=False) as pdf:
        for page in pdf.pages:
            contents = page.get("/Contents") if isinstance(page.obj, pikepdf.Object) else None
            for one in contents if isinstance(contents, pikepdf.Array) else [contents]:
                found += one.read_bytes() if isinstance(one, pikepdf.Stream) else b""
    return found


def made_pdf(chance, words):
    """A PDF with a signature, or nothing where what is odd in it leaves no room for one."""
    octets = twofold_pdf.made_at(chance, words)
    try:
        octets = made.filled(octets, lambda content: SIGNED)
    except ValueError:
        return None
    return octets if STRING.search(octets) else None


MAKING = {
    "pdf": (made_pdf, "a.pdf"),
    "zip": (lambda chance, words: twofold_zip.made_at(chance, SIGNED, words), "a.asics"),
    "mail": (lambda chance, words: twofold_mail.made_at(chance, SIGNED, words), "a.eml"),
}


def signed_words(name, octets):
    """The words that are signed in a file, or None where it is not accepted."""
    found = list(found_in(name, Octets(octets)))
    if not all(isinstance(one, Found) and not one.uncovered for one in found):
        return None
    if name.endswith(".pdf"):
        return words_in(pages_of(octets))
    return words_in(b"".join(bytes(one.content) for one in found if one.content is not None))


def others_of(octets, kind):
    """What of a file is looked at too: a PDF without its signature. (Of what was packed at first some programs show the earlier one.)"""
    if kind != "pdf" or b"/ObjStm" in octets:
        return {}
    return {" without the signature": STRING.sub(b"", octets)}


def compared(kind, octets, path, viewers):
    """What viewers show of a file that is not signed, by their names; None where it is not accepted."""
    words = signed_words(MAKING[kind][1], octets)
    if words is None:
        return None
    found = {}
    for which, one in {"": octets, **others_of(octets, kind)}.items():
        path.write_bytes(one)
        for viewer in viewers:
            if more := words_in(viewing.shown(viewer, path)) - words:
                found[viewer + which] = sorted(more)
    return found


def try_one(kind, name, keep, viewers, counts):
    """Makes one file, and says what is found of it. Answers whether something is."""
    chance = random.Random(name)
    octets = MAKING[kind][0](chance, cycle(chance.sample(WORDS, len(WORDS))))
    counts["made"] += 1
    if octets is None:
        return False
    path = keep / (name + Path(MAKING[kind][1]).suffix)
    found = compared(kind, octets, path, viewers)
    counts["accepted"] += found is not None
    if found:
        path.write_bytes(octets)
        print(f"{path}: " + "; ".join(f"{viewer} shows {' '.join(words)}" for viewer, words in found.items()), flush=True)
    else:
        path.unlink(missing_ok=True)
    return bool(found)


def main():
    parser = argparse.ArgumentParser(description=__doc__, formatter_class=argparse.RawDescriptionHelpFormatter)
    parser.add_argument("--minutes", type=float, default=1)
    parser.add_argument("--seed", default=str(random.randrange(10**6)))
    parser.add_argument("--kinds", default="pdf,zip,mail")
    parser.add_argument("--keep", type=Path, default=Path("viewers-findings"))
    given = parser.parse_args()
    given.keep.mkdir(exist_ok=True)
    kinds, faults = given.kinds.split(","), 0
    for kind in kinds:
        viewers = list(filter(viewing.is_there, viewing.NAMES[kind]))
        counts, end = Counter(), time.monotonic() + 60 * given.minutes / len(kinds)
        found = 0
        while time.monotonic() < end:
            found += try_one(kind, f"{kind}-{given.seed}-{counts['made']}", given.keep, viewers, counts)
        said = f"{counts['made']} made, {counts['accepted']} accepted, {found} shown otherwise"
        print(f"{kind}, seed {given.seed}: {said}, by {', '.join(viewers)}", flush=True)
        faults += found
    raise SystemExit(1 if faults else 0)


if __name__ == "__main__":
    main()
