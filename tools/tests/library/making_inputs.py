#!/usr/bin/env python3
"""making_inputs.py FOLDER: puts into FOLDER what `making.c` makes and renews records of. From the records of Bouncy Castle in
data/records it takes the last time-stamp away, with its chain where it stands alone there: what is left is the old record of `renew`
and `rehash`, in NAME.old, and the token that is taken away renews it, NAME.token; NAME.digest is the digest of their document."""
import hashlib
import sys
from pathlib import Path

TOP = Path(__file__).resolve().parent.parent.parent.parent
sys.path.insert(0, str(TOP / "tools"))

from oracle.der import Element, elements, only, sequence  # noqa: E402

RECORDS = TOP / "data" / "records"
# what is made, of which record, by which algorithm
MADE = (
    ("make", "one_document", "sha256"),
    ("renew", "renewed_by_a_time_stamp", "sha256"),
    ("rehash", "renewed_by_a_hash_tree", "sha512"),
)


def parts(element: Element) -> list[Element]:
    """The elements in an element."""
    return elements(element.body())


def without_last(record: bytes) -> tuple[bytes, bytes]:
    """The record without its last archive time-stamp, and the token of that."""
    *front, sequences = parts(only(record, 0x30))
    *chains, last = parts(sequences)
    *stamps, stamp = parts(last)
    left = [chain.whole() for chain in chains] + ([sequence(*(one.whole() for one in stamps))] if stamps else [])
    return sequence(*(part.whole() for part in front), sequence(*left)), parts(stamp)[-1].whole()


def main() -> None:
    """Writes the files."""
    folder, document = Path(sys.argv[1]), (RECORDS / "files" / "document_0").read_bytes()
    for name, record, algorithm in MADE:
        old, token = without_last((RECORDS / "records" / f"bouncy_castle_{record}.ers").read_bytes())
        (folder / f"{name}.old").write_bytes(old)
        (folder / f"{name}.token").write_bytes(token)
        (folder / f"{name}.digest").write_bytes(hashlib.new(algorithm, document).digest())


if __name__ == "__main__":
    main()
