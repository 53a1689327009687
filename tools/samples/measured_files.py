"""The files that `make instructions` measures jobs on, the same octets on each machine: of the parts in bench/parts.txt, as the
program `workloads` makes its own, and of octets that follow from a name. Digests are true, and nobody has a key."""
from __future__ import annotations

import hashlib
import shutil
from pathlib import Path

from oracle.identifiers import DIGEST_OIDS
from samples.building import CT, digest_alg, names_2, sha, signed_data, signer
from samples.recorded import Growing
from samples.signed_files import LASTING

TOP = Path(__file__).resolve().parent.parent.parent
LARGE = 4 << 20
# of another program, for the commands that look at one file
REAL = {
    "request.tsq": "rsa_attached.1.tsq",
    "response.tsr": "rsa_attached.1.tsr",
    "before.p7s": "rsa_attached.p7s",
    "after.p7s": "rsa_attached_ts.p7s",
    "cert.der": "cert_rsa_signer.der",
}


def octets_of(name, length):
    """Octets that follow from a name."""
    return hashlib.shake_256(name.encode()).digest(length)


class Template:
    """A kind of signed files: its front, its back and its signers, each with the places that are filled in."""

    def __init__(self, digest):
        self.digest, self.pieces = digest, []

    def made(self, name, content, signers):
        """A file of this content and so many signers, whose signatures follow from the name."""
        front, back, *items = [(bytearray(octets), places) for octets, places in self.pieces]
        file, end = front[0] + content + back[0], len(front[0]) + len(content)
        for number in range(signers):
            octets, places = items[number % len(items)]
            file += self.filled(bytearray(octets), places, content, f"{name} {number}")
        for base, (_, places) in ((0, front), (end, back)):
            for word, at, size in places:
                stop = len(file) if word == "ends" else end
                file[base + at : base + at + size] = (stop - base - at - size).to_bytes(size, "big")
        return bytes(file)

    def filled(self, item, places, content, name):
        """A signer, with a signature and digests of its own."""
        for number, (word, at, *rest) in enumerate(places):
            if word == "random":
                put = octets_of(f"{name} {number}", rest[0])
            elif word == "kept":
                put = hashlib.new(self.digest, content).digest()
            else:
                put = hashlib.sha256(item[rest[0] : rest[0] + rest[1]]).digest()
            item[at : at + len(put)] = put
        return item


class Parts:
    """What bench/parts.txt has."""

    def __init__(self, path=TOP / "bench" / "parts.txt"):
        self.templates, self.entries, self.files = {}, [], {}
        template = None
        for line in path.read_text(encoding="ascii").splitlines():
            word, *rest = line.split()
            if word == "template":
                template = self.templates[rest[0]] = Template(rest[1])
            elif word in ("front", "back", "item"):
                template.pieces.append((bytes.fromhex(rest[0]), []))
            elif word == "entry":
                self.entries.append((rest[0], rest[1], 2 * int(rest[2]), 2 * int(rest[3])))
            elif word in ("token", "unstamped"):
                self.files[word] = bytes.fromhex(rest[0])
            else:
                template.pieces[-1][1].append((word, *map(int, rest)))

    def trust(self, others):
        """A trust list of the entries that files need, behind so many others of the same length."""
        lines = ["cmsproof trust 1"]
        for number in range(others):
            role, cert, at, size = self.entries[number % len(self.entries)]
            lines.append(f"{role} {cert[:at]}{octets_of(f'entry {number}', size // 2).hex()}{cert[at + size :]}")
        return "\n".join([*lines, *(f"{role} {cert}" for role, cert, _, _ in self.entries)]) + "\n"

    def small(self, number):
        """One of many small files: of one or two signers, RSA and ECDSA; one in eight names another digest than it lists."""
        kind = ("rsa", "ecdsa", "two", "rsa", "ecdsa", "other", "two", "rsa")[number % 8]
        file = self.templates[kind].made(f"small {number}", octets_of(f"content {number}", 3000), 2 if kind == "two" else 1)
        return file[:-1] if number % 16 == 15 else file

    def stamped_large(self):
        """A file of one signer with a token, and a content of 4 MiB."""
        content, template = octets_of("large", LARGE), self.templates["rsa"]
        item, places = template.pieces[2]
        signed = template.filled(bytearray(item), places, content, "stamped large")
        return signed_data([bytes(signed)], content, certificates=bytes.fromhex(self.entries[0][1]))


def large(algorithm, attached=True):
    """A file of one signer and a content of 4 MiB, which lists this digest algorithm and needs no other."""
    content = octets_of("large", LARGE)
    info = signer(content=content, alg=algorithm).stamped()
    return signed_data([info], content if attached else None, algorithms=digest_alg(algorithm))


def in_tree(covered):
    """The lists of a tree of sixteen documents that lead from one to the root (RFC 4998 4.2)."""
    beside = [sha(octets_of(f"document {number}", 3000)) for number in range(4)]
    return [[*covered, beside[0]], *([one] for one in beside[1:])]


def make(folder):
    """Writes all into a folder, but for answers lists, which follow from questions."""
    parts = Parts()
    for name, others in (("few", 0), ("fifty", 46), ("many", 5000)):
        (folder / f"{name}.txt").write_text(parts.trust(others), encoding="ascii")
    for number in range(32):
        (folder / f"small_{number:02}.p7s").write_bytes(parts.small(number))
    for name in ("many_ecdsa", "many_rsa", "twenty"):
        count = 30 if name == "twenty" else 1000 if name == "many_ecdsa" else 300
        (folder / f"{name}.p7s").write_bytes(parts.templates[name].made(name, octets_of(name, 3000), count))
    for algorithm in DIGEST_OIDS:
        (folder / f"{algorithm}.p7s").write_bytes(large(algorithm))
    (folder / "large.p7s").write_bytes(parts.stamped_large())
    (folder / "detached.p7s").write_bytes(large("sha256", attached=False))
    (folder / "content").write_bytes(octets_of("large", LARGE))
    (folder / "token.tok").write_bytes(parts.files["token"])
    (folder / "unstamped.p7s").write_bytes(parts.files["unstamped"])
    (folder / "recorded").write_bytes(octets_of("recorded", 3000))
    (folder / "record.ers").write_bytes(Growing(octets_of("recorded", 3000)).begin("20240115100000Z", make=in_tree).whole())
    (folder / "tsa.txt").write_text(f"cmsproof trust 1\ntsa {CT.hex()}\n", encoding="ascii")
    # (a record of the first small file, later than its token)
    under = Growing(parts.small(0)).begin("20270101000000Z", make=in_tree, names=[names_2(sha(LASTING))])
    (folder / "under.ers").write_bytes(under.whole())
    (folder / "under.txt").write_text(parts.trust(0) + f"tsa {LASTING.hex()}\n", encoding="ascii")
    shutil.copy(TOP / "bench" / "parts.txt", folder)
    for name, of in REAL.items():
        shutil.copy(TOP / "crates" / "real_files" / "data" / of, folder / name)
