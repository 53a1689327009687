"""Small ASiC-S in which two programs may see two things: made at random, of what a zip file is put together of (APPNOTE.TXT 4.3).

Heads and the directory say other things, entries stand there twice, or in what is not signed; and there are fields, lengths behind octets and
ends of directories that programs read otherwise.
"""
from __future__ import annotations

import struct
import sys
import zlib
from pathlib import Path

sys.path.insert(0, str(Path(__file__).resolve().parent.parent))
from oracle import der  # noqa: E402
from oracle.der import element  # noqa: E402
from samples import containers as made  # noqa: E402

ALL, LONG = 0xFFFFFFFF, 1 << 32
NAME, OTHER = b"letter.txt", b"META-INF/manifest.xml"
NAMES = (
    b"letter.txt",
    b"Letter.txt",
    b"other.txt",
    b"./letter.txt",
    b"letter.txt\0",
    b"letter.tx\xe9",
    b"META-INF/letter.txt",
    b"letter.txt/",
)


def with_attribute(signed, octets):
    """A SignedData with an unsigned attribute of these octets."""
    kind, explicit = der.elements(der.only(signed).body())
    parts = der.elements(der.only(explicit.body()).body())
    info = der.elements(der.only(parts[-1].body()).body())
    more = element(0x30, der.oid("2.999.1"), element(0x31, element(4, octets)))
    own = [one.whole() for one in der.elements(info[-1].body())] if info[-1].whole()[0] == 0xA1 else []
    kept = info[:-1] if own else info
    infos = element(0x31, element(0x30, *(part.whole() for part in kept), element(0xA1, *sorted([*own, more]))))
    inside = b"".join(part.whole() for part in parts[:-1]) + infos
    return element(0x30, kind.whole() + element(0xA0, element(0x30, inside)))


class Entry:
    """An entry: what its head says, what the directory says, its octets as they are packed, and what follows them."""

    def __init__(self, name, content, method=0):
        self.content, self.behind, self.comment, self.listed = content, b"", b"", True
        self.octets = content if method == 0 else deflated(content)
        common = {"name": name, "method": method, "flags": 0, "sum": zlib.crc32(content), "extra": b"", "system": 3, "mode": 0}
        common.update(packed=len(self.octets), size=len(content), needed=20)
        self.head, self.entry = dict(common), dict(common)

    def both(self, **words):
        """Says this in the head and in the directory."""
        self.head.update(words)
        self.entry.update(words)

    def first(self):
        """The head, with the octets."""
        return fields(b"PK\3\4", self.head) + self.head["name"] + self.head["extra"] + self.octets + self.behind

    def second(self, at):
        """The entry of the directory."""
        found = fields(b"PK\1\2\24" + bytes([self.entry["system"]]), self.entry)
        found += struct.pack("<HHHLL", len(self.comment), 0, 0, self.entry["mode"] & ALL, at & ALL)
        return found + self.entry["name"] + self.entry["extra"] + self.comment


def deflated(octets):
    """Octets that are packed."""
    packing = zlib.compressobj(9, zlib.DEFLATED, -15)
    return packing.compress(octets) + packing.flush()


def fields(begin, said):
    """The fields that a head and an entry of the directory share."""
    numbers = [said["needed"], said["flags"], said["method"], 0, 0x5C21, said["sum"], said["packed"] & ALL, said["size"] & ALL]
    return begin + struct.pack("<HHHHHLLLHH", *numbers, len(said["name"]), len(said["extra"]))


def end(count, length, at, comment=b""):
    """The end of a directory."""
    return struct.pack("<4sHHHHLLH", b"PK\5\6", 0, 0, count, count, length & ALL, at & ALL, len(comment)) + comment


def field(number, octets):
    """A field behind a name."""
    return struct.pack("<HH", number, len(octets)) + octets


def other_name(name, own):
    """A field with another name (4.6.9)."""
    return field(0x7075, struct.pack("<BL", 1, zlib.crc32(own)) + name)


class Making:
    """A zip file that is made."""

    def __init__(self, chance, signed, words):
        self.chance, self.words = chance, iter(words)
        kind, letter = Entry(b"mimetype", made.ASIC_S), Entry(NAME, self.text(), chance.choice((0, 8)))
        self.entries = [kind, letter, Entry(b"META-INF/signature.p7s", signed, chance.choice((0, 0, 8)))]
        if chance.random() < 0.5:
            self.entries.append(Entry(OTHER, self.hidden(), chance.choice((0, 0, 8))))
        self.before, self.gap, self.after, self.comment = b"", b"", b"", b""
        self.said, self.long, self.shift = {}, False, 0

    def text(self):
        """A text with another word each time."""
        return b"I owe you %s euro." % next(self.words)

    def hidden(self):
        """What is another file or another zip file: an entry, its directory, both with an end, or an end alone."""
        entry = Entry(self.chance.choice(NAMES), self.text(), self.chance.choice((0, 8)))
        first, second = entry.first(), entry.second(self.chance.choice((0, 30, 100, 200)))
        last = end(1, len(second), self.chance.choice((0, 100, len(first))))
        told = struct.pack("<4sLLL", b"PK\7\10", entry.head["sum"], entry.head["packed"], entry.head["size"])
        return self.chance.choice((first, first + second + last, second + last, told + first, first + second, last, bytes(20)))


def odd_name(making, one):
    """Another name in a head, the directory, or a field."""
    name, where = making.chance.choice(NAMES), making.chance.randrange(6)
    if where == 0:
        one.head["name"] = name
    elif where == 1:
        one.entry["name"] = name
    elif where == 2:
        one.both(name=name, flags=one.head["flags"] | making.chance.choice((0, 0x800)))
    else:
        number = making.chance.choice((0x7075, 0x7075, 0x6375, 0x554E, 0x000D, 0x5855, 0x7875, 0x9901, 0x0017))
        more = other_name(name, one.entry["name"]) if number == 0x7075 else field(number, bytes(8) + name)
        for said in ((one.head,), (one.entry,), (one.head, one.entry))[where - 3]:
            said["extra"] += more


def odd_sizes(making, one):
    """Other lengths or sums in a head or the directory, as those of ZIP64."""
    said, wrong = making.chance.choice((one.head, one.entry)), making.chance.choice((0, 1, ALL, 5, 40, 200))
    way = making.chance.randrange(4)
    if way == 0:
        said[making.chance.choice(("sum", "packed", "size"))] = wrong
    elif way == 1:
        sizes = [one.entry["size"], one.entry["packed"]] + [wrong] * (making.chance.random() < 0.3)
        said["extra"] += field(1, b"".join(struct.pack("<Q", size) for size in sizes))
        said.update(packed=ALL, size=ALL) if making.chance.random() < 0.7 else None
    elif way == 2:
        one.both(packed=wrong, size=wrong)
    else:
        one.octets += making.chance.choice((making.hidden(), bytes(5)))
        one.both(packed=len(one.octets))


def odd_descriptor(making, one):
    """Lengths behind the octets (4.3.9), with a sign or without one, long or short, right or wrong."""
    numbers = [one.entry["sum"], one.entry["packed"], one.entry["size"]]
    if making.chance.random() < 0.2:
        numbers[making.chance.randrange(3)] = making.chance.choice((0, 1, 30))
    form = making.chance.choice(("<LLL", "<LLL", "<LQQ"))
    one.behind = making.chance.choice((b"PK\7\10", b"PK\7\10", b"")) + struct.pack(form, *(n & ALL for n in numbers))
    one.both(flags=one.head["flags"] | 8)
    if making.chance.random() < 0.8:
        one.head.update(sum=0, packed=0, size=0)


def odd_kind(making, one):
    """Another method, flag, system or kind of file."""
    said = making.chance.choice((one.head, one.entry, one.head))
    word = making.chance.choice(("method", "flags", "system", "mode", "needed"))
    values = {
        "method": (0, 8, 9, 12, 99),
        "flags": (0x800, 1, 8, 0x2000, 2, 0x10),
        "system": (0, 3, 7, 10, 19, 11),
        "mode": (0o120777 << 16, 0o40755 << 16, 0x10, 0x8, 0o100644 << 16, 0o60644 << 16),
        "needed": (10, 45, 63, 0),
    }
    said[word] = making.chance.choice(values[word])
    if making.chance.random() < 0.5:
        one.both(**{word: said[word]})


def odd_entries(making, _):
    """An entry twice, left out of the directory, in another order, or one more."""
    way = making.chance.randrange(4)
    if way == 0:
        more = Entry(making.chance.choice(NAMES), making.text(), making.chance.choice((0, 8)))
        more.listed = making.chance.random() < 0.5
        making.entries.insert(making.chance.randrange(len(making.entries) + 1), more)
    elif way == 1:
        making.chance.choice(making.entries).listed = False
    elif way == 2:
        making.chance.shuffle(making.entries)
    else:
        making.chance.choice(making.entries).comment = making.hidden()


def odd_places(making, _):
    """Octets before, between, behind, or in the comment."""
    name = making.chance.choice(("before", "gap", "after", "comment"))
    more = making.chance.choice(
        (making.hidden(), b"octets", b"mimetype=a " + making.hidden(), b"PK\6\10\0\0\0\0", b"PK\5\5\0\0")
    )
    setattr(making, name, getattr(making, name) + more)
    making.shift = making.chance.choice((0, 0, len(making.before)))


def odd_end(making, _):
    """An end that says another thing, or one of ZIP64."""
    if making.chance.random() < 0.5:
        making.long = True
    else:
        making.said[making.chance.choice(("count", "length", "at"))] = making.chance.choice((0, 1, 2, ALL, 0xFFFF, 30))


def odd_signature(making, _):
    """Octets in the signature that nobody signed."""
    for number, one in enumerate(making.entries):
        if one.entry["name"] == b"META-INF/signature.p7s":
            signed = with_attribute(one.content, making.hidden())
            making.entries[number] = Entry(one.entry["name"], signed, one.entry["method"])


WAYS = (odd_name, odd_sizes, odd_descriptor, odd_kind, odd_entries, odd_places, odd_end, odd_signature)


def put_together(making):
    """The octets."""
    out, directory, count = making.before, b"", 0
    for number, one in enumerate(making.entries):
        if one.listed:
            directory += one.second(len(out) - making.shift)
            count += 1
        out += one.first() + (making.gap if number == 1 else b"")
    at = len(out)
    out += directory
    if making.long:
        numbers = [44, 45, 45, 0, 0, count, count, len(directory), at - making.shift]
        out += struct.pack("<4sQHHLLQQQQ", b"PK\6\6", *numbers) + struct.pack("<4sLQL", b"PK\6\7", 0, len(out), 1)
    said = {"count": count, "length": len(directory), "at": at - making.shift, **making.said}
    return out + end(said["count"] & 0xFFFF, said["length"], said["at"], making.comment) + making.after


def made_at(chance, signed, words):
    """A zip file with one signature and a letter, in which some things are odd."""
    making = Making(chance, signed, words)
    for way in chance.choices(WAYS, k=chance.choice((1, 1, 2, 2, 3))):
        way(making, chance.choice(making.entries))
    return put_together(making)
