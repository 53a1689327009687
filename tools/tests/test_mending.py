"""Tests of `cmsproof-extract --mend`: what is written is what was read without empty unsigned attributes, and nothing else."""
import json
import unittest

from making import REAL, element, folder_of, lacking_tools, run_tool

import cmsproof
from cmsproof_tools.signed_parts import without_empty
from oracle import der

TRUST = cmsproof.TrustList((REAL / "trust.txt").read_bytes())
EMPTY = b"\xa1\0"
SIGNED, DATA = bytes.fromhex("2a864886f70d010702"), bytes.fromhex("2a864886f70d010701")
# the parts of a SignerInfo without signed attributes, and with empty unsigned ones (RFC 5652 5.3)
SIGNER = bytes.fromhex("020101" "3000" "3000" "3000" "040178" "a100")


def parts_of(octets):
    """The parts of a SignedData, and those of each of its signers, whole."""
    kind, explicit = der.elements(der.only(octets).body())
    signed = der.elements(der.only(explicit.body()).body())
    return (
        kind.whole(),
        [part.whole() for part in signed[:-1]],
        [der.elements(one.body()) for one in der.elements(signed[-1].body())],
    )


def with_empty(octets, *numbers):
    """A file whose signers of these numbers have unsigned attributes without a member in the place of what they had."""
    kind, parts, signers = parts_of(octets)
    made = []
    for number, fields in enumerate(signers, 1):
        kept = [field.whole() for field in fields if field.whole()[0] != 0xA1 or number not in numbers]
        made.append(element(0x30, *kept, *([EMPTY] if number in numbers else [])))
    return element(0x30, kind, element(0xA0, element(0x30, *parts, element(0x31, *made))))


class Mending(unittest.TestCase):
    """The octets, and what the proved check says before and after."""

    @unittest.skipIf(lacking_tools(), lacking_tools())
    def test_rows(self):
        two, one = ((REAL / f"{name}.p7s").read_bytes() for name in ("two_attached", "rsa_attached"))
        stamped = (REAL / "two_attached_ts.p7s").read_bytes()
        for octets, numbers in ((one, [1]), (two, [1]), (two, [2]), (two, [1, 2]), (stamped, [2])):
            broken = with_empty(octets, *numbers)
            self.assertEqual(cmsproof.check(broken, trust=TRUST).code, "M15")
            mended, found = without_empty(broken)
            self.assertEqual(found, numbers)
            self.assertEqual(without_empty(mended), (mended, []))
            if octets is not stamped:
                # (as OpenSSL made it)
                self.assertEqual(mended, octets)
            self.assertEqual(
                cmsproof.check(mended, trust=TRUST).line, f"refused signer {2 if octets is stamped else 1} S10 NoToken"
            )

    def test_what_stays(self):
        """Files without such attributes stay as they are, and what is no SignedData."""
        for path in sorted(REAL.glob("*.p7s")):
            octets = path.read_bytes()
            if path.name != "bc_attached_default.p7s":
                self.assertEqual(without_empty(octets), (octets, []), path.name)
        for octets in (b"", b"\x30", b"\x30\x00", EMPTY, b"\x30\x80\0\0", b"\x30\x02\xa1\0"):
            with self.assertRaises((ValueError, IndexError)):
                without_empty(octets)

    def test_signed_attributes_stay(self):
        """Empty signed attributes are signed: `a0 00` stays, and so does an `a1 00` elsewhere."""
        kind, parts, ((version, sid, digest, attributes, *rest),) = parts_of((REAL / "rsa_attached.p7s").read_bytes())
        fields = [field.whole() for field in (version, sid, digest, *rest)]
        for row in ([*fields[:3], b"\xa0\0", *fields[3:]], [*fields[:3], EMPTY, *fields[3:]], [*fields[:3], EMPTY]):
            file = element(0x30, kind, element(0xA0, element(0x30, *parts, element(0x31, element(0x30, *row)))))
            self.assertEqual(without_empty(file), (file, []))

    def test_what_is_no_signed_data(self):
        """Octets like those of empty unsigned attributes stay, where they are others: each row has one part that differs."""
        number, none, sequence, empty = element(2, b"\1"), element(0x31), element(0x30), element(0x30, SIGNER)
        inside = [number, none, element(0x30, der.element(6, DATA)), element(0x31, empty)]

        def file(kind=SIGNED, explicit=0xA0, signed=0x30, parts=inside):
            return element(0x30, element(6, kind), element(explicit, element(signed, *parts)))

        self.assertEqual(without_empty(file())[1], [1])
        for octets in (
            file(kind=bytes.fromhex("2a864886f70d010703")),
            file(explicit=0xA1),
            file(signed=0x31),
            file(parts=[*inside[:3], element(0xA0, empty)]),
            file(parts=[*inside[:2], element(0x31, empty)]),
            file(parts=[number, sequence, *inside[2:]]),
            file() + EMPTY,
        ):
            with self.assertRaises((ValueError, IndexError)):
                without_empty(octets)
        # (its last part but one is no signature)
        other = file(parts=[*inside[:3], element(0x31, element(0x30, SIGNER.replace(b"\4\1x", b"\x30\0")))])
        self.assertEqual(without_empty(other), (other, []))

    def test_the_command(self):
        folder = folder_of(self)
        original = (REAL / "two_attached.p7s").read_bytes()
        (folder / "broken.p7s").write_bytes(with_empty(original, 1, 2))
        status, out, err = run_tool("cmsproof-extract", "--mend", "broken.p7s", cwd=folder)
        said = json.loads(out)
        self.assertEqual((status, err, said["signed"], said["container"]), (0, "", "./broken.p7s.1.p7s", ""))
        self.assertIn("left out the empty unsigned attributes (a1 00) of signer 1, 2", said["converted"])
        self.assertEqual((folder / "broken.p7s.1.p7s").read_bytes(), original)
        (folder / "whole.p7s").write_bytes(original)
        status, out, _ = run_tool("cmsproof-extract", "--mend", "whole.p7s", cwd=folder)
        said = json.loads(out)
        nothing = ["nothing to mend: no unsigned attributes are there and empty (M15)"]
        self.assertEqual((status, said.get("converted"), said["notes"]), (0, None, nothing))
        self.assertEqual((folder / "whole.p7s.1.p7s").read_bytes(), original)
        # (what is mended, or not asked to be, has no such note)
        for words, name in (([], "whole.p7s"), (["--mend"], "broken.p7s")):
            self.assertNotIn(b"nothing to mend", run_tool("cmsproof-extract", "--to", "again", *words, name, cwd=folder)[1])


if __name__ == "__main__":
    unittest.main()
