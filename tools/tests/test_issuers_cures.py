"""Tests of what is said with an issuer where no stamp passes: the line names the stamp's rule, the cure is about the authority, and what the
list has for that trusts nobody at any time."""
import subprocess
import tempfile
import unittest
import unittest.mock

from issuing_world import AT, World, h
from making import PROGRAM, run_tool

import cmsproof

# what no cure may say without the comparison before it
LISTING, COMPARING = ("list it as", "--signer", "name its issuer"), "in another way"


class WithWorld(unittest.TestCase):
    """One hierarchy for all tests of a class."""

    @classmethod
    def setUpClass(cls):
        folder = tempfile.TemporaryDirectory()
        cls.addClassCleanup(folder.cleanup)
        cls.world = World(folder.name)


class Rules(WithWorld):
    """Which rule is named by the proved commands under the list that is made (RFC 3161 2.3, 2.4.2; RFC 5280 4.1.2.5)."""

    def stamped(self, clock, who=None, at=AT, stamped=None):
        """A file of somebody with a stamp of an authority, of its signature if nothing else is handed in."""
        w, who = self.world, who or self.world.anna
        if stamped is None:
            return h.signed(who, [(clock, at, [clock.octets])], [who.octets, w.sub.octets])
        signer = h.signed_by(who, [h.type_attribute(h.DATA), h.digest_attribute(h.sha(b"letter"))])
        bag = b"".join(sorted([who.octets, w.sub.octets]))
        return h.signed_data([signer.stamped(h.stamp_attribute(h.token(clock, stamped, at)))], b"letter", h.DATA, bag)

    def test_rules(self):
        w = self.world
        stranger, other = h.issue("Stranger", h.root("Elsewhere")), h.issue("Clock", h.root("Clocks"), [h.STAMPING])
        ended = h.issue("Ended", w.clocks, [h.STAMPING], last="2024-04-30")
        early = h.issue("Early", w.clocks, [h.STAMPING], first="2024-05-02")
        broad = h.issue("Broad", w.clocks)
        short = h.issue("Short", w.clocks, h.authority(), last="2024-04-30")
        below = h.issue("Below", short, [h.STAMPING])
        between = h.signed(w.anna, [(below, AT, [below.octets, short.octets])], [w.anna.octets, w.sub.octets])
        for what, file, line, roles in [
            ("an authority of nobody known", self.stamped(other), "signer 1 token 1 K10 UnknownTsa", ["signer"]),
            ("an authority that had expired", self.stamped(ended), "signer 1 token 1 K13 Period", ["tsa", "signer"]),
            ("an authority of later", self.stamped(early), "signer 1 token 1 K13 Period", ["tsa", "signer"]),
            ("an issuer between that had expired", between, "signer 1 token 1 K13 Period", ["tsa", "signer"]),
            ("an authority for other things", self.stamped(broad), "signer 1 token 1 K10 UnknownTsa", ["signer"]),
            (
                "a stamp of something else",
                self.stamped(w.clock, stamped=b"x"),
                "signer 1 token 1 K9 ImprintDiffers",
                ["tsa", "signer"],
            ),
            ("no stamp", w.file(times=()), "signer 1 S10 NoToken", ["signer"]),
            ("a signer of nobody known", self.stamped(other, stranger), "signer 1 S7 UnknownSigner", []),
            ("one with a stamp that passes", self.stamped(w.clock, stranger), "signer 1 S7 UnknownSigner", []),
        ]:
            with self.subTest(what):
                entries, told = w.made([file])
                self.assertEqual(w.checked(file), "refused " + line)
                self.assertEqual([role for role, _ in w.barred], roles)
                self.assertEqual([role for role, *_ in entries if role == "signer"], [])
                self.assertEqual("no stamp passes" in "".join(told), "S7" not in line or "nobody" in what)

    def test_many(self):
        """Forty signers without a stamp: OpenSSL judges those of the same issuers together, 32 at most at a time, as it judges others."""
        w, people = self.world, [h.issue(f"P{number}", self.world.sub) for number in range(40)]
        strangers = [h.issue(f"S{number}", h.root("Elsewhere")) for number in range(3)]
        from cmsproof_tools.paths import OpenSSL

        said, words = OpenSSL.said, []
        with unittest.mock.patch.object(OpenSSL, "said", lambda self, asked: words.append(asked) or said(self, asked)):
            entries, _ = w.made([w.file(who, times=()) for who in (*people, *strangers)])
        self.assertEqual((entries, {octets for _, octets in w.barred}), ([], {who.octets for who in people}))
        self.assertLess(len([asked for asked in words if asked[0] == "verify"]), 4)

    def test_certificates_that_no_list_can_have(self):
        """A certificate with an extension twice (RFC 5280 4.2) can be read by the library of Python, and not by the proved reader (M13): its
        file has no entry, and the next file has its own."""
        w = self.world
        identifier = h.x509.SubjectKeyIdentifier(b"abcdefgh"), False
        other = h.x509.UnrecognizedExtension(h.x509.ObjectIdentifier("2.5.29.99"), bytes.fromhex("04086162636465666768")), False
        signer, clock = h.issue("Twice", w.sub, [identifier, other]), h.issue(
            "Twice", w.clocks, [h.STAMPING, identifier, other]
        )
        twice = [who.octets.replace(bytes.fromhex("0603551d63"), bytes.fromhex("0603551d0e")) for who in (signer, clock)]
        self.assertEqual([cmsproof.show("certificate", octets)["code"] for octets in twice], ["M13", "M13"])
        for file, roles in (
            (h.signed(signer, [], [twice[0], w.sub.octets]), {"signer": w.anna.octets}),
            (h.signed(signer, [(w.clock, AT)], [twice[0], w.sub.octets]), {"signer": w.anna.octets}),
            (h.signed(w.anna, [(clock, AT, [twice[1]])], [w.anna.octets, w.sub.octets]), {"signer": w.anna.octets}),
        ):
            entries, _ = w.made([file, w.file(times=())])
            self.assertEqual((w.status, [role for role, *_ in entries if role == "signer"], dict(w.barred)), (0, [], roles))

    def test_revoked(self):
        """Whose authority was revoked is not told to list it."""
        w = self.world
        clock = h.issue("Revoked", w.clocks, [h.STAMPING])
        revoked = h.revocation_list(w.clocks, [(clock, "2024-01-01", "keyCompromise", None)])
        lists = [revoked, *map(h.revocation_list, (w.root, w.sub))]
        w.made([file := self.stamped(clock)], lists=lists)
        self.assertEqual(w.checked(file), "refused signer 1 token 1 K13 Period")
        from cmsproof_tools.explaining import explanation

        said = explanation(file, w.text, {"code": "K13", "signer": "1", "token": "1"})
        self.assertIn("it was revoked", said)
        self.assertNotIn("give it another period", said)

    def test_more_than_get_one(self):
        """Twenty-two signers of one file: a line says, once, that not all get an entry for no time, and a check says S7 of the others."""
        w, people = self.world, [h.issue(f"Q{number}", self.world.sub) for number in range(22)]
        bag = [*(who.octets for who in people), w.sub.octets]
        for count, lines in ((20, 0), (21, 1), (22, 1)):
            _, told = w.made([h.together([(who, []) for who in people[:count]], bag)])
            self.assertEqual(sum("no more than 20 certificates get an entry for no time" in line for line in told), lines, told)
            self.assertEqual(len(w.barred), 20)

    def test_an_entry_for_no_time_never_counts(self):
        """Also of a stamp at its one moment, to the nanosecond, when the certificate is no longer valid (RFC 5280 4.1.2.5)."""
        w = self.world
        for end, last in (
            ("2030-01-01", "20300101000000"),
            ("2049-12-31 23:59:59", "20491231235959"),
            ("9999-12-31 23:59:59", "99991231235959"),
        ):
            anna, clock = h.issue("Anna", w.sub, last=end), h.issue("Late", None, [h.STAMPING], last="9999-12-31 23:59:59")
            w.made([h.signed(anna, [], [anna.octets, w.sub.octets])])
            self.assertEqual(w.barred, [("signer", anna.octets)])
            moment = last + ".999999999Z"
            self.assertIn(f"\nsigner {moment} {moment} ", w.text.decode())
            listed = w.text + f"tsa - - {clock.octets.hex()}\n".encode()
            for at in (moment, last + "Z", "20250101000000Z"):
                w.text, file = listed, h.signed(anna, [(clock, at)], [anna.octets])
                said = w.checked(file)
                late = end.startswith("9999") and at == moment
                self.assertEqual(said, "refused signer 1 " + ("token 1 K13 Period" if late else "S7 UnknownSigner"), at)
                from cmsproof_tools.explaining import explanation

                self.assertNotIn("give it another period", explanation(file, w.text, {"code": "S7", "signer": "1"}))

    def test_an_entry_that_counts_is_alone(self):
        """Where one file has a stamp that passes, the certificate has its entry alone; also if an older list is grown, or merged."""
        w = self.world
        unstamped = w.file(times=())
        entries, _ = w.made([unstamped])
        older = w.put("older.txt", w.text)
        self.assertEqual((entries, w.barred), ([], [("signer", w.anna.octets)]))
        status, table, _ = run_tool("cmsproof-trust", "--explain", older)
        said = r"\nsigner +20400101000000\.999999999Z +20400101000000\.999999999Z .* for no time: no stamp passes"
        self.assertRegex(table.decode(), said)
        # (also in a list that is made of it, and where its comments are gone)
        words = ["--issuer", w.put("root.pem", w.root), "--tsa-issuer", w.put("clocks.pem", w.clocks), "--trust", older]
        run_tool("cmsproof-archive", *words, "--write-trust", w.folder / "again.txt", w.put("none.p7s", unstamped))
        self.assertRegex(run_tool("cmsproof-trust", "--explain", w.folder / "again.txt")[1].decode(), said)
        bare = w.put("bare.txt", b"".join(line for line in w.text.splitlines(True) if not line.startswith(b"#")))
        self.assertIn("for no time: it trusts nobody\n", run_tool("cmsproof-trust", "--explain", bare)[1].decode())
        entries, _ = w.made([unstamped, w.file(), unstamped])
        newer = w.put("newer.txt", w.text)
        self.assertEqual(([role for role, *_ in entries], w.barred), (["tsa", "signer"], []))
        for lists in ([older, newer], [newer, older]):
            status, merged, _ = run_tool("cmsproof-trust", "--merge", *lists)
            self.assertEqual((status, merged.count(b"\nsigner "), b".999999999Z" in merged), (0, 1, False))
        words = ["--issuer", w.put("root.pem", w.root), "--tsa-issuer", w.put("clocks.pem", w.clocks), "--trust", older]
        status, out, _ = run_tool("cmsproof-archive", *words, "--write-trust", w.folder / "grown", w.put("good.p7s", w.file()))
        self.assertEqual((status, out.decode().split(": ")[1]), (0, f"accepted {AT}\n"))
        self.assertNotIn(b".999999999Z", (w.folder / "grown").read_bytes())


class Cures(WithWorld):
    """What cmsproof-archive prints with issuers, which the proved command prints under the list that it wrote, and the cures."""

    def test_lines_and_cures(self):
        w = self.world
        ended = h.issue("Ended", w.clocks, [h.STAMPING], last="2024-04-30")
        ends = h.signed(w.anna, [(ended, AT, [ended.octets])], [w.anna.octets, w.sub.octets])
        others, root = w.put("others.pem", h.root("Others")), w.put("root.pem", w.root)
        for file, clocks, code, about in (
            (w.file(), others, "K10", "It is about the time-stamping authority, and not about the signer"),
            (ends, w.put("clocks.pem", w.clocks), "K13", "have the signature stamped again"),
            (w.file(h.issue("Stranger")), others, "S7", "It is about the signer"),
            (w.file(times=()), others, "S10", "have the signature stamped by your authority"),
        ):
            name, trust = w.put("cure.p7s", file), w.folder / "written.txt"
            words = ["--issuer", root, "--tsa-issuer", clocks, "--write-trust", trust, "--explain", name]
            status, out, _ = run_tool("cmsproof-archive", *words)
            line, cure = out.decode().splitlines()
            w.text = trust.read_bytes()
            self.assertEqual((status, line), (1, f"{name}: {w.checked(file)}"))
            self.assertIn(f" {code} ", line)
            self.assertIn(about, cure)
            self.assertTrue(COMPARING in cure or not any(word in cure for word in LISTING), cure)
            self.assertTrue(code.startswith("S7") or "as signer" not in cure, cure)

    def test_a_token_by_itself(self):
        """Its signer is an authority: no cure lists it as a signer."""
        w = self.world
        token = w.put("stamp.tst", h.token(w.clock, b"letter", AT))
        trust = w.put("empty.txt", b"cmsproof trust 2\n")
        for words in (
            ["--trust", trust],
            ["--issuer", w.put("root.pem", w.root), "--tsa-issuer", w.put("other.pem", h.root())],
        ):
            status, out, err = run_tool("cmsproof-archive", "--explain", *words, token)
            line, cure = out.decode().splitlines()
            self.assertEqual((status, line), (1, f"{token}: refused signer 1 S7 UnknownSigner"))
            self.assertIn("it is a time-stamp token by itself", err)
            self.assertIn("nobody is to be listed for this", cure)
            if PROGRAM.exists():
                done = subprocess.run([PROGRAM, "fit", token], capture_output=True, check=False)
                self.assertEqual(done.stdout, b"fits 1\n")


if __name__ == "__main__":
    unittest.main()
