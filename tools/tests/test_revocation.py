"""Tests of revocation lists: which are taken, what they cut, and what OpenSSL says where it can judge."""
import os
import shutil
import unittest

from issuing_world import ALWAYS, AT, CLOCK_AT, h, list_pem, pem
from making import folder_of, openssl
from test_issuers import JARS, WithWorld, said_by_bouncy_castle

from cmsproof_tools import issuing
from cmsproof_tools.periods import Period
from cmsproof_tools.texts import trust_entries
from cryptography import x509
from cryptography.hazmat.primitives import hashes

# the list says nothing of later moments
NEXT = "20240701000000Z"
NOTE = x509.UnrecognizedExtension(x509.ObjectIdentifier("2.999.9"), b"\x05\x00")

# the date of a revocation, its reason and the invalidity date, and when the period ends; the stamp is of ten o'clock
DATES = [
    ("2024-04-30 10:00:00", None, None, None),
    ("2024-05-01 09:59:59", "superseded", None, None),
    (CLOCK_AT, "keyCompromise", None, None),
    ("2024-05-01 10:00:01", "keyCompromise", None, "20240501100000.999999999Z"),
    ("2024-05-20 00:00:00", None, None, "20240519235959.999999999Z"),
    ("2024-05-20 00:00:00", "certificateHold", None, "20240519235959.999999999Z"),
    ("2024-05-20 00:00:00", "keyCompromise", "2024-04-01", None),
    ("2024-05-20 00:00:00", "keyCompromise", CLOCK_AT, None),
    ("2024-05-20 00:00:00", "keyCompromise", "2024-05-10", "20240509235959.999999999Z"),
    ("2024-05-20 00:00:00", "superseded", "2024-04-01", None),
    ("2024-05-20 00:00:00", "keyCompromise", "2024-06-01", "20240519235959.999999999Z"),
]


def scope(user=False, ca=False, attributes=False, indirect=False, reasons=None):
    """An issuing distribution point."""
    return x509.IssuingDistributionPoint(None, None, user, ca, reasons, indirect, attributes), True


class Revoking(WithWorld):
    """Lists of three issuers, two of which revoke nothing."""

    def lists(self, of_sub=(), of_root=(), of_clocks=(), **rest):
        """The lists of the three issuers."""
        w = self.world
        return [
            h.revocation_list(w.sub, of_sub, **rest),
            h.revocation_list(w.root, of_root),
            h.revocation_list(w.clocks, of_clocks),
        ]

    def period(self, lists, who=None, role="signer"):
        """The period of Anna, or of another one, in the list for a file of hers, and what is told."""
        who = who or self.world.anna
        signer = self.world.anna if role == "tsa" else who
        return self.world.periods(who, [self.world.file(signer)], lists=lists, role=role)

    def test_dates(self):
        """What a revocation does to a period."""
        for date, reason, invalid, last in DATES:
            with self.subTest(date=date, reason=reason, invalid=invalid):
                lists = self.lists([(self.world.anna, date, reason, invalid)])
                periods, told = self.period(lists)
                self.assertEqual(periods, [(ALWAYS[0], last)] if last else [])
                self.assertEqual(len(told), 0 if last else 1)
                self.assertIn("" if last else "CN=Anna,O=cmsproof was revoked", "".join(told))
                # (a revocation of any date is one for OpenSSL)
                self.assertFalse(self.by_openssl(self.world.file(), lists, "2024-06-02"))

    @unittest.skipUnless(JARS[0].exists() and shutil.which("java"), "Bouncy Castle is missing")
    def test_bouncy_castle(self):
        """It compares the date of a revocation with the stamp's for some reasons, and no invalidity date; for others, or none, a
        revocation of any date is one."""
        w, asked = self.world, []
        for number, row in enumerate(DATES):
            lists = self.lists([(w.anna, *row[:3])])[:2]
            paths = [w.put(f"bc{at}.der", found) for at, found in enumerate([w.root, w.anna, w.sub])]
            asked.append(paths + [w.put(f"bc{number}.{at}.crl", found) for at, found in enumerate(lists)])
        for (date, reason, *_), line in zip(DATES, said_by_bouncy_castle(asked)):
            self.assertEqual(line == "good", date > CLOCK_AT and reason in ("superseded", "certificateHold"), line)

    def test_until_when_certificates_serve(self):
        """An entry that ends with what is known has a line with the end of its path, which a revocation, or the user, may put before that; a
        check goes by the entry."""
        w, cut = self.world, "20240519235959.999999999Z"
        short = h.issue("Sub", w.root, h.authority(0), last="2035-01-01")
        under, revoked = h.issue("Anna", short), [(w.anna, "2024-05-20", "superseded", None)]
        most, later = Period(last="20300101000000Z"), h.revocation_list(short, next="2035-02-01")
        for who, between, lists, rest, last, serves in [
            (w.anna, None, self.lists(), {}, NEXT, ALWAYS[1]),
            (under, [short], [*self.lists()[1:], h.revocation_list(short)], {}, NEXT, "20350101000000Z"),
            (under, [short], [h.revocation_list(w.root, next="2035-02-01"), later, self.lists()[2]], {}, "20350101000000Z", ""),
            (w.anna, None, self.lists(), {"most": most}, NEXT, most.last),
            (w.anna, None, self.lists(), {"most": Period(last=NEXT)}, NEXT, ""),
            (w.anna, None, self.lists(revoked), {}, cut, ""),
            (w.anna, None, [], {}, ALWAYS[1], ""),
        ]:
            w.made([w.file(who, between)], lists=lists, **rest)
            found = [one for one in trust_entries(w.text) if one.octets == who.octets]
            self.assertEqual([(one.last, one.serves) for one in found], [(last, serves)])
        w.made([w.file()], lists=self.lists())
        before = {(one.octets, one.last, one.serves) for one in trust_entries(w.text)}
        self.assertEqual(before, {(who.octets, NEXT, ALWAYS[1]) for who in (w.anna, w.clock)})
        # (what a list that is given says is kept)
        w.made([w.file()], given=issuing.entries_of(w.text, "list"))
        self.assertEqual({(one.octets, one.last, one.serves) for one in trust_entries(w.text)}, before)
        self.assertEqual(w.checked(w.file()), "accepted " + AT)
        self.assertEqual(w.checked(w.file(times=["20240701000001Z"])), "refused signer 1 token 1 K13 Period")

    def by_openssl(self, file, lists, moment):
        """Whether OpenSSL takes a file at a moment, with these lists."""
        return self.world.openssl(file, [self.world.root], moment, "-crl_check_all", lists=lists)

    def test_no_revocation(self):
        lists = self.lists()
        self.assertEqual(self.period(lists), ([(ALWAYS[0], NEXT)], []))
        self.assertTrue(self.by_openssl(self.world.file(), lists, "2024-06-02"))
        self.assertEqual(self.world.checked(self.world.file()), "accepted " + AT)
        # (somebody else is revoked)
        self.assertEqual(self.period(self.lists([(self.world.clock, "2024-01-01", None, None)])), ([(ALWAYS[0], NEXT)], []))

    def test_an_issuer_is_revoked(self):
        rows = [
            ("2024-05-20", None, "20240519235959.999999999Z"),
            ("2024-05-20", "2024-04-01", None),
            ("2024-04-20", None, None),
        ]
        for date, invalid, last in rows:
            lists = self.lists(of_root=[(self.world.sub, date, "cACompromise", invalid)])
            periods, told = self.period(lists)
            self.assertEqual(periods, [(ALWAYS[0], last)] if last else [])
            self.assertIn("" if last else "CN=Sub,O=cmsproof was revoked", "".join(told))

    def test_an_issuer_who_is_named_is_revoked(self):
        """It need not be covered, but who issued its certificate may have revoked it, if the user names that one."""
        w, cut = self.world, "20240519235959.999999999Z"
        for date, between, last in [
            (None, [w.root], NEXT),
            ("2024-05-20", [w.root], cut),
            ("2024-04-20", [w.root], None),
            ("2024-04-20", [], NEXT),
            ("2024-04-20", [h.root()], NEXT),
        ]:
            lists = self.lists(of_root=[(w.sub, date, "cACompromise", None)] if date else [])
            given = {"issuers": [w.sub], "between": between}
            periods, told = w.periods(w.anna, [w.file(between=[])], lists=lists, **given)
            self.assertEqual(periods, [(ALWAYS[0], last)] if last else [], told)
            self.assertIn("" if last else "CN=Sub,O=cmsproof was revoked", "".join(told))
        clocks = h.issue("Clocks below", w.clocks, h.authority())
        clock = h.issue("Clock", clocks, [h.STAMPING])
        file = h.signed(w.anna, [(clock, AT)], [w.anna.octets, w.sub.octets])
        for reason, good in ("superseded", True), ("cACompromise", False):
            lists = [*self.lists(of_clocks=[(clocks, "2024-05-20", reason, None)]), h.revocation_list(clocks)]
            given = {"tsa_issuers": [clocks], "between": [w.clocks]}
            periods, told = w.periods(clock, [file], lists=lists, role="tsa", **given)
            self.assertEqual(periods, [(ALWAYS[0], cut)] if good else [], told)

    def test_an_authority_is_revoked(self):
        """With four reasons its earlier stamps stay good, else none is (RFC 3161 4)."""
        cut = "20240519235959.999999999Z"
        reasons = ["superseded", "cessationOfOperation", "affiliationChanged", "unspecified"]
        bad = [None, "keyCompromise", "cACompromise", "certificateHold", "privilegeWithdrawn"]
        for reason in reasons + bad:
            lists = self.lists(of_clocks=[(self.world.clock, "2024-05-20", reason, None)])
            periods, told = self.period(lists, self.world.clock, "tsa")
            self.assertEqual(periods, [(ALWAYS[0], cut)] if reason in reasons else [], reason)
            self.assertIn("" if reason in reasons else "none of its stamps counts any more", "".join(told))
        lists = self.lists(of_clocks=[(self.world.clock, "2024-04-20", "superseded", None)])
        self.assertEqual(self.period(lists, self.world.clock, "tsa")[0], [])

    def test_which_lists_cover(self):
        """Stale, later, of others, with extensions; a list that is not taken has a line."""
        w = self.world
        others, unsigned = h.issue("Sub", w.clocks, h.authority()), h.issue(
            "Sub", w.root, [h.authority()[0], h.usage("key_cert_sign")]
        )
        none = "no revocation list or response covers it at " + AT
        make = h.revocation_list
        for what, octets, last, line in [
            ("stale", make(w.sub, this="2024-03-01", next="2024-04-01"), None, none),
            ("that ends with the stamp", make(w.sub, this="2024-04-01", next=CLOCK_AT), AT, ""),
            ("of later", make(w.sub, this="2030-01-01", next="2030-02-01"), NEXT, ""),
            ("of another issuer of that name", make(others), None, "not a list of CN=Sub,O=cmsproof: CRL signature failure"),
            ("of another issuer", make(w.clocks), None, "none of its issuer is given"),
            ("critical", make(w.sub, extensions=[(NOTE, True)]), None, "a critical extension is not known: 2.999.9"),
            ("not critical", make(w.sub, extensions=[(NOTE, False)]), NEXT, ""),
            ("numbered", make(w.sub, extensions=[(x509.CRLNumber(5), False)]), NEXT, ""),
            ("delta", make(w.sub, extensions=[(x509.DeltaCRLIndicator(4), True)]), None, "a delta list"),
            ("for users", make(w.sub, extensions=[scope(user=True)]), NEXT, ""),
            ("for issuers", make(w.sub, extensions=[scope(ca=True)]), None, none),
            ("for attributes", make(w.sub, extensions=[scope(attributes=True)]), None, "is not read"),
            ("indirect", make(w.sub, extensions=[scope(indirect=True)]), None, "a list for other issuers too is not whole"),
            (
                "some reasons",
                make(w.sub, extensions=[scope(reasons=frozenset([x509.ReasonFlags.superseded]))]),
                None,
                "is not whole",
            ),
        ]:
            with self.subTest(what):
                periods, told = self.period([octets, *self.lists()[1:]])
                self.assertEqual(periods, [(ALWAYS[0], last)] if last else [], told)
                self.assertIn(line, "".join(told))
        who = h.issue("A", unsigned)
        told = w.made([w.file(who, [unsigned])], lists=[make(unsigned), *self.lists()[1:]])[1]
        self.assertIn("not a list of CN=Sub,O=cmsproof: key usage does not include CRL signing", "".join(told))

    def test_a_certificate_that_had_expired(self):
        """Later lists need not have it (RFC 5280 3.3), unless they say that they do."""
        w = self.world
        who = h.issue("A", w.sub, last="2024-06-01")
        since = (x509.UnrecognizedExtension(x509.ObjectIdentifier("2.5.29.60"), b"\x18\x0f20200101000000Z"), False)
        late = {"this": "2024-06-02", "next": "2024-07-02"}
        self.assertEqual(self.period(self.lists(**late), who)[0], [])
        self.assertEqual(self.period(self.lists(**late, extensions=[since]), who)[0], [(ALWAYS[0], "20240601000000Z")])

    def test_several_lists(self):
        """An older list counts for what it says of a revocation, and a forged one for nothing."""
        w = self.world
        revoked = [(w.anna, "2024-03-10", "superseded", None)]
        old = h.revocation_list(w.sub, revoked, this="2024-03-15", next="2024-04-01")
        self.assertEqual(self.period([old, *self.lists()])[0], [])
        forged = h.revocation_list(h.issue("Sub", None, h.authority()), revoked)
        periods, told = self.period([forged, *self.lists()])
        self.assertEqual((periods, len(told)), ([(ALWAYS[0], NEXT)], 1))
        good = h.revocation_list(h.issue("Sub", None, h.authority()))
        self.assertEqual(self.period([good, *self.lists(revoked)])[0], [])

    def test_a_serial_number_of_another_issuer(self):
        """A list of one issuer says nothing of what another one issued."""
        w = self.world
        twin = h.issue("Twin", w.root, serial=w.anna.certificate.serial_number)
        self.assertEqual(self.period(self.lists([(twin, "2024-01-01", None, None)], []), twin), ([(ALWAYS[0], NEXT)], []))

    def test_an_issuer_of_the_same_name(self):
        """A list of one issuer is none of another one of that name, and none for a path that OpenSSL did not judge."""
        from cmsproof_tools.certificates import Certificate
        from cmsproof_tools.paths import OpenSSL
        from cmsproof_tools.revocation import RevocationList

        one, other, between = (h.root("Root") for _ in range(3))
        found, openssl = RevocationList("list", h.revocation_list(one)), OpenSSL(str(folder_of(self)))
        for issuer, more, holds in (one, [], True), (other, [], False), (one, [between], False), (one, [], True):
            row = tuple(Certificate(who.octets) for who in (h.issue("Leaf", issuer), *more, issuer))
            self.assertEqual(found.fault(openssl, row) == "", holds)

    def test_folders_and_files(self):
        from cmsproof_tools.running import Stop

        w = self.world
        folder = w.folder / "lists"
        folder.mkdir()
        for at, octets in enumerate(self.lists()):
            (folder / f"{at}.crl").write_bytes(octets)
        (folder / "readme").write_text("no list")
        periods, told = w.periods(w.anna, [w.file()], folders=[str(folder)])
        self.assertEqual((periods, len(told)), ([(ALWAYS[0], NEXT)], 1))
        self.assertIn("readme: it is no revocation list", told[0])
        for octets in (b"", b"x", w.anna.octets, self.lists()[0][:-1], self.lists()[0] + b"\0"):
            with self.assertRaises(Stop) as stop:
                w.made([w.file()], lists=[octets])
            self.assertEqual(stop.exception.status, 2)
        self.check_beside(folder)
        # (one that is called so is a list of the folder where the tool runs, and not standard input)
        (folder / "0.crl").rename(folder / "-"), self.addCleanup(os.chdir, os.getcwd()), os.chdir(folder)
        periods, told = w.periods(w.anna, [w.file()], folders=["."])
        self.assertEqual((periods, len(told)), ([(ALWAYS[0], NEXT)], 1), told)

    def check_beside(self, folder):
        """A list in DER beside one in PEM, as `cat *.crl` writes them, or under another label, as certutil does, is not passed over."""
        from cmsproof_tools.running import Stop

        w, old = self.world, list_pem(h.revocation_list(self.world.sub))
        new = h.revocation_list(w.sub, [(w.anna, "2024-04-15", "keyCompromise", None)])
        labelled = [list_pem(new).replace(b"X509 CRL", label) for label in (b"CRL", b"CERTIFICATE", b"NEW X509 CRL", b"A-B")]
        labelled += [list_pem(new).decode().encode(coding) for coding in ("utf-16-le", "utf-16-be", "utf-16")]
        (folder / "new").write_bytes(list_pem(new))
        labelled.append(openssl("crl2pkcs7", "-in", folder / "new"))
        (folder / "new").unlink()
        for other in (new, *labelled):
            for octets in (old + other, other + old):
                (folder / "both.pem").write_bytes(octets)
                for more in ({"lists": [octets]}, {"folders": [str(folder)]}):
                    with self.assertRaisesRegex(Stop, "another list") as stop:
                        w.made([w.file()], **more)
                    self.assertEqual(stop.exception.status, 2)
        # (what else such files have may be there)
        (folder / "both.pem").write_bytes(b"0 of Sub\n" + old + pem(w.sub) + "\tgültig\r\n".encode() + list_pem(new))
        self.assertEqual(w.periods(w.anna, [w.file()], folders=[str(folder)])[0], [])
        (folder / "both.pem").write_text(list_pem(new).decode(), "utf-16")
        with self.assertRaisesRegex(Stop, "no revocation list"):
            w.made([w.file()], folders=[str(folder)])
        (folder / "both.pem").unlink()


class Responses(WithWorld):
    """Stored responses of OCSP about Anna; lists cover the rest."""

    def got(self, *responses, who=None):
        """The period of Anna, and what is told."""
        w = self.world
        lists = [h.revocation_list(w.root), h.revocation_list(w.clocks)]
        return w.periods(who or w.anna, [w.file(who)], lists=lists, responses=responses)

    def test_responses(self):
        w, usage = self.world, (x509.ExtendedKeyUsage([x509.ExtendedKeyUsageOID.OCSP_SIGNING]), False)
        named, unnamed = h.issue("Named", w.sub, [usage]), h.issue("Unnamed", w.sub)
        secret, signing = (h.issue("R", w.sub, [usage, h.usage(use)]) for use in ("key_encipherment", "digital_signature"))
        foreign, twin = h.issue("Foreign", w.clocks, [usage]), h.issue("Sub", None, h.authority(), key=None)
        bob, make, none = h.issue("Bob", w.sub), h.response, "no revocation list or response covers it at " + AT
        good = make(w.anna, w.sub)
        # (its last octet is of the signature)
        spoiled = good[:-1] + bytes([good[-1] ^ 1])
        wrong = "its signature does not hold"
        for what, octets, last, line in [
            ("good", make(w.anna, w.sub), NEXT, ""),
            ("good, by SHA-256", make(w.anna, w.sub, digest=hashes.SHA256()), NEXT, ""),
            ("revoked later", make(w.anna, w.sub, revoked="2024-05-20"), "20240519235959.999999999Z", ""),
            (
                "revoked before",
                make(w.anna, w.sub, revoked="2024-04-20", reason="superseded"),
                None,
                "was revoked 20240420000000Z",
            ),
            ("revoked at the stamp", make(w.anna, w.sub, revoked=CLOCK_AT), None, "was revoked " + AT),
            ("stale", make(w.anna, w.sub, this="2024-03-01", next="2024-04-01"), None, none),
            ("about Bob", make(bob, w.sub), None, "none of its issuer is given"),
            ("about one of an issuer with this name", make(w.anna, twin), None, "none of its issuer is given"),
            ("by an issuer with this name", make(w.anna, w.sub, twin, bag=[twin]), None, wrong),
            ("spoiled", spoiled, None, wrong),
            ("by one who is named for it", make(w.anna, w.sub, named, bag=[named]), NEXT, ""),
            ("by one who is not", make(w.anna, w.sub, unnamed, bag=[unnamed]), None, wrong),
            # (RFC 5280 4.2.1.3, 4.2.1.12: its key signs nothing)
            ("by one whose key is for secrets", make(w.anna, w.sub, secret, bag=[secret]), None, "that is not good enough"),
            ("by one whose key is for signatures", make(w.anna, w.sub, signing, bag=[signing]), NEXT, ""),
            ("by one of another issuer", make(w.anna, w.sub, foreign, bag=[foreign]), None, wrong),
        ]:
            with self.subTest(what):
                periods, told = self.got(octets)
                self.assertEqual(periods, [(ALWAYS[0], last)] if last else [], told)
                self.assertIn(line, "".join(told))
                self.assertEqual(bool(told), not last)

    def test_two_that_differ(self):
        w = self.world
        revoked = h.response(w.anna, w.sub, revoked="2024-04-20", this="2024-04-25", next="2024-04-26")
        self.assertEqual(self.got(revoked, h.response(w.anna, w.sub))[0], [])

    def test_files_that_are_none(self):
        from cmsproof_tools.running import Stop

        w, good = self.world, h.response(self.world.anna, self.world.sub)
        for octets in (b"", b"x", w.anna.octets, good[:-1], good + b"\0", bytes.fromhex("30030a0106")):
            with self.assertRaises(Stop) as stop:
                self.got(octets)
            self.assertEqual(stop.exception.status, 2)


if __name__ == "__main__":
    unittest.main()
