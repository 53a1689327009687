"""Tests of trust by issuer against somebody who knows how it works: each case once gave an entry, or lost a revocation, or ended
the tool."""
import hashlib
import resource
import signal
import unittest
from unittest import mock

from issuing_world import ALWAYS, AT, h, list_pem, pem
from making import openssl, processor_seconds
from test_issuers import WithWorld
from test_revocation import NEXT, scope
from test_verify import key_of, number, padded

from cryptography import x509
from cryptography.hazmat.primitives import hashes
from cryptography.hazmat.primitives.asymmetric import ec, padding, rsa
from cmsproof_tools import der, issuing, paths
from cmsproof_tools.running import Stop
from oracle.der import element, oid, sequence

NOTE = x509.UnrecognizedExtension(x509.ObjectIdentifier("2.999.9"), b"\x05\x00")
ECDSA_SHA1, MD5_OF_OIW, SHA1_RSA = "1.2.840.10045.4.1", "1.3.14.3.2.3", "1.2.840.113549.1.1.5"
NONE = "no revocation list or response covers it"


def again(octets, key, algorithm, *how, parameters=b"", change=lambda parts: parts):
    """A certificate, a list or a basic response with another algorithm, signed again by this key."""
    signed, old = der.elements(der.elements(octets)[0].contents)[:2]
    new = sequence(oid(algorithm), parameters)
    parts = [new if part.whole == old.whole else part.whole for part in der.elements(signed.contents)]
    signed = element(0x30, *change(parts))
    return sequence(signed, new, element(3, b"\0", key.sign(signed, *how)))


def response_of(basic):
    """A response around a basic one (RFC 6960 4.2.1)."""
    return sequence(element(0x0A, b"\0"), element(0xA0, sequence(oid("1.3.6.1.5.5.7.48.1.1"), element(4, basic))))


def basic_of(response):
    """The basic response in a response."""
    octets = response
    for at in (0, 1, 0, 1):
        octets = der.elements(octets)[at].contents
    return octets


class Attacks(WithWorld):
    """Of paths and certificates."""

    def periods(self, who, bag, **rest):
        """The periods of a signer, with these issuers in the file."""
        return self.world.periods(who, [self.world.file(who, bag)], **rest)

    def test_a_fault_at_one_file(self):
        """It costs that file, and no other one; but what costs all of them ends the tool."""
        w, found_apart = self.world, issuing.found_apart

        def failing(error):
            def found(name, *rest, **more):
                if name.endswith("file0.p7s"):
                    raise error
                return found_apart(name, *rest, **more)

            return mock.patch.object(issuing, "found_apart", found)

        with failing(RuntimeError("odd")):
            periods, told = w.periods(w.anna, [b"hostile", w.file()])
        self.assertEqual((periods, w.status), ([ALWAYS], 4))
        self.assertEqual([line.rpartition("/")[2] for line in told], ["file0.p7s: failed trust: RuntimeError: odd"])
        for error in Stop(4, "no openssl"), ImportError("no library"):
            with failing(error), self.assertRaises(type(error)):
                w.periods(w.anna, [b"hostile", w.file()])

    def test_a_path_that_openssl_did_not_judge(self):
        """A certificate with the name of the signer's issuer and the serial number of Bob's: OpenSSL passes over it, for its key
        identifier is another one, but a response that its key signed spoke for the signer."""
        w, key, other = self.world, ec.generate_private_key(ec.SECP256R1()), ec.generate_private_key(ec.SECP256R1())
        (own, of_issued), (foreign, _) = h.key_identifiers(key), h.key_identifiers(other)
        sub = h.issue("Sub", w.root, [*h.authority(), own], key=key)
        anna, bob = h.issue("Anna", sub, [of_issued]), h.issue("Bob", sub, [of_issued])
        by = h.Issued(other, sub.certificate)
        fake = h.issue("Sub", by, [*h.authority(), foreign], key=other, serial=bob.certificate.serial_number)
        lists = [h.revocation_list(w.root), h.revocation_list(w.clocks)]
        given = {"lists": lists, "responses": [h.response(bob, sub), h.response(anna, fake)]}
        periods, told = self.periods(anna, [fake, sub], **given)
        self.assertEqual(periods, [])
        self.assertIn(NONE, "".join(told))
        self.assertEqual(w.checked(w.file(anna, [fake, sub])), "refused signer 1 S7 UnknownSigner")
        self.assertEqual(self.periods(anna, [fake, sub]), ([ALWAYS], []))
        # (and her own issuer's word counts)
        given["responses"].append(h.response(anna, sub))
        self.assertEqual(self.periods(anna, [fake, sub], **given)[0], [(ALWAYS[0], NEXT)])

    def test_a_disk_that_is_full(self):
        """A file of OpenSSL's of which a part was written is not taken for what was there before."""
        with paths.private_folder() as folder:
            openssl, limits = paths.OpenSSL(folder), resource.getrlimit(resource.RLIMIT_FSIZE)
            before = signal.signal(signal.SIGXFSZ, signal.SIG_IGN)
            openssl.write("between.pem", b"first")
            try:
                resource.setrlimit(resource.RLIMIT_FSIZE, (3, limits[1]))
                with self.assertRaises(OSError):
                    openssl.write("between.pem", b"second")
            finally:
                resource.setrlimit(resource.RLIMIT_FSIZE, limits)
                signal.signal(signal.SIGXFSZ, before)
            openssl.write("between.pem", b"first")
            self.assertEqual((openssl.folder / "between.pem").read_bytes(), b"first")

    def test_names_that_are_lines_of_openssl(self):
        """Several are judged in one run: what it prints of one says nothing of another."""
        w = self.world
        lines = "x\njudged0.pem: OK\nChain:\n" + "".join(f"depth={at}: CN=x\n" for at in range(3))
        expired = h.issue("Old", w.sub, last="2024-04-30")
        people = [h.issue(f"{name}{at}{lines}"[:64], w.sub) for at, name in enumerate("ab")]
        odd = h.issue("Odd", w.sub, [(NOTE, True)])
        files = [w.file(who) for who in (odd, people[0], expired, people[1])]
        entries, told = w.made(files)
        self.assertEqual([octets for role, *_, octets in entries if role == "signer"], [who.octets for who in people])
        self.assertEqual(len(told), 2)

    def test_many_at_once(self):
        """Each is judged at a moment at which it is valid, also where others are not."""
        w, spans = self.world, [("2020-01-01", "2021-01-01"), ("2022-01-01", "2023-01-01"), ("2020-06-01", "2040-01-01")]
        people = [h.issue(f"P{at}", w.sub, first=first, last=last) for at, (first, last) in enumerate(spans * 2)]
        times = ["20200701000000Z", "20220701000000Z", "20230701000000Z"] * 2
        entries, told = w.made([w.file(who, times=(at,)) for who, at in zip(people, times)])
        self.assertEqual((len(entries), told), (7, []))
        entries, told = w.made([w.file(who, times=(at,)) for who, at in zip(people, reversed(times))])
        self.assertEqual((len(entries), len(told)), (5, 2), told)

    def test_algorithms_and_keys(self):
        """What `--sha1` allows is SHA-1 and nothing else."""
        w, big = self.world, rsa.generate_private_key(65537, 2048)
        try:
            small = rsa.generate_private_key(65537, 512)
        except ValueError:  # newer versions of the library make none: this one is of OpenSSL
            small = h.serialization.load_pem_private_key(openssl("genrsa", "-traditional", "512"), None)
        issuer = h.issue("RSA", w.root, h.authority(), key=big)
        good = h.issue("A", issuer)
        signs = padding.PKCS1v15()
        md5, sha1 = (
            h.Issued(good.key, h.x509.load_der_x509_certificate(octets))
            for octets in (
                again(good.octets, big, MD5_OF_OIW, signs, hashes.MD5(), parameters=b"\5\0"),
                again(good.octets, big, SHA1_RSA, signs, hashes.SHA1(), parameters=b"\5\0"),
            )
        )
        self.assertEqual([self.periods(sha1, [issuer], sha1=allowed)[0] for allowed in (False, True)], [[], [ALWAYS]])
        for allowed in (False, True):
            self.assertEqual(self.periods(good, [issuer], sha1=allowed), ([ALWAYS], []))
            periods, told = self.periods(md5, [issuer], sha1=allowed)
            self.assertEqual(periods, [])
            self.assertIn(f"the signature algorithm {MD5_OF_OIW} is not known", told[0])
            try:
                weak = h.issue("Weak", w.root, h.authority(), key=small)
                periods, told = self.periods(h.issue("A", weak, digest=hashes.SHA256()), [weak], sha1=allowed)
            except ValueError:  # newer versions of the library sign by no such key
                continue
            self.assertEqual(periods, [])
            self.assertIn("has fewer than 1024 bits", told[0])

    def test_issuers_for_other_things(self):
        """An issuer of servers' certificates issues none of signers or authorities, though theirs say nothing."""
        w, use = self.world, x509.ExtendedKeyUsageOID
        for purposes, signs, stamps in [
            ([use.SERVER_AUTH], False, False),
            ([use.SERVER_AUTH, use.EMAIL_PROTECTION], True, False),
            ([use.TIME_STAMPING], False, True),
            ([use.ANY_EXTENDED_KEY_USAGE], True, True),
        ]:
            extension = (x509.ExtendedKeyUsage(purposes), False)
            sub = h.issue("Narrow", w.root, [*h.authority(), extension])
            clocks = h.issue("Narrow clocks", w.clocks, [*h.authority(), extension])
            clock = h.issue("C", clocks, [h.STAMPING])
            who = h.issue("A", sub)
            self.assertEqual(self.periods(who, [sub])[0], [ALWAYS] if signs else [])
            file = h.signed(w.anna, [(clock, AT, [clock.octets, clocks.octets])], [w.anna.octets, w.sub.octets])
            self.assertEqual(len(w.made([file])[0]), 2 if stamps else 0)
        empty = h.issue("A", w.sub, [(x509.UnrecognizedExtension(x509.ObjectIdentifier("2.5.29.37"), b"\x30\x00"), False)])
        self.assertEqual(self.periods(empty, [w.sub])[0], [])

    def test_critical_extensions_that_openssl_passes_over(self):
        """For the purpose `any` it looks at no nsCertType; Bouncy Castle refuses them too (RFC 5280 4.2). A qualifier of a policy must be
        known where that is critical (4.2.1.4)."""
        w = self.world
        qualified = sequence(sequence(oid("2.999.5"), sequence(sequence(oid("2.999.6"), b"\5\0"))))
        for identifier, value in [
            ("2.16.840.1.113730.1.1", b"\3\2\6\x40"),
            ("1.3.6.1.5.5.7.48.1.5", b"\5\0"),
            ("2.5.29.32", qualified),
        ]:
            for critical in (False, True):
                extension = x509.UnrecognizedExtension(x509.ObjectIdentifier(identifier), value), critical
                sub, who = h.issue("Servers", w.root, [*h.authority(), extension]), h.issue("A", w.sub, [extension])
                for leaf, between in (who, w.sub), (h.issue("A", sub), sub):
                    periods, told = self.periods(leaf, [between])
                    self.assertEqual(periods, [] if critical else [ALWAYS], told)
                    self.assertTrue(w.openssl(w.file(leaf, [between]), [w.root], AT))
        known = x509.UserNotice(None, "read this")
        for qualifiers in ([known], ["http://example.org/"], None):
            policy = x509.PolicyInformation(x509.ObjectIdentifier("2.999.5"), qualifiers)
            who = h.issue("A", w.sub, [(x509.CertificatePolicies([policy]), True)])
            self.assertEqual(self.periods(who, [w.sub])[0], [ALWAYS])

    def test_certificates_that_cannot_be_read(self):
        """Names with values of kinds that the library does not know: who else is there is listed all the same."""
        w, odd = self.world, h.issue("Odd", self.world.sub)
        for tag in (2, 5, 9, 0x19, 0x1E, 0x21, 0xC0):
            at = odd.octets.rindex(b"\x0c\x03Odd")
            octets = odd.octets[:at] + bytes([tag]) + odd.octets[at + 1 :]
            file = h.signed(w.anna, [(w.clock, AT)], [w.anna.octets, w.sub.octets, octets])
            self.assertEqual(len(w.made([file])[0]), 2, tag)
            # (and as a signer, named by its serial number)
            who = h.signed(odd, [(w.clock, AT)], [octets, w.sub.octets])
            self.assertEqual(len(w.made([who, w.file()])[0]), 2, tag)

    def test_key_identifiers_of_any_form(self):
        w, number = self.world, x509.ObjectIdentifier("2.5.29.14")
        for value in (b"", b"\4", b"\4\0", b"\4\x81\x80" + bytes(128), bytes(300), b"\5\0"):
            odd = h.issue("Odd", w.sub, [(x509.UnrecognizedExtension(number, value), False)])
            file = h.signed(w.anna, [(w.clock, AT)], [w.anna.octets, w.sub.octets, odd.octets])
            self.assertEqual(len(w.made([file])[0]), 2, value)
            self.assertLessEqual(len(self.periods(odd, [w.sub])[0]), 1)

    def test_many_signers_and_many_issuers(self):
        """A hundred signers with two thousand issuers, none of which issued anything: the time is bounded for all of a file."""
        w, serial = self.world, int.from_bytes(b"\x11" * 20, "big")
        sub = h.issue("Sub", h.root("Root"), h.authority(0), serial=serial)
        at, people = sub.octets.index(b"\x11" * 20), [h.issue(f"P{number}", sub) for number in range(100)]
        fakes = [sub.octets[: at + 16] + number.to_bytes(4, "big") + sub.octets[at + 20 :] for number in range(2000)]
        began = processor_seconds()
        file = h.together([(who, [(w.clock, AT)]) for who in people], [*(who.octets for who in people), *fakes])
        entries, told = w.made([file])
        self.assertEqual((len(entries), len(told)), (1, 100))
        self.assertIn("no more than 5000 steps look for paths", told[-1])
        self.assertLess(processor_seconds() - began, 60)

    def test_a_file_that_lacks_an_issuer(self):
        """It does not keep another one of the same moment from an entry."""
        w = self.world
        for files in ([w.file(between=[]), w.file()], [w.file(), w.file(between=[])]):
            entries, _ = w.made(files)
            self.assertEqual(len(entries), 2)

    def test_many_issuers_that_are_none(self):
        """Anybody can put certificates into a file: they hide no path, however many they are."""
        w = self.world
        evil = h.root("Root")
        fakes = [h.issue("Sub", evil, h.authority(0)) for _ in range(200)]
        self.assertEqual(self.periods(w.anna, [*fakes, w.sub])[0], [ALWAYS])
        # (and the line is about the path whose signatures hold)
        old = h.issue("Sub", w.root, h.authority(0), last="2024-04-30")
        told = self.periods(h.issue("A", old), [*fakes[:9], old])[1]
        self.assertIn("CN=Sub,O=cmsproof: certificate has expired", told[0])

    def test_pem_in_a_certificate(self):
        """What a certificate in DER has as a text `openssl x509 -fingerprint` shows in its place."""
        from cmsproof_tools.certificates import certificates_in

        w = self.world
        text = b"\n" + w.root.certificate.public_bytes(h.serialization.Encoding.PEM)
        outer = h.issue("Good", None, [*h.authority(), (x509.UnrecognizedExtension(NOTE.oid, text), False)])
        with self.assertRaisesRegex(ValueError, "^another certificate begins in it, as a text"):
            certificates_in(outer.octets)


class Lists(WithWorld):
    """Of revocation lists and responses."""

    def got(self, more=(), responses=(), whole=True, who=None, **rest):
        """The period of Anna under lists that revoke nothing, and more of them."""
        w, who = self.world, who or self.world.anna
        lists = [h.revocation_list(w.sub)] * whole + [h.revocation_list(w.root), h.revocation_list(w.clocks), *more]
        return w.periods(who, [w.file(who)], lists=lists, responses=responses, **rest)

    def test_lists_that_are_not_whole(self):
        """What they revoke counts, and what they leave out does not."""
        w = self.world
        revoked = [(w.anna, "2024-04-20", "keyCompromise", None)]
        for what, extension in [
            ("delta", (x509.DeltaCRLIndicator(4), True)),
            ("critical", (NOTE, True)),
            ("some reasons", scope(reasons=frozenset([x509.ReasonFlags.key_compromise]))),
            ("for issuers", scope(ca=True)),
        ]:
            with self.subTest(what):
                periods, told = self.got([h.revocation_list(w.sub, revoked, extensions=[extension])])
                self.assertEqual(periods, [])
                self.assertIn("was revoked 20240420000000Z", "".join(told))
                none = h.revocation_list(w.sub, extensions=[extension])
                self.assertEqual(self.got([none])[0], [(ALWAYS[0], NEXT)])
                self.assertEqual(self.got([none], whole=False)[0], [])
                forged = h.revocation_list(h.issue("Sub", None, h.authority()), revoked, extensions=[extension])
                self.assertEqual(self.got([forged])[0], [(ALWAYS[0], NEXT)])
        removed = [(w.anna, "2024-04-20", "removeFromCRL", None)]
        delta = h.revocation_list(w.sub, removed, extensions=[(x509.DeltaCRLIndicator(4), True)])
        self.assertEqual(self.got([delta])[0], [(ALWAYS[0], NEXT)])

    def test_entries(self):
        """Two for one certificate, in both orders; and one that cannot be read."""
        w = self.world
        early, late = (w.anna, "2024-04-20", None, None), (w.anna, "2024-06-01", None, None)
        for rows in ([early, late], [late, early]):
            self.assertEqual(self.got([h.revocation_list(w.sub, rows)])[0], [])
        odd = h.revocation_list(w.sub, [(w.anna, "2024-06-01", "keyCompromise", None)])
        at = odd.index(b"\x55\x1d\x15\x04\x03\x0a\x01") + 7
        odd = again(
            odd,
            w.sub.key,
            "1.2.840.10045.4.3.2",
            ec.ECDSA(hashes.SHA256()),
            change=lambda parts: [
                part.replace(b"\x55\x1d\x15\x04\x03\x0a\x01\x01", b"\x55\x1d\x15\x04\x03\x0a\x01\x63") for part in parts
            ],
        )
        self.assertEqual(odd[at], 0x63)
        periods, told = self.got([odd])
        self.assertEqual(periods, [])
        self.assertIn("CN=Anna,O=cmsproof: its entry in ", "".join(told))

    def test_weak_signatures(self):
        """A list or a response by SHA-1 clears nobody, unless it is allowed, and revokes whom it revokes."""
        w, sha1 = self.world, ec.ECDSA(hashes.SHA1())
        clear, revokes = (
            again(h.revocation_list(w.sub, rows), w.sub.key, ECDSA_SHA1, sha1)
            for rows in ([], [(w.anna, "2024-04-20", None, None)])
        )
        periods, told = self.got([clear], whole=False)
        self.assertEqual(periods, [])
        self.assertIn("signed by SHA-1", "".join(told))
        self.assertEqual(self.got([clear], whole=False, sha1=True)[0], [(ALWAYS[0], NEXT)])
        self.assertEqual(self.got([revokes])[0], [])
        clear, revokes = (
            response_of(again(basic_of(h.response(w.anna, w.sub, revoked=date)), w.sub.key, ECDSA_SHA1, sha1))
            for date in (None, "2024-04-20")
        )
        self.assertEqual(self.got(responses=[clear], whole=False)[0], [])
        self.assertEqual(self.got(responses=[clear], whole=False, sha1=True)[0], [(ALWAYS[0], NEXT)])
        self.assertEqual(self.got(responses=[revokes])[0], [])
        # (and one by a responder whose certificate is signed by SHA-1)
        named = h.issue("Named", w.sub, [(x509.ExtendedKeyUsage([x509.ExtendedKeyUsageOID.OCSP_SIGNING]), False)])
        octets = again(named.octets, w.sub.key, ECDSA_SHA1, sha1)
        named = h.Issued(named.key, x509.load_der_x509_certificate(octets))
        clear, revokes = (h.response(w.anna, w.sub, named, bag=[named], revoked=date) for date in (None, "2024-04-20"))
        self.assertEqual(self.got(responses=[clear], whole=False)[0], [])
        self.assertEqual(self.got(responses=[clear], whole=False, sha1=True)[0], [(ALWAYS[0], NEXT)])
        self.assertEqual(self.got(responses=[revokes])[0], [])

    def test_lists_that_were_passed_over(self):
        """Revocations in a list of the issuer that is found, or signed, in another way; beside a list that has none."""
        w, revoked = self.world, [(self.world.anna, "2024-04-20", "keyCompromise", None)]
        new, root, other = h.issue("Sub", w.root, h.authority()), h.root(), h.issue("Sub", h.root(), h.authority())
        spaced = h.issue("  Sub ", w.root, h.authority(), key=w.sub.key)
        text = x509.UnrecognizedExtension(NOTE.oid, b"\n" + list_pem(h.revocation_list(w.sub)))
        for what, by, extensions, good, given in [
            # (RFC 5280 6.3.3 (f): a path of its own to the same anchor)
            ("another key of the issuer", new, [], False, {"between": [new]}),
            ("one that is trusted", other, [], False, {"issuers": [w.root, other]}),
            ("one of another root", other, [], True, {"between": [other, root]}),
            ("one that is not named", new, [], True, {}),
            # (RFC 5280 5.3.3: without another word an entry is of who issued the list)
            ("indirect", w.sub, [scope(indirect=True)], False, {}),
            ("white space in its name", spaced, [], False, {}),
        ]:
            with self.subTest(what):
                lists = [h.revocation_list(by, rows, extensions=extensions) for rows in (revoked, [])]
                periods, told = self.got(lists[:1], **given)
                self.assertEqual(periods, [(ALWAYS[0], NEXT)] if good else [], told)
                self.assertEqual(self.got(lists[1:], **given)[0], [(ALWAYS[0], NEXT)])
        with self.assertRaisesRegex(Stop, "another list begins in it, as a text"):
            self.got([h.revocation_list(w.sub, revoked, extensions=[(text, False)])])
        # (OpenSSL takes the name with white space for the same one)
        for rows, good in (revoked, False), ([], True):
            lists = [h.revocation_list(spaced, rows)]
            self.assertEqual(w.openssl(w.file(), [w.root], "20240602000000Z", "-crl_check", lists=lists), good)

    def test_points_without_a_name(self):
        """A list of another part of an issuer's certificates covers nobody whose point has no name, though OpenSSL takes it for any
        (RFC 5280 6.3.3 (b) (2) (i))."""
        w, place = self.world, [x509.UniformResourceIdentifier("http://example.org/1.crl")]
        issuer = [x509.DirectoryName(h.name_of("Sub"))]
        named = [(x509.IssuingDistributionPoint(place, None, False, False, None, False, False), True)]
        for point, good in [((place, None, None, None), True), ((None, None, None, issuer), False)]:
            points = x509.CRLDistributionPoints([x509.DistributionPoint(*point)])
            ada = h.issue("Ada", w.sub, [(points, False)])
            lists = [h.revocation_list(w.sub, extensions=named)]
            self.assertEqual(self.got(lists, whole=False, who=ada)[0], [(ALWAYS[0], NEXT)] if good else [])
            self.assertEqual(self.got(lists, who=ada)[0], [(ALWAYS[0], NEXT)])

    def test_entries_of_other_issuers(self):
        """In an indirect list an entry is of the issuer that it names, or that the entry before is of (RFC 5280 5.3.3); also in one by
        somebody else whom the user names."""
        w, twin, lister = (
            self.world,
            h.issue("Twin", self.world.root),
            h.issue("Lister", self.world.root, [h.usage("crl_sign")]),
        )
        for by, first, named, good in [
            (w.sub, w.anna, "Root", True),
            (w.sub, w.anna, "Sub", False),
            (w.sub, twin, "Root", True),
            (w.sub, twin, "Sub", False),
            (lister, w.anna, "Root", True),
            (lister, w.anna, "Sub", False),
            (h.issue("Lister", h.root()), w.anna, "Sub", True),
        ]:
            builder = x509.CertificateRevocationListBuilder().issuer_name(by.certificate.subject)
            builder = builder.last_update(h.time_of("2024-06-01")).next_update(h.time_of("2024-07-01"))
            names = x509.CertificateIssuer([x509.DirectoryName(h.name_of(named))]), True
            for who, more in [(first, [names])] + [(w.anna, [])] * (first is twin):
                entry = x509.RevokedCertificateBuilder().serial_number(who.certificate.serial_number)
                entry = entry.revocation_date(h.time_of("2024-04-20"))
                for extension in more:
                    entry = entry.add_extension(*extension)
                builder = builder.add_revoked_certificate(entry.build())
            octets = builder.add_extension(*scope(indirect=True)).sign(by.key, hashes.SHA256())
            periods, told = self.got([octets.public_bytes(h.serialization.Encoding.DER)], between=[lister])
            self.assertEqual(periods, [(ALWAYS[0], NEXT)] if good else [], told)

    def changed(self, response, change):
        """A response whose parts are changed, and that is signed again by Anna's issuer."""
        key, how = self.world.sub.key, ec.ECDSA(hashes.SHA256())
        return response_of(again(basic_of(response), key, "1.2.840.10045.4.3.2", how, change=change))

    def extended(self, response, extension, single=True):
        """A response with an extension, of its one part or of itself."""

        def change(parts):
            of_response = element(0xA1, sequence(extension))
            (one,) = der.elements(der.elements(parts[-1])[0].contents)
            rows = sequence(element(0x30, one.contents + element(0xA1, sequence(extension))))
            return [*parts[:-1], rows] if single else [*parts, of_response]

        return self.changed(response, change)

    def test_responses_that_were_passed_over(self):
        """Revocations in a response, beside a list that has none; OpenSSL reads them."""
        w, key = self.world, ec.generate_private_key(ec.SECP256R1())
        name = [(x509.NameOID.ORGANIZATION_NAME, "cmsproof"), (x509.NameOID.COMMON_NAME, "Sub")]
        printable = x509.Name([x509.NameAttribute(*part, _type=x509.name._ASN1Type.PrintableString) for part in name])
        builder = x509.CertificateBuilder().subject_name(h.name_of("Ada")).issuer_name(printable).serial_number(7)
        builder = builder.not_valid_before(h.time_of("2020-01-01")).not_valid_after(h.time_of("2040-01-01"))
        ada = h.Issued(key, builder.public_key(key.public_key()).sign(w.sub.key, hashes.SHA256()))
        invalid = sequence(oid("2.5.29.24"), element(4, element(0x18, b"20240401000000Z")))
        late, early = {"revoked": "2024-05-20"}, {"revoked": "2024-04-20"}
        cut = "20240519235959.999999999Z"
        for what, who, response, last in [
            ("later", w.anna, h.response(w.anna, w.sub, **late), cut),
            # (RFC 6960 4.4.5, RFC 5280 5.3.2)
            ("invalid before", w.anna, self.extended(h.response(w.anna, w.sub, **late), invalid), None),
            ("by SHA-224", w.anna, h.response(w.anna, w.sub, digest=hashes.SHA224(), **early), None),
            # (RFC 6960 4.1.1: the name as the certificate has it, which its issuer may write otherwise)
            ("a name of another type", ada, h.response(ada, w.sub, **early), None),
        ]:
            with self.subTest(what):
                periods, told = self.got(responses=[response], who=who)
                self.assertEqual(periods, [(ALWAYS[0], last)] if last else [], told)
                issuer, of = w.put("issuer.pem", pem(w.sub)), w.put("who.pem", pem(who))
                words = ["-noverify", "-respin", w.put("response", response), "-issuer", issuer]
                said = openssl("ocsp", *words, "-sha224" if "224" in what else "-sha1", "-cert", of)
                self.assertIn(b"\nrevoked\n", said)
        self.assertEqual(self.got(who=ada)[0], [(ALWAYS[0], NEXT)])
        # (by another key of the issuer, which the user names)
        new = h.issue("Sub", w.root, h.authority())
        for between, good in ([new], False), ([], True), ([h.issue("Sub", None, h.authority(), key=new.key)], True):
            periods, told = self.got(responses=[h.response(w.anna, w.sub, new, **early)], between=between)
            self.assertEqual(periods, [(ALWAYS[0], NEXT)] if good else [], told)
        unreadable = sequence(oid("2.5.29.24"), element(4, element(0x18, b"yesterday")))
        self.assertEqual(self.got(responses=[self.extended(h.response(w.anna, w.sub, **late), unreadable)])[0], [])
        sha1, ripemd = (sequence(oid(number), b"\5\0") for number in ("1.3.14.3.2.26", "1.3.36.3.2.1"))
        unknown = self.changed(h.response(w.anna, w.sub, **early), lambda parts: [part.replace(sha1, ripemd) for part in parts])
        with self.assertRaises(Stop) as stop:
            self.got(responses=[unknown])
        self.assertEqual(stop.exception.status, 2)

    def test_critical_extensions_of_responses(self):
        """What a response says beside one that is not known is not known (RFC 6960 4.4); what it revokes is."""
        w = self.world
        for identifier, critical, single, good in [
            ("2.999.9", True, True, False),
            ("2.999.9", True, False, False),
            ("2.999.9", False, True, True),
            ("2.999.9", False, False, True),
            ("1.3.6.1.5.5.7.48.1.2", True, False, True),
        ]:
            extension = sequence(oid(identifier), *[b"\1\1\xff"] * critical, element(4, b"\5\0"))
            response, revokes = (
                self.extended(h.response(w.anna, w.sub, revoked=date), extension, single) for date in (None, "2024-04-20")
            )
            periods, told = self.got(responses=[response], whole=False)
            self.assertEqual(periods, [(ALWAYS[0], NEXT)] if good else [], told)
            self.assertEqual(self.got(responses=[revokes])[0], [])

    def test_a_response_with_odd_certificates(self):
        """Anybody can put certificates into it, which nobody can read, and change nothing by that."""
        w = self.world
        odd = [h.issue("Odd", w.sub, [(x509.UnrecognizedExtension(x509.ObjectIdentifier("2.5.29.37"), b"\5"), False)])]
        for value in (b"\5", b"\3\0"):
            purpose = (x509.ExtendedKeyUsage([x509.ExtendedKeyUsageOID.OCSP_SIGNING]), False)
            key_usage = x509.UnrecognizedExtension(x509.ObjectIdentifier("2.5.29.15"), value), False
            odd.append(h.issue("Odd", w.sub, [purpose, key_usage]))
        for one in odd:
            periods, told = self.got(responses=[h.response(w.anna, w.sub, bag=[one])], whole=False)
            self.assertEqual(periods, [(ALWAYS[0], NEXT)], told)

    def test_two_words_in_one_response(self):
        """Good and revoked: it is revoked, whichever comes first."""
        w = self.world
        rows = [
            der.elements(der.elements(basic_of(h.response(w.anna, w.sub, revoked=date)))[0].contents)[0].contents
            for date in (None, "2024-04-20")
        ]
        singles = [[part.contents for part in der.elements(row) if part.identifier == 0x30][-1] for row in rows]
        for both in (singles, singles[::-1]):
            mixed = again(
                basic_of(h.response(w.anna, w.sub)),
                w.sub.key,
                "1.2.840.10045.4.3.2",
                ec.ECDSA(hashes.SHA256()),
                change=lambda parts: [element(0x30, *both) if part == element(0x30, singles[0]) else part for part in parts],
            )
            self.assertEqual(self.got(responses=[response_of(mixed)], whole=False)[0], [])

    def test_a_responder_with_a_key_of_anybody(self):
        """The power of RSA with the exponent 1 is the number itself: whoever sees the certificate can sign, and OpenSSL takes it."""
        w, use = self.world, (x509.ExtendedKeyUsage([x509.ExtendedKeyUsageOID.OCSP_SIGNING]), False)
        named = h.issue("Named", w.sub, [use], key=rsa.generate_private_key(65537, 2048))
        forms = h.serialization.Encoding.DER, h.serialization.PublicFormat.SubjectPublicKeyInfo
        old = named.certificate.public_key().public_bytes(*forms)
        new = key_of("1.2.840.113549.1.1.1", b"\5\0", sequence(number((1 << 2047) | 1), number(1)))
        hashed = [hashlib.sha1(der.elements(der.only(0x30, key))[1].contents[1:]).digest() for key in (old, new)]
        how = "1.2.840.10045.4.3.2", ec.ECDSA(hashes.SHA256())
        anybody = again(named.octets, w.sub.key, *how, change=lambda parts: [new if part == old else part for part in parts])
        response = h.response(w.anna, w.sub, named, bag=[named])
        self.assertEqual(self.got(responses=[response], whole=False)[0], [(ALWAYS[0], NEXT)])
        signed, algorithm, *_ = (part.whole for part in der.elements(der.only(0x30, basic_of(response))))
        signed = signed.replace(*hashed)
        info = sequence(sequence(oid("2.16.840.1.101.3.4.2.1"), b"\5\0"), element(4, hashlib.sha256(signed).digest()))
        parts = [signed, algorithm, element(3, b"\0", padded(info, 256)), element(0xA0, sequence(anybody))]
        periods, told = self.got(responses=[response_of(sequence(*parts))], whole=False)
        self.assertEqual(periods, [])
        self.assertIn("nobody can say that its signature holds", "".join(told))

    def test_a_responder_that_was_revoked(self):
        w = self.world
        named = h.issue("Named", w.sub, [(x509.ExtendedKeyUsage([x509.ExtendedKeyUsageOID.OCSP_SIGNING]), False)])
        anna = h.response(w.anna, w.sub, named, bag=[named])
        self.assertEqual(self.got(responses=[anna], whole=False)[0], [(ALWAYS[0], NEXT)])
        old = h.revocation_list(w.sub, [(named, "2024-03-10", None, None)], this="2024-03-15", next="2024-04-01")
        periods, told = self.got([old], [anna], whole=False)
        self.assertEqual(periods, [])
        self.assertIn("CN=Named,O=cmsproof, which was revoked", "".join(told))
        # (also by a response)
        struck = h.response(named, w.sub, revoked="2024-04-20", reason="keyCompromise")
        for responses in ([anna, struck], [struck, anna]):
            periods, told = self.got([], responses, whole=False)
            self.assertEqual(periods, [])
            self.assertIn("CN=Named,O=cmsproof, which was revoked", "".join(told))

    def test_folders(self):
        """What is meant as a list and cannot be read ends the tool, for nobody knows whom it revokes; what is none has a line."""
        w, good = self.world, h.revocation_list(self.world.sub)
        folder = w.folder / "odd"
        folder.mkdir(exist_ok=True)
        for place, octets in enumerate([good, h.revocation_list(w.root), h.revocation_list(w.clocks)]):
            (folder / f"{place}.crl").write_bytes(octets)
        twice = h.revocation_list(w.sub, extensions=[(x509.CRLNumber(5), False), (NOTE, False)])
        twice = twice.replace(oid("2.999.9")[2:], b"\x55\x1d\x14")
        odd = good.replace(b"\x0c\x03Sub", b"\x02\x03Sub")
        for name, octets in (("ca.der", w.sub.octets), ("ca.pem", pem(w.sub)), ("index.html", b"<html>")):
            (folder / name).write_bytes(octets)
        (folder / "more").mkdir(exist_ok=True)
        periods, told = w.periods(w.anna, [w.file()], folders=[str(folder)])
        self.assertEqual((periods, len(told)), ([(ALWAYS[0], NEXT)], 4), told)
        cut = list_pem(good)[:-20] + list_pem(good), list_pem(good) + list_pem(good)[:-20]
        # (as certutil of Windows writes it, and without a label)
        encoded = list_pem(good).replace(b"X509 CRL", b"CERTIFICATE"), b"".join(list_pem(good).splitlines()[1:-1])
        for octets in (odd, twice, good[:-1], good + b"\0", *cut, *encoded):
            (folder / ("odd.CRL" if octets is encoded[1] else "odd")).write_bytes(octets)
            for given in ({"folders": [str(folder)]}, {"lists": [octets]}):
                with self.assertRaises(Stop) as stop:
                    w.periods(w.anna, [w.file()], **given)
                self.assertEqual(stop.exception.status, 2)
            for left in folder.glob("odd*"):
                left.unlink()
        (folder / "lost").symlink_to("nowhere")
        with self.assertRaises(Stop) as stop:
            w.periods(w.anna, [w.file()], folders=[str(folder)])
        self.assertEqual(stop.exception.status, 4)


if __name__ == "__main__":
    unittest.main()
