"""Tests of trust by issuer: paths and their periods, hostile files, and what OpenSSL says of the same files at the same time."""
import hashlib
import os
import re
import shutil
import subprocess
import tempfile
import unittest
from pathlib import Path

from issuing_world import ALWAYS, AT, CLOCK_AT, World, h, pem
from making import TOP, element, folder_of, processor_seconds, run_tool

from cryptography import x509
from cryptography.hazmat.primitives import hashes
from cryptography.hazmat.primitives.asymmetric import ec, ed448, ed25519, rsa

JARS = [Path("/usr/share/java") / name for name in ("bcpkix.jar", "bcprov.jar", "bcutil.jar")]
NOTE = x509.UnrecognizedExtension(x509.ObjectIdentifier("2.999.9"), b"\x05\x00")


def policies(number):
    """The certificatePolicies that are this one."""
    return x509.CertificatePolicies([x509.PolicyInformation(x509.ObjectIdentifier(number), None)])


def mailbox(address):
    """The subjectAltName that is this address."""
    return x509.SubjectAlternativeName([x509.RFC822Name(address)]), False


A_POLICY = policies("2.999.5")


def said_by_bouncy_castle(rows):
    """What Bouncy Castle says of paths, each as files of its root, its certificates upward and its lists, at the stamp's time."""
    at = str(int(h.time_of(CLOCK_AT + "+00:00").timestamp()))
    lines = [" ".join([at, *paths]) + "\n" for paths in rows]
    words = ["java", "-cp", ":".join(map(str, JARS)), TOP / "tools" / "compared" / "Judge.java"]
    done = subprocess.run(words, input="".join(lines).encode(), capture_output=True, check=True)
    said = done.stdout.decode().splitlines()
    assert len(said) == len(lines), said
    return said


def below(name):
    """A permitted or excluded tree of names: this organization."""
    return [x509.DirectoryName(x509.Name([x509.NameAttribute(x509.NameOID.ORGANIZATION_NAME, name)]))]


class WithWorld(unittest.TestCase):
    """One hierarchy for all tests of a class."""

    @classmethod
    def setUpClass(cls):
        folder = tempfile.TemporaryDirectory()
        cls.addClassCleanup(folder.cleanup)
        cls.world = World(folder.name)

    def sub(self, *extensions, name="Other", by=None, **rest):
        """An issuer below the root, with further extensions."""
        return h.issue(name, by or self.world.root, [*h.authority(), *extensions], **rest)

    def got(self, who, file, **rest):
        """The periods that a signer has in the list of a file, and the lines."""
        return self.world.periods(who, [file], **rest)


class Paths(WithWorld):
    """Which paths hold, and the periods of their entries. OpenSSL says the same of the file at the time of its stamp."""

    def rows(self):
        """What it is about, the certificate of a signer, the issuers between it and the root, and its period, or the step that
        fails."""
        w, leaf = self.world, h.issue
        two = self.sub(name="Two", by=(one := self.sub(name="One")))
        low = self.sub(name="Low", by=w.sub)
        short = self.sub(first="2021-02-03", last="2025-06-07", name="Short")
        yield "one issuer between", w.anna, [w.sub], ALWAYS
        yield "two between", leaf("A", two), [one, two], ALWAYS
        yield "none between", leaf("A", w.root), [], ALWAYS
        yield "a missing one", leaf("A", two), [two], "the issuer CN=One,O=cmsproof is not at hand"
        yield "an issuer with a shorter life", leaf("A", short), [short], ("20210203000000Z", "20250607000000Z")
        yield "a signer with a shorter life", leaf("A", w.sub, first="2024-01-01", last="2024-12-31"), [w.sub], (
            "20240101000000Z",
            "20241231000000Z",
        )
        old, late = self.sub(last="2024-04-30", name="Old"), self.sub(first="2024-05-02", name="Late")
        yield "an issuer that had expired", leaf("A", old), [old], "CN=Old,O=cmsproof: certificate has expired"
        yield "an issuer of later", leaf("A", late), [late], "CN=Late,O=cmsproof: certificate is not yet valid"
        yield "a signer that had expired", leaf("A", w.sub, last="2024-05-01"), [w.sub], "certificate has expired"
        yield "path length", leaf("A", low), [w.sub, low], "path length constraint exceeded"
        plain, denied = h.issue("Plain", w.root), h.issue("Denied", w.root, [(x509.BasicConstraints(False, None), True)])
        yield "no basicConstraints", leaf("A", plain), [plain], "CN=Plain,O=cmsproof: invalid CA certificate"
        signs = h.issue("Signs", w.root, [h.usage("key_cert_sign")])
        yield "no basicConstraints, but keyCertSign", leaf("A", signs), [signs], "CN=Signs,O=cmsproof: invalid CA certificate"
        yield "CA is false", leaf("A", denied), [denied], "CN=Denied,O=cmsproof: invalid CA certificate"
        unsigned = h.issue("Unsigned", w.root, [(x509.BasicConstraints(True, None), True), h.usage("crl_sign")])
        yield "keyUsage without keyCertSign", leaf("A", unsigned), [unsigned], "CN=Unsigned"
        other = self.sub((x509.NameConstraints(below("elsewhere"), None), True), name="Elsewhere")
        yield "a permitted tree", leaf("A", other), [other], "permitted subtree violation"
        barred = self.sub((x509.NameConstraints(None, below("cmsproof")), True), name="Barred")
        yield "an excluded tree", leaf("A", barred), [barred], "excluded subtree violation"
        demands = (x509.PolicyConstraints(0, None), True), (A_POLICY, False)
        demanding = self.sub(*demands, name="Policies")
        yield "a policy that is demanded", leaf("A", demanding), [demanding], "no explicit policy"
        yield "one that is there", leaf("A", demanding, [(A_POLICY, False)]), [demanding], ALWAYS
        mapping = (
            x509.UnrecognizedExtension(x509.ObjectIdentifier("2.5.29.33"), bytes.fromhex("300c300a06038837050603883706")),
            True,
        )
        for what, inhibits, period in (
            ("a policy that is mapped", None, ALWAYS),
            ("one that may not be", 0, "no explicit policy"),
        ):
            one = self.sub((x509.PolicyConstraints(0, inhibits), True), (A_POLICY, False), name="Mapping one")
            two = self.sub((A_POLICY, False), mapping, name="Mapping two", by=one)
            yield what, leaf("A", two, [(policies("2.999.6"), False)]), [one, two], period
        inhibits = self.sub((x509.InhibitAnyPolicy(0), True), *demands, name="Inhibits")
        yield "any policy, which is inhibited", leaf("A", inhibits, [(policies("2.5.29.32.0"), False)]), [
            inhibits
        ], "no explicit policy"
        mail = self.sub((x509.NameConstraints([x509.RFC822Name("example.org")], None), True), name="Mail")
        yield "a mail address outside", leaf("A", mail, [mailbox("a@example.com")]), [mail], "permitted subtree violation"
        yield "a mail address inside", leaf("A", mail, [mailbox("a@example.org")]), [mail], ALWAYS
        keys = [ec.generate_private_key(ec.SECP256R1()) for _ in range(2)]
        (first, of_first), (second, of_second) = map(h.key_identifiers, keys)
        old = h.issue("Sub", w.root, [*h.authority(0), first], key=keys[0])
        new = h.issue("Sub", old, [*h.authority(0), second, of_first], key=keys[1])
        yield "an issuer with a new key", leaf("A", new, [of_second]), [old, new], ALWAYS
        yield "a critical extension", leaf("A", w.sub, [(NOTE, True)]), [w.sub], "unhandled critical extension"
        noted = self.sub((NOTE, True), name="Noted")
        yield "a critical extension of an issuer", leaf("A", noted), [noted], "unhandled critical extension"
        yield "one that is not critical", leaf("A", w.sub, [(NOTE, False)]), [w.sub], ALWAYS
        yield "a signer that issued itself", leaf("A"), [], "CN=A,O=cmsproof, which is no issuer that is trusted"
        yield "an issuer of the same name", leaf("A", self.sub(name="Sub")), [w.sub], "certificate signature failure"
        yield "signed by SHA-1", w.by_sha1(w.sub), [w.sub], "CA signature digest algorithm too weak"

    def test_paths(self):
        for what, who, between, expected in self.rows():
            with self.subTest(what):
                file = self.world.file(who, between)
                periods, told = self.got(who, file)
                by_openssl = self.world.openssl(file, [self.world.root], CLOCK_AT, "-auth_level", "1")
                if isinstance(expected, tuple):
                    self.assertEqual((periods, told, by_openssl), ([expected], [], True))
                    self.assertEqual(self.world.checked(file), "accepted " + AT)
                else:
                    self.assertEqual((periods, len(told), by_openssl), ([], 1, False), told)
                    self.assertIn(expected, told[0])
                    self.assertIn("refused signer 1 S7", self.world.checked(file))

    @unittest.skipUnless(shutil.which("certtool"), "GnuTLS's certtool is missing")
    def test_gnutls(self):
        """What GnuTLS says differs for four hierarchies; it judges at the present time alone, so the rows about times are left out."""
        w, differing = self.world, []
        for what, who, between, expected in self.rows():
            if not any(word in what for word in ("life", "expired", "later")):
                chain = w.put("chain.pem", b"".join(pem(found) for found in [who, *reversed(between)]))
                words = ["certtool", "--verify", "--load-ca-certificate", w.put("roots.pem", pem(w.root)), "--infile", chain]
                good = subprocess.run(words, capture_output=True, check=False).returncode == 0
                differing += [what] * (good != isinstance(expected, tuple))
        self.assertEqual(
            differing, ["a permitted tree", "one that is there", "a policy that is mapped", "an issuer with a new key"]
        )

    @unittest.skipUnless(JARS[0].exists() and shutil.which("java"), "Bouncy Castle is missing")
    def test_bouncy_castle(self):
        """What Bouncy Castle says of the same paths at the time of the stamp."""
        w, rows = self.world, list(self.rows())
        said = said_by_bouncy_castle(
            [w.put(f"bc{at}.{number}.der", found) for number, found in enumerate([w.root, who, *reversed(between)])]
            for at, (_, who, between, _) in enumerate(rows)
        )
        differing = {
            what: line for (what, *_, expected), line in zip(rows, said) if isinstance(expected, tuple) != (line == "good")
        }
        self.assertEqual(differing, {"signed by SHA-1": "good"})

    @unittest.skipUnless(shutil.which("gpgsm"), "gpgsm is missing")
    def test_gpgsm(self):
        """What GnuPG's gpgsm says of the same files at the time of the stamp: it knows neither nameConstraints nor policyConstraints."""
        w, home, differing = self.world, folder_of(self), []
        environment = {**os.environ, "GNUPGHOME": str(home), "LC_ALL": "C"}
        self.addCleanup(subprocess.run, ["gpgconf", "--kill", "all"], env=environment, check=False)
        home.chmod(0o700)
        (home / "gpgsm.conf").write_text(f"disable-crl-checks\nno-common-certs-import\nfaked-system-time {AT[:8]}T{AT[8:14]}\n")
        (home / "trustlist.txt").write_text(w.root.certificate.fingerprint(h.hashes.SHA1()).hex() + " S relax\n")
        for what, who, between, expected in self.rows():
            for left in home.glob("pubring.kbx*"):
                left.unlink()
            chain = w.put("chain.pem", b"".join(map(pem, [w.root, *between, who])))
            subprocess.run(["gpgsm", "--batch", "--import", chain], env=environment, capture_output=True, check=False)
            words = ["gpgsm", "--batch", "--status-fd", "1", "--verify", w.put("file.p7s", w.file(who, between))]
            done = subprocess.run(words, env=environment, capture_output=True, check=False)
            said = {line.split(b" ")[1] for line in done.stdout.splitlines()}
            good = done.returncode == 0 and {b"GOODSIG", b"TRUST_FULLY"} <= said
            differing += [what] * (good != isinstance(expected, tuple))
        refused = ["one that is there", "a policy that is mapped", "a mail address inside", "an issuer with a new key"]
        self.assertEqual(differing, refused)

    def test_algorithms(self):
        """Issuers with other keys; RSASSA-PSS is of OpenSSL, since older versions of the library make no such certificate."""
        w = self.world
        for what, key, digest in [
            ("RSA", rsa.generate_private_key(65537, 2048), hashes.SHA512()),
            ("P-521", ec.generate_private_key(ec.SECP521R1()), hashes.SHA512()),
            ("brainpool", ec.generate_private_key(ec.BrainpoolP384R1()), hashes.SHA384()),
            ("Ed25519", ed25519.Ed25519PrivateKey.generate(), None),
            ("Ed448", ed448.Ed448PrivateKey.generate(), None),
            ("RSA-PSS", rsa.generate_private_key(65537, 2048), hashes.SHA256()),
        ]:
            with self.subTest(what):
                issuer, who = h.issue("Issuer", w.root, h.authority(), key=key), h.issue("A")
                builder = x509.CertificateBuilder().subject_name(h.name_of("A")).issuer_name(h.name_of("Issuer"))
                builder = builder.not_valid_before(h.time_of("2020-01-01")).not_valid_after(h.time_of("2040-01-01"))
                builder = builder.serial_number(5).public_key(who.key.public_key())
                who = h.Issued(who.key, builder.sign(key, digest))
                if what == "RSA-PSS":
                    who = w.by_openssl(h.issue("A"), issuer, "-sha256", "-sigopt", "rsa_padding_mode:pss")
                self.assertEqual(self.got(who, w.file(who, [issuer])), ([ALWAYS], []))

    def test_sha1_if_it_is_allowed(self):
        who = self.world.by_sha1(self.world.sub)
        self.assertEqual(self.got(who, self.world.file(who), sha1=True), ([ALWAYS], []))

    def test_sha1_where_openssl_allows_it(self):
        """An OpenSSL can be built so that its level 1 allows SHA-1: `--sha1` alone does here."""
        w, folder = self.world, folder_of(self)
        who = w.by_sha1(w.sub)
        changed = 'words=("$@"); for at in "${!words[@]}"; do [ "${words[at]}" = -auth_level ] && words[at+1]=0; done'
        (folder / "openssl").write_text(f'#!/bin/bash\n{changed}\nexec {shutil.which("openssl")} "${{words[@]}}"\n')
        (folder / "openssl").chmod(0o755)
        words = ["--issuer", w.put("root.pem", w.root), "--tsa-issuer", w.put("clocks.pem", w.clocks)]
        words += ["--from-files", w.put("file.p7s", w.file(who))]
        for more, lines in (([], 0), (["--sha1"], 1)):
            environment = {**os.environ, "PATH": f"{folder}:{os.environ['PATH']}"}
            status, out, err = run_tool("cmsproof-trust", *words, *more, env=environment)
            self.assertEqual((status, out.count(b"\nsigner ")), (0, lines), err)
            self.assertIn("" if lines else "it is signed by SHA-1, which --sha1 allows", err)

    def test_cross_signed(self):
        """An issuer with two certificates, and only one of their roots is trusted."""
        w, other = self.world, h.root("Other root")
        again = h.issue("Sub", other, h.authority(0), key=w.sub.key, last="2030-01-01")
        for bag in ([w.sub, again], [again, w.sub]):
            file = w.file(between=bag)
            self.assertEqual(self.got(w.anna, file), ([ALWAYS], []))
            self.assertEqual(self.got(w.anna, file, issuers=[other]), ([("20200101000000Z", "20300101000000Z")], []))
            self.assertEqual(len(self.got(w.anna, file, issuers=[w.root, other])[0]), 1)

    def test_an_issuer_that_is_no_root(self):
        self.assertEqual(self.got(self.world.anna, self.world.file(between=[]), issuers=[self.world.sub]), ([ALWAYS], []))

    def test_an_issuer_handed_in(self):
        w = self.world
        file = w.file(between=[])
        self.assertEqual(self.got(w.anna, file, between=[w.sub]), ([ALWAYS], []))
        self.assertEqual(self.got(w.anna, file)[0], [])

    def test_what_keys_are_for(self):
        """OpenSSL with the purpose `any` looks at neither."""
        for what, good, extension in [
            ("no use", True, None),
            ("signatures", True, h.usage("digital_signature")),
            ("non-repudiation", True, h.usage("content_commitment")),
            ("key agreement", False, h.usage("key_agreement")),
            ("servers", False, (x509.ExtendedKeyUsage([x509.ExtendedKeyUsageOID.SERVER_AUTH]), False)),
            ("mail", True, (x509.ExtendedKeyUsage([x509.ExtendedKeyUsageOID.EMAIL_PROTECTION]), True)),
            ("documents", True, (x509.ExtendedKeyUsage([x509.ObjectIdentifier("1.3.6.1.5.5.7.3.36")]), True)),
            ("time-stamps", False, h.STAMPING),
        ]:
            with self.subTest(what):
                who = h.issue("A", self.world.sub, [extension] if extension else [])
                periods, told = self.got(who, self.world.file(who))
                self.assertEqual((bool(periods), len(told)), (good, 0 if good else 1))

    def test_moments(self):
        """A signer with stamps of two times, one before its certificate; several signers; and a user's own period."""
        w = self.world
        who = h.issue("A", w.sub, first="2024-01-01")
        periods, told = self.got(who, w.file(who, times=("20230501100000Z", AT)))
        self.assertEqual((periods, len(told)), ([("20240101000000Z", ALWAYS[1])], 1))
        file = h.together([(who, [(w.clock, AT)]), (w.anna, [(w.clock, AT)])], [who.octets, w.anna.octets, w.sub.octets])
        entries, told = w.made([file])
        self.assertEqual(([role for role, *_ in entries], told), (["tsa", "signer", "signer"], []))
        self.assertEqual(w.checked(file), "accepted " + AT)
        from cmsproof_tools.periods import Period

        period = Period("20240501100000Z", "20240501100000Z", "so it is")
        self.assertEqual(self.got(w.anna, w.file(), most=period)[0], [(AT, AT)])
        self.assertEqual(self.got(w.anna, w.file(), most=Period(last="20240501095959Z"))[0], [])

    def test_the_last_second(self):
        """A certificate is valid in its last second (RFC 5280 4.1.2.5), but OpenSSL says that it has expired."""
        who = h.issue("A", self.world.sub, last=CLOCK_AT)
        self.assertIn("certificate has expired", self.got(who, self.world.file(who))[1][0])
        file = self.world.file(who, times=("20240501095959Z",))
        self.assertEqual(self.got(who, file)[0], [(ALWAYS[0], AT)])

    def test_many_files(self):
        """Two hundred files of thirty signers: an entry for each signer."""
        w = self.world
        people = [h.issue(f"Person {number}", w.sub) for number in range(30)]
        entries, told = w.made([w.file(people[number % 30]) for number in range(200)])
        self.assertEqual((len(entries), told), (31, []))
        self.assertEqual({octets for role, *_, octets in entries if role == "signer"}, {who.octets for who in people})


class Authorities(WithWorld):
    """The first step: whose stamps are believed."""

    def stamped(self, clock, bag=None, at=AT):
        """A file of Anna with a stamp of another authority."""
        w = self.world
        return h.signed(w.anna, [(clock, at, [clock.octets] if bag is None else bag)], [w.anna.octets, w.sub.octets])

    def test_authorities(self):
        w = self.world
        below_clocks = h.issue("Clocks below", w.clocks, h.authority())
        for what, clock, bag, expected in [
            ("below the root", w.clock, None, ""),
            ("with an issuer between", (c := h.issue("C", below_clocks, [h.STAMPING])), [c.octets, below_clocks.octets], ""),
            ("of an issuer of signers", h.issue("C", w.sub, [h.STAMPING]), None, "no path for CN=C"),
            ("that issued itself", h.issue("Clock", None, [h.STAMPING]), None, "no path for CN=Clock"),
            ("that had expired", h.issue("C", w.clocks, [h.STAMPING], last="2024-01-01"), None, ""),
            ("for other things too", h.issue("C", w.clocks), None, ""),
            ("without its certificate", h.issue("C", w.clocks, [h.STAMPING]), [], ""),
        ]:
            with self.subTest(what):
                entries, told = w.made([self.stamped(clock, bag)])
                good = what in ("below the root", "with an issuer between")
                self.assertEqual([role for role, *_ in entries], ["tsa", "signer"] if good else [])
                self.assertIn("" if good else "no stamp passes under a listed authority", "\n".join(told))
                self.assertIn(expected, "\n".join(told))

    def test_an_authority_that_is_listed(self):
        """It needs no path; its period counts."""
        from cmsproof_tools.certificates import Certificate
        from cmsproof_tools.issuers import Entry
        from cmsproof_tools.periods import Period

        w, clock = self.world, h.issue("Own clock", None, [h.STAMPING])
        for last, count in (("-", 2), (AT, 2), ("20240501095959Z", 1)):
            given = [Entry("tsa", Period("-", last), Certificate(clock.octets), "own")]
            entries, _ = w.made([self.stamped(clock, [])], given=given)
            self.assertEqual(len(entries), count, last)

    def test_a_certificate_in_another_file(self):
        """The first step goes over all files before the second."""
        w = self.world
        entries, told = w.made([self.stamped(w.clock, []), self.stamped(w.clock)])
        self.assertEqual(([role for role, *_ in entries], told), (["tsa", "signer"], []))


class Hostile(WithWorld):
    """Files of somebody who wants to be listed, or to keep the tool busy. Mallory has a certificate of another root."""

    @classmethod
    def setUpClass(cls):
        super().setUpClass()
        cls.evil = h.root("Root")
        cls.evil_sub = h.issue("Sub", cls.evil, h.authority(0))
        cls.mallory = h.issue("Mallory", cls.evil_sub)

    def assert_listed(self, expected, *words, **rest):
        """Asserts whose certificates are listed for signers."""
        entries, told = self.world.made(*words, **rest)
        found = [octets for role, *_, octets in entries if role == "signer"]
        self.assertEqual(found, [who.octets for who in expected])
        return told

    def bag(self, *people):
        """Octets of certificates."""
        return [who.octets for who in people]

    def test_certificates_that_sign_nothing(self):
        w = self.world
        good = h.issue("Bob", w.sub)
        stamps = [(w.clock, AT)]
        self.assert_listed([w.anna], [h.signed(w.anna, stamps, self.bag(w.anna, w.sub, good))])
        twin = h.issue("Twin", w.sub, key=w.anna.key)
        self.assert_listed([w.anna], [h.signed(w.anna, stamps, self.bag(twin, w.anna, w.sub))])

    def test_names_of_others(self):
        """Mallory's key, with the name of Anna's certificate, or with issuers that have the names of the right ones."""
        w = self.world
        stamps, bag = [(w.clock, AT)], self.bag(w.anna, w.sub, self.mallory, self.evil_sub, self.evil)
        self.assert_listed([], [h.signed(self.mallory, stamps, bag)])
        self.assert_listed([], [h.signed(self.mallory, stamps, bag, sid=h.sid_of(w.anna))])
        same = h.issue("Anna", self.evil_sub, serial=w.anna.certificate.serial_number)
        self.assertEqual(h.sid_of(same), h.sid_of(w.anna))
        self.assert_listed([], [h.signed(same, stamps, self.bag(same, w.anna, w.sub, self.evil_sub))])
        self.assert_listed([w.anna], [h.signed(w.anna, stamps, self.bag(same, w.anna, w.sub, self.evil_sub))])

    def test_one_key_identifier(self):
        w = self.world
        identifier = (x509.SubjectKeyIdentifier(b"12345678901234567890"), False)
        anna, bob = (h.issue(name, w.sub, [identifier]) for name in ("A", "B"))
        sid = b"\x80\x1412345678901234567890"
        file = h.signed(anna, [(w.clock, AT)], self.bag(bob, anna, w.sub), sid=sid)
        self.assert_listed([anna], [file])
        self.assertEqual(w.checked(file), "accepted " + AT)

    def test_issuers_that_are_none(self):
        """What a signer issued, an issuer that signs itself, and a circle."""
        w = self.world
        stamps = [(w.clock, AT)]
        child = h.issue("Child", w.anna)
        told = self.assert_listed([], [h.signed(child, stamps, self.bag(child, w.anna, w.sub))])
        self.assertIn("CN=Anna,O=cmsproof: invalid CA certificate", told[0])
        self.assert_listed([], [h.signed(w.root, stamps, self.bag(w.root))])
        first = h.issue("First", None, h.authority())
        second = h.issue("Second", first, h.authority())
        first = h.issue("First", second, h.authority(), key=first.key)
        lost = h.issue("Lost", second)
        self.assert_listed([], [h.signed(lost, stamps, self.bag(lost, first, second))])
        # (the certificate of a signer, named as an issuer)
        for who in (w.anna, h.issue("Own")):
            status, out, err = run_tool("cmsproof-trust", "--issuer", w.put("issuer", who), "--from-files", w.put("file", b""))
            self.assertEqual((status, out), (1, b""))
            self.assertIn("is no issuer (CA is not true", err)

    def test_stamps_that_do_not_pass(self):
        w = self.world
        signer = h.signed_by(w.anna, [h.type_attribute(h.DATA), h.digest_attribute(h.sha(b"letter"))])
        bag = b"".join(sorted(self.bag(w.anna, w.sub)))
        evil_clock = h.issue("Clock", h.root("Clocks"), [h.STAMPING])
        other, spoiled = h.token(w.clock, b"other", AT), bytearray(h.token(w.clock, signer.signature, AT))
        spoiled[-1] ^= 1
        forged = h.token(evil_clock, signer.signature, AT, [w.clock.octets])
        for token in (other, bytes(spoiled), forged, h.token(evil_clock, signer.signature, AT), b"\x30\x00", b"\x05\x00"):
            file = h.signed_data([signer.stamped(h.stamp_attribute(token))], b"letter", h.DATA, bag)
            told = self.assert_listed([], [file])
            self.assertIn("no stamp passes under a listed authority", "".join(told))
            # (also where the authority is known from another file)
            self.assert_listed([w.anna], [file, w.file()])
            self.assertIn("refused signer 1", w.checked(file))

    def test_files_that_are_none(self):
        w = self.world
        good = w.file()
        for octets in (
            b"",
            b"\x30",
            b"\x30\x80",
            b"no file",
            good[:-1],
            good + b"\0",
            w.anna.octets,
            bytes(1000),
            b"\x30\x84" + b"\xff" * 9,
        ):
            self.assertEqual(w.made([octets])[0], [])
        garbage = h.signed(w.anna, [(w.clock, AT)], [w.anna.octets, w.sub.octets, b"\x30\x00", b"\x30\x03\x02\x01\x01"])
        self.assert_listed([w.anna], [garbage])

    def test_a_name_makes_no_line(self):
        w = self.world
        who = h.issue(f"x\nsigner - - {w.anna.octets.hex()[:40]}\n: accepted", w.sub)
        self.assert_listed([who], [w.file(who)])
        self.assertNotIn(b"\nx", w.text)

    def clones(self, of, count):
        """Certificates that differ from one in their serial number, whose signatures are good for nothing."""
        number = of.certificate.serial_number.to_bytes(20, "big")
        at = of.octets.index(number[-19:]) + 10
        return [of.octets[:at] + number.to_bytes(4, "big") + of.octets[at + 4 :] for number in range(1, count)]

    def test_ten_thousand_certificates(self):
        """Signers, or issuers with the right name; one more is not looked at."""
        w = self.world
        serial = int.from_bytes(b"\x11" * 20, "big")
        who, issuer = h.issue("Who", w.sub, serial=serial), h.issue("Sub", w.root, h.authority(0), serial=serial)
        lone = h.issue("Lone", issuer)
        began = processor_seconds()
        self.assert_listed(
            [who],
            [h.signed(who, [(w.clock, AT)], [*self.clones(who, 9990), who.octets, w.sub.octets])],
        )
        told = self.assert_listed([], [h.signed(lone, [(w.clock, AT)], [*self.clones(issuer, 9990), lone.octets])])
        self.assertIn("certificate signature failure", told[0])
        told = self.assert_listed([], [h.signed(who, [(w.clock, AT)], [*self.clones(who, 10002), w.sub.octets])])
        self.assertIn("more than 10000 certificates are in it", told[0])
        self.assertLess(processor_seconds() - began, 60)

    def test_many_with_one_name(self):
        w = self.world
        identifier = b"12345678901234567890"
        who = h.issue(
            "Who", w.sub, [(x509.SubjectKeyIdentifier(identifier), False)], serial=int.from_bytes(b"\x11" * 20, "big")
        )
        bag = [who.octets, w.sub.octets, *self.clones(who, 21)]
        told = self.assert_listed([], [h.signed(who, [(w.clock, AT)], bag, sid=b"\x80\x14" + identifier)])
        self.assertIn("names more than 20 certificates", told[0])


class Words(WithWorld):
    """The tool as a user runs it."""

    def test_words(self):
        w = self.world
        root, clocks, file = w.put("root.pem", w.root), w.put("clocks.pem", w.clocks), w.put("file.p7s", w.file())
        names = w.put("names", file.encode() + b"\n")
        for files in (["--from-files", file], ["--files-from", names]):
            status, out, err = run_tool("cmsproof-trust", "--issuer", root, "--tsa-issuer", clocks, *files)
            self.assertEqual((status, err, out.count(b"\nsigner "), out.count(b"\ntsa ")), (0, "", 1, 1))
        given = ["--tsa", w.put("clock", w.clock), "--until", AT]
        status, out, err = run_tool("cmsproof-trust", "--issuer", root, *given, "--from-files", file, cwd=w.folder)
        self.assertEqual((status, err), (0, ""))
        self.assertIn(f"\ntsa - {AT} ".encode(), out)
        self.assertIn(f"\nsigner 20200101000000Z {AT} ".encode(), out)
        missing = str(w.folder / "missing")
        status, out, err = run_tool("cmsproof-trust", "--issuer", root, "--tsa-issuer", clocks, "--from-files", missing, file)
        self.assertEqual((status, err, out.count(b"\nsigner ")), (4, f"cmsproof-trust: failed open {missing}: No such file or directory\n", 1))

    def test_archive(self):
        """The check under the list that is made says what the check under the list that is written says, and what the commands
        say."""
        w, other = self.world, h.issue("Other", None)
        files = [
            w.put(name, octets) for name, octets in (("good.p7s", w.file()), ("bad.p7s", w.file(other)), ("none.p7s", b"x"))
        ]
        issuers = ["--issuer", w.put("root.pem", w.root), "--tsa-issuer", w.put("clocks.pem", w.clocks)]
        used = w.folder / "used.txt"
        status, out, err = run_tool("cmsproof-archive", *issuers, "--write-trust", used, *files)
        self.assertEqual((status, out), run_tool("cmsproof-archive", "--trust", used, *files)[:2])
        self.assertEqual(out.decode().splitlines()[0], f"{files[0]}: accepted {AT}")
        self.assertIn(": refused signer 1 S7 UnknownSigner", out.decode().splitlines()[1])
        self.assertIn("no path for CN=Other", err)
        w.text = used.read_bytes()
        self.assertEqual(w.checked(w.file()), "accepted " + AT)
        # (a list beside the issuers, and names on standard input)
        clock = w.put("clock.txt", f"cmsproof trust 2\ntsa - - {w.clock.octets.hex()}\n".encode())
        words = ["--trust", clock, *issuers[:2], "--json", "--write-trust", used, "-"]
        status, out, err = run_tool("cmsproof-archive", *words, said=files[0].encode())
        self.assertEqual((status, err, out.count(b'"accepted"')), (0, "", 1))
        self.assertIn(hashlib.sha256(used.read_bytes()).hexdigest(), out.decode().splitlines()[-1])
        see = " (see cmsproof-archive --help)\n"
        for words, line in [
            (files, "the following arguments are required: --trust"),
            (["--trust", used, "--write-trust", used, *files], "no issuer is named: --issuer FILE or --tsa-issuer FILE"),
        ]:
            self.assertEqual(run_tool("cmsproof-archive", *words), (3, b"", f"cmsproof-archive: {line}{see}"))
        # (a file's name makes no complaint another one)
        named = w.put("failed x", w.file(other))
        err = run_tool("cmsproof-archive", *issuers, "failed x", cwd=w.folder)[2]
        self.assertTrue(named.endswith("failed x") and "no path for CN=Other" in err, err)
        full = run_tool("cmsproof-archive", *issuers, "--write-trust", "/dev/full", files[0])
        self.assertEqual((full[0], full[1]), (4, b""))

    def test_ber_inside(self):
        """A file whose beginning is in DER and its content in BER: the list has its signer, as the check reads the file."""
        from cmsproof_tools import der

        w = self.world
        kind, signed = der.elements(der.elements(w.file())[0].contents)
        parts = [part.whole for part in der.elements(der.elements(signed.contents)[0].contents)]
        held = der.elements(parts[3])[0].contents
        issuers = ["--issuer", w.put("root.pem", w.root), "--tsa-issuer", w.put("clocks.pem", w.clocks)]
        for at, octets in [
            (2, element(0x30, der.elements(der.elements(parts[2])[0].contents)[0].whole, b"\xa0\x80\x04\x06letter\0\0")),
            (3, b"\xa0\x80" + held + b"\0\0"),
        ]:
            inside = element(0x30, *parts[:at], octets, *parts[at + 1 :])
            file = w.put("inside.p7s", element(0x30, kind.whole, element(0xA0, inside)))
            said = run_tool("cmsproof-archive", *issuers, file)
            self.assertEqual(said, (0, f"{file}: accepted {AT}\n".encode(), ""))

    def test_wrong_words(self):
        w = self.world
        root = w.put("root.pem", w.root)
        for words, line in [
            (["--issuer", root], "no signed file is named: --from-files FILE or --files-from FILE"),
            (["--from-files", root], "no issuer is named: --issuer FILE or --tsa-issuer FILE"),
            (["--crl", root, "--signer", root], "no issuer is named: --issuer FILE or --tsa-issuer FILE"),
        ]:
            said = (3, b"", f"cmsproof-trust: {line} (see cmsproof-trust --help)\n")
            self.assertEqual(run_tool("cmsproof-trust", *words), said)

    def test_openssl_gets_no_name_of_a_user(self):
        """Names like options, and a file beside."""
        w, folder = self.world, folder_of(self)
        for name, octets in (("-CAfile", w.root), ("-trusted", w.clocks), ("issuer.pem", w.anna)):
            (folder / name).write_bytes(octets.octets)
        (folder / "-x.p7s").write_bytes(w.file())
        words = ["--issuer=-CAfile", "--tsa-issuer=-trusted", "--from-files=-x.p7s"]
        status, out, err = run_tool("cmsproof-trust", *words, cwd=folder)
        self.assertEqual((status, err, out.count(b"\nsigner ")), (0, "", 1))

    def test_openssl_is_killed(self):
        """Nobody gets an entry, and the line says why, whether it judges a path or a list."""
        w, folder = self.world, folder_of(self)
        words = ["--issuer", w.put("root.pem", w.root), "--tsa-issuer", w.put("clocks.pem", w.clocks)]
        lists = [w.put(f"{by.certificate.serial_number}.crl", h.revocation_list(by)) for by in (w.root, w.sub, w.clocks)]
        # (without a path there is no list at all, and with one an entry for no time)
        for when, ended in (("verify*", 1), ("*crl_check*", 0)):
            (folder / "openssl").write_text(
                f'#!/bin/sh\ncase "$*" in {when}) kill -9 $$;; esac\nexec {shutil.which("openssl")} "$@"\n'
            )
            (folder / "openssl").chmod(0o755)
            environment = {**os.environ, "PATH": f"{folder}:{os.environ['PATH']}"}
            more = ["--crl", *lists, "--from-files", w.put("file.p7s", w.file())]
            status, out, err = run_tool("cmsproof-trust", *words, *more, env=environment)
            periods = re.findall(rb"\n(?:signer|tsa) (\S+) (\S+) ", out)
            self.assertEqual((status, [period for period in periods if period[0] != period[1]]), (ended, []))
            self.assertIn(f"no path for CN=Clock,O=cmsproof, tsa, at {AT}: OpenSSL was ended by signal 9", err)

    def test_openssl_is_missing(self):
        w = self.world
        words = ["--issuer", w.put("root.pem", w.root), "--from-files", w.put("file.p7s", w.file())]
        status, out, err = run_tool("cmsproof-trust", *words, env={"PATH": "/nowhere"})
        self.assertEqual((status, out, len(err.splitlines())), (4, b"", 1), err)
        self.assertIn("failed run openssl", err)


if __name__ == "__main__":
    unittest.main()
