"""Tests of national trusted lists: services, periods, signatures by xmlsec1, and lists of somebody who wants to be in them."""
import base64
import hashlib
import re
import shutil
import subprocess
import unittest
from xml.etree import ElementTree

from issuing_world import ALWAYS, AT, h, pem
from making import run_tool
from test_issuers import WithWorld

from cmsproof_tools.texts import trust_entries
from cryptography.hazmat.primitives.asymmetric import ec, rsa

TYPES, STATUS = "http://uri.etsi.org/TrstSvc/Svctype/", "http://uri.etsi.org/TrstSvc/TrustedList/Svcstatus/"
NEXT = "20240901000000Z"
EXCLUSIVE = "http://www.w3.org/2001/10/xml-exc-c14n#"
FOR_WEB = (
    '<ServiceInformationExtensions><Extension Critical="true"><AdditionalServiceInformation><URI xml:lang="en">'
    "http://uri.etsi.org/TrstSvc/TrustedList/SvcInfoExt/ForWebSiteAuthentication</URI></AdditionalServiceInformation></Extension>"
    "</ServiceInformationExtensions>"
)
SIGNATURE = """<ds:Signature xmlns:ds="http://www.w3.org/2000/09/xmldsig#"><ds:SignedInfo>
<ds:CanonicalizationMethod Algorithm="http://www.w3.org/2001/10/xml-exc-c14n#"/>
<ds:SignatureMethod Algorithm="http://www.w3.org/2001/04/xmldsig-more#rsa-sha256"/>
<ds:Reference URI="{uri}"><ds:Transforms>{transforms}</ds:Transforms>
<ds:DigestMethod Algorithm="http://www.w3.org/2001/04/xmlenc#sha256"/><ds:DigestValue/></ds:Reference></ds:SignedInfo>
<ds:SignatureValue/><ds:KeyInfo>{info}</ds:KeyInfo>{more}</ds:Signature>"""
MORE, SHA_1 = "http://www.w3.org/2001/04/xmldsig-more#", "http://www.w3.org/2000/09/xmldsig#"
SHA_256 = MORE + "rsa-sha256", "http://www.w3.org/2001/04/xmlenc#sha256"
ENVELOPED = "".join(
    f'<ds:Transform Algorithm="{name}"/>' for name in ("http://www.w3.org/2000/09/xmldsig#enveloped-signature", EXCLUSIVE)
)


NAME = '<Name xml:lang="en">Example</Name>'
URI = '<URI xml:lang="en">http://example.org/</URI>'
ADDRESS = (
    '<PostalAddresses><PostalAddress xml:lang="en"><StreetAddress>1 Way</StreetAddress><Locality>Town</Locality>'
    f"<CountryName>XX</CountryName></PostalAddress></PostalAddresses><ElectronicAddress>{URI}</ElectronicAddress>"
)
# what an element has, in this order (TS 119 612 V2.1.1, 5.2 to 5.6, as far as it is known for sure: the schema is in no package of
# Debian); ? where it may be absent, * where it may be there several times
FORMS = {
    "TrustServiceStatusList": "SchemeInformation TrustServiceProviderList? Signature?",
    "SchemeInformation": "TSLVersionIdentifier TSLSequenceNumber TSLType SchemeOperatorName SchemeOperatorAddress SchemeName "
    "SchemeInformationURI StatusDeterminationApproach SchemeTypeCommunityRules? SchemeTerritory? PolicyOrLegalNotice? "
    "HistoricalInformationPeriod PointersToOtherTSL? ListIssueDateTime NextUpdate DistributionPoints? SchemeExtensions?",
    "NextUpdate": "dateTime?",
    "TrustServiceProviderList": "TrustServiceProvider*",
    "TrustServiceProvider": "TSPInformation TSPServices",
    "TSPInformation": "TSPName TSPTradeName? TSPAddress TSPInformationURI TSPInformationExtensions?",
    "TSPServices": "TSPService*",
    "TSPService": "ServiceInformation ServiceHistory?",
    "ServiceInformation": "ServiceTypeIdentifier ServiceName ServiceDigitalIdentity ServiceStatus StatusStartingTime "
    "SchemeServiceDefinitionURI? ServiceSupplyPoints? TSPServiceDefinitionURI? ServiceInformationExtensions?",
    "ServiceHistory": "ServiceHistoryInstance*",
    "ServiceHistoryInstance": "ServiceTypeIdentifier ServiceName ServiceDigitalIdentity ServiceStatus StatusStartingTime "
    "ServiceInformationExtensions?",
    "ServiceDigitalIdentity": "DigitalId*",
    "PostalAddress": "StreetAddress Locality StateOrProvince? PostalCode? CountryName",
}


def form_faults(octets):
    """The elements of a list that do not have what they must have."""
    for found in ElementTree.fromstring(octets.encode() if isinstance(octets, str) else octets).iter():
        form = FORMS.get(found.tag.rpartition("}")[2])
        names = "".join(child.tag.rpartition("}")[2] + " " for child in found)
        pattern = re.sub(r"(\w+)([?*]?) ?", r"(?:\1 )\2", form or "")
        if form and not re.fullmatch(pattern, names):
            yield found.tag


def instance(kind, status, since, who, more="", name="ServiceInformation"):
    """What a list says of a service, now or before."""
    octets = base64.b64encode(who.octets).decode()
    identity = (
        f"<ServiceDigitalIdentity><DigitalId><X509Certificate>{octets}</X509Certificate></DigitalId></ServiceDigitalIdentity>"
    )
    status = status if status.startswith("http") else STATUS + status
    return (
        f"<{name}><ServiceTypeIdentifier>{TYPES}{kind}</ServiceTypeIdentifier><ServiceName>{NAME}</ServiceName>{identity}"
        f"<ServiceStatus>{status}</ServiceStatus>"
        f"<StatusStartingTime>{since}T00:00:00Z</StatusStartingTime>{more}</{name}>"
    )


def service(kind, who, *states, more=""):
    """A service of a kind, with its states, the newest first."""
    (status, since), *before = states or [("granted", "2016-07-01")]
    rows = "".join(instance(kind, *state, who, name="ServiceHistoryInstance") for state in before)
    history = f"<ServiceHistory>{rows}</ServiceHistory>" if rows else ""
    return f"<TSPService>{instance(kind, status, since, who, more)}{history}</TSPService>"


def document(*services, version="5", signature="", following="2024-09-01T00:00:00Z", before="", attributes=""):
    """A trusted list."""
    update = f"<NextUpdate><dateTime>{following}</dateTime></NextUpdate>" if following else "<NextUpdate/>"
    return (
        f'<?xml version="1.0" encoding="UTF-8"?>{before}<TrustServiceStatusList xmlns="http://uri.etsi.org/02231/v2#" '
        f'TSLTag="http://uri.etsi.org/19612/TSLTag"{attributes}><SchemeInformation><TSLVersionIdentifier>{version}</TSLVersionIdentifier>'
        "<TSLSequenceNumber>1</TSLSequenceNumber><TSLType>http://uri.etsi.org/TrstSvc/TrustedList/TSLType/EUgeneric</TSLType>"
        f"<SchemeOperatorName>{NAME}</SchemeOperatorName><SchemeOperatorAddress>{ADDRESS}</SchemeOperatorAddress>"
        f"<SchemeName>{NAME}</SchemeName><SchemeInformationURI>{URI}</SchemeInformationURI><StatusDeterminationApproach>"
        "http://uri.etsi.org/TrstSvc/TrustedList/StatusDetn/EUappropriate</StatusDeterminationApproach>"
        "<SchemeTerritory>XX</SchemeTerritory><HistoricalInformationPeriod>65535</HistoricalInformationPeriod>"
        f"<ListIssueDateTime>2024-04-01T00:00:00Z</ListIssueDateTime>{update}</SchemeInformation><TrustServiceProviderList>"
        f"<TrustServiceProvider><TSPInformation><TSPName>{NAME}</TSPName><TSPAddress>{ADDRESS}</TSPAddress><TSPInformationURI>{URI}"
        f"</TSPInformationURI></TSPInformation><TSPServices>{''.join(services)}</TSPServices></TrustServiceProvider></TrustServiceProviderList>{signature}"
        "</TrustServiceStatusList>"
    )


class Lists(WithWorld):
    """Lists with the issuer of Anna and with authorities."""

    @classmethod
    def setUpClass(cls):
        super().setUpClass()
        cls.operator = h.issue("Operator", key=rsa.generate_private_key(65537, 2048))
        cls.mallory = h.issue("Operator", key=rsa.generate_private_key(65537, 2048))

    def signed(self, *services, by=None, uri="", transforms=ENVELOPED, info="", more="", method=SHA_256, **rest):
        """A list with a signature by xmlsec1."""
        key = (by or self.operator).key.private_bytes(
            h.serialization.Encoding.PEM, h.serialization.PrivateFormat.PKCS8, h.serialization.NoEncryption()
        )
        signature = SIGNATURE.format(uri=uri, transforms=transforms, info=info, more=more)
        for before, after in zip(SHA_256, method):
            signature = signature.replace(f'"{before}"', f'"{after}"')
        path = self.world.put("template.xml", document(*services, signature=signature, **rest).encode())
        certificate = self.world.put("signing.pem", pem(by or self.operator))
        words = [
            "xmlsec1",
            "--sign",
            "--privkey-pem",
            f"{self.world.put('key.pem', key)},{certificate}",
            "--output",
            path + ".out",
        ]
        node = ["--id-attr:Id", "http://uri.etsi.org/02231/v2#:SchemeInformation"]
        subprocess.run([*words, *node, path], capture_output=True, check=True)
        return (self.world.folder / "template.xml.out").read_bytes()

    def said(self, octets, *words, operator=None, files=None):
        """What cmsproof-trust says: its status, the entries as role and period, and its lines. The roles of entries for no time, which trust
        nobody, are in `barred`."""
        w = self.world
        words = ["--trusted-list", w.put("list.xml", octets), *words]
        words += ["--scheme-operator", w.put("operator.pem", pem(operator))] if operator else []
        status, out, err = run_tool("cmsproof-trust", *words, "--from-files", *(files or [w.put("file.p7s", w.file())]))
        w.text = out
        lines = [line.split(" ") for line in out.decode().split("\n")[1:] if line and not line.startswith("#")]
        entries = [tuple(line[:3]) for line in lines]
        no_time = [row for row in entries if row[1] == row[2] and row[1].endswith(".999999999Z")]
        self.barred = [role for role, *_ in no_time]
        return status, [row for row in entries if row not in no_time], err

    def both(self):
        """The services of Anna's issuer, which is no root, and of Clock."""
        return service("CA/QC", self.world.sub), service("TSA/QTST", self.world.clock)

    def test_services(self):
        """Authorities and issuers, each in its periods; a warning where nobody verified."""
        w, until, ca = self.world, (ALWAYS[0], NEXT), service("CA/QC", self.world.sub)
        clock, short = ("tsa", ALWAYS[0], NEXT), h.issue("Short", w.clocks, [h.STAMPING], last="2024-06-30")
        for what, services, expected in [
            ("both", self.both(), [clock, ("signer", *until)]),
            ("the issuer of an authority", (ca, service("TSA/QTST", w.clocks)), [("tsa", *until), ("signer", *until)]),
            (
                "a withdrawn issuer",
                (service("CA/QC", w.sub, ("withdrawn", "2024-04-01"), ("granted", "2016-07-01")), self.both()[1]),
                [clock],
            ),
            (
                "one that was withdrawn later",
                (service("CA/QC", w.sub, ("withdrawn", "2024-06-01"), ("granted", "2021-07-01")), self.both()[1]),
                [clock, ("signer", "20210701000000Z", "20240531235959.999999999Z")],
            ),
            ("one that is trusted later", (service("CA/QC", w.sub, ("granted", "2024-06-01")), self.both()[1]), [clock]),
            (
                "withdrawn at the moment when it was granted",
                (service("CA/QC", w.sub, ("withdrawn", "2021-07-01"), ("granted", "2021-07-01")), self.both()[1]),
                [clock],
            ),
            (
                "granted before, but later than it was withdrawn",
                (service("CA/QC", w.sub, ("withdrawn", "2021-07-01"), ("granted", "2022-07-01")), self.both()[1]),
                [clock],
            ),
            (
                "an authority whose certificate expires",
                (ca, service("TSA/QTST", short), self.both()[1]),
                [("tsa", ALWAYS[0], "20240630000000Z"), clock, ("signer", *until)],
            ),
            ("of another kind", (service("CA/PKC", w.sub), self.both()[1]), [clock]),
            ("for web sites", (service("CA/QC", w.sub, more=FOR_WEB), self.both()[1]), [clock]),
            (
                "of the older rules",
                (
                    service(
                        "CA/QC",
                        w.sub,
                        (
                            "http://uri.etsi.org/TrstSvc/Svcstatus/eSigDir-1999-93-EC-TrustedList/Svcstatus/undersupervision",
                            "2012-01-01",
                        ),
                    ),
                    self.both()[1],
                ),
                [clock, ("signer", *until)],
            ),
            ("an unknown status", (service("CA/QC", w.sub, ("perhaps", "2012-01-01")), self.both()[1]), [clock]),
        ]:
            with self.subTest(what):
                status, entries, err = self.said(document(*services).encode())
                self.assertEqual((status, entries), (0, expected), err)
                self.assertIn("nobody verified its signature", err)
                self.assertIn(b"NOBODY VERIFIED ITS SIGNATURE", w.text)
                self.assertEqual(list(form_faults(document(*services))), [])
        self.assertEqual(self.said(document(*self.both(), following="").encode())[1][1][1:], ALWAYS)
        lacking = document(*self.both()).replace("<HistoricalInformationPeriod>65535</HistoricalInformationPeriod>", "")
        self.assertEqual(list(form_faults(lacking)), ["{http://uri.etsi.org/02231/v2#}SchemeInformation"])
        self.said(document(*self.both()).encode())
        self.assertEqual([(one.last, one.serves) for one in trust_entries(w.text)], [(NEXT, ALWAYS[1])] * 2)
        last = "20240601000000Z"
        _, entries, _ = self.said(document(*self.both()).encode(), "--until", last)
        self.assertEqual(entries, [("tsa", ALWAYS[0], last), ("signer", ALWAYS[0], last)])

    @unittest.skipUnless(shutil.which("xmlsec1"), "xmlsec1 is missing")
    def test_signatures(self):
        w, services = self.world, self.both()
        good = self.signed(*services)
        status, entries, err = self.said(good, operator=self.operator)
        self.assertEqual((status, len(entries), err, list(form_faults(good))), (0, 2, "", []))
        digest = hashlib.sha256(self.operator.octets).digest().hex(":").upper()
        self.assertIn(f"signed under sha256 {digest}".encode(), w.text)
        self.assertEqual(w.checked(w.file()), "accepted " + AT)
        value = "<ds:KeyValue/>"
        data = "<ds:X509Data><ds:X509Certificate/></ds:X509Data>"
        doctype = '<!DOCTYPE TrustServiceStatusList [<!ENTITY x "y">]>'
        wrapped = good.replace(
            b"<TrustServiceProviderList>",
            b"<TrustServiceProviderList><TrustServiceProvider><TSPServices>"
            + service("CA/QC", w.root).encode()
            + b"</TSPServices></TrustServiceProvider>",
            1,
        )
        at, end = good.index(b"<ds:Signature "), good.index(b"</ds:Signature>") + 15
        # (what stands in the signature is not covered by it: the transform takes it out)
        for place in (b"</ds:Signature>", b"</ds:KeyInfo>"):
            inside = f"<ds:Object>{service('CA/QC', w.root)}</ds:Object>".encode() + place
            self.assertEqual(self.said(good.replace(place, inside), operator=self.operator), (status, entries, err))
            self.assertNotIn(b"Root", w.text)
        deep = good[:at].replace(b"</SchemeInformation>", good[at:end] + b"</SchemeInformation>") + good[end:]
        wrong = "it is no trusted list: "
        for what, octets, line in [
            ("by another key", self.signed(*services, by=self.mallory), "does not hold"),
            ("with that key", self.signed(*services, by=self.mallory, info=value), "does not hold"),
            ("with its certificate", self.signed(*services, by=self.mallory, info=data), "does not hold"),
            ("one date changed", good.replace(b"2016-07-01", b"2010-07-01"), "does not hold"),
            ("a service more", wrapped, "does not hold"),
            ("none", document(*services).encode(), "not exactly one signature at its top"),
            ("elsewhere", deep, "not exactly one signature at its top"),
            ("two", good[:end] + good[at:end] + good[end:], "not exactly one signature at its top"),
            ("of a file", good.replace(b'URI=""', b'URI="file:///etc/hostname"'), "fetches or changes"),
            ("of a part", good.replace(b'URI=""', b'URI="#part"'), "fetches or changes"),
            (
                "transformed",
                good.replace(EXCLUSIVE.encode(), b"http://www.w3.org/TR/1999/REC-xslt-19991116"),
                "fetches or changes",
            ),
            ("a DOCTYPE", good.replace(b"?>", b"?>" + doctype.encode(), 1), "DOCTYPE"),
        ]:
            with self.subTest(what):
                status, entries, err = self.said(octets, operator=self.operator)
                self.assertEqual((status, entries, len(err.splitlines())), (2, [], 1), err)
                self.assertIn(wrong, err)
                self.assertIn(line, err)

    @unittest.skipUnless(shutil.which("xmlsec1"), "xmlsec1 is missing")
    def test_algorithms(self):
        """`xmlsec1` takes each of them."""
        both, (signature, digest) = self.both(), SHA_256
        for method, good, with_sha1 in [
            ((MORE + "rsa-sha512", digest), True, True),
            ((signature, MORE + "sha384"), True, True),
            ((SHA_1 + "rsa-sha1", digest), False, True),
            ((signature, SHA_1 + "sha1"), False, True),
            ((MORE + "rsa-md5", digest), False, False),
            ((signature, MORE + "md5"), False, False),
            ((MORE + "rsa-ripemd160", digest), False, False),
        ]:
            octets = self.signed(*both, method=method)
            for words, taken in ([], good), (["--sha1"], with_sha1):
                status, entries, err = self.said(octets, *words, operator=self.operator)
                self.assertEqual((status, len(entries)), (0, 2) if taken else (2, 0), (method, err))
                self.assertIn("" if taken else "its signature is by an algorithm that is not good enough: http", err)

    def test_critical_extensions(self):
        """What has one that is not known is not believed (TS 119 612 5.3.17, 5.4.6, 5.5.9): the list, a provider, a service."""
        w, (ca, clock) = self.world, self.both()

        def extension(name, critical="true", kind="ServiceInformation"):
            return f'<{kind}Extensions><Extension Critical="{critical}">{name}</Extension></{kind}Extensions>'

        odd = '<Strange xmlns="http://example.org/"/>'
        known = '<Qualifications xmlns="http://uri.etsi.org/TrstSvc/SvcInfoExt/eSigDir-1999-93-EC-TrustedList/#"/>'
        # (one has two elements, and the next one none)
        several = f'{known * 2}</Extension><Extension Critical="true">urn:strange'
        rows = [(odd, "false", 1), (odd, "0", 1), (odd, "true", 0), (odd, "1", 0), (odd, "TRUE", 0), ("", "true", 0)]
        for name, critical, good in [*rows, (known, "true", 1), (several, "true", 0)]:
            octets = document(service("CA/QC", w.sub, more=extension(name, critical)), clock)
            self.assertEqual(list(form_faults(octets)), [])
            self.assertEqual(len(self.said(octets.encode())[1]), 1 + good, (name, critical))
        whole = document(ca, clock)
        provider = whole.replace("</TSPInformation>", extension(odd, kind="TSPInformation") + "</TSPInformation>")
        scheme = whole.replace("</SchemeInformation>", extension(odd, kind="Scheme") + "</SchemeInformation>")
        self.assertEqual((list(form_faults(provider)), list(form_faults(scheme))), ([], []))
        # (nobody gets an entry: no list is written)
        self.assertEqual(self.said(provider.encode())[:2], (1, []))
        status, entries, err = self.said(scheme.encode())
        self.assertEqual((status, entries), (2, []))
        self.assertIn("a critical extension of its scheme is not known", err)

    def test_a_path_by_who_is_withdrawn(self):
        """The status of each service counts (TS 119 612 5.5.4), under whichever certificate of it the path goes, and not that of who
        issued it alone."""
        w, key = self.world, ec.generate_private_key(ec.SECP256R1())
        root, clocks = service("CA/QC", w.root), service("TSA/QTST", w.clocks)
        sub, short = h.issue("Sub", w.root, h.authority(), key=key), h.issue(
            "Sub", w.root, h.authority(), key=key, last="2039-01-01"
        )
        files = [w.put("of_sub.p7s", w.file(h.issue("Anna", sub), [sub]))]
        good, since = [("granted", "2016-07-01")], ("granted", "2024-01-01")
        withdrawn, later = (("withdrawn", f"2024-{day}") for day in ("04-01", "06-01"))
        cut, until = ("20240101000000Z", "20240531235959.999999999Z"), (ALWAYS[0], NEXT)
        for listed, states, period in [
            (sub, good, until),
            (short, [withdrawn, *good], None),
            (sub, [later, since], cut),
            (sub, [("perhaps", "2016-07-01")], None),
        ]:
            status, entries, err = self.said(document(root, clocks, service("CA/QC", listed, *states)).encode(), files=files)
            self.assertEqual(entries, [("tsa", *until), *([("signer", *period)] if period else [])], err)
            _, entries, err = self.said(document(root, clocks, service("TSA/QTST", w.clock, *states)).encode())
            self.assertEqual([role for role, *_ in entries if role == "signer"], ["signer"] * bool(period), err)
            # (where no stamp passes, the signer is there for no time)
            self.assertEqual("signer" in self.barred, not period)
        # (a certificate that nobody can read, of a service that was never trusted, is on no path)
        odd = service("CA/QC", short, ("perhaps", "2016-07-01")).replace("<X509Certificate>", "<X509Certificate>MAAA")
        self.assertEqual(len(self.said(document(root, clocks, odd).encode(), files=files)[1]), 2)
        # (no other kind of service has a status for this, nor any for an issuer who is named)
        other = document(root, clocks, service("CA/PKC", sub, withdrawn, *good))
        self.assertEqual(len(self.said(other.encode(), files=files)[1]), 2)
        named = document(clocks, service("CA/QC", short, withdrawn, *good))
        self.assertEqual(len(self.said(named.encode(), "--issuer", w.put("root.pem", w.root), files=files)[1]), 2)

    def test_an_older_list(self):
        """It does not bring back who was withdrawn since."""
        w, old = self.world, document(*self.both()).encode()
        new = document(service("CA/QC", w.sub, ("withdrawn", "2024-04-15"), ("granted", "2016-07-01")), self.both()[1])
        older = w.put("older.xml", old)
        for octets in (new, document(*self.both(), following="2025-03-01T00:00:00Z")):
            status, entries, err = self.said(octets.encode(), "--trusted-list", older)
            self.assertEqual((status, entries), (1, []))
            self.assertIn("older.xml: it is of XX, as ", err)
        other = new.replace("<SchemeTerritory>XX", "<SchemeTerritory>YY")
        for octets in (old, other.encode()):
            self.assertEqual(self.said(octets, "--trusted-list", older)[0], 0)

    def test_lists_that_are_none(self):
        w, good = self.world, document(*self.both())
        for octets in (
            b"",
            b"<a/>",
            w.anna.octets,
            good[:-1].encode(),
            document(*self.both(), version="4").encode(),
            good.replace("2016-07-01T00:00:00Z", "yesterday").encode(),
            good.replace("2016-07-01T00:00:00Z", "2016-07-01T00:00:00.5Z").encode(),
            good.replace("MII", "!!!", 1).encode(),
            # (a text that goes on behind an element, and two of one kind)
            good.replace("Svcstatus/granted<", "Svcstatus/granted<b/>not<").encode(),
            good.replace("<ServiceStatus>", f"<ServiceStatus>{STATUS}granted</ServiceStatus><ServiceStatus>").encode(),
            good.replace("NextUpdate>", "Next>").encode(),
            good.replace("dateTime>", "date>").encode(),
            # (which of two states is the one of now nobody says)
            good.replace(
                "</ServiceInformation>", "</ServiceInformation>" + instance("CA/QC", "granted", "2010-01-01", w.root), 1
            ).encode(),
            good.encode("utf-16"),
            # (without a mark of its order, and with what is refused in UTF-8)
            good.replace('encoding="UTF-8"', "").replace("?>", '?><!DOCTYPE a [<!ENTITY b "c">]>', 1).encode("utf-16-le"),
            good.replace('encoding="UTF-8"', 'encoding="ISO-8859-1"').encode(),
            good.replace("?>", '?><!DOCTYPE a [<!ENTITY b "c">]>', 1).encode(),
        ):
            status, entries, err = self.said(octets)
            self.assertEqual((status, entries), (2, []), octets[:99])
            self.assertIn("it is no trusted list: ", err)
        status, out, err = run_tool("cmsproof-trust", "--scheme-operator", w.put("x", w.root), "--signer", w.put("y", w.anna))
        self.assertEqual((status, out), (3, b""))


if __name__ == "__main__":
    unittest.main()
