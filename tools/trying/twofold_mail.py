"""Small mails in which two programs may see two things: made at random, of what a signed mail is put together of (RFC 2045, 2046, 8551).

Heads, boundaries, ends of lines and encodings have forms that programs read otherwise, and other parts stand where some programs find them.
"""
from __future__ import annotations

import base64

KINDS = (
    b'multipart/signed; protocol="application/pkcs7-signature"; micalg=sha-256; boundary="%s"',
    b"multipart/signed; boundary=%s",
    b"Multipart/Signed; BOUNDARY=%s; micalg=sha-256",
    b"multipart/signed;\r\n boundary=%s",
    b"multipart/signed;\r\n\tboundary=\r\n\t%s",
    b'multipart/signed; boundary = "%s" ',
    b'multipart/signed; a="; boundary=other"; boundary="%s"',
    b'multipart/signed; boundary="%s"; boundary=other',
    b"multipart/signed; boundary=%s; boundary=other",
    b"multipart/signed; boundary*=us-ascii'en'%s",
    b'multipart/signed; boundary*0="%s"; boundary*1=""',
    b"multipart/signed; boundary*0*=''%s; boundary=other",
    b"multipart/signed; boundary=%s; boundary*=''other",
    b"multipart/signed (a); boundary=%s",
    b"multipart/signed; (boundary=other) boundary=%s",
    b"multipart/signed; boundary=%s (a)",
    b"multipart/signed; charset=utf-8; boundary=%s;",
    b"multipart/signed ; boundary=%s",
    b"multipart / signed; boundary=%s",
    b'"multipart/signed"; boundary=%s',
    b"multipart/signed, boundary=%s",
    b'multipart/signed; boundary=%s; name="a\\"; boundary=other"',
    b'multipart/signed; boundary=%s; x="=?utf-8?q?a?="',
    b"multipart/signed;; boundary=%s",
    b"multipart/signed; boundary=%s\r\n ; b",
    b"multipart/signed; boundary=%s, other",
    b"=?utf-8?q?multipart/signed?=; boundary=%s",
    b'multipart/signed; boundary="%s" other',
    b"multipart/signed; boundary='%s'",
    b"multipart/signed; boundary=%s\r\n\r",
)
BOUNDARIES = (
    b"cut",
    b"cut",
    b"cut",
    b"c'u(t",
    b"c_u+t.",
    b"c/ut",
    b"c=ut",
    b"c:ut",
    b"c ut",
    b"cut ",
    b"--",
    b"cut--",
    b"\xe9",
    b"c?ut",
    b"x" * 80,
)
# fields beside the kind, some of which are about the same
FIELDS = (
    b"Subject: a\r\n b\r\n",
    b"Subject: =?utf-8?q?a=0D=0A=0D=0Ab?=\r\n",
    b"Content-Type : text/plain\r\n",
    b"content-type: text/plain\r\n",
    b"Content-Type\r\n: text/plain\r\n",
    b"Content_Type: text/plain\r\n",
    b"Content-Type:\r\n",
    b" Content-Type: text/plain\r\n",
    b"\tContent-Type: text/plain\r\n",
    b"Content-Transfer-Encoding: 7bit\r\n",
    b"Content-Transfer-Encoding: base64\r\n",
    b"Content-Transfer-Encoding: quoted-printable\r\n",
    b"Content-Transfer-Encoding: 8bit (a)\r\n",
    b"Content-Transfer-Encoding: binary\r\nContent-Transfer-Encoding : base64\r\n",
    b"Content-Disposition: attachment; filename=a.txt\r\n",
    b"Content-Length: 10\r\n",
    b"Lines: 2\r\n",
    b"X: a\rContent-Type: text/plain\r\n",
    b"X: a\0\r\n",
    b"X: a\x0b\x0c\r\n",
    b"X: a\xc2\x85Content-Type: text/plain\r\n",
    b"X: a\xe2\x80\xa8Content-Type: text/plain\r\n",
    b"X: a\x1cContent-Type: text/plain\r\n",
    b"X a\r\n",
    b": a\r\n",
    b"-\r\n",
    b"From a\r\n",
    b">From a\r\n",
    b"MIME-Version: 2.0\r\n",
    b"\r\r\n",
    b" \r\n",
    b"\xef\xbb\xbfX: a\r\n",
    b"X: " + b"a" * 1100 + b"\r\n",
)
ENDS = (
    b"\r\n",
    b"\n",
    b"\r",
    b" \r\n",
    b"\t\r\n",
    b"\r\r\n",
    b"--\r\n",
    b" x\r\n",
    b"\x0c\r\n",
    b"\0\r\n",
    b"\x0b\r\n",
    b"\x85\r\n",
    b"",
)
PARTS = (
    b"Content-Type: text/plain\r\n\r\n%s\r\n",
    b"\r\n%s\r\n",
    b"Content-Type: text/html\r\n\r\n<p>%s\r\n",
    b"Content-Type: text/plain; charset=utf-7\r\nContent-Disposition: inline\r\n\r\n%s\r\n",
    b"Content-Type: multipart/mixed; boundary=in\r\n\r\n--in\r\n\r\n%s\r\n--in--\r\n",
    b"Content-Type: message/rfc822\r\n\r\nSubject: a\r\n\r\n%s\r\n",
    b"Content-Type: multipart/mixed; boundary=cut\r\n\r\n--cut\r\n\r\n%s\r\n--cut--\r\n",
    b"%s\r\n",
)
BOXES = (b"From a Mon Jan  1 00:00:00 2026\r\n", b"From a\n", b">From a Mon Jan  1 00:00:00 2026\r\n", b"From \r\n")
SIGNATURE = b"Content-Type: application/pkcs7-signature%s\r\nContent-Transfer-Encoding: base64\r\n%s\r\n%s"


class Making:
    """A mail that is made: `odd` says of what there is one usual form and others."""

    def __init__(self, chance, signed, words):
        self.chance, self.often, self.words = chance, chance.choice((0.02, 0.05, 0.1)), iter(words)
        self.signature = base64.encodebytes(signed).replace(b"\n", b"\r\n")
        self.boundary = self.odd(b"cut", BOUNDARIES)

    def odd(self, usual, others):
        """Mostly the usual one."""
        return self.chance.choice(others) if self.chance.random() < self.often else usual

    def part(self):
        """A part with another word each time."""
        return self.odd(PARTS[0], PARTS) % b" ".join([b"I owe you", next(self.words), b"euro"])

    def line(self, last=b""):
        """The line of the boundary."""
        return (
            self.odd(b"\r\n", (b"\r\n", b"\n", b"\r", b"", b"\r\n\r\n", b"\x0c", b"\r\r\n"))
            + self.odd(
                b"--" + self.boundary,
                (b"-- " + self.boundary, b" --" + self.boundary, b"--" + self.boundary.upper(), b"--other"),
            )
            + last
            + self.odd(b"\r\n", ENDS)
        )

    def more(self):
        """What nobody signed: nothing, text, or a part with its boundary."""
        part = self.line() + self.part()
        return self.odd(
            b"", (part, part, b"\r\n" + self.part(), part + self.line(b"--"), self.chance.choice(BOXES) + self.part())
        )

    def head(self, kind):
        """A head, which may have more fields."""
        fields = [b"MIME-Version: 1.0\r\n", b"Content-Type: " + kind + b"\r\n"]
        if self.chance.random() < self.often * 2:
            fields.insert(self.chance.randrange(3), self.chance.choice(FIELDS))
        if self.chance.random() < 0.05:
            fields.insert(self.chance.randrange(3), b"Content-Type: text/plain\r\n")
        return b"".join(fields) + self.odd(b"\r\n", (b"\n", b"\r\r\n", b" \r\n", b""))

    def signed(self):
        """A multipart/signed."""
        kind = self.odd(KINDS[0], KINDS) % self.boundary
        extra = self.odd(b"", FIELDS)
        name = self.odd(b"", (b'; name="smime.p7s"', b"; name=a.html", b"; name*=utf-8''a.html", b"; name*0=a.ht; name*1=ml"))
        parts = self.line() + self.part() + self.line()
        end = self.line(b"--")
        return (
            self.head(kind) + self.more() + parts + SIGNATURE % (name, extra, self.signature + self.more()) + end + self.more()
        )


def wrapped(making, mail):
    """A mail within another one."""
    way = making.chance.randrange(3)
    if way == 0:
        return (
            making.head(b"multipart/mixed; boundary=out")
            + b"\r\n--out\r\n"
            + mail
            + making.odd(b"", (b"\r\n--out\r\n" + making.part(),))
            + b"\r\n--out--\r\n"
            + making.more()
        )
    if way == 1:
        return making.head(b"message/rfc822") + mail
    kind = making.chance.choice(
        (b"multipart/digest", b"multipart/alternative", b"multipart/related; type=a", b"multipart/signed")
    )
    return (
        making.head(kind + b"; boundary=out") + b"\r\n--out\r\nContent-Type: message/rfc822\r\n\r\n" + mail + b"\r\n--out--\r\n"
    )


def made_at(chance, signed, words):
    """A mail, alone or in an mbox."""
    making = Making(chance, signed, words)
    mail = making.signed()
    if chance.random() < 0.2:
        mail = wrapped(making, mail)
    if chance.random() < 0.1:
        mail = chance.choice(BOXES) + mail
        if chance.random() < 0.3:
            mail += making.odd(b"\r\n", (b"", b"\n", b"x")) + chance.choice(BOXES) + b"Subject: a\r\n\r\n" + making.part()
    if chance.random() < 0.4:
        mail = mail.replace(b"\r\n", b"\n")
    return mail
