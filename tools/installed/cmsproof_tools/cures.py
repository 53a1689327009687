"""What each refusal means and what helps: one table, of which the tables of docs/REFUSALS.md are made (tools/refusals.py), and which
`--explain` and the report show.

No cure says to trust somebody whom the file names unless his fingerprint was compared elsewhere: whoever made the file chose whom it names.
"""
from __future__ import annotations

import re
from functools import lru_cache
from typing import NamedTuple

CODE = re.compile(r"(?:^|, )([A-Z][0-9]+)\b")


class Cure(NamedTuple):
    """When a rule refuses, and what helps, in the words of docs/REFUSALS.md; and the number of the section there that says more."""

    when: str
    cure: str
    section: str


class Row(NamedTuple):
    """A row of the table: the section, codes with the name behind them, when they refuse, and what helps."""

    section: str
    codes: str
    when: str
    cure: str


WRITE_AGAIN = (
    "`openssl cms -cmsout -inform DER -in FILE -outform DER -out NEW` writes it again, in DER; "
    "`cmsproof-archive` does so itself. Of a token see K1"
)
NO_CURE = (
    "none: such octets are mostly signed, in a certificate or a token, and others there break the "
    "signature. Ask whoever made the file for one in DER"
)
SIGN_AGAIN = "sign again; `openssl cms -cmsout -print -inform DER -in FILE` shows what is in it"
STAMP_AGAIN = (
    "stamp again: have an authority that does it right stamp the signature, and attach that token too; "
    "one that passes is enough"
)
OTHER_TSA = "stamp again by another authority; no list helps. `cmsproof cert` must say `stamping yes` of its certificate"
DO_NOT_TRUST = "do not trust the file: ask whoever signed it for the file as it was signed"
COMPARED = (
    "compare the SHA-256 of the certificate under which the {} verifies with what its owner told you in "
    "another way than by this file, and only then list it as `{}`"
)
ASK_AGAIN = (
    "ask again for answers, of this file and this list; `cmsproof-verify` says on standard error what it "
    "does not vouch for. A bad signature has no cure"
)
RECORD_AGAIN = "get the record as it was made, from another copy; a new one says a later time"
TOO_LATE = "Else it was renewed too late, and only a copy helps that was not; renew the last one in time"
TAKE_OUT = (
    "take the token out of the response, by `match` or by `openssl ts -reply -in RESPONSE -token_out "
    "-out TOKEN`; `openssl cms -cmsout -inform DER -in TOKEN -outform DER -out NEW` makes DER of BER"
)

ROWS = (
    # files that do not have their form
    Row(
        "3",
        "M1 End",
        "the octets end where an element must begin: an empty or cut file",
        "get the file again from where it came; `ls -l` shows whether it is empty",
    ),
    Row(
        "3",
        "M2 HighTag",
        "an element begins with 00, or with low five bits all 1: another format, as `1f` at 0, which is "
        "gzip, or `ff`, a text in UTF-16",
        "unpack it, as by `gzip -d`, or name the signed file itself",
    ),
    Row(
        "3",
        "M3 Indefinite",
        "a length is left open: BER, as programs write it that stream, Bouncy Castle by default, `openssl "
        "cms -sign -stream`",
        WRITE_AGAIN,
    ),
    Row(
        "3",
        "M4 LengthForm",
        "a length is not in its shortest form, which is BER of programs that reserve room for it; or it "
        "takes more than four octets",
        WRITE_AGAIN,
    ),
    Row(
        "3",
        "M5 Overrun",
        "an element is longer than what is there: a file that was cut, as by a broken transfer",
        "get it again from where it came: it must have as many octets as `hl` and `l` together, which "
        "`openssl asn1parse -inform DER -in FILE` prints for its first element",
    ),
    Row(
        "3",
        "M6 Tag",
        "another kind of element is due: PEM, S/MIME or base64; another kind of file, as a response of a "
        "time-stamping authority, or a certificate; strings in pieces, which are BER; or a content that is "
        "not an OCTET STRING, as in Authenticode (RFC 5652 5.2.1)",
        "`cmsproof-archive` reads PEM, S/MIME, base64 and BER, and says of other files what they begin as. A "
        "content that is not an OCTET STRING is not read: of Authenticode `osslsigncode verify` says whether "
        "it is signed",
    ),
    Row(
        "3",
        "M7 Trailing",
        "octets follow the end: a line feed or zeros, as behind a signature out of a PDF",
        "the place is the length of what is good: `head -c PLACE FILE > NEW`",
    ),
    Row("3", "M8 Integer", "the contents are not those of an INTEGER: zeros before a serial number, or damage", NO_CURE),
    Row("3", "M9 Oid", "the contents are not those of an OBJECT IDENTIFIER: mostly damage", NO_CURE),
    Row("3", "M10 Boolean", "the contents are not those of a BOOLEAN: 01 for true, which is BER, or damage", NO_CURE),
    Row("3", "M11 Bits", "the contents are not those of a BIT STRING: unused bits that are not 0, or damage", NO_CURE),
    Row(
        "3",
        "M12 Time",
        "the contents are not those of a time: a fraction that ends in 0, a local time, a second 60, or " "damage",
        NO_CURE,
    ),
    Row(
        "3",
        "M13 Value",
        "a value is not allowed here: an unknown version; a certificate with subjectKeyIdentifier or " "extendedKeyUsage twice",
        NO_CURE,
    ),
    Row(
        "3",
        "M14 Order",
        "signed attributes, or the values of one, are not in the order of DER (X.690 11.6): a program kept "
        "the order in which it made them, and mostly signed them in that order, against RFC 5652 5.4, by "
        "which the signature is over DER",
        "only the signer can mend it, who signs again: `openssl cms -cmsout` sorts the attributes, so that "
        "they fit, and a signature over another order fails then (S9)",
    ),
    Row(
        "3",
        "M15 Empty",
        "a set of attributes is there and empty (RFC 5652 5.3): a program took out the only attribute",
        "`cmsproof-extract --mend FILE` writes it without empty unsigned attributes, `a1 00`, which no "
        "signature covers. Empty signed attributes, `a0 00`, only the signer can mend, who signs again",
    ),
    # a file as a whole
    Row(
        "4",
        "C2, Q2, E1 NotSignedData",
        "CMS of another type: encrypted, compressed or bare data",
        "take the signed file out, if you have the key: `openssl cms -decrypt -binary -inform DER -in FILE "
        "-recip CERT -inkey KEY -out NEW`",
    ),
    Row(
        "4",
        "C3 NoSigner",
        "nobody signed: mostly a bundle of certificates (`.p7b`, `.p7c`)",
        "name the signed file; `openssl pkcs7 -inform DER -in FILE -print_certs -noout` lists what a bundle holds",
    ),
    Row(
        "4",
        "C4, E3 NoContent",
        "FILE has no content, and `--content` is missing: the signature is detached, as OpenSSL makes it "
        "without `-nodetach`",
        "name the content by `--content`. `compare` has no such option: ask `fit` of each file",
    ),
    Row(
        "4",
        "C5 ContentTwice",
        "FILE has a content, and `--content` is given",
        "leave the option out, or for `cmsproof-archive` say `--no-pairs`. `openssl cms -verify -noverify "
        "-binary -inform DER -in FILE -out CONTENT` writes the content into a file",
    ),
    Row("4", "E2 NoSuchSigner", "no signer has this number, from 1", "`show signed` counts them"),
    Row(
        "4",
        "E4 and a rule of S1 to S6",
        "the signer fails it; SHA-1 is allowed here",
        "that of the rule behind it, in section 5",
    ),
    # a signer
    Row(
        "5",
        "S1 NoSignedAttrs",
        "it has no signed attributes, which CMS allows (RFC 5652 5.3), but such a signature can be passed "
        "off as one over something else. `openssl cms -sign -noattr` and GnuTLS's `certtool --p7-sign` "
        "without `--p7-time` make it",
        "sign again; attributes cannot be added later",
    ),
    Row(
        "5",
        "S2 ContentTypeAttr",
        "not exactly one signed attribute is a content-type (RFC 5652 11.1), or it does not have exactly one "
        "value, or that does not begin as an OBJECT IDENTIFIER: a file put together by hand",
        SIGN_AGAIN,
    ),
    Row(
        "5", "S3 ContentTypeDiffers", "the content-type is not the type of the content: a file put together by hand", SIGN_AGAIN
    ),
    Row(
        "5",
        "S4 DigestAttr",
        "not exactly one signed attribute is a message-digest (RFC 5652 11.2), or it does not have exactly "
        "one value, or that does not begin as an OCTET STRING: a file put together by hand",
        SIGN_AGAIN,
    ),
    Row(
        "5",
        "S5 DigestAlgorithm",
        "its digest algorithm is SHA-1 without `--sha1`, unknown, as MD5, or with `--evidence` had ended (`--end`)",
        "`--sha1`, or `--end` with `--evidence`, if you allow it: two contents can have one SHA-1. MD5 cannot be allowed",
    ),
    Row(
        "5",
        "S6 DigestDiffers",
        "the message-digest is not the content's digest. The content was changed, is another file, or has "
        "other line ends: without `-binary` OpenSSL signs lines that end in CR LF",
        "give the detached content such line ends, which a mail or a transfer as text can take away; else "
        "the file as it was",
    ),
    Row(
        "5",
        "S7 UnknownSigner",
        "the list has no `signer` that it names; or if a token passes, none that is also valid and in its "
        "period at that time",
        COMPARED.format("signature", "signer")
        + ". It is never a time-stamping authority's, nor an issuer's: `--issuer` of `cmsproof-trust` names that",
    ),
    Row(
        "5",
        "S8 NotNamed",
        "its signing-certificate attributes (RFC 2634 5.4, RFC 5035 3) name none of those, as when a "
        "certificate was renewed with the same key, and the signer is named by that key",
        "compare the SHA-256 of the certificate of that day with what its owner told you in another way than "
        "by this file, and only then list it; today's may be there too",
    ),
    Row(
        "5",
        "S9 SignatureFails",
        "no answer vouches for its signature under the key of one of those: the answers are for another file "
        "or list, the verifier does not know the algorithm or the key, or the signature is bad",
        ASK_AGAIN,
    ),
    Row(
        "5",
        "S10 NoToken",
        "no unsigned attribute has a time-stamp token. The signer's own time (signing-time) does not count, "
        "nor a stamp of the content",
        "have the signature stamped by your authority: `request --of`, `match` and `attach` in cmsproof(1). "
        "In a PDF nothing can be attached: take signature and content out by `cmsproof-extract`, attach the "
        "token to that signature, keep it beside the PDF, and name the content by `--content`",
    ),
    # a token
    Row(
        "6",
        "K1 FAULT, K1 NotSignedData",
        "the token is not a ContentInfo in DER, or is one of another type. `M6 Tag at 4` is mostly a whole "
        "response, `M3` a token in BER",
        TAKE_OUT + "; then attach it to the file as it was before the stamp",
    ),
    Row("6", "K2 ContentType", "its content has another type than TSTInfo (RFC 3161 2.4.2)", STAMP_AGAIN),
    Row("6", "K3 NoContent", "it has no content", STAMP_AGAIN),
    Row("6", "K4 OneSigner", "it has not exactly one signer (RFC 3161 2.4.2)", STAMP_AGAIN),
    Row(
        "6",
        "K5 RULE",
        "its signer fails this one of S1 to S6, mostly S5: the authority signed with SHA-1",
        "`--sha1` allows that; else stamp again by an authority that does it right",
    ),
    Row("6", "K6 FAULT", "its content is not a TSTInfo in DER", STAMP_AGAIN),
    Row("6", "K7 CriticalExtension", "its TSTInfo has a critical extension; none is understood here", STAMP_AGAIN),
    Row(
        "6",
        "K8 ImprintAlgorithm",
        "the algorithm of its imprint is unknown, or not allowed (S5)",
        "stamp again, with another `--alg`; or `--sha1`, if you allow it",
    ),
    Row(
        "6",
        "K9 ImprintDiffers",
        "its imprint is not the digest of the signature's octets (RFC 3161 appendix A), but mostly the "
        "content's; the stamps that LibreOffice 7.4 puts into a PDF are over other octets too",
        "stamp again, and make the request by `cmsproof request --of FILE`",
    ),
    Row(
        "6",
        "K10 UnknownTsa",
        "the list has no `tsa` that its signer names; an authority may have a new certificate",
        COMPARED.format("token", "tsa")
        + ", or name its issuer by `--tsa-issuer`, compared likewise; or stamp again by an authority that you "
        "trust",
    ),
    Row(
        "6",
        "K11 NotNamed",
        "its signer's attributes name none of those (RFC 5816 2.2.1), as when `openssl cms -sign` made it "
        "without `-cades`; `openssl ts -reply` does it right",
        STAMP_AGAIN,
    ),
    Row(
        "6",
        "K12 Purpose",
        "none of those is for time-stamping alone: extendedKeyUsage is missing, not critical, or names a "
        "second purpose (RFC 3161 2.3)",
        OTHER_TSA,
    ),
    Row(
        "6",
        "K13 Period",
        "none of those is valid and in its period of the list at the token's time; that it expired later does no harm. With "
        "`--evidence`: nor at the moment of the record; or the token is later than that",
        "`--explain` compares: give the entry another period, if you trust it for that time, or stamp again. "
        "An entry that says `for no time`, or that ends because of a revocation, stays as it is",
    ),
    Row("6", "K14 SignatureFails", "no answer vouches for its signature under the key of one of those", ASK_AGAIN),
    # lists
    Row(
        "7",
        "L1 Version",
        "the first line of what is named as trust list is neither `cmsproof trust 1` nor `cmsproof trust 2`: an answers list, a certificate "
        "or an empty file in its place, or an editor's mark before the text (UTF-16, or UTF-8 with a mark)",
        "`head -1 LIST` shows what it is, and the tools say it. If it is an answers list, exchange the files of `--trust` and `--answers`; "
        "`cmsproof-trust` makes a list of certificates; `sed '1s/^\\xef\\xbb\\xbf//'` takes the mark of UTF-8 away",
    ),
    Row(
        "7",
        "L2 Line",
        "a line has another form: another role, a field too many or too few, two spaces, an odd number of "
        "digits, no moment in FROM or UNTIL",
        "version 2 has the two moments in each line, and version 1 none; a moment ends in `Z`",
    ),
    Row("7", "L5 Period", "the period ends before it begins", "exchange the two moments, if that was meant"),
    Row(
        "7",
        "L3 Certificate",
        "the last field is not exactly one certificate, or is empty: hexadecimal on several lines, as `od` "
        "and `xxd -p` write it, or of a PEM file",
        "`cmsproof-trust` writes the line of a certificate",
    ),
    Row(
        "7",
        "B1 Version",
        "the first line of what is named as answers list is not `cmsproof answers 1`: mostly the questions were given, or the trust list",
        "`head -1 ANSWERS` shows what it is; `cmsproof-verify` makes answers of questions: no list may vouch for itself",
    ),
    Row(
        "7",
        "B2 Line",
        "a line has not five fields in hexadecimal with one space between: it was broken, as by a mail program",
        "ask `cmsproof-verify` again",
    ),
    # a response and its request
    Row("8", "P1 Status", "the authority did not grant the request: the status is neither 0 nor 1", "`show response` says why"),
    Row("8", "P2 NoToken", "there is no token in the response", "ask the authority again"),
    Row(
        "8",
        "P3 TokenMalformed",
        "the token is not a SignedData with exactly one signer, the eContentType id-ct-TSTInfo, "
        "1.2.840.113549.1.9.16.1.4, and a TSTInfo as its content. The line does not say which",
        TAKE_OUT + ". `cmsproof-archive --explain --trust LIST TOKEN` says which fault it has",
    ),
    Row(
        "8",
        "P4 Imprint",
        "the digest of the imprint, or the OID of its algorithm, is not the request's",
        "match it with the request that it answers",
    ),
    Row("8", "P5 Nonce", "the request has a nonce, and the token none or another", "match it with the request that it answers"),
    Row(
        "8",
        "P6 Policy",
        "the request names a policy, and the token another",
        "leave `--policy` out, or ask for one that the authority has",
    ),
    Row(
        "8",
        "P7 CertMissing",
        "certReq is true, and no signing-certificate attribute of the token's signer (RFC 2634 5.4, RFC 5035 "
        "3) names a certificate in the token that can be read",
        "ask without `--cert`, or take the token out: it can be good, since a check takes the certificate "
        "from the trust list",
    ),
    # a token and its file
    Row(
        "9",
        "A1 NotSignedData",
        "FILE is CMS of another type",
        "name the signed file; of an encrypted one take it out by `openssl cms -decrypt`",
    ),
    Row("9", "A2 NoSuchSigner", "FILE has no signer of this number, from 1", "`show signed` counts them"),
    Row(
        "9",
        "A3 TokenMalformed",
        "TOKEN has no SignedData whose content is a TSTInfo (RFC 3161 2.4.2): mostly it is the whole "
        "response. The line does not say which fault it has",
        TAKE_OUT + ". `cmsproof-archive --explain --trust LIST TOKEN` says which fault it has",
    ),
    Row(
        "9",
        "A4 ImprintDiffers",
        "its imprint is not the digest of this signer's signature, or its algorithm is unknown. SHA-1 is allowed",
        "make the request by `cmsproof request --of FILE`, or name another `--signer`",
    ),
    Row("9", "A5 TooLong", "a length would pass 4,294,967,295", "none: this form has no such file"),
    # devices
    Row(
        "10",
        "X1 ReadFailed",
        "FILE of `check`, CONTENT or DATA was opened and cannot be read, or not again; mostly a folder",
        "name a file, on a disk that can be read",
    ),
    Row(
        "10",
        "X3 TooLong",
        "the signers, with attributes and tokens, and the type of the content are longer than `--buffer`, by "
        "default 64 MiB, and 1 MiB of what can be read only once",
        "a greater `--buffer N`, up to 1,073,741,824: twice as many octets, or the length of the file; a "
        "regular file in the place of a pipe; or `cmsproof-archive`, which never says this",
    ),
    Row("10", "X5 ContentTooLong", "CONTENT or DATA exceeds 2^40 octets", "none: no option allows more"),
    # containers
    Row(
        "11",
        "F1 UnknownForm",
        "the file is not signed in a form that is read: XML (XAdES), OpenPGP, a JAR, an office document, "
        "Authenticode, an encrypted mail, gzip, a PDF without a signed field or with another /SubFilter, an "
        "ASiC without a signature, a text",
        "the reason names what checks it; unpack it, or leave it out",
    ),
    Row(
        "11",
        "F2 ToolMissing",
        "a library or program that reads this form is missing; the line begins with `failed`, and the status is 4",
        "install what the reason names: `python3-pikepdf` for PDF, `openssl` for BER",
    ),
    Row(
        "11",
        "F3 Broken",
        "the container is damaged: a PDF of which qpdf complains, the boundaries of a mail, base64, a zip " "file, a manifest",
        "get it again from where it came",
    ),
    Row(
        "11",
        "F4 TooLarge",
        "it is larger or deeper than is read, or unpacks to more, as a zip bomb; it takes too long to read "
        "(`cmsproof-archive`: `failed worker`); or its signatures cover too many octets in all",
        "check such a file by hand",
    ),
    Row(
        "11",
        "F5 NotInDer",
        "BER whose signed attributes, signatures or tokens would be other octets in DER, or that `openssl` " "does not read",
        "ask for the file in DER",
    ),
    Row(
        "11",
        "F6 Uncovered",
        "the signature does not cover the whole file: a PDF was saved again behind it; a mail has other "
        "parts beside what is signed, or beside a mail that is forwarded in it; an ASiC has files that its "
        "manifest does not name; text stands outside the blocks of PEM",
        "take out what is covered, and read that: the reason says up to where it goes, for `head -c`; or "
        "`--partial`, which notes it",
    ),
    Row(
        "11",
        "F7 ByteRange",
        "/ByteRange of a PDF does not begin at 0, is not two ranges in order, or does not leave out exactly "
        "the string of /Contents; or one of the two is missing",
        DO_NOT_TRUST,
    ),
    Row("11", "F8 SharedGap", "two fields of a PDF leave out the same octets", DO_NOT_TRUST),
    Row(
        "11",
        "F9 Encrypted",
        "a PDF or zip file is encrypted",
        "decrypting changes what was signed: ask for the file as it was signed",
    ),
    Row(
        "11",
        "F10 Ambiguous",
        "two programs may read it in two ways. A zip file: a name twice, octets between entries or behind "
        "what is packed, a length behind what is not packed, without a sign, a head or an end that differs "
        "from the directory, two such ends, a link. A mail: Content-Type, -Transfer-Encoding, -Disposition "
        "or MIME-Version twice in a head, a boundary that is no token and not quoted, with something "
        "behind it, or within a line; in a head a comment, a character of control or a line of white space "
        "alone; outside of what is signed one that begins as another mail does; a first field as of no mail. "
        "A PDF: octets before `%PDF-`, a signature dictionary in a stream, or one that is an annotation; an "
        "object that goes over the signature; a second /ByteRange over as many octets; another PDF in what is "
        "signed; an object that programs which mend a PDF mistake or miss. CMS, a mail or a zip file that is a "
        "PDF, tar, zip or DICOM file too, by unsigned octets, or that is called as another kind: `.pdf`, `.html`, "
        "`.tar`, `.mp3`; a mail or bundle with such a signature",
        DO_NOT_TRUST,
    ),
    Row(
        "11",
        "F11 EntryName",
        "an entry of an ASiC has a name that leads out of the folder, or that cannot be shown",
        "do not unpack it",
    ),
    Row("11", "F12 Mimetype", "the `mimetype` of an ASiC is packed, not first, or of the other kind", "ask whoever made it"),
    Row(
        "11",
        "F13 ObjectDiffers",
        "a file of an ASiC is not as its manifest says, or is missing; or no manifest names a signature",
        "the file was changed: get it again",
    ),
    Row(
        "11",
        "F14 ContentTwice",
        "the container has the content, and a file beside it or `--content` names another one",
        "leave that out, or use `--no-pairs`",
    ),
    Row(
        "11",
        "F15 StampAlone",
        "a time-stamp is good, and no signature of the file is accepted, or its own file is not beside it. Anybody gets a "
        "stamp for any octets: it says when they were there, and not whose they are",
        "`--stamps`, and that file, if you ask for the moment alone: the line is then `stamped TIME`",
    ),
    Row(
        "11",
        "F16 NoRecord",
        "`--records`, and no regular file is in the place of this file's evidence record; or `--by-records`, and what is signed is in another "
        "form than DER",
        "put it there, or make one by `evidence make`; paths count from the folder of `--under`; else leave `--by-records` out",
    ),
    Row(
        "11",
        "F17 RecordAlone",
        "the file of this evidence record is not there: it was moved, renamed or lost",
        "put it back: a record alone shows nothing",
    ),
    # evidence records
    Row(
        "12",
        "V1 FAULT",
        "it is no record in DER (RFC 4998 3.1); the line is `malformed` and the fault, M1 to M15",
        "name the record, as it was made; one in XML (RFC 6283) is not read",
    ),
    Row(
        "12",
        "V2 Encrypted",
        "it has encryptionInfo: it is of the encrypted document (RFC 4998 3.1, 6)",
        "ask whoever made it for one of the document as it is",
    ),
    Row("12", "V3 NoData", "no document was handed in, to the library", "hand in what the record is of"),
    Row(
        "12",
        "W1 Algorithm",
        "the time-stamp's digest algorithm is unknown, or another one than that of the first in its chain (RFC 4998 5.1)",
        RECORD_AGAIN,
    ),
    Row("12", "W2 HashLength", "a hash value in its lists has another length than its digests (RFC 4998 4.2)", RECORD_AGAIN),
    Row(
        "12",
        "W3 NotCovered",
        "its first list lacks what it must cover (RFC 4998 4.3, 5.2, 5.3): in chain 1 stamp 1 the document, which was changed, or the "
        "record is another's; in the first of a later chain the document with all before; else the time-stamp before it, which was taken "
        "out or changed",
        "find the document as it was, or its own record; of a later time-stamp a copy of the record from before that renewal",
    ),
    Row(
        "12",
        "W4 RULE",
        "its token fails this one of K1 to K14. K9: its lists, or without lists what it must cover (W3), do not lead to what was stamped "
        "(RFC 4998 4.3): in a record without lists the document was changed, or the record is another's",
        "K9: find the document as it was, or its own record; K10, K13: an entry of the list, if you trusted that authority then; K14: new "
        "answers, by `evidence questions`; else a copy of the record as it was made",
    ),
    Row(
        "12",
        "W5 Order",
        "it is not later than the time-stamp before it (RFC 4998 5.1), or the last one is later than `--at`",
        "a later `--at`; else a copy of the record as it was made",
    ),
    Row(
        "12",
        "W6 Weak",
        "the digest algorithm of its lists, of its token's imprint or of its token's signer had ended (`--end`) when the next time-stamp "
        "took over, or at `--at` (RFC 4998 5.3). SHA-1 holds at no time without an `--end`",
        "a later `--end`, if you have grounds for it. " + TOO_LATE,
    ),
    Row(
        "12",
        "W7 Lapsed",
        "its authority's certificate, or the period of that in the list, had ended at that moment (RFC 4998 5.3)",
        "a longer period, if the certificate lasted and you trusted it then. " + TOO_LATE,
    ),
    Row(
        "12",
        "W8 Others",
        "`--whole`, and its first list has other hash values than those of the documents, as of a group (RFC 4998 4.2)",
        "name all of the group, as `evidence check` takes them, or leave `--whole` out: it shows nothing against whoever holds the record, and "
        "can rewrite it for one of the group where no later chain covers its lists",
    ),
    # evidence records that are made
    Row(
        "13",
        "U1 Line",
        "this line, from 1, is not of the form (`LINES.md`): mostly the digests are by another algorithm, or were written with `--tag`",
        "name the algorithm, as `--alg sha512`; leave `--tag` out",
    ),
    Row("13", "U2 Empty", "there is no line", "look what `sha256sum` said: it found no file"),
    Row(
        "13",
        "U3 NoStamp",
        "a RECORD has encryptionInfo, or the token of its last time-stamp states no time, or the algorithm of its last chain is unknown",
        "leave it out, or get it from another copy; `show evidence` says what it has",
    ),
    Row(
        "13",
        "U4 Mixed",
        "the last chains of the RECORDs are by different digest algorithms, and one stamp serves one (RFC 4998 5.1)",
        "ask for a stamp for those of each algorithm by themselves; `show evidence` names it",
    ),
    Row(
        "13",
        "U5 Name",
        "a name is empty, begins with `/`, has a part that is empty, `.` or `..`, or an octet 0, and so may lead out of the folder of the "
        "records; or it is not UTF-8",
        "list the files from within their folder, without `./` (`GUIDE.md`, section 11); rename the file",
    ),
    Row("13", "U6 NameTwice", "two lines have one name", "leave one out, and ask for a stamp of the others"),
    Row(
        "13",
        "U7 TokenMalformed",
        "TOKEN has no SignedData whose content is a TSTInfo (RFC 3161 2.4.2): mostly it is the whole response",
        "take the token out, by `cmsproof match` or `openssl ts -reply -in RESPONSE -token_out -out TOKEN`",
    ),
    Row(
        "13",
        "U8 ImprintDiffers",
        "its imprint is not the root over these digests, or these records, by this algorithm: SUMS was changed since the request, "
        "a RECORD was left out, added or renewed by another, or the token is another's",
        "name the SUMS, and the same `--alg`, or the RECORDs of the request; or ask for a stamp of these",
    ),
    Row(
        "13",
        "U9 Order",
        "it is not later than the last time-stamp of a RECORD (RFC 4998 5.1)",
        "ask for a new stamp; if that time is still to come, leave this RECORD out until then",
    ),
    Row("13", "U10 TooLong", "a length would pass 4,294,967,295", "none: this form has no such record"),
    Row(
        "13",
        "U11 Unnamed",
        "its first list has more or fewer hash values than there are lines for it: mostly it is of a group (RFC 4998 4.2), and a new chain "
        "over one file of it would show no other",
        "give each further file of the record a line behind a space, below the first (`cmsproof evidence rehash --help`); if other values "
        "are of neighbours in its tree, as in the example of RFC 4998 4.2, say `--alone`",
    ),
)


# What helps where a stamp is over a file, or over what a PDF or an ASiC has of it, and not over a signature; and the other cause that a
# rule then has.
AS_MADE = (
    "get the stamp as the authority made it, its response or the token, in DER; a new stamp of the file, made by "
    "`cmsproof request --digest`, says a later time"
)
RIGHT_ONE = "have an authority that does it right stamp the file, which then has a later time, or get the stamp as the authority made it"
OF_STAMPS: dict[str, tuple[str, str]] = {
    **{f"M{number}": ("", AS_MADE) for number in range(1, 16)},
    "K1": ("the token is not a ContentInfo in DER, or is one of another type", AS_MADE),
    **dict.fromkeys(("K2", "K3", "K4", "K6", "K7", "K11"), ("", RIGHT_ONE)),
    "K5": ("", "`--sha1` allows that; else " + RIGHT_ONE),
    "K9": (
        "its imprint is not the digest of the file, or of what of it the stamp is over: the file was changed since, or the stamp is that "
        "of another file, or of a signature",
        "find the file as it was, or its own stamp; a new one, made by `cmsproof request --digest`, says a later time",
    ),
    "P1": ("", "`cmsproof show response` says why; ask the authority again"),
}


# What a rule of a token means in an evidence record, and what helps there.
OF_RECORDS: dict[str, tuple[str, str]] = {
    **{f"K{number}": ("", RECORD_AGAIN) for number in (*range(1, 9), 11, 12)},
    "K9": (
        "its lists, or where it has none what it must cover, do not lead to what the authority stamped (RFC 4998 4.3): the document is "
        "another one than the record's, or a hash value was changed or left out",
        "find the document as it was, or its own record; else " + RECORD_AGAIN,
    ),
    "K10": ("", COMPARED.format("token", "tsa")),
    "K13": (
        "at its time its authority's certificate was not valid, or the list trusted it at another time",
        "give the entry another period, if you trusted the authority then, and the certificate was valid",
    ),
    "K14": ("no answer vouches for its authority's signature", ASK_AGAIN.replace("this file", "this record")),
}


@lru_cache(maxsize=None)
def known_cures() -> dict[str, Cure]:
    """The cure of each code."""
    return {code: Cure(row.when, row.cure, row.section) for row in ROWS for code in CODE.findall(row.codes)}


def plain(text: str) -> str:
    """A text of the table for a terminal, without the marks of what is typed."""
    return text.replace("`", "")


def said_of(code: str, of_stamp: bool = False) -> str:
    """The cause and the cure of a code in one line, of that of a stamp of a file what is known of such; no text of one that is not known."""
    cure = known_cures().get(code)
    if cure is None:
        return ""
    cause, helps = OF_STAMPS.get(code, ("", "")) if of_stamp else ("", "")
    return plain(f"Cause: {cause or cure.when}. Cure: {helps or cure.cure} (REFUSALS.md, section {cure.section}).")
