"""Object identifiers, as they are written in the standards, by the names that the scripts use."""
SHA_2 = "2.16.840.1.101.3.4.2."
# the name of each digest algorithm in Python's hashlib, by its identifier (RFC 3370 2.1, RFC 5754 2)
DIGESTS = {
    "1.3.14.3.2.26": "sha1",
    SHA_2 + "1": "sha256",
    SHA_2 + "2": "sha384",
    SHA_2 + "3": "sha512",
    SHA_2 + "4": "sha224",
    SHA_2 + "5": "sha512_224",
    SHA_2 + "6": "sha512_256",
}
DIGEST_OIDS = {name: oid for oid, name in DIGESTS.items()}
PKCS_7, PKCS_9 = "1.2.840.113549.1.7.", "1.2.840.113549.1.9."
# content types (RFC 5652 4, 5.1; RFC 3161 2.4.2)
DATA, SIGNED_DATA, TST_INFO = PKCS_7 + "1", PKCS_7 + "2", PKCS_9 + "16.1.4"
# attributes (RFC 5652 11.1, 11.2; RFC 2634 5.4; RFC 5035 3; RFC 3161 appendix A)
CONTENT_TYPE, MESSAGE_DIGEST = PKCS_9 + "3", PKCS_9 + "4"
SIGNING_CERTIFICATE, SIGNING_CERTIFICATE_V2, TIME_STAMP_TOKEN = PKCS_9 + "16.2.12", PKCS_9 + "16.2.47", PKCS_9 + "16.2.14"
# extensions of certificates, and the purpose of a time-stamping authority (RFC 5280 4.2.1.2, 4.2.1.12; RFC 3161 2.3)
SUBJECT_KEY_IDENTIFIER, EXTENDED_KEY_USAGE, TIME_STAMPING = "2.5.29.14", "2.5.29.37", "1.3.6.1.5.5.7.3.8"
RSA_PSS, ECDSA_SHA256 = "1.2.840.113549.1.1.10", "1.2.840.10045.4.3.2"
