#!/usr/bin/env python3
"""Random hierarchies of certificates, held against Bouncy Castle:

    python3 tools/trying/hierarchies.py [--count N] [--seed S]

Each has a root, another one of its name that nobody trusts, and up to six issuers below these, with equal names, shared keys, lengths
of paths, constraints, policies, purposes and lives that are good or bad; and files of up to three signers, whose certificates stand in
any order. The path of each entry of the list that cmsproof-trust would make must be good for Bouncy Castle's validator at the stamp's
time. The status is 1 if one is not. It needs java, and Debian's libbcpkix-java.
"""
import argparse
import random
import subprocess
import sys
import tempfile
from pathlib import Path

TOP = Path(__file__).resolve().parent.parent.parent
sys.path[:0] = [str(TOP / "tools" / "tests")]
from issuing_world import World, h  # noqa: E402

from cryptography import x509  # noqa: E402
from cryptography.hazmat.primitives.asymmetric import ec  # noqa: E402
from cmsproof_tools import issuing  # noqa: E402
from cmsproof_tools.issuer_words import Asked  # noqa: E402

JARS = ":".join(f"/usr/share/java/{name}.jar" for name in ("bcpkix", "bcprov", "bcutil"))
PURPOSES = x509.ExtendedKeyUsageOID.SERVER_AUTH, x509.ExtendedKeyUsageOID.EMAIL_PROTECTION


def policies(chance):
    """The certificatePolicies that are one of three."""
    number = x509.ObjectIdentifier(chance.choice(["2.999.5", "2.999.6", "2.5.29.32.0"]))
    return x509.CertificatePolicies([x509.PolicyInformation(number, None)]), False


def extensions(chance, key, by):
    """The extensions of an issuer, most of which are good."""
    tree = [
        x509.DirectoryName(x509.Name([x509.NameAttribute(x509.NameOID.ORGANIZATION_NAME, chance.choice(["cmsproof", "x"]))]))
    ]
    for likely, make in [
        (0.95, lambda: (x509.BasicConstraints(True, chance.choice([None, None, None, 0, 1, 2])), True)),
        (0.8, lambda: h.usage(*chance.choice([("key_cert_sign", "crl_sign")] * 9 + [("crl_sign",)]))),
        (0.7, lambda: h.key_identifiers(key)[0]),
        (0.6, lambda: h.key_identifiers(by.key)[1]),
        (0.1, lambda: (x509.NameConstraints(tree, None), True)),
        (0.1, lambda: (x509.ExtendedKeyUsage([chance.choice(PURPOSES)]), False)),
        (0.1, lambda: (x509.PolicyConstraints(0, None), True)),
        (0.3, lambda: policies(chance)),
    ]:
        if chance.random() < likely:
            yield make()


def hierarchy(chance, keys):
    """A root, other issuers, and signers."""
    root, other = h.root(key=keys[0]), h.root(key=keys[1])
    issuers = [root, other]
    for _ in range(chance.randint(1, 6)):
        by, key = chance.choice(issuers), chance.choice(keys[2:12])
        life = {"first": f"{chance.randint(2020, 2023)}-03-01", "last": f"{chance.randint(2024, 2030)}-03-01"}
        rest = life if chance.random() < 0.3 else {}
        issuers.append(h.issue(chance.choice(["Sub", "Mid", "Low"]), by, list(extensions(chance, key, by)), key=key, **rest))
    signers = []
    for _ in range(chance.randint(1, 3)):
        by = chance.choice(issuers)
        more = [h.key_identifiers(by.key)[1]] * (chance.random() < 0.6) + [policies(chance)] * (chance.random() < 0.2)
        signers.append(h.issue(chance.choice(["Anna", "Bob", "Sub"]), by, more, key=chance.choice(keys[12:])))
    return root, issuers, signers


def entries_of(world, chance, keys):
    """The entries of signers for the files of a hierarchy, how many signers it has, and the year of the stamps."""
    root, issuers, signers = hierarchy(chance, keys)
    bag, year = [who.octets for who in (*issuers, *signers)], chance.randint(2021, 2029)
    files = [h.signed(who, [(world.clock, f"{year}0601120000Z")], chance.sample(bag, len(bag))) for who in signers]
    names = [world.put(f"{number}.p7s", octets) for number, octets in enumerate(files)]
    asked = Asked(issuers=[world.put("root.der", root)], tsa_issuers=[world.put("clocks.der", world.clocks)])
    with issuing.trusted_by(asked, [], lambda line: None) as trusted:
        entries, _ = issuing.grown(trusted, [], names, lambda line: None, lambda line: None)
    return [entry for entry in entries if entry.role == "signer"], len(signers), year


def main():
    """Reads the words, and judges all entries at the end."""
    parser = argparse.ArgumentParser()
    parser.add_argument("--count", type=int, default=300)
    parser.add_argument("--seed", type=int, default=random.randrange(1 << 32))
    given = parser.parse_args()
    chance, keys = random.Random(given.seed), [ec.generate_private_key(ec.SECP256R1()) for _ in range(30)]
    print(f"seed {given.seed}", flush=True)
    lines, texts, people = [], [], 0
    with tempfile.TemporaryDirectory() as folder:
        world = World(folder)
        for number in range(given.count):
            entries, count, year = entries_of(world, chance, keys)
            people += count
            for entry in entries:
                *path, root = [
                    world.put(f"{number}.{len(lines)}.{at}.der", one.octets) for at, one in enumerate(entry.path.certificates)
                ]
                seconds = int(h.time_of(f"{year}-06-01 12:00:00+00:00").timestamp())
                lines.append(" ".join([str(seconds), root, *path]) + "\n")
                texts.append(entry.path.text())
        words = ["java", "-cp", JARS, TOP / "tools" / "compared" / "Judge.java"]
        said = (
            subprocess.run(words, input="".join(lines).encode(), capture_output=True, check=True).stdout.decode().splitlines()
        )
    bad = [f"{text}: {line}" for text, line in zip(texts, said) if line != "good"]
    print(f"{given.count} hierarchies, {people} signers, {len(lines)} entries, {len(bad)} refused by Bouncy Castle")
    print("\n".join(bad))
    return 1 if bad or len(said) != len(lines) or not lines else 0


if __name__ == "__main__":
    sys.exit(main())
