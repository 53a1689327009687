"""What the tests of the tools share: the tools run as a user runs them, and keys, signatures and files that openssl makes."""
import hashlib
import importlib.util
import os
import resource
import shutil
import subprocess
import sys
import tempfile
import unittest
from pathlib import Path

TOP = Path(__file__).resolve().parent.parent.parent
# the tools as the repository has them
SOURCES = TOP / "tools" / "installed"
# What is tested: what `make install` put into the folder that CMSPROOF_TREE names, as tools/on_installed.py has it; without it, the
# repository's own.
TREE = os.environ.get("CMSPROOF_TREE")
INSTALLED, MODULES = (Path(TREE, "bin"), Path(TREE, "lib", "cmsproof")) if TREE else (SOURCES, SOURCES)
sys.path[:0] = [str(TOP / "tools"), str(MODULES)]
from oracle import der, forms  # noqa: E402
from oracle.der import element, oid  # noqa: E402
from oracle.openssl_lines import HASHES as DIGESTS  # noqa: E402

REAL = TOP / "data" / "real"
PROGRAM = Path(os.environ.get("CMSPROOF", INSTALLED / "cmsproof" if TREE else TOP / "cmsproof")).resolve()

CRYPTOGRAPHY = "library cryptography for Python (python3-cryptography)"
# the number of the user and of the group who own nothing
NOBODY = 65534
ACCEPTED = "accepted 20261122071759Z"


def algorithm(text, parameters=b""):
    """An AlgorithmIdentifier in DER."""
    return element(0x30, oid(text), parameters)


def digest_algorithm(name):
    """The AlgorithmIdentifier of a digest."""
    return algorithm(DIGESTS[name])


def pss(digest, mask, salt, more=b""):
    """The AlgorithmIdentifier of RSASSA-PSS with these parameters (RFC 4055 3.1), none by default, and more behind them."""
    function = algorithm("1.2.840.113549.1.1.8", digest_algorithm(mask))
    parts = [element(0xA0, digest_algorithm(digest)), element(0xA1, function), element(0xA2, element(2, bytes([salt]))), more]
    return algorithm("1.2.840.113549.1.1.10", element(0x30, *parts))


def folder_of(test):
    """A folder for a test, which is removed at its end."""
    folder = tempfile.TemporaryDirectory()
    test.addCleanup(folder.cleanup)
    return Path(folder.name)


def lacking_tools():
    """What is missing to run the tools, or openssl, which makes what they are run on; nothing if all is there."""
    there = {"openssl": shutil.which("openssl"), CRYPTOGRAPHY: importlib.util.find_spec("cryptography")}
    return " and ".join(f"there is no {name}" for name, found in there.items() if not found)


def need_tools():
    """Leaves a module of tests out, with the reason, where the tools cannot be run."""
    if reason := lacking_tools():
        raise unittest.SkipTest(reason)


def needs(*names):
    """Leaves a test out, with the reason, where a program is not on the PATH."""
    missing = [name for name in names if shutil.which(name) is None]
    return unittest.skipIf(missing, f"there is no {', '.join(missing)}")


def processor_seconds():
    """The processor's time that the tests and what they started have had: on a machine with much else to do, no other time says whether
    something takes long."""
    parts = [resource.getrusage(who) for who in (resource.RUSAGE_SELF, resource.RUSAGE_CHILDREN)]
    return sum(part.ru_utime + part.ru_stime for part in parts)


def as_nobody():
    """How root runs Python as somebody who may do less; whoever is not root runs it as it is. Leaves a test out where nobody may not run
    this Python, or read its libraries, as those in a folder of root's."""
    if os.geteuid():
        return {}
    who = {"user": NOBODY, "group": NOBODY, "extra_groups": []}
    code = f"import sys; sys.path.insert(0, {str(MODULES)!r}); import cryptography, cmsproof_tools.running"
    try:
        done = subprocess.run([sys.executable, "-c", code], capture_output=True, cwd="/", check=False, **who)
    except PermissionError:
        done = None
    if done is None or done.returncode:
        raise unittest.SkipTest("nobody (the user) may not run this Python with its libraries and the tools")
    return who


def openssl(*words, **rest):
    """What openssl prints. A failure of it ends the tests."""
    done = subprocess.run(["openssl", *map(str, words)], capture_output=True, **rest)
    if done.returncode != 0:
        raise SystemExit(f"openssl {' '.join(map(str, words))}: {done.stderr.decode()}")
    return done.stdout


def run_tool(name, *words, said=b"", **rest):
    """Runs a tool: its status, its standard output and its standard error."""
    done = subprocess.run([sys.executable, INSTALLED / name, *map(str, words)], input=said, capture_output=True, **rest)
    return done.returncode, done.stdout, done.stderr.decode("utf-8", "surrogateescape")


def without_library(folder):
    """An environment in which Python's library `cryptography` cannot be imported."""
    (Path(folder) / "cryptography.py").write_text("raise ModuleNotFoundError(\"No module named 'cryptography'\")\n")
    return {**os.environ, "PYTHONPATH": str(folder)}


def modules_there():
    """The files in the folders of the tools' packages, but what was built or compiled there: what must be installed."""
    files = {path.relative_to(SOURCES) for name in ("cmsproof", "cmsproof_tools") for path in (SOURCES / name).rglob("*")}
    kept = {path for path in files if (SOURCES / path).is_file() and path.parent.name != "__pycache__"}
    return {str(path) for path in kept if not path.name.startswith("libcmsproof.so.")}


def is_module(name):
    """Whether a file is a module."""
    return name.endswith(".py")


def module_name(name):
    """The name of a module by the name of its file."""
    return ".".join(Path(name).with_suffix("").parts)


IMPORTING = """import importlib, os, sys
sys.path[:0] = [sys.argv[1]]
for name in sys.argv[2:]:
    print(name, end=" ", flush=True)
    if os.fork() == 0:
        try:
            sys.stdout.write(importlib.import_module(name).__file__.startswith(sys.argv[1]) and "\\n" or "of another folder\\n")
        except Exception as error:
            sys.stdout.write(f"{type(error).__name__}: {error}\\n")
        sys.stdout.flush()
        os._exit(0)
    os.wait()
"""


def imported_alone(python, folder, **how):
    """What is said of each module, by its name, that is imported from a folder in a process of its own: nothing if that is done."""
    names = sorted(map(module_name, filter(is_module, modules_there())))
    done = subprocess.run(
        [*python.split(), "-c", IMPORTING, str(folder), *names], capture_output=True, text=True, check=True, **how
    )
    rows = [line.split(" ", 1) for line in done.stdout.splitlines()]
    return dict(rows)


def question(key, digest, signature_algorithm, tail, signature):
    """The line of a question."""
    return " ".join(field.hex() or "-" for field in (key, digest, signature_algorithm, tail, signature))


class Keys:
    """Keys that openssl makes, each once, in a folder that is removed at the end."""

    MADE = {
        "rsa": ["-algorithm", "RSA", "-pkeyopt", "rsa_keygen_bits:2048"],
        "rsa-pss": ["-algorithm", "RSA-PSS", "-pkeyopt", "rsa_keygen_bits:2048"],
        "rsa-pss-bound": [
            "-algorithm",
            "RSA-PSS",
            "-pkeyopt",
            "rsa_keygen_bits:2048",
            "-pkeyopt",
            "rsa_pss_keygen_md:sha256",
            "-pkeyopt",
            "rsa_pss_keygen_mgf1_md:sha256",
            "-pkeyopt",
            "rsa_pss_keygen_saltlen:32",
        ],
        "ed25519": ["-algorithm", "ED25519"],
        "ed448": ["-algorithm", "ED448"],
    }

    def __init__(self):
        self.temporary = tempfile.TemporaryDirectory()
        self.folder = Path(self.temporary.name)

    def close(self):
        """Removes the keys."""
        self.temporary.cleanup()

    def words(self, kind):
        """The words of `openssl genpkey` for a kind of key: one of MADE, `dsa`, or the name of a curve."""
        if not kind.startswith("dsa"):
            return self.MADE.get(kind) or ["-algorithm", "EC", "-pkeyopt", "ec_paramgen_curve:" + kind]
        parameters = self.folder / "dsa.parameters"
        if not parameters.exists():
            openssl("genpkey", "-genparam", "-algorithm", "DSA", "-pkeyopt", "dsa_paramgen_bits:2048", "-out", parameters)
        return ["-paramfile", parameters]

    def private(self, kind):
        """The file of a private key. What stands behind a point in `kind` tells keys of one kind apart."""
        path = self.folder / (kind + ".key")
        if not path.exists():
            openssl("genpkey", *self.words(kind.split(".")[0]), "-out", path)
        return path

    def public(self, kind):
        """The SubjectPublicKeyInfo in DER."""
        return openssl("pkey", "-in", self.private(kind), "-pubout", "-outform", "DER")

    def sign(self, kind, digest, octets, options=()):
        """The signature of the octets; a digest of None is for the algorithms that have one of their own."""
        (self.folder / "octets").write_bytes(octets)
        if digest is None:
            return openssl("pkeyutl", "-sign", "-rawin", "-inkey", self.private(kind), "-in", self.folder / "octets")
        words = [word for option in options for word in ("-sigopt", option)]
        return openssl("dgst", "-" + digest, "-sign", self.private(kind), *words, self.folder / "octets")

    def certificate(self, kind, *words):
        """The file, in PEM, of a certificate that the key signed itself: one for a key."""
        path = self.folder / (kind + ".pem")
        if not path.exists():
            subject, words = f"/O=cmsproof/CN={kind}", ["-addext", "basicConstraints=CA:FALSE", *words]
            openssl("req", "-x509", "-key", self.private(kind), "-days", "30", "-subj", subject, "-out", path, *words)
        return path


def signed_by_ed(keys, kind, number, content):
    """A SignedData (RFC 5652 5) by a key of EdDSA, which `openssl cms -sign` does not make: with SHA-512 (RFC 8419 3)."""
    certificate = openssl("x509", "-in", keys.certificate(kind), "-outform", "DER")
    issued = forms.whole(certificate, forms.certificate)
    data, digest = oid("1.2.840.113549.1.7.1"), hashlib.sha512(content).digest()
    pairs = [("1.2.840.113549.1.9.3", data), ("1.2.840.113549.1.9.4", element(4, digest))]
    attributes = b"".join(element(0x30, oid(of), element(0x31, value)) for of, value in pairs)
    signature = keys.sign(kind, None, element(0x31, attributes))
    version, sha512, sid = (
        element(2, b"\1"),
        digest_algorithm("sha512"),
        element(0x30, issued.issuer, element(der.INTEGER, issued.serial)),
    )
    signer = element(0x30, version, sid, sha512, element(0xA0, attributes), algorithm(number), element(4, signature))
    inside = element(
        0x30, version, element(0x31, sha512), element(0x30, data, element(0xA0, element(4, content))), element(0x31, signer)
    )
    return element(0x30, oid("1.2.840.113549.1.7.2"), element(0xA0, inside))
