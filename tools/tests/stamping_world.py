"""What the tests of cmsproof-archive stamp and renew share: an authority of `openssl ts` behind a server here, which answers as it should, or as it
is told; and a folder with an archive, in which the tool is asked."""
import http.server
import os
import subprocess
import threading
import unittest
from contextlib import suppress

from making import PROGRAM, Keys, folder_of, need_tools, openssl, run_tool

need_tools()

import cmsproof  # noqa: E402

REPLY = {"Content-Type": "application/timestamp-reply"}
CONFIG = """[tsa]
default_tsa = s
[s]
serial = serial
signer_cert = {certificate}
signer_key = {key}
crypto_device = builtin
signer_digest = sha256
default_policy = 2.999.3
digests = sha256, sha384, sha512
"""
TAKEN = "all names by which it would be written are taken, up to that with .new99 behind it"
OTHERWISE = "remove state/1 to have the files without a record stamped by another one"
ASKED = cmsproof.request(digest=bytes(32), nonce=b"\x01\x02", certificate=True)


def knows_making():
    """Whether the program has the commands."""
    if not PROGRAM.exists():
        return False
    return subprocess.run([PROGRAM, "evidence", "make", "--help"], capture_output=True, check=False).returncode == 0


def other_nonce(request):
    """A request for a stamp of the same digest with another nonce."""
    shown = cmsproof.show("request", request)
    return cmsproof.request(digest=bytes.fromhex(shown["digest"]), nonce=b"\x01\x02\x03", certificate=True)


class Authority:
    """An authority of `openssl ts`, and the server that it is behind. `answer` is what it does with a request: it gives a status, fields and
    a body, or does all itself with the connection."""

    def __init__(self):
        self.keys = Keys()
        self.folder = self.keys.folder
        self.list = b""
        self.by = {name: self.config(name) for name in ("tsa", "other")}
        self.lock, self.asked = threading.Lock(), []
        outer = self

        class Handler(http.server.BaseHTTPRequestHandler):
            """What one request gets."""

            def do_POST(self):
                """Answers."""
                request = self.rfile.read(int(self.headers["Content-Length"]))
                outer.asked.append((self.path, self.headers["Content-Type"], request))
                found = outer.answer(request, self)
                # (who asked may have been killed, or have heard enough)
                with suppress(BrokenPipeError, ConnectionResetError):
                    if found is not None:
                        self.say(*found)

            def say(self, status, fields, body):
                """Answers so."""
                self.send_response(status)
                for name, value in {"Content-Length": str(len(body)), **fields}.items():
                    if value is not None:
                        self.send_header(name, value)
                self.end_headers()
                self.wfile.write(body)

            do_GET = do_POST

            def log_message(self, *_):
                """Nothing."""

        self.answer = self.usual
        self.server = http.server.ThreadingHTTPServer(("127.0.0.1", 0), Handler)
        self.server.daemon_threads = True
        self.address = f"http://127.0.0.1:{self.server.server_address[1]}"
        threading.Thread(target=self.server.serve_forever, daemon=True).start()

    def close(self):
        """Ends it."""
        self.server.shutdown()
        self.server.server_close()
        self.keys.close()

    def config(self, name):
        """The configuration of an authority of this name, which is listed if it is `tsa`."""
        certificate = self.keys.certificate(f"P-256.{name}", "-addext", "extendedKeyUsage=critical,timeStamping")
        text = CONFIG.format(certificate=certificate, key=self.keys.private(f"P-256.{name}"))
        (self.folder / f"{name}.cnf").write_text(text)
        (self.folder / "serial").write_text("01\n")
        if name == "tsa":
            self.list = run_tool("cmsproof-trust", "--tsa", certificate)[1]
        return f"{name}.cnf"

    def reply(self, request, by="tsa"):
        """The answer of `openssl ts`."""
        with self.lock:
            (self.folder / "request").write_bytes(request)
            openssl("ts", "-reply", "-config", self.by[by], "-queryfile", "request", "-out", "response", cwd=self.folder)
            return (self.folder / "response").read_bytes()

    def usual(self, request, _):
        """As it should."""
        return 200, REPLY, self.reply(request)


@unittest.skipUnless(knows_making(), "the program makes no evidence records")
class WithAuthority(unittest.TestCase):
    """An archive in `files`, whose records are to be made in `records`."""

    @classmethod
    def setUpClass(cls):
        cls.authority = Authority()
        cls.addClassCleanup(cls.authority.close)

    def setUp(self):
        self.folder = folder_of(self)
        self.authority.answer, self.authority.asked = self.authority.usual, []
        (self.folder / "list").write_bytes(self.authority.list)
        for name, octets in (("a", b"one"), ("b/c.tif", b"two"), ("b/d", b"three"), ("e", b"")):
            self.put(f"files/{name}", octets)

    def put(self, name, given=b"octets"):
        """Makes a file."""
        path = os.path.join(os.fsencode(self.folder), os.fsencode(name))
        os.makedirs(os.path.dirname(path), exist_ok=True)
        with open(path, "wb") as file:
            file.write(given)

    def take(self, place):
        """Takes all names by which the program writes a record."""
        for number in range(100):
            self.put(f"{place}.new{number}")

    def words(self, *words, trust=("--trust", "list"), folder="files"):
        """The words of a run: these, and those that are not among them."""
        usual = {"--tsa": self.authority.address + "/stamp", "--into": "records", "--state": "state"}
        more = [part for word, value in usual.items() if word not in words for part in (word, value)]
        return ["stamp", folder, *more, "--program", PROGRAM, *trust, *words]

    def stamp(self, *words, **rest):
        """The status of the tool, its lines, and its standard error. No proxy of this machine is used."""
        own = {name: value for name, value in os.environ.items() if not name.lower().endswith("_proxy")}
        rest["env"] = {**own, **rest.get("env", {})}
        how = {key: rest.pop(key) for key in ("trust", "folder") if key in rest}
        status, out, err = run_tool("cmsproof-archive", *self.words(*words, **how), cwd=self.folder, **rest)
        return status, out.decode().splitlines(), err

    def authority_away(self, **rest):
        """A run whose request gets no answer."""
        self.authority.answer = lambda *_: (503, {}, b"")
        self.assertEqual(self.stamp(**rest)[0], 4)

    def checked(self, *words):
        """What is said of all files with their records."""
        words = ["--trust", "list", "--records", "records", "--under", "files", *words, "files"]
        status, out, err = run_tool("cmsproof-archive", *words, cwd=self.folder)
        return status, out.decode().splitlines(), err

    def assert_records(self, count, *words):
        """Each file has a record, and each record shows it."""
        status, lines, err = self.checked(*words)
        self.assertEqual((status, len(lines)), (0, count), err + "\n".join(lines))
        for line in lines:
            self.assertRegex(line, r": evidenced [0-9]{14}Z$")

    def records(self):
        """The names of all records."""
        found = []
        for folder, _, names in os.walk(os.fsencode(self.folder / "records")):
            found += [os.path.relpath(os.path.join(folder, name), os.fsencode(self.folder / "records")) for name in names]
        return sorted(found)

    def assert_nothing_made(self, sent):
        """No record is there, no answer is kept, and so many requests were sent."""
        self.assertEqual((self.records(), len(self.authority.asked)), ([], sent))
        for name in ("response.tsr", "token.tok", "done"):
            self.assertFalse((self.folder / "state" / "1" / name).exists(), name)
