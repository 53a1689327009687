#!/usr/bin/env python3
"""Times evidence records of very many small files, end to end, by an authority of `openssl ts` on the loopback:

    python3 benchmarks/stamping.py [--files N] [--jobs N] [--folder FOLDER] [--tool FILE]

N files of some 300 octets (20,000 by default), 1,000 in a folder, are made in a new folder (in FOLDER), and then run in turn, each by --jobs
(1 by default) processes: `cmsproof-archive stamp`; that again, which finds nothing to do; `--records`, which checks each file with its
record; `due`, by which all are; and `renew`, by another authority. Each must say so of all files. --tool is the tool that is run, as one
that was installed, whose modules are compiled; by default that of the repository.

Each line has the seconds of the processor, of the user and of the system, of all processes, and the microseconds that is a file; the seconds on
the clock, of which most are waiting: the program has the disk know each record before it has its name; and the most memory, in MB, of the tool,
of one of its workers and of the program.

A million files take 5 GB of a disk, 2,000,000 inodes, and some hours.
"""
from __future__ import annotations

import argparse
import http.server
import os
import resource
import subprocess
import sys
import tempfile
import threading
import time
from pathlib import Path

from timing import TOP

from samples.authority import STAMPING, configure, make_certificate, openssl

TOOL = TOP / "tools" / "installed" / "cmsproof-archive"
IN_FOLDER = 1000
# what is said of each file with its record
EACH = b": evidenced "
# until when the first authority serves by the second list, and when records are due
ENDED, BY = "20300101000000Z", "20310101000000Z"


def make_files(folder, count):
    """The files, each with its number in it."""
    for number in range(count):
        if number % IN_FOLDER == 0:
            below = folder / "files" / f"{number // IN_FOLDER:04}"
            below.mkdir(parents=True)
        (below / f"{number:07}.txt").write_bytes(b"letter %d\n" % number * 24)


def listed(folder, name, last="-"):
    """The line of an authority in a trust list."""
    certificate = openssl(folder, "x509", "-in", f"{name}.pem", "-outform", "DER")
    return f"tsa - {last} {certificate.hex()}\n"


def make_authorities(folder):
    """Two authorities, a list with the first one, and one by which that ends soon."""
    for name, days in (("first", 3650), ("second", 7300)):
        make_certificate(folder, name, STAMPING, days=days)
        configure(folder, f"{name}.cnf", name, more="ess_cert_id_alg = sha256\n")
    (folder / "trust").write_text("cmsproof trust 2\n" + listed(folder, "first"))
    (folder / "ending").write_text("cmsproof trust 2\n" + listed(folder, "first", ENDED) + listed(folder, "second"))


class Answering(http.server.BaseHTTPRequestHandler):
    """Answers as the authority whose name is the path."""

    def do_POST(self):
        """Answers."""
        folder = self.server.folder
        (folder / "request").write_bytes(self.rfile.read(int(self.headers["Content-Length"])))
        openssl(folder, "ts", "-reply", "-config", f"{self.path[1:]}.cnf", "-queryfile", "request", "-out", "response")
        body = (folder / "response").read_bytes()
        self.send_response(200)
        self.send_header("Content-Type", "application/timestamp-reply")
        self.send_header("Content-Length", str(len(body)))
        self.end_headers()
        self.wfile.write(body)

    def log_message(self, *_):
        """Nothing."""


def serving(folder):
    """The address of a server of the authorities."""
    server = http.server.HTTPServer(("127.0.0.1", 0), Answering)
    server.folder = folder
    threading.Thread(target=server.serve_forever, daemon=True).start()
    return f"http://127.0.0.1:{server.server_address[1]}"


def look(process, number, most):
    """Puts the most memory of a process and of those that it started to `most`, by what they are."""
    try:
        status = Path(f"/proc/{number}/status").read_text()
        words = Path(f"/proc/{number}/cmdline").read_bytes().split(b"\0")
        children = Path(f"/proc/{number}/task/{number}/children").read_text().split()
        memory = int(status.split("VmHWM:")[1].split()[0]) // 1024
    except (OSError, IndexError):
        return  # it has ended
    kind = "tool" if number == process.pid else "program" if words[1:2] == [b"evidence"] else "worker"
    most[kind] = max(most.get(kind, 0), memory)
    for child in children:
        look(process, int(child), most)


def timed(folder, tool, count, what, words, statuses, said):
    """Runs the tool, which must end with one of these statuses and say this once, or of each file what is said of one, and prints what it took."""
    before, began, most = resource.getrusage(resource.RUSAGE_CHILDREN), time.perf_counter(), {}
    with open(folder / "said", "wb") as file:
        process = subprocess.Popen([sys.executable, tool, *map(str, words)], cwd=folder, stdout=file, stderr=file)
        while process.poll() is None:
            look(process, process.pid, most)
            time.sleep(0.05)
    clock, after = time.perf_counter() - began, resource.getrusage(resource.RUSAGE_CHILDREN)
    user, system = after.ru_utime - before.ru_utime, after.ru_stime - before.ru_stime
    found = (folder / "said").read_bytes()
    if process.returncode not in statuses or found.count(said) != (count if said == EACH else 1):
        sys.exit(f"{what}: status {process.returncode}: {found[-500:].decode('utf-8', 'replace')}")
    memory = ", ".join(f"{kind} {megabytes}" for kind, megabytes in sorted(most.items()))
    took = f"{user:8.1f} s user {system:8.1f} s system {(user + system) / count * 1e6:7.0f} us a file"
    print(f"{what:12} {took} {clock:9.1f} s on the clock  MB: {memory}  load {os.getloadavg()[0]:.1f}", flush=True)


def time_all(folder, given):
    """Times the runs in turn."""
    count, address, jobs = given.files, serving(folder), ["--jobs", given.jobs]
    asking = ["--program", TOP / "cmsproof", *jobs]
    stamp = [
        "stamp",
        "files",
        "--tsa",
        f"{address}/first",
        "--trust",
        "trust",
        "--into",
        "records",
        "--state",
        "stamped",
        *asking,
    ]
    renew = [
        "renew",
        "--records",
        "records",
        "--tsa",
        f"{address}/second",
        "--trust",
        "ending",
        "--by",
        BY,
        "--state",
        "renewed",
    ]
    check = ["--trust", "trust", "--records", "records", "--under", "files", *jobs, "files"]
    runs = [
        ("stamp", stamp, (0,), b"files: %d records of " % count),
        ("stamp again", stamp, (0,), b"no file is without a record"),
        ("--records", check, (0,), EACH),
        ("due", ["due", "records", "--trust", "ending", "--by", BY, *jobs], (1,), b"%d due by " % count),
        ("renew", [*renew, *asking], (0,), b": %d renewed" % count),
    ]
    for what, words, statuses, said in runs:
        timed(folder, given.tool.resolve(), count, what, words, statuses, said)
        # (a time-stamp must be later than the one before it)
        time.sleep(1.1)


def main():
    """Reads the words and times all."""
    parser = argparse.ArgumentParser()
    parser.add_argument("--files", default=20_000, type=int)
    parser.add_argument("--jobs", default=1, type=int)
    parser.add_argument("--folder")
    parser.add_argument("--tool", default=TOOL, type=Path)
    given = parser.parse_args()
    with tempfile.TemporaryDirectory(dir=given.folder) as temporary:
        folder = Path(temporary)
        make_files(folder, given.files)
        make_authorities(folder)
        time_all(folder, given)


if __name__ == "__main__":
    main()
