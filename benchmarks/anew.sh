#!/bin/sh
# Measures anew what docs/BENCHMARKS.md says of the program and the library alone: `sh benchmarks/anew.sh [PROGRAM]`, in some eight
# minutes of a machine on which nothing else runs. Each part prints what its script says, and the seconds that it took. The others of
# that page take longer, or need tools that a machine may lack: `states.py`, `issuing.py`, `pdfs.py`, and `streaming.py PROGRAM 2560`.
set -eu
cd "$(dirname "$0")/.."
program=${1:-./cmsproof} python=${PYTHON:-python3}

part() {
    began=$(date +%s)
    echo "== $*"
    "$python" "$@"
    echo "== $(($(date +%s) - began)) seconds, load $(cut -d ' ' -f 1 /proc/loadavg)"
}

echo "$(git rev-parse --short HEAD 2> /dev/null || echo 'no commit'), $(date -u +%F), $(sed -n 's/^model name[^:]*: //p' /proc/cpuinfo | head -n 1), load $(cut -d ' ' -f 1 /proc/loadavg)"
openssl version
part benchmarks/reading.py "$program"
part benchmarks/hashing.py "$program" sha1 sha256 sha384 sha512
part benchmarks/lists.py "$program"
part benchmarks/streaming.py "$program" 1 512
part benchmarks/library.py --loop 80
part benchmarks/checking.py "$program" 1 300 3000
part benchmarks/stamps.py "$program"
