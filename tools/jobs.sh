#!/bin/sh
# Prints how many checks the gate may run side by side: one for each processor, and at most one for each 4 GiB of memory, since
# the largest check of this repository was seen to take 3.4. Without it `rt ci` goes by an estimate of its own, three times that.
set -eu
memory=$(awk '$1 == "MemAvailable:" { print int($2 / 1024) }' /proc/meminfo)
limit=$(cat /sys/fs/cgroup/memory.max 2> /dev/null || echo max)
[ "$limit" = max ] || [ $((limit / 1048576)) -gt "$memory" ] || memory=$((limit / 1048576))
jobs=$(nproc)
[ "$jobs" -le $((memory / 4096)) ] || jobs=$((memory / 4096))
[ "$jobs" -ge 1 ] || jobs=1
echo "$jobs"
