"""What the benchmarks share: where the repository is, and the time that commands take."""
from __future__ import annotations

import statistics
import subprocess
import sys
import time
from pathlib import Path

TOP = Path(__file__).resolve().parent.parent
REAL = TOP / "data" / "real"
# for `oracle` and `samples`, of which the files are made that are timed
sys.path.insert(0, str(TOP / "tools"))


def timed(words, statuses=(0,), output=subprocess.PIPE):
    """The seconds that a command takes, and how it ended: with one of these statuses."""
    start = time.perf_counter()
    done = subprocess.run([str(word) for word in words], stdin=subprocess.DEVNULL, stdout=output, stderr=output)
    seconds = time.perf_counter() - start
    if done.returncode not in statuses:
        said = (done.stderr or done.stdout or b"").decode("utf-8", "replace")[:500]
        sys.exit(f"{' '.join(map(str, words))}: status {done.returncode}: {said}")
    return seconds, done


def medians(commands, runs, statuses=(0,)):
    """The median time of each command; they run in turn, and what they print is not kept."""
    times = [[] for _ in commands]
    for _ in range(runs):
        for taken, words in zip(times, commands):
            taken.append(timed(words, statuses, subprocess.DEVNULL)[0])
    return [statistics.median(taken) for taken in times]
