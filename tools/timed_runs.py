"""Commands that run until a time, several side by side, and none of which outlives the script that began it."""

import contextlib
import os
import signal
import subprocess
import tempfile
import threading
import time

RUNNING, LOCK = set(), threading.Lock()
STOPPED = threading.Event()


def end_group(running):
    """Ends a command and all that it started."""
    for number in (signal.SIGTERM, signal.SIGKILL):
        with contextlib.suppress(ProcessLookupError):
            os.killpg(running.pid, number)
        with contextlib.suppress(subprocess.TimeoutExpired):
            running.wait(5)


def end_all():
    """Ends every command that runs, and lets no other begin."""
    STOPPED.set()
    with LOCK:
        left = list(RUNNING)
    for running in left:
        end_group(running)


def begin(words, folder, log, surroundings):
    """A command that began in a group of its own, or None where none may."""
    with LOCK:
        if STOPPED.is_set():
            return None
        running = subprocess.Popen(
            words, cwd=folder, stdin=subprocess.DEVNULL, stdout=log, stderr=log, env=surroundings, start_new_session=True
        )
        RUNNING.add(running)
        return running


def run(words, folder, jobs, until):
    """Runs a command: its status and what it prints, or None and nothing if it isn't done at a time."""
    left = None if until is None else max(until - time.monotonic(), 0)
    with tempfile.TemporaryFile() as log:
        running = begin(words, folder, log, dict(os.environ, RT_JOBS=str(jobs)))
        if running is None:
            return None, ""
        try:
            status = running.wait(left)
        except subprocess.TimeoutExpired:
            return None, ""
        finally:
            if running.poll() is None:
                end_group(running)
            with LOCK:
                RUNNING.discard(running)
        log.seek(0)
        return status, log.read().decode(errors="replace")
