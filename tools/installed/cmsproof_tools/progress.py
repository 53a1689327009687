"""How far a run is: a line on a terminal, or from time to time; what was found at its end; and a log."""
from __future__ import annotations

import os
import time
from collections import Counter

from cmsproof_tools.running import COMPLAINTS, FAILED, Started, Stop, shown, tell
from cmsproof_tools.writing import add

# after how many seconds a line is written, on a terminal and elsewhere, and after how many files one of the log
OFTEN, SELDOM, LOGGED = 0.2, 10.0, 1000


def duration(seconds: float) -> str:
    """How long, for a reader."""
    minutes = round(seconds / 60)
    if minutes < 1:
        return f"{seconds:.0f} s"
    return f"{minutes} min" if minutes < 120 else f"{minutes // 60} h {minutes % 60} min"


class Progress:
    """What is said of a run while it goes on.

    asked  whether it is said elsewhere than on a terminal too; total is how many files are to be judged, kept counts those that
           need not be, by their verdicts
    """

    def __init__(
        self, tool: str, total: int, asked: bool = False, log: str | None = None, kept: Counter[str] | None = None
    ) -> None:
        self.tool, self.total, self.done, self.log, self.kept = tool, total, 0, log, kept
        self.counts: Counter[str] = Counter()
        self.begun = self.next = time.monotonic()
        terminal = os.isatty(COMPLAINTS)
        self.shown = terminal and (total > 1 or asked)
        self.lines, self.ends = asked and not terminal, asked or log is not None or kept is not None
        if log is not None:
            self.write_log(b"")

    def write_log(self, octets: bytes) -> None:
        """Writes to the log. Raises Stop, with a line, if it cannot be written."""
        try:
            add(self.log or "", Started.descriptors, octets)
        except OSError as error:
            raise Stop(FAILED, f"failed write {shown(self.log or '')}: {error.strerror}") from error

    def put(self, text: str, end: str = "") -> None:
        """Puts a text in the place of the line on a terminal."""
        if self.shown:
            try:
                os.write(COMPLAINTS, f"\r\033[K{text}{end}".encode())
            except OSError:
                self.shown = False

    def rate(self) -> float:
        """How many files a second were judged."""
        return self.done / max(time.monotonic() - self.begun, 1e-6)

    def text(self) -> str:
        """How far it is."""
        left = (self.total - self.done) / max(self.rate(), 1e-6)
        return f"{self.done} of {self.total} files, {self.rate():.0f} a second, {duration(left)} left"

    def steps(self, verdicts: list[str]) -> None:
        """So many more files are done, with these verdicts."""
        if self.shown or self.lines or self.log is not None:
            for verdict in verdicts:
                self.step(verdict)
        else:
            self.done += len(verdicts)
            self.counts.update(verdicts)

    def step(self, verdict: str) -> None:
        """One more file is done, with this verdict."""
        self.done += 1
        self.counts[verdict] += 1
        if time.monotonic() >= self.next:
            self.put(self.text())
            if self.lines and self.done > 1:
                tell(self.tool, self.text())
            self.next = time.monotonic() + (SELDOM if self.lines else OFTEN)
        if self.log is not None and self.done % LOGGED == 0:
            self.write_line()

    def write_line(self) -> None:
        """A line of the log."""
        import json

        from cmsproof_tools.rows import time_text

        seconds = round(time.monotonic() - self.begun, 3)
        said = {"time": time_text(int(time.time())), "done": self.done, "of": self.total, "seconds": seconds, **self.counts}
        self.write_log(json.dumps(said).encode() + b"\n")

    def end(self, more: str = "") -> None:
        """Says what was found, and more behind it."""
        text = f"{self.done} of {self.total} files: {counted(self.counts)}" if self.total else "0 files"
        if self.kept:
            text += f"; {sum(self.kept.values())} are as before: {counted(self.kept)}"
        text += more
        if self.log is not None and (self.done % LOGGED or not self.done):
            self.write_line()
        if self.shown:
            self.put(text, "\n")
        elif self.ends:
            tell(self.tool, text)


def counted(counts: Counter[str]) -> str:
    """How many of each verdict there are."""
    return ", ".join(f"{count} {word}" for word, count in sorted(counts.items()))
