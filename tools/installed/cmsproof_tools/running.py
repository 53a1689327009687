"""What the tools share: how they read their words, files and texts, and how they end."""
from __future__ import annotations

import argparse
import errno
import gc
import importlib
import os
import re
import stat
import sys
from contextlib import contextmanager, suppress
from functools import lru_cache, wraps
from typing import IO, Any, Callable, Iterable, Iterator, NoReturn, TypeVar, cast

from cmsproof_tools import VERSION, descriptors
from cmsproof_tools.writing import put, written

# the exit statuses, which are those of the program, and that of a run in which all that is not accepted is acknowledged
DONE, REFUSED, MALFORMED, USAGE, FAILED, ACKNOWLEDGED = range(6)
# what a file can count as: `stamped` is a time-stamp alone, `evidenced` an evidence record alone, and `unsigned` is refused since there is no
# signature in it (lines.py)
VERDICTS = ("accepted", "stamped", "evidenced", "unsigned", "refused", "malformed", "failed")
OLDEST_PYTHON = (3, 9)
# the modules that read the words of a tool, where others do its work
READING = {"archive": "archive_words"}
OUTPUT, COMPLAINTS = 1, 2
# how many octets are few enough to be kept
SHORT = 1 << 14
# how the line of a file ends that is not refused
GOOD_END = re.compile(r": ((?:accepted|stamped|evidenced) [0-9.]+Z)\Z")
Function = TypeVar("Function", bound=Callable[..., Any])


class Stop(Exception):
    """Ends a tool with an exit status and one line on standard error."""

    def __init__(self, status: int, line: str) -> None:
        super().__init__(line)
        self.status, self.line = status, line


class Started:
    """What a tool was started with: its open descriptors. And whether a line on standard error was lost."""

    descriptors: frozenset[int] = frozenset()
    lost = False


@lru_cache(maxsize=None)
def columns() -> int:
    """How wide a terminal is: as $COLUMNS says, or standard output. (`shutil`, which knows it too, takes 7 milliseconds to be read.)"""
    with suppress(ValueError):
        if (said := int(os.environ.get("COLUMNS", "0"))) > 0:
            return said
    with suppress(OSError):
        return os.get_terminal_size(OUTPUT).columns or 80
    return 80


class Help(argparse.RawDescriptionHelpFormatter):
    """The form of the help, of which `argparse` makes one for each word that a tool has."""

    def __init__(self, prog: str) -> None:
        super().__init__(prog, width=columns() - 2)


class Once(argparse.Action):
    """What a word says that may be said once, as the program has it: of two values nobody knows which one is meant."""

    def __call__(
        self, parser: argparse.ArgumentParser, namespace: argparse.Namespace, values: Any, option_string: str | None = None
    ) -> None:
        """Takes the value. Ends the tool where there is one already."""
        if getattr(namespace, self.dest) is not self.default:
            parser.error(f"{option_string} is said twice")
        setattr(namespace, self.dest, values)


class Words(argparse.ArgumentParser):
    """The parser of a tool's words: wrong ones give one line and the status of the program."""

    def __init__(self, tool: str, **rest: Any) -> None:
        super().__init__(prog=tool, allow_abbrev=False, formatter_class=Help, **rest)
        self.register("action", "once", Once)
        self.add_argument("--version", action="version", version=f"{tool} {VERSION}")

    def error(self, message: str) -> NoReturn:
        """Ends the tool; `--help` says more."""
        raise Stop(USAGE, f"{message} (see {self.prog} --help)")

    def _print_message(self, message: str, file: IO[str] | None = None) -> None:
        """Writes the help, or the version, as all that a tool writes to standard output: a failure ends it."""
        write("-", message.encode())


def one_line(text: str) -> str:
    """The text with each character that is not printable as an escape, so that it stays one line."""
    if text.isprintable():
        return text
    return "".join(c if c.isprintable() else c.encode("unicode_escape", "surrogatepass").decode("ascii") for c in text)


def shown(name: str) -> str:
    """A name as it is shown: as one line, with its backslashes doubled, so that it can be told from a name that has an escape,
    and with no space behind a colon, so that it has no part of a line that is put behind it."""
    if name.isprintable() and "\\" not in name and ": " not in name:
        return name
    return one_line(name.replace("\\", "\\\\")).replace(": ", ":\\x20")


def shown_apart(name: str, part: str) -> str:
    """A name and a part as they are shown where another name looks like both: with an escape between, and one for a colon before it,
    behind which `shown` puts that escape too."""
    first = shown(name)
    return (first[:-1] + r"\x3a" if first.endswith(":") else first) + r"\x20" + shown(part)


def read(path: str) -> bytes:
    """The octets of a file; `-` is standard input. A descriptor that a path names is one that the tool was started with. Ends the tool where
    standard input, or such a descriptor, was read before: nothing is left of it, and what it should name would be left out."""
    done, number = "open", 0 if path == "-" else descriptors.number_named(path)
    if number in descriptors.EMPTIED or number in descriptors.COPIES:
        raise Stop(USAGE, f"{shown(path) if number else 'standard input'} is named twice, and can be read once")
    try:
        if path == "-":
            done = "read"
            descriptors.EMPTIED.add(0)
            return b"".join(descriptors.pieces_of(0))
        if number not in {None, *Started.descriptors}:
            raise OSError(errno.ENOENT, os.strerror(errno.ENOENT))
        with open(path, "rb") as file:
            done = "read"
            # (a regular file is opened again, and read from its beginning)
            if number is not None and not stat.S_ISREG(os.fstat(file.fileno()).st_mode):
                descriptors.EMPTIED.add(number)
            return file.read()
    except OSError as error:
        raise Stop(FAILED, f"failed {done} {shown(path)}: {error.strerror}") from error


def write(path: str, octets: bytes) -> None:
    """Writes the octets into a file, which is replaced by all of them or stays; `-` is standard output."""
    try:
        if path == "-":
            put(OUTPUT, octets)
        else:
            with written(path, Started.descriptors) as file:
                file.write(octets)
    except OSError as error:
        raise Stop(FAILED, f"failed write {shown(path)}: {error.strerror}") from error


def check_kept(out: str, others: Iterable[str | None]) -> None:
    """Ends the tool where a file that is to be written is one of others, which would be lost; `-` is no file, and a device or a pipe
    loses nothing."""
    try:
        there = os.stat(out)
    except (OSError, ValueError):
        there = None
    if out == "-" or (there is not None and not stat.S_ISREG(there.st_mode)):
        return
    for other in filter(None, others):
        try:
            same = os.path.abspath(out) == os.path.abspath(other) if there is None else os.path.samestat(there, os.stat(other))
        except (OSError, ValueError):
            continue  # (it is not there)
        if same:
            raise Stop(USAGE, f"{shown(out)} would be written over {shown(other)}, which is read")


def tell(tool: str, line: str) -> None:
    """Writes one line to standard error, after the name of the tool. A line that cannot be written costs the status. None ends as that of a
    file that is accepted: a reason can end with words of the file."""
    text = GOOD_END.sub(r":\\x20\1", one_line(line))
    try:
        put(COMPLAINTS, f"{tool}: {text}\n".encode("utf-8", "backslashreplace"))
    except OSError:
        Started.lost = True


def size_of(word: Any) -> int:
    """How many octets, or characters, words have in all."""
    return sum(map(size_of, word)) if isinstance(word, tuple) else len(word)


def kept_if_short(most: int) -> Callable[[Function], Function]:
    """Keeps so many results of a function, of words that are short: whoever made files can have put long octets into each."""

    def keeping(function: Function) -> Function:
        kept: Callable[..., Any] = lru_cache(maxsize=most)(function)
        long: Callable[..., Any] = function

        @wraps(function)
        def called(*words: Any) -> Any:
            return (kept if size_of(words) <= SHORT else long)(*words)

        return cast(Function, called)

    return keeping


@contextmanager
def reading() -> Iterator[None]:
    """A block in which modules are read. What they make stays, and is not looked through for what only cycles hold."""
    was_enabled = gc.isenabled()
    gc.disable()
    try:
        yield
    finally:
        if was_enabled:
            gc.enable()


@lru_cache(maxsize=None)
def module(name: str) -> Any:
    """The module of the tools of this name, which needs Python's library `cryptography`."""
    try:
        with reading():
            return importlib.import_module("cmsproof_tools." + name)
    except ImportError as error:
        missing = f"Python's library `cryptography` is missing for {sys.executable} ({error})"
        raise Stop(FAILED, f"{missing}: install Debian's python3-cryptography") from error


def check_names(words: list[str]) -> None:
    """Ends the tool where one of its words is the name of a file too, as one that a shell puts in the place of `*`: whoever named the
    file would say whom to trust, or have other names read from standard input."""
    if "-" in words and os.path.lexists("-"):
        raise Stop(USAGE, "- is the name of a file, and means standard input or output: write ./- or work in another folder")
    if words.count("--") == 1 and os.path.lexists("--"):
        raise Stop(USAGE, "-- is the name of a file, and ends the options: write ./-- or work in another folder")
    for word in words[: words.index("--")] if "--" in words else words:
        if word.startswith("-") and os.path.lexists(word):
            raise Stop(USAGE, f"{shown(word)} is the name of a file: write ./ before it, or -- before all names")


def ended(tool: str, command: str) -> int:
    """Runs the tool and answers its exit status, once each fault that ends it was told in one line."""
    try:
        if sys.version_info < OLDEST_PYTHON:
            raise Stop(FAILED, "Python is too old: version {}.{} or a later one is needed".format(*OLDEST_PYTHON))
        check_names(sys.argv[1:])
        with reading():
            words = importlib.import_module("cmsproof_tools." + READING.get(command, command))
        return cast(int, words.main(tool, sys.argv[1:]))
    except Stop as stop:
        tell(tool, stop.line)
        return stop.status
    except MemoryError:
        tell(tool, "failed memory")
    except KeyboardInterrupt:
        tell(tool, "interrupted")
    except Exception as error:  # a fault of the tool itself: 1, Python's own status for it, says that a file is refused
        tell(tool, f"failed {command}: {type(error).__name__}: {error}")
    return FAILED


def start(command: str) -> NoReturn:
    """Runs the tool of this name, `verify` for cmsproof-verify, and ends the process."""
    try:
        Started.descriptors = descriptors.inherited()
    except OSError:
        pass  # without /proc no descriptor has a name
    descriptors.stand()
    status = ended("cmsproof-" + command, command)
    end(FAILED if Started.lost else status)


def end(status: int) -> NoReturn:
    """Ends the process. Its modules are left as they are: to take them apart takes a fifth of a short run. All that is written is written by
    then, and what is open is closed; only who has other threads, as Dask, ends them."""
    threads = sys.modules.get("threading")
    if threads is None or threads.active_count() == 1:
        with suppress(Exception):
            sys.stdout.flush()
            sys.stderr.flush()
        os._exit(status)
    sys.exit(status)
