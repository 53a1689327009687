"""Work for many names that the workers of Dask do: names are handed out in parts, and answers come back in their order. Workers see the files under
the same names, and are believed as this machine is: nothing counts that one of another version says, or that is said of other names."""
from __future__ import annotations

import hashlib
import math
import pickle
import time
from collections import deque
from itertools import chain
from typing import Any, Callable, Iterator, NamedTuple, Sequence

from cmsproof_tools.running import FAILED, Stop, shown, tell
from cmsproof_tools.versions import versions_told
from cmsproof_tools.workers import PROTOCOL

# how many files are handed out at a time, at least and at most, of how many characters, and for how many seconds: each part takes Dask as
# long as a hundred short files. Which share of that the last parts have at least, and after how many seconds a worker answers in any case.
LEAST, LARGEST, ROOM, LONG, SHARE, LONGEST = 50, 4000, 250_000, 1.0, 8, 10.0
# how many parts are handed out for each worker, and how many seconds without one are waited
AHEAD, WAITED = 4, 60.0


class Part(NamedTuple):
    """What a worker says of some files: by which list and versions, what it says, and how many seconds it took."""

    trust: str
    versions: str
    said: Sequence[Any]
    seconds: float = 0.0

    @property
    def outcomes(self) -> list[Any]:
        """The outcomes of each file of which no lines are told."""
        return [one for one in self.said if isinstance(one, list)]

    def is_by(self, terms: Any) -> bool:
        """Whether it is by the list and the versions of these terms."""
        return (self.trust, self.versions) == (terms.trust, terms.versions)


class Several(NamedTuple):
    """What is said of files that follow each other, of each one, and the SHA-256 of their names."""

    names: bytes
    said: list[Any]


def sum_of(names: Sequence[str]) -> bytes:
    """The SHA-256 of some names."""
    return hashlib.sha256("\0".join(names).encode("utf-8", "surrogatepass")).digest()


class Task:
    """What workers are to do: a function of packed names, of octets that each of them gets once, of terms, which say by which list and versions,
    and of what goes with these names. And which answers are one."""

    def __init__(self, function: Callable[..., Part], shared: bytes, terms: Any) -> None:
        self.function, self.shared, self.terms = function, shared, terms

    def beside(self, names: list[str]) -> Any:
        """What goes with these names, which are handed out now."""
        return None

    def lost(self, name: str) -> Any:
        """What is said of a file that ends workers."""
        raise NotImplementedError

    def fitting(self, part: Any, names: list[str]) -> int:
        """Of how many of these names, from the first on, a worker's answer is one; 0 if it is none."""
        raise NotImplementedError


def said_by(packed: bytes, shared: bytes, terms: Any, beside: bytes) -> Part:
    """What the task of some terms says of each of these names, as many as there is time for. (Names are one string of octets: Dask looks at each
    item of a list, in each process.) Nothing is said by another list or version than the terms say."""
    trust, versions, begun = hashlib.sha256(shared).hexdigest(), versions_told(), time.monotonic()
    if (trust, versions) != (terms.trust, terms.versions):
        return Part(trust, versions, [])
    names, said = pickle.loads(packed), list[Any]()
    with terms.task(shared, pickle.loads(beside)) as task:
        for name in names:
            said.append(task(name))
            if time.monotonic() - begun > LONGEST:
                break
    return Part(trust, versions, [Several(sum_of(names[: len(said)]), said)], time.monotonic() - begun)


class Each(Task):
    """A task that says something of each name by itself."""

    def __init__(
        self,
        shared: bytes,
        terms: Any,
        lost: Callable[[str], Any],
        beside: Callable[[list[str]], Any] = lambda _: None,
    ) -> None:
        super().__init__(said_by, shared, terms)
        self.lost_of, self.beside_of = lost, beside

    def beside(self, names: list[str]) -> bytes:
        return pickle.dumps(self.beside_of(names), PROTOCOL)

    def lost(self, name: str) -> Several:
        return Several(sum_of([name]), [self.lost_of(name)])

    def fitting(self, part: Any, names: list[str]) -> int:
        if not isinstance(part, Part) or not part.is_by(self.terms) or len(part.said) != 1:
            return 0
        (several,) = part.said
        if not isinstance(several, Several) or not isinstance(several.said, list):
            return 0
        count = len(several.said)
        is_of_names = count <= len(names) and several.names == sum_of(names[:count])
        return count if is_of_names and all(map(self.terms.is_said, several.said)) else 0


def client_of(address: str) -> Any:
    """The engine at an address. Raises Stop, with a line, if Dask is missing or does not answer."""
    try:
        from distributed import Client as client
    except ImportError as error:
        raise Stop(FAILED, f"Dask is missing ({error}): install Debian's python3-distributed, and run its Python") from error
    try:
        # (one that is not made, as by an address without a port, would wait for ever in its own `__del__`; each other one is closed)
        found: Any = type("Client", (client,), {"__del__": lambda _: None})
        return found(address, timeout=20, set_as_default=False)
    except (OSError, ValueError, TypeError, TimeoutError) as error:
        raise Stop(FAILED, f"failed open {shown(address)}: no scheduler of Dask answers: {error}") from error


class Cluster:
    """The workers of Dask that do a task."""

    def __init__(self, tool: str, address: str, task: Task) -> None:
        self.tool, self.task, self.client = tool, task, client_of(address)
        self.refused: set[str] = set()
        self.workers: list[str] = []
        self.shared: Any = None
        # how many files a worker judges in LONG, as far as is known; whether no worker was missed since they were found
        self.size, self.are_there = 2 * LEAST, False

    def __enter__(self) -> Cluster:
        return self

    def __exit__(self, *_: object) -> None:
        self.client.close(timeout=10)

    def refuse(self, worker: str, why: str) -> None:
        """Lets a worker judge nothing, and says so once."""
        if worker not in self.refused:
            self.refused.add(worker)
            tell(self.tool, f"the worker {shown(worker)} is refused: {why}")

    def find(self) -> None:
        """Finds the workers of these versions, and sends them what they share, once each. Raises Stop if for long there is none."""
        end, expected = time.monotonic() + WAITED, self.task.terms.versions
        while True:
            there = [worker for worker in self.client.scheduler_info()["workers"] if worker not in self.refused]
            said = self.client.run(versions_told, workers=there, on_error="return") if there else {}
            for worker, versions in said.items():
                if versions != expected:
                    self.refuse(worker, f"it has {shown(str(versions)[:300])}, and this is {expected}")
            self.workers = [worker for worker in said if worker not in self.refused]
            if self.workers:
                self.shared = self.client.scatter(self.task.shared, broadcast=True, workers=self.workers, hash=False)
                self.are_there = True
                return
            if time.monotonic() > end or (there == [] and self.refused):
                raise Stop(FAILED, "failed worker: no worker of Dask judges by this version")
            time.sleep(0.5)

    def give(self, names: list[str]) -> Any:
        """Hands out some names."""
        words = pickle.dumps(names, PROTOCOL), self.shared, self.task.terms, self.task.beside(names)
        return self.client.submit(self.task.function, *words, workers=self.workers, pure=False)

    def result(self, future: Any, names: list[str]) -> Iterator[Any]:
        """What is said of these names: by other workers, if the first one was killed or is refused, or left some."""
        while True:
            try:
                part = future.result(timeout=2)
            except KeyboardInterrupt:
                raise
            except BaseException as error:  # of the engine, or a worker's, by whose SystemExit this process would end
                # (a worker can raise this too, as where a file system does not answer it, and would do so for ever)
                is_late = type(error).__name__ == "TimeoutError" and future.status != "error"
                if is_late and set(self.workers) & set(self.client.scheduler_info()["workers"]):
                    continue
                self.client.cancel([future])
                self.are_there = False
                if not is_late and len(names) == 1:
                    return iter([self.task.lost(names[0])])
                return self.again(names, LARGEST if is_late else 1)
            if count := self.fitting(part, names):
                self.size = int(min(max(count * LONG / max(part.seconds, 1e-3), 1), LARGEST))
                return chain(part.said, chain.from_iterable(self.parts(names[count:])))
            is_by_others = isinstance(part, Part) and not part.is_by(self.task.terms)
            self.refuse_holders(future, "judges by another list or version" if is_by_others else "answers what nobody asked")
            return self.again(names, LARGEST)

    def fitting(self, part: Any, names: list[str]) -> int:
        """Of how many of these names a worker's answer is one; 0 if it is none, as where it is of another form than the task looks for."""
        try:
            count = self.task.fitting(part, names)
            return count if isinstance(part.seconds, float) and 0 <= part.seconds < math.inf else 0
        except Exception:  # whatever is in the place of what is looked for
            return 0

    def refuse_holders(self, future: Any, why: str) -> None:
        """Refuses the workers that have this answer. Raises Stop if there is none."""
        holders = self.client.who_has([future]).get(future.key, ())
        if not holders:
            raise Stop(FAILED, f"failed worker: one of Dask {why}, and cannot be found any more")
        for worker in holders:
            self.refuse(worker, f"it {why}")
        self.are_there = False

    def again(self, names: list[str], size: int) -> Iterator[Any]:
        """What is said of these names, of which so many at a time are handed out once more, to the workers that are there then."""
        for at in range(0, len(names), size):
            if not self.are_there:
                self.find()
            part = names[at : at + size]
            yield from self.result(self.give(part), part)

    def due(self, names: Sequence[str], at: int) -> list[str]:
        """The names that are handed out next, from this place on. The last parts are small, so that all workers end at about the same time."""
        size = max(LEAST, self.size // SHARE, (len(names) - at) // (2 * len(self.workers)))
        part = list(names[at : at + min(self.size, size)])
        while len(part) > 1 and sum(map(len, part)) > ROOM:
            part = part[: len(part) // 2]
        return part

    def parts(self, names: Sequence[str]) -> Iterator[Iterator[Any]]:
        """What is said of each file, of a part at a time."""
        given: deque[tuple[Any, list[str]]] = deque()
        at = 0
        while at < len(names):
            part = self.due(names, at)
            given.append((self.give(part), part))
            at += len(part)
            if len(given) >= AHEAD * len(self.workers):
                yield self.result(*given.popleft())
        while given:
            yield self.result(*given.popleft())

    def said(self, names: Sequence[str]) -> Iterator[Iterator[Any]]:
        """What is said of all names, in their order, of a part at a time."""
        self.find()
        yield from self.parts(names)

    def batches(self, names: Sequence[str]) -> Iterator[list[Any]]:
        """What is said of each name, in their order, of some at a time, by a task that says something of each."""
        for said in self.said(names):
            yield from (several.said for several in said)
