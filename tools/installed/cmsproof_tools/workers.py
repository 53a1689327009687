"""Workers: processes that do a task for one item after another. They end with the process that started them, and what they
started ends with them."""
from __future__ import annotations

import ctypes
import gc
import os
import pickle
import select
import signal
import socket
import time
from collections import deque
from itertools import islice
from typing import Any, Callable, Iterator, Sequence, Union

# prctl(2): the signal that a process gets when the one that started it has ended
PR_SET_PDEATHSIG = 1
LIBRARY = ctypes.CDLL(None, use_errno=True)
# how many items a worker is handed at a time where there are many, and of how many characters; after how many seconds it says what
# it has done of them. Two such groups fit into a pipe, so that nobody waits who should read.
GROUP, ROOM, OFTEN = 128, 8192, 0.05
# how many of them the task is done for in turn at first: few, since what is done waits for all of them; and how many seconds are so few
# that it is done for more of them
TOGETHER, QUICK = 16, 0.02
# of how many items results are given on at a time, and for how many the task is done in turn at most
MOST = 64
# how many octets are read at a time
PIECE = 1 << 20
PROTOCOL = pickle.HIGHEST_PROTOCOL
# results in the order of their items: of how many each is, and it
Results = list[tuple[int, Any]]
# how many octets say how long a message is
LENGTH = 8


class Connection:
    """An end of a pair by which two processes talk: what one sends the other receives whole. (That of `multiprocessing` takes 8
    milliseconds to be imported.)"""

    def __init__(self, end: socket.socket) -> None:
        self.end, self.fileno, self.close = end, end.fileno, end.close

    def send(self, message: object) -> None:
        """Sends a message. Raises OSError where the other process has ended."""
        octets = pickle.dumps(message, PROTOCOL)
        self.end.sendall(len(octets).to_bytes(LENGTH, "big") + octets)

    def receive(self) -> Any:
        """The next message. Raises EOFError or OSError where the other process has ended before the end of it."""
        return pickle.loads(self.octets(int.from_bytes(self.octets(LENGTH), "big")))

    def octets(self, count: int) -> bytes:
        """So many octets."""
        pieces = []
        while count > 0:
            pieces.append(self.end.recv(min(count, PIECE)))
            if not pieces[-1]:
                raise EOFError
            count -= len(pieces[-1])
        return b"".join(pieces)


def end_group(*_: object) -> None:
    """Ends this process and all that it started: it leads a group of processes, and they are in it."""
    os.killpg(0, signal.SIGKILL)


def bind(parent: int) -> None:
    """Makes this process the first of a group that ends when its parent does."""
    os.setpgid(0, 0)
    signal.signal(signal.SIGINT, signal.SIG_IGN)
    signal.signal(signal.SIGTERM, end_group)
    LIBRARY.prctl(PR_SET_PDEATHSIG, signal.SIGTERM, 0, 0, 0)
    if os.getppid() != parent:
        end_group()


def each(done: list[Any]) -> Results:
    """A result for each item."""
    return [(1, one) for one in done]


def check_count(found: int, items: list[Any]) -> None:
    """Raises EOFError unless there are as many results as items: none is taken for another's."""
    if found != len(items):
        raise EOFError


def serve(connection: Connection, task: Callable[[list[Any]], list[Any]], finish: Callable[[list[Any]], Results]) -> None:
    """Does the task for the items that come, for some in turn, in their order, until no more can come. What is sent is the results that
    are there then, as `finish` makes them. It ends where these are not as many as the items."""

    def send(done: list[Any]) -> None:
        results = finish(done)
        check_count(sum(count for count, _ in results), done)
        connection.send(results)

    size = TOGETHER
    try:
        while True:
            items, done, at, begun = connection.receive(), list[Any](), 0, time.monotonic()
            next_time = begun + OFTEN
            while at < len(items):
                some = items[at : at + size]
                found = task(some)
                check_count(len(found), some)
                done += found
                at, was, begun = at + size, begun, time.monotonic()
                size = min(2 * size, MOST) if begun - was < QUICK else TOGETHER
                if begun >= next_time:
                    send(done)
                    done, next_time = [], begun + OFTEN
            if done:
                send(done)
    except (EOFError, BrokenPipeError, ConnectionResetError):
        pass


class Worker:
    """A worker, how it is talked to, the numbers of the items that it has in hand, in their order, and whether none may be behind."""

    def __init__(
        self, task: Callable[[list[Any]], list[Any]], finish: Callable[[list[Any]], Results], others: list[Worker]
    ) -> None:
        self.connection, there = map(Connection, socket.socketpair())
        self.numbers: deque[int] = deque()
        self.alone = False
        parent = os.getpid()
        self.process = os.fork()
        if self.process == 0:
            try:
                for end in (self, *others):
                    end.connection.close()
                bind(parent)
                serve(there, task, finish)
            finally:
                os._exit(0)
        there.close()
        try:
            os.setpgid(self.process, self.process)
        except OSError:
            pass  # it did so itself, or has ended

    def give(self, numbers: Sequence[int], items: Sequence[Any]) -> None:
        """Hands it items, behind those that it has in hand."""
        self.numbers.extend(numbers)
        try:
            self.connection.send(items)
        except OSError:
            pass  # it has ended, which is seen when its results are asked for

    def results(self) -> Iterator[tuple[int, int, Any]]:
        """Of some items that were in hand, which follow each other, the number of the first one, how many they are, and their result. Raises
        EOFError where the worker has ended."""
        try:
            results = self.connection.receive()
        except (OSError, pickle.UnpicklingError) as error:
            raise EOFError from error
        total = sum(count for count, _ in results)
        numbers = list(islice(self.numbers, total))
        if not numbers or numbers != list(range(numbers[0], numbers[0] + total)):
            raise EOFError
        for count, result in results:
            yield self.numbers[0], count, result
            for _ in range(count):
                self.numbers.popleft()

    def end(self) -> int:
        """Ends it and all that it started, and answers the signal by which it had ended, or 0."""
        try:
            os.killpg(self.process, signal.SIGKILL)
        except ProcessLookupError:
            os.kill(self.process, signal.SIGKILL)
        _, status = os.waitpid(self.process, 0)
        self.connection.close()
        return os.WTERMSIG(status) if os.WIFSIGNALED(status) else 0


class Items:
    """The items that are still to be handed out: those at which a worker ended, which then are handed out one by one, and all others,
    in groups while they are many: so all workers end at about the same time."""

    def __init__(self, items: Sequence[Any], workers: int) -> None:
        self.items, self.next, self.again, self.workers = items, 0, deque[int](), max(workers, 1)

    def for_one(self, worker: Worker) -> range:
        """The numbers of the items that this worker is to get now; none if it has enough in hand. What is handed out once more is
        alone in its hand, so that it is known at which item it ends."""
        size = max(1, min(GROUP, (len(self.items) - self.next) // (8 * self.workers)))
        if worker.numbers and (size == 1 or self.again or worker.alone or len(worker.numbers) > size):
            return range(0)
        worker.alone = bool(self.again)
        if self.again:
            number = self.again.popleft()
            return range(number, number + 1)
        first, room = self.next, ROOM
        some = self.items[first : first + size]
        if (length := sum(map(len, some))) <= ROOM:
            self.next, room = first + len(some), ROOM - length
        while self.next < min(first + size, len(self.items)) and room > 0:
            room -= len(self.items[self.next])
            self.next += 1
        # (behind others only what is sure to fit)
        if room < 0 and worker.numbers:
            self.next = first
        return range(first, self.next)


class Workers:
    """Some workers, which have ended when the block that they are made for is left."""

    def __init__(
        self,
        count: int,
        task: Callable[[Any], Any],
        finish: Callable[[list[Any]], Results] = each,
        together: Union[Callable[[list[Any]], list[Any]], None] = None,
    ) -> None:
        """So many that do a task for an item, or for some of them `together`."""
        self.running: list[Worker] = []
        self.poll = select.poll()
        self.task = together or (lambda items: [task(item) for item in items])
        self.finish, self.count = finish, count

    def __enter__(self) -> Workers:
        # (what is there by now is shared, and not looked through again)
        gc.freeze()
        try:
            for _ in range(self.count):
                self.start()
        except BaseException:
            self.__exit__()
            raise
        return self

    def __exit__(self, *_: object) -> None:
        while self.running:
            self.running.pop().end()
        # (what only cycles hold would stay for ever: who reads many files apart is here once for each)
        gc.unfreeze()

    def start(self) -> Worker:
        """Starts one more."""
        self.running.append(Worker(self.task, self.finish, self.running))
        self.poll.register(self.running[-1].connection.fileno(), select.POLLIN)
        return self.running[-1]

    def replaced(self, worker: Worker) -> int:
        """Puts another worker into the place of one that has ended, and answers the signal by which it ended."""
        self.running.remove(worker)
        self.poll.unregister(worker.connection.fileno())
        by = worker.end()
        self.start()
        return by

    def give(self, rest: Items) -> None:
        """Hands items to those that have too few."""
        for worker in self.running:
            if numbers := rest.for_one(worker):
                worker.give(numbers, rest.items[numbers.start : numbers.stop])

    def ready(self) -> list[Worker]:
        """Those that have said something, or have ended, once there is one."""
        said = {descriptor for descriptor, _ in self.poll.poll()}
        return [worker for worker in self.running if worker.connection.fileno() in said]

    def results(self, items: Sequence[Any], lost: Callable[[Any, int], Any]) -> Iterator[Any]:
        """As `batches`, one result after the other."""
        for several in self.batches(items, lost):
            yield from several

    def batches(self, items: Sequence[Any], lost: Callable[[Any, int], Any]) -> Iterator[list[Any]]:
        """The results of all items, in the order of the items, of as many at a time as are there; `lost(item, signal)` of one that a
        worker had alone in hand when it ended. Where it had more, another gets them, one by one."""
        rest, done, due = Items(items, self.count), dict[int, tuple[int, Any]](), 0
        self.give(rest)
        while any(worker.numbers for worker in self.running):
            for worker in self.ready():
                try:
                    for number, count, result in worker.results():
                        done[number] = count, result
                except EOFError:
                    by = self.replaced(worker)
                    if len(worker.numbers) == 1:
                        done[worker.numbers[0]] = 1, lost(items[worker.numbers[0]], by)
                    else:
                        rest.again.extend(worker.numbers)
            self.give(rest)
            while due in done:
                first, several = due, list[Any]()
                while due in done and (not several or due + done[due][0] <= first + MOST):
                    count, result = done.pop(due)
                    several.append(result)
                    due += count
                yield several


def signal_at(task: Callable[[], object]) -> int:
    """The signal by which a process ends that does this task, one of its own, or 0 if it comes to the end of it."""

    def tried(_: str) -> int:
        try:
            task()
        except Exception:
            pass  # which whoever does the task again gets
        return 0

    with Workers(1, tried) as workers:
        (by,) = workers.results([""], lambda _, by: by)
    return int(by)
