"""Tests of the processes that judge: every item has its result, in the order of the items, whichever worker ends when."""
import os
import signal
import threading
import time
import unittest

import making

making.need_tools()

from cmsproof_tools.workers import GROUP, MOST, ROOM, Workers, each

assert making.INSTALLED.is_dir()  # (it has put the modules on the path)


def task(item):
    """What a worker answers; some items end it, or take long."""
    if item.startswith("end"):
        os.kill(os.getpid(), signal.SIGKILL)
    if item.startswith("slow"):
        time.sleep(0.2)
    return item.upper(), os.getpid()


def lost(item, by):
    """The result of an item at which a worker ended."""
    return f"lost {item} by {by}", 0


def results(items, count):
    """The results without the numbers of the processes."""
    with Workers(count, task) as workers:
        return [text for text, _ in workers.results(items, lost)]


class Handing(unittest.TestCase):
    """Items that are handed out in groups."""

    def test_what_ends_a_worker_is_lost_alone(self):
        many = [f"item {number}" for number in range(700)]
        table = [
            (many, []),
            (many, [0]),
            (many, [699]),
            (many, [5, 6, 7, 100, 350, 351, 698, 699]),
            (many, range(0, 700, 29)),
            (many[:5], [0, 1, 2, 3, 4]),
            (many[:1], [0]),
            ([], []),
            (many[:40], range(40)),
        ]
        for items, ends in table:
            named = [f"end {number}" if number in ends else item for number, item in enumerate(items)]
            expected = [f"lost {item} by 9" if item.startswith("end") else item.upper() for item in named]
            for count in (1, 3):
                self.assertEqual(results(named, count), expected, (len(items), list(ends), count))

    def test_too_few_or_too_many_results(self):
        items = [f"item {number}" for number in range(40)]
        for together in (lambda some: some[1:], lambda some: [*some, "more"]):
            for count in (1, 3):
                with Workers(count, task, together=together) as workers:
                    self.assertEqual(list(workers.results(items, lost)), [(f"lost {item} by 0", 0) for item in items])
        for finish in (lambda done: each(done[1:]), lambda done: [(2, done[0]), *each(done[1:])]):
            with Workers(2, task, finish=finish) as workers:
                self.assertEqual(list(workers.results(items, lost)), [(f"lost {item} by 0", 0) for item in items])

    def test_results_of_several_items(self):
        """Each is of items that follow each other, as many as it says, whoever ends meanwhile."""
        for ends in ([], [0], [5, 6, 400], range(0, 900, 31)):
            items = [f"end {number}" if number in ends else f"item {number}" for number in range(900)]

            def pairs(done):
                texts = [text for text, _ in done]
                return [(len(texts[at : at + 3]), " ".join(texts[at : at + 3])) for at in range(0, len(texts), 3)]

            for count in (1, 3):
                with Workers(count, task, finish=pairs) as workers:
                    several = list(workers.batches(items, lambda item, by: f"LOST-{item[4:]}"))
                found = " ".join(text for batch in several for text in batch).replace("LOST-", "END ")
                self.assertEqual(found, " ".join(items).upper())
                self.assertLessEqual(max(len(" ".join(batch).split()) for batch in several), 2 * MOST)

    def test_slow_ones_and_long_names(self):
        items = [f"{'slow' if number % 97 == 0 else 'item'} {number}" for number in range(400)]
        items[50] = "x" * (40 * ROOM)
        items[51:60] = ["é" * ROOM] * 9
        self.assertEqual(results(items, 3), [item.upper() for item in items])

    def test_workers_that_somebody_ends(self):
        items, ended = [f"slow {number}" if number % 40 == 0 else f"item {number}" for number in range(GROUP * 60)], []
        with Workers(3, task) as workers:

            def end():
                for _ in range(4):
                    time.sleep(0.15)
                    ended.append(workers.running[0].process)
                    os.kill(ended[-1], signal.SIGKILL)

            thread = threading.Thread(target=end)
            thread.start()
            found = [text for text, _ in workers.results(items, lost)]
            thread.join()
        self.assertEqual(len(found), len(items))
        wrong = [text for item, text in zip(items, found) if text not in (item.upper(), f"lost {item} by 9")]
        self.assertEqual(wrong, [])
        # a worker that somebody ends costs the one item that it had alone in hand, at most
        self.assertLessEqual(sum(text.startswith("lost") for text in found), len(ended))


if __name__ == "__main__":
    unittest.main()
