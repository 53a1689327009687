"""What kept_sums.py keeps of a crate: the same sum and the same list, taken once."""
import sys
import unittest
from pathlib import Path

sys.path.insert(0, str(Path(__file__).resolve().parents[1]))
from kept_sums import keep_lists, keep_sums  # noqa: E402


def kind_of_crates():
    """A type of crates that counts how often it is asked, as the library of `rt` has it."""

    class Crate:
        def __init__(self, folder, *deps):
            self.folder, self.deps, self.asked = folder, deps, 0

        def below(self):
            self.asked += 1
            found = []
            for dep in self.deps:
                found += [it for it in [*dep.below(), dep] if it not in found]
            return found

        def stamp(self):
            self.asked += 1
            return self.folder + "".join(dep.stamp() for dep in self.deps)

    return Crate


def diamonds(kind, count):
    """Crates of which each two next ones stand on both before them: to the lowest, 2 ^ count paths lead from the last."""
    found = [kind("a")]
    for number in range(count):
        left, right = (kind(f"{side}{number}", found[-1]) for side in "lr")
        found += [left, right, kind(f"b{number}", left, right)]
    return found


class Kept(unittest.TestCase):
    def test_lists(self):
        plain = [it.folder for it in diamonds(kind_of_crates(), 6)[-1].below()]
        kind = kind_of_crates()
        keep_lists(kind)
        crates = diamonds(kind, 6)
        self.assertEqual([it.folder for it in crates[-1].below()], plain)
        # who takes an element from the list takes it from no other
        crates[-1].below().clear()
        self.assertEqual([it.folder for it in crates[-1].below()], plain)
        self.assertEqual([it.asked for it in crates], [1] * len(crates))

    def test_sums(self):
        plain = diamonds(kind_of_crates(), 6)[-1].stamp()
        kind = kind_of_crates()
        keep_sums(kind)
        crates = diamonds(kind, 6)
        self.assertEqual(crates[-1].stamp(), plain)
        self.assertEqual([it.asked for it in crates], [1] * len(crates))
        # the next call takes them anew: a file may have changed
        crates[-1].stamp()
        self.assertEqual([it.asked for it in crates], [2] * len(crates))


if __name__ == "__main__":
    unittest.main()
