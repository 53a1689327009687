"""Tests of the walk through a folder: in order, and never out of it, also where somebody changes it meanwhile."""
import os
import resource
import unittest
from unittest import mock

from making import folder_of, need_tools

need_tools()

from cmsproof_tools import folders


class Walking(unittest.TestCase):
    """A folder `top` with files and folders, and a file `outside/secret`, which is not in it."""

    def setUp(self):
        self.folder = folder_of(self)
        self.top, self.outside = str(self.folder / "top"), self.folder / "outside"
        for name in ("top/a", "top/a.b", "top/b/c/d", "top/b/e", "top/z", "outside/secret", "outside/c/secret"):
            (self.folder / name).parent.mkdir(parents=True, exist_ok=True)
            (self.folder / name).write_bytes(b"")

    def found(self, folder=None):
        """The names, and what is said of others, without the folder; no descriptor is left open."""
        told, before = [], os.listdir("/proc/self/fd")
        names = list(folders.files_under(folder or self.top, lambda name, kind: told.append((name, kind))))
        self.assertEqual(os.listdir("/proc/self/fd"), before)
        cut = len(self.top) + 1
        return [name[cut:] for name in names], [(name[cut:], kind) for name, kind in told]

    def swap(self, name, link):
        """Puts a link into the place of a folder, which gets another name."""
        path = os.path.join(self.top, name)
        os.rename(path, path + ".was")
        os.symlink(link, path)

    def test_the_order_and_what_is_skipped(self):
        os.symlink("../outside", os.path.join(self.top, "link")), os.mkfifo(os.path.join(self.top, "y"))
        self.assertEqual(self.found(), (["a", "a.b", "b/c/d", "b/e", "z"], [("link", "a link"), ("y", "no regular file")]))
        # the folder that the user names may be a link
        (self.folder / "pot").symlink_to("top")
        self.assertEqual(self.found(str(self.folder / "pot"))[0], ["a", "a.b", "b/c/d", "b/e", "z"])
        self.assertEqual(list(folders.files_under("none", print)), ["none"])

    def swapped_before(self, name, swapped):
        """What is found if a folder becomes a link before the folder of a name is opened."""
        opening = os.open

        def swapping(path, ways, **rest):
            if path == name and not os.path.islink(os.path.join(self.top, swapped)):
                self.swap(swapped, self.outside)
            return opening(path, ways, **rest)

        with mock.patch.object(folders.os, "open", swapping):
            return self.found()

    def test_a_folder_becomes_a_link_before_it_is_opened(self):
        self.assertEqual(self.swapped_before("b", "b"), (["a", "a.b", "z"], [("b", "no folder any more")]))

    def test_a_folder_becomes_a_link_while_it_is_open(self):
        """Its names are those of the folder that was opened, and not of where the link leads."""
        self.assertEqual(self.swapped_before("c", "b"), (["a", "a.b", "b/c/d", "b/e", "z"], []))

    def test_a_folder_that_is_too_deep(self):
        """It is given itself where no more can be open, so that it has a line."""
        at = self.top
        for _ in range(80):
            at = os.path.join(at, "d")
            os.mkdir(at)
        limits = resource.getrlimit(resource.RLIMIT_NOFILE)
        resource.setrlimit(resource.RLIMIT_NOFILE, (64, limits[1]))
        try:
            names, told = self.found()
        finally:
            resource.setrlimit(resource.RLIMIT_NOFILE, limits)
        deep = [name for name in names if name.startswith("d/")]
        self.assertEqual((len(deep), set(deep[0]), told), (1, {"d", "/"}, []))
        self.assertEqual([name for name in names if name not in deep], ["a", "a.b", "b/c/d", "b/e", "z"])


if __name__ == "__main__":
    unittest.main()
