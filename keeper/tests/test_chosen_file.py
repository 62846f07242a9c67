"""Which keeper's file counts."""

import os
import pathlib
import tempfile
import unittest
from unittest import mock

from keeper import chosen_file
from keeper.chosen_file import chosen, is_roots
from keeper.errors import REFUSED, Fault

NOBODY = 65534


class Chosen(unittest.TestCase):
    def setUp(self):
        folder = tempfile.TemporaryDirectory()
        self.addCleanup(folder.cleanup)
        self.folder = folder.name
        self.addCleanup(os.chdir, os.getcwd())
        os.chdir(self.folder)
        self.installed = os.path.join(self.folder, "etc.toml")
        patch = mock.patch.object(chosen_file, "INSTALLED", self.installed)
        patch.start()
        self.addCleanup(patch.stop)

    def refused(self) -> str:
        with self.assertRaises(Fault) as caught:
            chosen(None)
        self.assertEqual(caught.exception.status, REFUSED)
        return str(caught.exception)

    def test_none_is_there(self):
        what = "--config names one, and docs/FIRST_EVENING.md writes one"
        said = f"there is no keeper.toml here and no {self.installed}: {what}"
        self.assertEqual(self.refused(), said)
        self.assertEqual(chosen("x.toml"), "x.toml")

    def test_the_folder_before_the_installed_one(self):
        pathlib.Path(self.installed).touch()
        self.assertEqual(chosen(None), self.installed)
        pathlib.Path("keeper.toml").touch()
        with mock.patch("os.geteuid", return_value=1000):
            self.assertEqual(chosen(None), "keeper.toml")

    def test_root_takes_no_file_of_others(self):
        pathlib.Path("keeper.toml").touch()
        with mock.patch("os.geteuid", return_value=0):
            with mock.patch.object(chosen_file, "is_roots", return_value=True):
                self.assertEqual(chosen(None), "keeper.toml")
            with mock.patch.object(chosen_file, "is_roots", return_value=False):
                why = "others than root can change it; root takes it by --config keeper.toml alone"
                self.assertEqual(self.refused(), f"keeper.toml: {why}")
                self.assertEqual(chosen("keeper.toml"), "keeper.toml")
                pathlib.Path(self.installed).touch()
                self.assertEqual(chosen(None), self.installed)

    @unittest.skipUnless(os.geteuid() == 0, "only root can give files away")
    def test_what_is_roots(self):
        inner = os.path.join(self.folder, "inner")
        path = os.path.join(inner, "keeper.toml")
        os.mkdir(inner)
        pathlib.Path(path).touch()
        os.chmod(path, 0o644)
        self.assertTrue(is_roots(path))
        for name, user, group, mode in (
            (path, 0, 0, 0o646), (inner, 0, 0, 0o777), (path, NOBODY, 0, 0o644),
            (inner, NOBODY, 0, 0o755), (path, 0, NOBODY, 0o664),
        ):
            before = os.stat(name).st_mode
            os.chown(name, user, group)
            os.chmod(name, mode)
            self.assertFalse(is_roots(path), (name, user, group, mode))
            os.chown(name, 0, 0)
            os.chmod(name, before)
            self.assertTrue(is_roots(path))
        os.symlink(path, os.path.join(self.folder, "link"))
        self.assertFalse(is_roots(os.path.join(self.folder, "link")))
        os.chmod(inner, 0o1777)  # as /tmp is
        self.assertTrue(is_roots(path))


if __name__ == "__main__":
    unittest.main()
