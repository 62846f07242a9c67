"""One keeper for a state folder, and nobody else who could keep it from starting."""

import errno
import fcntl
import os
import stat
import tempfile
import unittest
from unittest import mock

from keeper import lock
from keeper.supervisor.host import Host
from keeper.errors import Fault


class Locks(unittest.TestCase):
    def setUp(self):
        folder = tempfile.TemporaryDirectory()
        self.addCleanup(folder.cleanup)
        self.folder, self.host = os.path.join(folder.name, "state"), Host()
        os.mkdir(self.folder)

    def test_one_at_a_time(self):
        first = lock.take(self.host, self.folder)
        with self.assertRaisesRegex(Fault, f"^another keeper has {self.folder}$"):
            lock.take(self.host, self.folder)
        self.assertTrue(lock.is_taken(self.folder))
        os.close(first)
        self.assertFalse(lock.is_taken(self.folder))
        os.close(lock.take(self.host, self.folder))

    def test_a_lock_that_any_user_may_hold_is_none(self):
        """The folder can be read by everyone, and so be locked; the file in it can't be opened."""
        stranger = os.open(self.folder, os.O_RDONLY)
        self.addCleanup(os.close, stranger)
        fcntl.flock(stranger, fcntl.LOCK_SH)
        self.addCleanup(os.close, lock.take(self.host, self.folder))
        self.assertEqual(stat.S_IMODE(os.stat(os.path.join(self.folder, lock.NAME)).st_mode), 0o600)

    def test_another_files_lock_in_the_hosts_list_is_none(self):
        """Its inode may end with the digits of ours."""
        os.close(lock.take(self.host, self.folder))
        inode = os.stat(os.path.join(self.folder, lock.NAME)).st_ino
        for words, due in ((f"FLOCK ADVISORY WRITE 7 fe:01:{inode} 0 EOF", True),
                           (f"FLOCK ADVISORY WRITE 7 fe:01:1{inode} 0 EOF", False),
                           (f"POSIX ADVISORY WRITE 7 fe:01:{inode} 0 EOF", False)):
            listed = mock.mock_open(read_data=f"1: {words}\n2: -> short\n")
            with mock.patch("builtins.open", listed):
                self.assertEqual(lock.is_taken(self.folder), due, words)

    def test_a_lock_that_others_may_share_is_no_keepers(self):
        os.close(lock.take(self.host, self.folder))
        looks = os.open(os.path.join(self.folder, lock.NAME), os.O_RDONLY)
        self.addCleanup(os.close, looks)
        fcntl.flock(looks, fcntl.LOCK_SH)
        self.assertFalse(lock.is_taken(self.folder))

    def test_one_who_looks_at_it_opens_nothing(self):
        os.close(lock.take(self.host, self.folder))
        with mock.patch("os.open", side_effect=AssertionError):
            self.assertFalse(lock.is_taken(self.folder))

    def test_a_link_in_its_place_is_not_followed(self):
        os.symlink("/dev/null", os.path.join(self.folder, lock.NAME))
        with self.assertRaises(OSError):
            lock.take(self.host, self.folder)
        self.assertFalse(lock.is_taken(self.folder))

    def test_on_a_disk_that_takes_nothing_a_keeper_starts_all_the_same(self):
        real = self.host.open

        def full(path: str, flags: int, mode: int = 0o640) -> int:
            if flags & os.O_CREAT:
                raise OSError(errno.ENOSPC, "No space left on device")
            return real(path, flags, mode)

        self.host.open = full
        self.addCleanup(os.close, lock.take(self.host, self.folder))
        with self.assertRaisesRegex(Fault, "another keeper has"):
            lock.take(self.host, self.folder)


if __name__ == "__main__":
    unittest.main()
