"""Journals that are kept: each whole or not at all, with its counts."""

import errno
import os
import pathlib
import tempfile
import unittest
from unittest import mock

from keeper.supervisor import journals
from keeper.tests.fake_host import FakeHost

TEXT = b"""j2 1 0 0 5 verdict 7 0
link 0 answered 9 dropped 2 again 1 kissed 3 unkept 0 end linkend
link 1 answered 1 dropped 0 again 0 kissed 0 unkept 0 end linkfault
status 7 link 1
"""


class Journals(unittest.TestCase):
    def setUp(self) -> None:
        folder = tempfile.TemporaryDirectory()
        self.addCleanup(folder.cleanup)
        self.folder = pathlib.Path(folder.name)
        self.kept = self.folder / "journals"
        self.host = FakeHost()
        self.addCleanup(self.host.close_all)
        self.archive = journals.Archive(self.host, str(self.kept))

    def add(self, number: int, text: bytes = TEXT) -> journals.Journal:
        name = journals.name_of(1_700_000_000, number) + journals.OUT
        (self.folder / name).write_bytes(text)
        return self.archive.add(str(self.folder / name), [4, 5])

    def turn(self, seconds: float = 1.0) -> None:
        self.host.now += seconds
        self.archive.turn(self.host.now)
        self.archive.turn(self.host.now)

    def test_what_a_journal_says(self) -> None:
        journal = self.add(1)
        self.assertEqual((journal.status, journal.heard), ("status 7 link 1", [15, 1]))
        for text in (b"", b"status 0", b"j2 1 0 0 5 verd\n", TEXT[:-3]):
            self.assertEqual(journals.status_of(text), "")

    def test_the_counts_stand_before_the_journal(self) -> None:
        """Where the host dies between the two no journal is without them."""
        journal, put = self.add(4), []
        with mock.patch.object(self.host, "rename", lambda old, new: put.append(new)):
            journal.keep(str(self.kept))
        self.assertEqual([os.path.splitext(one)[1] for one in put], [".own", ".journal"])

    def test_a_count_that_is_none_is_passed_over(self) -> None:
        """As of a keeper that was killed: the next one begins all the same."""
        journal = self.add(2, TEXT.replace(b"answered 9 ", b"answered " + b"9" * 5000 + b" "))
        self.assertEqual((journal.status, journal.heard), ("status 7 link 1", [1]))

    def test_a_journal_and_its_counts(self) -> None:
        journal = self.add(3)
        self.turn()
        self.assertEqual(journal.name, "20231114T221320Z-3.journal")
        self.assertEqual((journal.status, journal.heard), ("status 7 link 1", [15, 1]))
        self.assertEqual((self.kept / journal.name).read_bytes(), TEXT)
        counts = (self.kept / journal.name).with_suffix(".own").read_text()
        self.assertEqual(counts, "link 0 own 4\nlink 1 own 5\n")
        self.assertEqual(os.listdir(self.folder), ["journals"])

    def test_a_journal_without_its_end_is_none_and_is_said(self) -> None:
        journal = self.add(3, TEXT[:50])
        with self.assertLogs("keeper") as said:
            self.turn()
        self.assertIn("the journal 20231114T221320Z-3.out is lost: it isn't whole", said.output[0])
        self.assertEqual((journal.status, journal.name, self.archive.lost), ("", "", 1))
        self.assertEqual(os.listdir(self.folder), [])

    def test_a_disk_that_takes_nothing_and_then_takes_it(self) -> None:
        self.host.refuses["sync"] = OSError(errno.ENOSPC, "No space left on device")
        added = [self.add(number) for number in range(3)]
        with self.assertLogs("keeper") as said:
            for _ in range(5):
                self.turn(11)
        self.assertEqual(len(said.output), 1)
        self.assertIn("journals can't be written: No space left on device; 3 wait", said.output[0])
        self.assertEqual(self.archive.waiting, added)
        self.assertEqual(list(self.kept.iterdir()), [])
        self.host.refuses.clear()
        for _ in range(4):
            self.turn(11)
        self.assertTrue(all(one.name for one in added))
        self.assertEqual((self.archive.note.text, self.archive.lost), ("", 0))

    def test_so_many_wait_and_no_more(self) -> None:
        self.host.disk_hangs = True
        with self.assertLogs("keeper") as said:
            added = [self.add(number) for number in range(journals.WAITING + 3)]
        self.assertEqual(len(said.output), 3)
        self.assertEqual(self.archive.waiting, [added[0], *added[4:]])
        self.host.disk_goes_on()
        for _ in range(journals.WAITING + 1):
            self.turn()
        self.assertEqual(len(list(self.kept.glob("*.journal"))), journals.WAITING)


if __name__ == "__main__":
    unittest.main()
