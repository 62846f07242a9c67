"""Files that are read and written whole; what is said where they are refused. `test_logs` has how
they are put in their place."""

import os
import pathlib
import tempfile
import unittest
from unittest import mock

from keeper.supervisor import disk
from keeper.tests.fake_host import FakeHost


class Files(unittest.TestCase):
    def setUp(self) -> None:
        folder = tempfile.TemporaryDirectory()
        self.addCleanup(folder.cleanup)
        self.file = pathlib.Path(folder.name) / "file"
        self.host = FakeHost()

    def read(self, most: int, from_end: bool = False) -> bytes:
        return disk.read_all(self.host, str(self.file), most, from_end)

    def test_a_file_is_read_up_to_a_limit(self) -> None:
        text = bytes(range(256)) * 600  # more than two pieces
        self.file.write_bytes(text)
        self.assertEqual(self.read(1 << 20), text)
        self.assertEqual(self.read(100_000), text[:100_000])
        self.assertEqual(self.read(100_000, from_end=True), text[-100_000:])
        self.assertEqual(self.read(1 << 20, from_end=True), text)

    def test_a_file_that_is_none(self) -> None:
        with self.assertRaises(FileNotFoundError):
            self.read(10)
        self.file.symlink_to("/etc/passwd")
        with self.assertRaises(OSError):
            self.read(10)

    def test_all_is_written_in_as_many_pieces_as_the_disk_takes(self) -> None:
        text = b"0123456789" * 20_000
        with mock.patch.object(self.host, "write", lambda to, data: os.write(to, data[:30_001])):
            with open(self.file, "wb") as file:
                disk.write_all(self.host, file.fileno(), text)
        self.assertEqual(self.file.read_bytes(), text)

    def test_a_disk_that_takes_no_more_is_full(self) -> None:
        with mock.patch.object(self.host, "write", lambda to, data: 0):
            with self.assertRaisesRegex(OSError, "No space left"):
                disk.write_all(self.host, 1, b"text")

    def test_a_name_that_is_not_there_is_removed(self) -> None:
        self.file.write_bytes(b"")
        for _ in range(2):
            disk.remove_any(self.host, str(self.file))
            self.assertFalse(self.file.exists())

    def test_what_a_power_cut_left_is_cut_off(self) -> None:
        for text, due in ((b"1 2\n3 4\n", b"1 2\n3 4\n"), (b"1 2\n3 ", b"1 2\n"), (b"1 2\n\0\0\0", b"1 2\n"),
                          (b"1 2\n3 \0\0\n5 6\n", b"1 2\n"), (b"1", b""), (b"\0", b"")):
            self.assertEqual(disk.whole(text), due)


class Notes(unittest.TestCase):
    def test_a_refusal_is_said_once_and_so_is_its_end(self) -> None:
        note = disk.written("the log")
        with self.assertLogs("keeper", "INFO") as said:
            for why in ("", "full", "full", "frozen", "", ""):
                note.take(why)
        self.assertEqual([one.getMessage() for one in said.records],
                         ["the log can't be written: full", "the log can be written again"])
        self.assertEqual(note.text, "")

    def test_what_is_said_is_the_refusal_of_now(self) -> None:
        note = disk.written("the log")
        with self.assertLogs("keeper"):
            note.take("full")
        note.take("frozen")
        self.assertEqual(note.text, "the log can't be written: frozen")

    def test_why_something_failed(self) -> None:
        self.assertEqual(disk.why(OSError(28, "No space left on device")), "No space left on device")
        self.assertEqual(disk.why(ValueError("odd")), "odd")
        self.assertEqual(disk.why(None), "")


if __name__ == "__main__":
    unittest.main()
