"""What is kept of logs and journals: compressed, within days and bytes, whole after a power cut."""

import gzip
import os
import pathlib
import tempfile
import unittest
from collections.abc import Callable
from datetime import date
from unittest import mock

from keeper.reporter import tidy
from keeper.supervisor.host import Host

LOG = "0-dcf.20231113.b0070001.log"


class Folder(unittest.TestCase):
    def setUp(self) -> None:
        folder = tempfile.TemporaryDirectory()
        self.addCleanup(folder.cleanup)
        self.folder = pathlib.Path(folder.name)

    def names(self) -> list[str]:
        return sorted(one.name for one in self.folder.iterdir())

    def put(self, name: str, text: bytes) -> str:
        (self.folder / name).write_bytes(text)
        return str(self.folder / name)


class Tidied(Folder):
    today = date(2023, 11, 14)

    def tidy(self, days: int = 3, most: int = 10**9) -> int:
        recent = {self.today}
        return tidy.tidy(Host(), str(self.folder), self.today, days, most, recent)

    def test_logs_of_other_days_are_compressed_and_old_ones_go(self) -> None:
        for day in range(8, 15):
            self.put(f"0-dcf.202311{day:02}.b0070001.log", b"%d 1\n" % day)
        self.put("0-dcf.20231112.b0070001.log.gz.part", b"half")
        self.put("mine.txt", b"mine")
        self.put("0-dcf.20231399.b0070001.log", b"no day")
        self.tidy()
        self.assertEqual(self.names(), [
            *(f"0-dcf.202311{day}.b0070001.log.gz" for day in (11, 12, 13)),
            "0-dcf.20231114.b0070001.log", "0-dcf.20231399.b0070001.log", "mine.txt"])
        packed = (self.folder / "0-dcf.20231112.b0070001.log.gz").read_bytes()
        self.assertEqual(gzip.decompress(packed), b"12 1\n")

    def test_zeros_and_half_lines_of_a_power_cut_are_left_out(self) -> None:
        self.put("0-dcf.20231113.b0070001.log", b"1 1\n2 1\n" + bytes(433) + b"9 9\n")
        self.put("1-msf.20231113.b0070001.log", b"1 1\n2 1\n3")
        self.put("2-dcf.20231113.b0070001.log", bytes(99))
        self.tidy()
        self.assertEqual(len(self.names()), 2)
        for name in self.names():
            packed = (self.folder / name).read_bytes()
            self.assertEqual(gzip.decompress(packed), b"1 1\n2 1\n")

    def test_a_long_log(self) -> None:
        lines = b"".join(b"%d 100000\n" % (place * 1_000_003) for place in range(50_000))
        self.put("0-dcf.20231113.b0070001.log", lines)
        self.tidy()
        packed = (self.folder / "0-dcf.20231113.b0070001.log.gz").read_bytes()
        self.assertEqual(gzip.decompress(packed), lines)

    def test_one_that_is_compressed_already(self) -> None:
        """As where it was killed before the log went, or the clock was set back over midnight."""
        name = "0-dcf.20231113.b0070001.log"
        for text in (b"1 1\n", b"1 1\n", b"2 1\n"):
            self.put(name, text)
            self.tidy()
        self.assertEqual(self.names(), [name + ".gz"])
        packed = (self.folder / (name + ".gz")).read_bytes()
        self.assertEqual(gzip.decompress(packed), b"1 1\n2 1\n")

    def test_the_oldest_go_where_there_are_too_many_bytes(self) -> None:
        for day in (11, 12, 13, 14):
            self.put(f"202311{day}T000000Z-1.journal", bytes(1000))
            self.put(f"202311{day}T000000Z-1.own", b"link 0 own 1\n")
        self.assertLessEqual(self.tidy(most=2500), 2500)
        self.assertEqual([one for one in self.names() if one.endswith(".journal")],
                         ["20231113T000000Z-1.journal", "20231114T000000Z-1.journal"])

    def test_a_file_that_is_refused_keeps_nothing_from_the_others(self) -> None:
        """A folder in the place of a log, and a disk that is full: what is too old, and too much,
        goes all the same."""
        (self.folder / "0-dcf.20231112.b0070001.log").mkdir()
        self.put("1-msf.20231112.b0070001.log", b"1 1\n" * 500)
        self.put("1-msf.20231101.b0070001.log", b"1 1\n")
        with mock.patch("keeper.supervisor.disk.put", side_effect=OSError(28, "No space left")):
            with self.assertRaises(OSError):
                self.tidy(most=1000)
        self.assertEqual(self.names(), ["0-dcf.20231112.b0070001.log"])

    def test_a_clock_that_is_set_years_ahead_makes_none_too_old_at_once(self) -> None:
        empty: list[str] = []
        for there, today, due in (
                (empty, "20260301", "20260226"), (["20260228"], "20260301", "20260226"),
                (["20260201", "20260301"], "20260301", "20260130"),
                (["20260201"], "20260302", "20260130"), (["20260301"], "20360101", "20260227"),
                (["20360101"], "20260301", "20260226")):
            with self.subTest(there=there, today=today):
                days = [date.fromisoformat(one) for one in there]
                oldest = tidy.oldest_kept(days, date.fromisoformat(today), 3)
                self.assertEqual(f"{oldest:%Y%m%d}", due)


class Compressed(Folder):
    def test_a_log_is_on_the_disk_before_its_own_file_goes(self) -> None:
        calls: list[tuple[str, str]] = []
        path, part = self.put(LOG, b"1 1\n"), str(self.folder / (LOG + ".gz.part"))

        def noted(name: str, real: Callable) -> Callable:
            def call(what: object, *more: object) -> None:
                file = os.readlink(f"/proc/self/fd/{what}") if isinstance(what, int) else str(what)
                calls.append((name, file))
                real(what, *more)
            return call

        for name in ("fsync", "replace", "unlink"):
            self.enterContext(mock.patch(f"os.{name}", noted(name, getattr(os, name))))
        tidy.compress(Host(), path)
        self.assertEqual([one for one in calls if one != ("unlink", part)],
                         [("fsync", part), ("replace", part), ("fsync", str(self.folder)),
                          ("unlink", path)])

    def test_what_a_power_cut_left_at_its_end_is_cut_off(self) -> None:
        """Zeros in the place of what wasn't written yet, after whole lines or in one."""
        whole = b"1 1\n22 2\n"
        for left in (bytes(185), b"33" + bytes(99), b"33 3", b"", bytes(9) + b"\n5 5\n"):
            with self.subTest(left=left):
                path = self.put(LOG, whole + left)
                tidy.compress(Host(), path)
                packed = pathlib.Path(path + ".gz")
                self.assertEqual(gzip.decompress(packed.read_bytes()), whole)
                packed.unlink()

    def test_no_link_that_somebody_planted_is_followed(self) -> None:
        victim = pathlib.Path(self.put("victim", b"root:secret:1\nhalf"))
        victim.chmod(0o600)
        os.symlink(victim, self.folder / (LOG + ".gz.part"))
        tidy.compress(Host(), self.put(LOG, b"1 1\n"))
        self.assertEqual((victim.read_bytes(), victim.stat().st_mode & 0o777),
                         (b"root:secret:1\nhalf", 0o600))
        os.link(victim, self.folder / (LOG + ".gz.part"))
        with mock.patch("os.unlink", side_effect=FileNotFoundError):
            with self.assertRaises(FileExistsError):
                tidy.compress(Host(), self.put(LOG, b"2 1\n"))
        (self.folder / LOG).unlink()
        os.symlink(victim, self.folder / LOG)
        with self.assertRaises(OSError):
            tidy.compress(Host(), str(self.folder / LOG))
        self.assertEqual(victim.read_bytes(), b"root:secret:1\nhalf")


if __name__ == "__main__":
    unittest.main()
