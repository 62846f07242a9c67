"""Sources of pulses: a command, a FIFO, a file that grows."""

import os
import pathlib
import tempfile
import time
import unittest

from keeper.supervisor.host import Host
from keeper.supervisor.sources import Command, Ended, Fifo, Growing, ended


class Made(unittest.TestCase):
    def setUp(self):
        folder = tempfile.TemporaryDirectory()
        self.addCleanup(folder.cleanup)
        self.folder = pathlib.Path(folder.name)
        self.host = Host()

    def reads(self, source, due, ends=None):
        """What a source gives within ten seconds, on a busy machine too."""
        got, end = b"", time.monotonic() + 10
        try:
            while time.monotonic() < end and (ends or got != due):
                got += source.read()
                time.sleep(0.005)
        except Ended as ended:
            self.assertIn(ends or "nothing", str(ended))
            ends = None
        self.assertEqual(got, due)
        self.assertIsNone(ends)


class Sources(Made):
    def test_a_command(self):
        source = Command(self.host, "echo a; exec sh -c 'echo b; exit 3'")
        source.begin()
        self.addCleanup(source.close)
        self.reads(source, b"a\nb\n", "its command ended with 3")

    def test_a_command_that_closes_its_output_and_goes_on(self):
        source = Command(self.host, "exec >&-; exec sleep 61")
        source.begin()
        self.addCleanup(source.close)
        self.reads(source, b"", "its command closed its output and goes on")

    def test_how_a_process_ended(self):
        self.assertEqual([ended(one) for one in (0, 3, -9, None)], [
            "ended with 0", "ended with 3", "was ended by signal 9",
            "closed its output and goes on"])

    def test_a_command_is_ended_with_all_that_it_started(self):
        source = Command(self.host, "trap '' TERM; sleep 61 | cat & echo $!; wait")
        source.begin()
        text, end = b"", time.monotonic() + 10
        while not text.endswith(b"\n") and time.monotonic() < end:
            text += source.read()
            time.sleep(0.005)
        cat = int(text)
        source.close()
        for _ in range(100):
            if not os.path.exists(f"/proc/{cat}") or b"Z" in pathlib.Path(f"/proc/{cat}/stat").read_bytes().split()[2:3]:
                break
            time.sleep(0.02)
        else:
            self.fail("what the command started goes on")

    def test_a_fifo_and_its_writers(self):
        name = str(self.folder / "fifo")
        os.mkfifo(name)
        source = Fifo(self.host, name)
        source.begin()
        self.addCleanup(source.close)
        writer = os.open(name, os.O_WRONLY)
        os.write(writer, b"one\n")
        self.reads(source, b"one\n")
        os.close(writer)
        self.assertEqual(source.read(), b"")
        writer = os.open(name, os.O_WRONLY | os.O_NONBLOCK)
        os.write(writer, b"two\n")
        self.reads(source, b"two\n")
        os.close(writer)

    def test_a_fifo_of_the_same_name(self):
        name = str(self.folder / "fifo")
        os.mkfifo(name)
        source = Fifo(self.host, name)
        source.begin()
        self.addCleanup(source.close)
        self.assertFalse(source.stalls())
        os.unlink(name)
        self.assertFalse(source.stalls())
        os.mkfifo(name)
        self.assertTrue(source.stalls())

    def test_what_is_no_fifo_and_no_file(self):
        (self.folder / "file").write_text("")
        with self.assertRaisesRegex(OSError, "it is no FIFO"):
            Fifo(self.host, str(self.folder / "file")).begin()
        with self.assertRaisesRegex(OSError, "it is no file"):
            Growing(self.host, str(self.folder)).begin()
        with self.assertRaises(FileNotFoundError):
            Growing(self.host, str(self.folder / "nosuch")).begin()

    def test_a_file_that_grows(self):
        path = self.folder / "log"
        path.write_bytes(b"x" * 100_000 + b"\nlast\n")
        source = Growing(self.host, str(path))
        source.begin()
        self.addCleanup(source.close)
        self.reads(source, b"last\n")
        with path.open("ab") as file:
            file.write(b"more\n")
        self.reads(source, b"more\n")
        path.write_bytes(b"")
        self.reads(source, b"", "its file was made shorter")
        source.begin()
        path.unlink()
        self.reads(source, b"", "its file was taken away")
        path.write_bytes(b"new\n")
        self.reads(source, b"", "its file was replaced")
        source.begin()
        self.reads(source, b"new\n")


class Tails(Made):
    """What a file that grows had before the keeper opened it: lines of this boot's counter count, others give a wrong time."""

    def growing(self, starts: list[float], ago: float) -> Growing:
        """A file with a mark at each of these seconds from now on, which was written to so long ago, in seconds."""
        path = self.folder / "log"
        now = time.monotonic()
        path.write_bytes(b"".join(b"%d 100000\n" % round((now + start) * 1e6) for start in starts))
        os.utime(path, (time.time() - ago, time.time() - ago))
        source = Growing(self.host, str(path))
        source.begin()
        self.addCleanup(source.close)
        return source

    def count(self, source: Growing) -> int:
        return source.read().count(b"\n")

    def test_the_minutes_before_are_read(self):
        self.assertEqual(self.count(self.growing(list(range(-300, 0)), 0)), 300)
        self.assertEqual(self.count(self.growing(list(range(-300, -60)), 59.5)), 240)

    def test_a_file_that_an_earlier_boot_left(self):
        """Its starts lie in the counter's future, and are its past some minutes later; the file hasn't grown for an hour."""
        for starts in (range(30, 400), range(-400, -30)):
            source = self.growing(list(starts), 3600)
            self.assertEqual(source.read(), b"")
            source.rest()
            source.begin()
            self.assertEqual(source.read(), b"")
            with open(source.value, "ab") as file:
                file.write(b"more\n")
            self.assertEqual(source.read(), b"more\n")

    def test_lines_of_an_earlier_boot_before_those_of_this_one(self):
        self.assertEqual(self.count(self.growing([*range(-290, -90), *range(-120, 0)], 0)), 120)

    def test_a_host_that_slept(self):
        """Nothing says which lines are of before that."""
        awake = self.host.boottime
        self.host.boottime = lambda: awake() + 0.011
        self.assertEqual(self.growing(list(range(-300, 0)), 0).read(), b"")

    def test_the_age_of_a_last_line(self):
        """A log that an earlier boot left a few seconds off isn't of this counter."""
        self.assertEqual(self.count(self.growing(list(range(-300, -3)), 0)), 297)
        self.assertEqual(self.count(self.growing(list(range(-300, -5)), 0)), 0)
        self.assertEqual(self.count(self.growing(list(range(-300, -3)), 8)), 0)

    def test_a_file_without_a_line(self):
        self.assertEqual(self.growing([], 0).read(), b"")

    def test_a_last_line_that_is_half_written(self):
        source = self.growing(list(range(-300, 0)), 0)
        source.rest()
        with open(source.value, "ab") as file:
            file.write(b"12")
        source = Growing(self.host, source.value)
        source.begin()
        self.addCleanup(source.close)
        self.assertEqual(self.count(source), 300)

    def test_it_is_read_on_from_where_it_was_left(self):
        source = self.growing(list(range(-300, 0)), 0)
        self.count(source)
        source.rest()
        with open(source.value, "ab") as file:
            file.write(b"more\n")
        source.begin()
        self.assertEqual(source.read(), b"more\n")


if __name__ == "__main__":
    unittest.main()
