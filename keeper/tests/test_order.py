"""What comes first where the host may fail or be cut off meanwhile; and what follows no link."""

import os
import pathlib
import tempfile
import unittest

from keeper.supervisor.journals import Journal
from keeper.supervisor.logs import PulseLog
from keeper.supervisor.pulses import Pulse
from keeper.supervisor.sources import Fifo
from keeper.tests.fake_host import FakeHost


class Recorded(FakeHost):
    """Its calls by which a file becomes lasting, in their order, with the names of files."""

    def __init__(self) -> None:
        super().__init__()
        self.calls: list[tuple[str, str]] = []

    def _note(self, call: str, path: str) -> None:
        self.calls.append((call, os.path.basename(path)))

    def sync(self, what: int | str) -> None:
        if isinstance(what, int):
            self._note("sync", os.readlink(f"/proc/self/fd/{what}"))
        super().sync(what)

    def rename(self, old: str, new: str) -> None:
        self._note("rename", old)
        super().rename(old, new)

    def remove(self, path: str) -> None:
        super().remove(path)
        self._note("remove", path)

    def open(self, path: str, flags: int, mode: int = 0o640) -> int:
        if path.endswith("fifo"):
            self._note("open", path)
        return super().open(path, flags, mode)

    def close(self, descriptor: int) -> None:
        if descriptor >= 0 and os.readlink(f"/proc/self/fd/{descriptor}").endswith("fifo"):
            self._note("close", "fifo")
        super().close(descriptor)


class Made(unittest.TestCase):
    def setUp(self) -> None:
        folder = tempfile.TemporaryDirectory()
        self.addCleanup(folder.cleanup)
        self.folder = pathlib.Path(folder.name)
        self.host = Recorded()
        self.addCleanup(self.host.close_all)

    def journal(self) -> Journal:
        out = self.folder / "20260101T000000Z-4.out"
        out.write_bytes(b"status 0\n")
        return Journal(self.host, str(out), [4])


class Crashes(Made):
    def test_a_journal_has_its_name_when_it_and_its_counts_are_on_the_disk(self) -> None:
        """And what was printed goes after that."""
        self.journal().keep(str(self.folder / "journals"))
        own, journal = (f"20260101T000000Z-4.{one}.part" for one in ("own", "journal"))
        self.assertEqual(self.host.calls, [
            ("sync", own), ("rename", own), ("sync", journal), ("rename", journal),
            ("remove", "20260101T000000Z-4.out")])

    def test_what_a_power_cut_left_at_a_logs_end_is_cut_off(self) -> None:
        """Zeros in the place of what wasn't written yet, after whole lines or in one."""
        whole = b"1 1\n22 2\n"
        for left in (bytes(185), b"33" + bytes(99), b"33 3", b"", bytes(9) + b"\n5 5\n"):
            with self.subTest(left=left):
                log = PulseLog(self.host, str(self.folder), 0, "dcf", "b0070000")
                path = self.folder / log.name(self.host.realtime())
                path.write_bytes(whole + left)
                log.add([Pulse(44, 4)])
                log.close()
                self.assertEqual(path.read_bytes(), whole + b"44 4\n")

    def test_a_fifo_is_opened_before_its_old_opening_is_closed(self) -> None:
        """Else its writer has no reader for an instant, and is ended."""
        os.mkfifo(self.folder / "fifo")
        source = Fifo(self.host, str(self.folder / "fifo"))
        source.begin()
        self.host.calls.clear()
        source.begin()
        self.assertEqual(self.host.calls, [("open", "fifo"), ("close", "fifo")])
        source.close()


class Links(Made):
    """Whoever may write in the folder of a keeper that runs as root has put links where its files
    will be."""

    def test_no_link_is_followed(self) -> None:
        victim = self.folder / "victim"
        victim.write_text("root:secret:1\nhalf")
        victim.chmod(0o600)
        log = PulseLog(self.host, str(self.folder), 0, "dcf", "b0070001")
        name = log.name(self.host.realtime())
        counts = "20260101T000000Z-4"
        for one in (name, counts + ".own.part", counts + ".journal.part"):
            os.symlink(victim, self.folder / one)
        self.journal().keep(str(self.folder))
        log.add([Pulse(123, 456)])
        self.host.now += 2
        log.turn(self.host.now)
        log.turn(self.host.now)
        self.assertRegex(log.note.text, "radio 0 can't be written: Too many levels of symbolic links")
        about = victim.stat()
        self.assertEqual((victim.read_text(), about.st_mode & 0o777),
                         ("root:secret:1\nhalf", 0o600))


if __name__ == "__main__":
    unittest.main()
