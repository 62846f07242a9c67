"""Pulse logs, whatever the disk refuses and however the clock is set."""

import errno
import os
import pathlib
import tempfile
import time
import unittest
from unittest import mock

from keeper.supervisor import clocks, disk
from keeper.supervisor.logs import PulseLog, mend
from keeper.supervisor.pulses import Pulse
from keeper.tests.fake_host import FakeHost

DAY = 86400
NAME = "0-dcf.20231114.b0070001.log"


class Folder(unittest.TestCase):
    def setUp(self) -> None:
        folder = tempfile.TemporaryDirectory()
        self.addCleanup(folder.cleanup)
        self.folder = pathlib.Path(folder.name)
        self.host = FakeHost()
        self.addCleanup(self.host.close_all)
        self.host.ahead = 1_700_000_000 - self.host.now  # 2023-11-14 22:13:20

    def names(self) -> list[str]:
        return sorted(one.name for one in self.folder.iterdir())


class Logs(Folder):
    def log(self, tag: str = "b0070001") -> PulseLog:
        return PulseLog(self.host, str(self.folder), 0, "dcf", tag)

    def add(self, log: PulseLog, *starts: int) -> None:
        log.add([Pulse(start, 1) for start in starts])
        self.host.now += 2
        log.turn(self.host.now)
        log.turn(self.host.now)

    def test_a_day_a_log(self) -> None:
        log = self.log()
        self.add(log, 1, 2)
        self.host.ahead += DAY
        self.add(log, 3)
        self.assertEqual(self.names(), [NAME, NAME.replace("1114", "1115")])
        self.assertEqual((self.folder / NAME).read_bytes(), b"1 1\n2 1\n")

    def test_a_keeper_that_begins_again_goes_on_after_the_last_whole_line(self) -> None:
        (self.folder / NAME).write_bytes(b"10 1\n20 1\n3")
        self.add(self.log(), 30)
        self.assertEqual((self.folder / NAME).read_bytes(), b"10 1\n20 1\n30 1\n")

    def test_logs_of_an_earlier_boot_end_with_a_whole_line(self) -> None:
        """Zeros or half a line, more than is looked at in one go, or nothing else."""
        line = b"1789000000000000 100000\n"
        for text in (line * 2 + bytes(17), line * 2 + b"17890", line * 2 + bytes(9000), line * 2,
                     line * 400 + bytes(3) + line * 2, bytes(5000), b"", b"1" * 5000):
            (self.folder / NAME).write_bytes(text)
            mend(self.host, str(self.folder))
            whole = (self.folder / NAME).read_bytes()
            with self.subTest(size=len(text)):
                self.assertEqual(whole, line * (400 if len(text) > 9600 else whole.count(line)))
                self.assertEqual(len(whole), len(line) * min(text.split(b"\0")[0].count(line), 400))
        (self.folder / "other.log").symlink_to(self.folder / "nowhere")
        (self.folder / "b.log").mkdir()
        mend(self.host, str(self.folder))
        mend(self.host, str(self.folder / "nowhere"))

    def test_zeros_of_a_power_cut_are_cut_off(self) -> None:
        (self.folder / NAME).write_bytes(b"10 1\n20 1\n" + bytes(200))
        self.add(self.log(), 30)
        self.assertEqual((self.folder / NAME).read_bytes(), b"10 1\n20 1\n30 1\n")

    def test_what_the_disk_refuses_waits_and_is_said_once(self) -> None:
        log = self.log()
        self.add(log, 1)
        write = self.host.write
        refusal = OSError(errno.ENOSPC, "No space left on device")
        with mock.patch.object(self.host, "write", mock.Mock(side_effect=refusal)):
            with self.assertLogs("keeper") as said:
                self.add(log, 2)
                self.add(log, 3)
        note = "the log of radio 0 can't be written: No space left on device"
        self.assertEqual(log.note.text, note)
        self.assertEqual([one.partition("disk:")[2] for one in said.output], [note])
        self.host.write = write  # type: ignore
        with self.assertLogs("keeper") as said:
            self.add(log, 4)
        self.assertIn("can be written again", said.output[0])
        self.assertEqual((self.folder / NAME).read_bytes(), b"1 1\n2 1\n3 1\n4 1\n")

    def test_a_disk_that_gets_full_in_a_line_leaves_whole_lines(self) -> None:
        log = self.log()
        self.add(log, 1)
        write, takes = self.host.write, [2, 0]
        with mock.patch.object(self.host, "write", lambda descriptor, data: write(
                descriptor, data[:takes.pop(0)])), self.assertLogs("keeper"):
            self.add(log, 2)
        self.assertEqual((self.folder / NAME).read_bytes(), b"1 1\n")
        self.add(log, 3)
        self.assertEqual((self.folder / NAME).read_bytes(), b"1 1\n2 1\n3 1\n")

    def test_a_log_that_was_taken_away_is_made_again(self) -> None:
        log = self.log()
        self.add(log, 1)
        (self.folder / NAME).unlink()
        self.add(log, 2)
        self.assertEqual((self.folder / NAME).read_bytes(), b"2 1\n")

    def test_a_disk_that_hangs_holds_nothing_up_and_loses_nothing(self) -> None:
        log = self.log()
        self.host.disk_hangs = True
        for start in range(100):
            self.add(log, start)
        self.assertEqual(self.names(), [])
        self.host.disk_goes_on()
        self.add(log, 100)
        self.add(log, 101)
        self.assertEqual((self.folder / NAME).read_bytes().count(b"\n"), 102)

    def test_lines_are_on_the_disk_within_a_minute(self) -> None:
        log, synced = self.log(), []
        with mock.patch.object(self.host, "sync", lambda _: synced.append(self.host.now)):
            for start in range(100):
                self.add(log, start)
        gaps = [after - before for before, after in zip(synced, synced[1:])]
        self.assertLess(max(gaps), 60)

    def test_over_midnight_both_days_are_put_on_the_disk(self) -> None:
        log = self.log()
        synced: list[int | str] = []
        self.add(log, 1)
        self.host.now += 60.0
        with mock.patch.object(self.host, "sync", synced.append):
            log.add([Pulse(2, 1)])
            self.host.ahead += DAY
            log.add([Pulse(3, 1)])
            log.turn(self.host.now)
            made = [one for one in synced if isinstance(one, str)]
        self.assertEqual((made, len(synced)), ([str(self.folder)], 3))  # the new name, two logs

    def test_a_start_ahead_of_the_counter_is_not_read_back(self) -> None:
        now = int(self.host.now * 1e6)
        (self.folder / NAME).write_bytes(b"%d 1\n%d 1\n" % (now, now + 1))
        self.assertEqual([one.start for one in self.log().last_pulses()], [now])

    def test_what_was_logged_of_this_counter_and_source_is_read_back(self) -> None:
        now = int(self.host.now * 1e6)
        log = self.log()
        self.add(log, now - 1000_000_000, now - 800_000_000, now - 5)
        again = self.log()
        self.assertEqual([one.start for one in again.last_pulses()], [now - 800_000_000, now - 5])
        self.assertEqual(self.log("b0070002").last_pulses(), [])

    def test_half_a_line_where_the_end_of_a_long_log_begins_is_left_out(self) -> None:
        log, self.host.now = self.log(), 600.0
        starts = list(range(200_000_000, 599_000_000, 100_000))
        for count in range(17):  # short lines, so that each place of a line is the first once
            starts.append(599_000_000 + count)
            widths = {one: 1 if one >= 599_000_000 else 100_000 for one in starts}
            text = b"".join(b"%d %d\n" % one for one in widths.items())
            (self.folder / NAME).write_bytes(text)
            found = [one.start for one in log.last_pulses()]
            self.assertEqual(found, starts[-len(found):])
            self.assertGreater(len(found), 3000)

    def test_what_was_logged_before_the_clock_was_set_is_read_back_too(self) -> None:
        log, starts = self.log(), []
        for step in (0, 5 * DAY, -9 * DAY):
            self.host.ahead += step
            starts.append(int(self.host.now * 1e6))
            self.add(log, starts[-1])
        self.assertEqual([one.start for one in self.log().last_pulses()], starts)

    def test_the_days_are_those_of_utc_whatever_zone_the_host_has(self) -> None:
        self.addCleanup(time.tzset)
        for zone in ("XXX-14", "XXX+11", "UTC0"):
            with self.subTest(zone=zone), mock.patch.dict(os.environ, TZ=zone):
                time.tzset()
                days = [disk.day_of(unix) for unix in (0.0, DAY - 1800.0, DAY)]
                self.assertEqual(days, ["19700101", "19700101", "19700102"])


class Counters(Folder):
    def test_a_log_is_of_one_boot_one_source_and_no_sleep(self) -> None:
        def tag(source: str, boot: str = "a boot") -> str:
            return clocks.tag_of(clocks.counter(self.host, boot), source)

        first = tag("command a")
        self.assertEqual(tag("command a"), first)
        self.assertNotEqual(tag("command b"), first)
        self.host.now += 1000
        self.assertEqual(tag("command a"), first)
        self.host.asleep = 0.01
        slept = tag("command a")
        self.assertNotEqual(slept, first)
        self.assertNotEqual(tag("command a", "another"), slept)

    def test_who_goes_over_to_the_package_keeps_what_was_received(self) -> None:
        def tag(prefix: str, feeder: str) -> str:
            return clocks.tag_of("a counter", f"command {prefix}/lib/radio_ntpd/feeders/{feeder}")

        self.assertEqual(tag("/usr/local", "a.py"), tag("/usr", "a.py"))
        self.assertNotEqual(tag("/usr/local", "a.py"), tag("/usr", "b.py"))
        self.assertNotEqual(tag("/usr/local", "a.py"), tag("/opt", "a.py"))

    def test_sleeps_of_ten_milliseconds_together_are_seen_once(self) -> None:
        watch = clocks.Clocks(self.host)
        self.host.asleep += 0.009
        self.assertEqual(watch.sleep(), 0.0)
        self.host.asleep += 0.0011
        self.assertAlmostEqual(watch.sleep(), 0.0101, places=6)
        self.assertEqual(watch.sleep(), 0.0)

    def test_a_step_of_the_clock_and_a_slew(self) -> None:
        watch = clocks.Clocks(self.host)
        for _ in range(100):
            self.host.ahead += 0.1
            self.assertEqual(watch.step(), 0.0)
        self.host.ahead -= 3600
        self.assertAlmostEqual(watch.step(), -3600, places=3)
        self.host.asleep += 1000  # a sleep is none
        self.assertEqual(watch.step(), 0.0)


class Put(Folder):
    def test_what_is_put_is_synced_before_it_has_its_name(self) -> None:
        calls: list[str] = []
        for name in ("sync", "rename"):
            mock.patch.object(self.host, name, lambda *_, name=name: calls.append(name)).start()
        self.addCleanup(mock.patch.stopall)
        disk.put(self.host, str(self.folder / "a"), b"text")
        self.assertEqual(calls, ["sync", "rename", "sync"])

    def test_a_link_that_somebody_planted_is_not_followed(self) -> None:
        target = self.folder / "target"
        target.write_text("precious")
        (self.folder / "state.part").symlink_to(target)
        (self.folder / NAME).symlink_to(target)
        disk.put(self.host, str(self.folder / "state"), b"text")
        self.assertEqual(target.read_text(), "precious")
        self.assertEqual((self.folder / "state").read_bytes(), b"text")
        log = PulseLog(self.host, str(self.folder), 0, "dcf", "b0070001")
        log.add([Pulse(1, 1)])
        with self.assertLogs("keeper"):
            log.turn(self.host.now + 2)
            log.turn(self.host.now + 2)
        self.assertEqual(target.read_text(), "precious")

    def test_a_refusal_leaves_nothing(self) -> None:
        self.host.refuses["sync"] = OSError(errno.EIO, "Input/output error")
        with self.assertRaises(OSError):
            disk.put(self.host, str(self.folder / "a"), b"text")
        self.assertEqual(self.names(), [])


if __name__ == "__main__":
    unittest.main()
