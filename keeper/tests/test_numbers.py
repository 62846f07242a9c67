"""Numbers of time at their size."""

import os
import pathlib
import tempfile
import unittest

from keeper.config import Radio
from keeper.supervisor import sources
from keeper.supervisor.clocks import Clocks, counter
from keeper.supervisor.logs import PulseLog
from keeper.supervisor.pulses import Lines, Pulse
from keeper.supervisor.radios import Feed
from keeper.supervisor.sources import Growing
from keeper.supervisor.watchdog import Link, Watch
from keeper.tests.fake_host import FakeHost

MINUTE = 60_000_000


class Made(unittest.TestCase):
    def setUp(self) -> None:
        folder = tempfile.TemporaryDirectory()
        self.addCleanup(folder.cleanup)
        self.folder = pathlib.Path(folder.name)
        self.host = FakeHost()
        self.addCleanup(self.host.close_all)


class Boots(Made):
    def test_how_late_the_last_line_of_a_log_of_this_boot_is_at_most(self) -> None:
        """A log of an earlier boot gives a wrong time. A line is written when its pulse has ended,
        or a little later."""
        self.host.now = 1000.0
        for start, due in ((995_000_000, True), (994_900_000, False), (500_000_000, False),
                           (1_001_000_000, True), (1_001_100_000, False)):
            tail = b"%d 100000\n" % start
            found = sources.live_from(self.host, tail, False, 0.0)
            self.assertEqual(found, 0 if due else len(tail), start)
        tail = b"940000000 100000\n"  # the file was written to so long ago
        places = [sources.live_from(self.host, tail, False, age)
                  for age in (55.0, 54.9, 61.0, 61.1)]
        self.assertEqual(places, [0, len(tail), 0, len(tail)])

    def test_a_host_that_slept_for_so_long_has_another_counter(self) -> None:
        self.host.now = 1000.0
        for asleep, due in ((0.009, 0), (0.011, 9)):
            self.host.asleep = asleep
            self.assertEqual(sources.live_from(self.host, b"999999 1\n", False, 999.0), due)

    def test_what_a_power_cut_left_in_a_file_is_no_minute_before(self) -> None:
        now = int(self.host.monotonic() * 1e6)
        before = b"%d 100000\n%d" % (now - 2_000_000, now - 1_000_000)
        last = b"%d 100000\n" % now
        for after, live in ((b"", b""), (b"7 100000\n", b""), (b"7 1\n" + last, last)):
            tail = before + bytes(9) + after
            self.assertEqual(tail[sources.live_from(self.host, tail, False, 0.0):], live)

    def test_a_sleep_that_is_seen(self) -> None:
        clocks, found = Clocks(self.host), []
        for asleep in (0.009, 0.02, 0.5, 10.4):
            self.host.asleep = asleep
            found.append(round(clocks.sleep(), 3))
        self.assertEqual(found, [0.0, 0.02, 0.48, 9.9])

    def test_the_name_of_a_log_changes_with_each_sleep_that_is_seen(self) -> None:
        """It doesn't by what lies between two readings of the clocks."""
        names = []
        for asleep in (0.0, 0.0004, 0.01, 0.3, 0.8, 28800.3):
            self.host.asleep = asleep
            names.append(counter(self.host, self.host.boot()))
        self.assertEqual((names[0], len(set(names))), (names[1], 5))

    def test_a_file_that_was_made_shorter_between_two_openings_is_read_anew(self) -> None:
        path, now = self.folder / "log", int(self.host.now * 1e6)
        path.write_bytes(b"".join(b"%d 100000\n" % (now - (30 - place) * 1_000_000)
                                  for place in range(30)))
        os.utime(path, (self.host.realtime(), self.host.realtime()))
        growing = Growing(self.host, str(path))
        self.addCleanup(growing.close)
        growing.begin()
        growing.read()
        growing.rest()
        path.write_bytes(b"%d 100000\n" % now)
        os.utime(path, (self.host.realtime(), self.host.realtime()))
        growing.begin()
        self.assertEqual(growing.read(), b"%d 100000\n" % now)

    def test_a_start_that_lies_ahead(self) -> None:
        for ahead, due in ((1_000_000, 1), (1_000_001, 0), (900_000_000, 0)):
            lines = Lines()
            taken = lines.take(b"%d 1\n" % (5_000_000_000 + ahead), 5_000_000_000)
            self.assertEqual((len(taken), lines.bad), (due, 1 - due))


class Feeds(Made):
    def feed(self, steady: bool = False) -> Feed:
        radio = Radio("file", str(self.folder / "x"), "r", 60, "dcf", 0.0, steady)
        log = PulseLog(self.host, str(self.folder), 0, "dcf", "b0070001")
        return Feed(self.host, 0, radio, log, lambda feed, heard: None)

    def test_how_old_pulses_may_be_that_a_new_run_gets(self) -> None:
        feed, now = self.feed(), int(self.host.now * 1e6)
        ages = (15 * MINUTE + 1, 15 * MINUTE, MINUTE)
        feed.recall([Pulse(now - age, 100_000) for age in ages])
        self.assertEqual([now - one.given.start for one in feed.last_minutes()], [*ages[1:]])

    def test_after_a_sleep_marks_are_steadied_by_those_that_came_since(self) -> None:
        """The line of the marks before says where they were before the counter stood still."""
        feed = self.feed(True)
        for second in range(600):
            feed.recall([Pulse(5_000_000_000 + second * 1_000_000, 100_000)])
        feed.wake()
        late = Pulse(5_600_000_000 + 20_000, 100_000)
        feed.recall([late])
        self.assertEqual([one.given for one in feed.recent], [late])


class Links(Made):
    def test_a_link_that_is_silent_is_asked_again_at_once(self) -> None:
        """Three times a quarter of a second make it deaf, and not three times a pace."""
        other = self.host.bind("127.0.0.1", 0)
        self.addCleanup(os.close, other)
        watch = Watch(self.host, [Link(self.host.port_of(other))], ["127.0.0.1"])
        self.addCleanup(watch.close)
        began, hundredth = self.host.now, 0
        while not watch.is_deaf() and hundredth < 1000:
            hundredth += 1
            watch.turn(set(), began + hundredth / 100)
        self.assertTrue(75 <= hundredth <= 80, hundredth)
        self.assertEqual(watch.links[0].asked, 4)

    def test_a_question_that_was_looked_at_late_is_waited_for_anew_once(self) -> None:
        """A late look comes 50 ms after the one before: by turns of 40 ms each silence counts."""
        other = self.host.bind("127.0.0.1", 0)
        self.addCleanup(os.close, other)
        cases: tuple[tuple[list[float], list[int]], ...] = (
            ([0, 0.04, 5, 5.2, 5.24, 5.28], [0, 0, 0, 0, 0, 1]),
            ([0, 5, 10, 15, 20], [0, 0, 1, 1, 2]),
            ([place * 0.04 for place in range(8)], [0] * 7 + [1]))
        for looks, due in cases:
            link = Link(self.host.port_of(other))
            watch, began = Watch(self.host, [link], ["127.0.0.1"]), self.host.now
            silent: list[int] = []
            for at in looks:
                watch.turn(set(), began + at)
                silent.append(link.silent)
            watch.close()
            self.assertEqual(silent, due)


if __name__ == "__main__":
    unittest.main()
