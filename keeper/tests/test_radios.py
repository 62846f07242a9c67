"""Feeds whose sources end, stall and write noise, and feeds that are steadied."""

import logging
import os
import pathlib
import random
import subprocess
import tempfile
import time
import unittest
from collections.abc import Callable

from keeper.config import Radio
from keeper.supervisor.logs import PulseLog
from keeper.supervisor.pulses import OLDEST, Pulse
from keeper.supervisor.radios import Feed, Heard
from keeper.supervisor.host import Host

TOP = pathlib.Path(__file__).parent.parent.parent


class Feeds(unittest.TestCase):
    def setUp(self) -> None:
        folder = tempfile.TemporaryDirectory()
        self.addCleanup(folder.cleanup)
        self.folder = pathlib.Path(folder.name)
        self.host = Host()
        self.heard: list[Heard] = []
        logger = logging.getLogger("keeper")
        logger.setLevel(logging.INFO)
        logger.propagate = False

    def feed(self, command: str, stall: float = 60.0, steady: bool = False) -> Feed:
        radio = Radio("command", command, "dcf", stall, "dcf", 0.0, steady)
        log = PulseLog(self.host, str(self.folder), 0, "dcf", "b0070001")
        feed = Feed(self.host, 0, radio, log, lambda _, heard: self.heard.extend(heard))
        self.addCleanup(feed.source.close)
        return feed

    def turn(self, feed: Feed, until: Callable[[], object], seconds: float = 20.0) -> None:
        end = time.monotonic() + seconds
        while not until():
            self.assertLess(time.monotonic(), end)
            self.host.wait([], 0.02)
            feed.turn()

    def lines(self) -> bytes:
        return b"".join(one.given.line() for one in self.heard)

    def test_a_pulse_makes_the_pause_short_again(self) -> None:
        feed = self.feed(f"echo {time.monotonic_ns() // 1000} 7; exec sleep 60")
        for _ in range(5):
            feed.pause.begin(0.0)
        self.turn(feed, lambda: feed.pulses == 1)
        self.assertEqual(feed.pause.begin(100.0), 1.0)

    def test_a_source_that_dies_in_a_line_is_started_again(self) -> None:
        now = time.monotonic_ns() // 1000
        feed = self.feed(
            f"if mkdir {self.folder}/once 2> /dev/null; then echo {now - 500} 7; printf '{now} 7';"
            f"else echo {now - 500} 7; echo {now + 9} 8; exec sleep 60; fi")
        with self.assertLogs("keeper") as said:
            self.turn(feed, lambda: feed.pulses == 2)
        self.assertEqual(self.lines(), f"{now - 500} 7\n{now + 9} 8\n".encode())
        self.assertEqual((feed.restarts, feed.lines.bad, feed.state), (1, 1, "running"))
        first, second = [one.partition("keeper.supervisor.radios:")[2] for one in said.output]
        self.assertEqual(first, "radio 0: its command ended with 0; it is started again in 1 s")
        self.assertIn("1 bad line left out; the last: ", second)

    def test_a_command_that_closes_its_output_and_goes_on_ends_that_radio_alone(self) -> None:
        feed = self.feed("exec >&-; exec sleep 60")
        with self.assertLogs("keeper") as said:
            self.turn(feed, lambda: feed.state == "waiting")
        self.assertIn("its command closed its output and goes on", said.output[0])

    def test_whatever_is_raised_ends_that_radio_alone(self) -> None:
        feed = self.feed("exec sleep 60")
        self.turn(feed, lambda: feed.state == "running")
        feed.source.read = lambda: 1 / 0  # type: ignore[method-assign,assignment,return-value]
        with self.assertLogs("keeper") as said:
            self.turn(feed, lambda: feed.state == "waiting")
        self.assertIn("radio 0: ZeroDivisionError: division by zero; it is started", said.output[1])

    def test_a_source_that_writes_noise(self) -> None:
        now = time.monotonic_ns() // 1000
        feed = self.feed(f"head -c 300000 /dev/urandom; echo; echo {now} 7; exec sleep 60")
        with self.assertLogs("keeper") as said:
            self.turn(feed, lambda: feed.pulses == 1)
        self.assertEqual(self.lines(), f"{now} 7\n".encode())
        self.assertGreater(feed.lines.bad, 100)
        self.assertEqual(len(said.output), 1)

    def test_a_source_that_stalls(self) -> None:
        feed = self.feed("exec sleep 60", stall=0.3)
        with self.assertLogs("keeper") as said:
            self.turn(feed, lambda: feed.restarts == 2)
        self.assertEqual((feed.silent_since, feed.pulse_at), (feed.born, 0.0))
        self.assertIn("radio 0: no pulse for 0 s; it is started again in 1 s", said.output[0])
        self.assertIn("radio 0: no pulse for 0 s; it is started again in 2 s", said.output[1])

    def silent(self, feed: Feed) -> float:
        """Turns until it is said to be silent, and begins again. Since when it is, less its last
        pulse (s)."""
        self.turn(feed, lambda: feed.silent_since and feed.restarts >= 2)
        self.assertEqual(feed.state, "waiting")
        return feed.silent_since - feed.pulse_at

    def test_a_silent_radio_is_so_since_its_last_pulse_however_often_its_command_begins(self) -> None:
        now = time.monotonic_ns() // 1000
        feed = self.feed(
            f"[ -e {self.folder}/once ] || {{ echo {now} 7; : > {self.folder}/once; }}; "
            f"[ ! -e {self.folder}/on ] || echo {now + 1} 7; exec sleep 60", stall=1.0)
        self.turn(feed, lambda: feed.pulses == 1)
        first = feed.pulse_at
        self.assertLess(abs(first - time.clock_gettime(time.CLOCK_BOOTTIME)), 5)
        self.assertEqual(feed.silent_since, 0.0)
        with self.assertLogs("keeper") as said:
            self.assertEqual(self.silent(feed), 0.0)
            self.assertEqual(feed.pulse_at, first, "beginning is no pulse")
            (self.folder / "on").touch()
            self.turn(feed, lambda: feed.pulses == 2)
        self.assertEqual((feed.silent_since, feed.state), (0.0, "running"))
        self.assertRegex(said.output[-1], "radio 0 gives pulses again, after [0-9]+ s")

    def test_a_command_that_ends_again_and_again_is_silent(self) -> None:
        feed = self.feed("exit 1", stall=2.0)
        with self.assertLogs("keeper") as said:
            self.turn(feed, lambda: feed.silent_since)
        self.assertEqual((feed.silent_since, feed.state), (feed.born, "waiting"))
        self.assertFalse([one for one in said.output if "no pulse" in one], "each end was said")

    def test_a_fifo_that_falls_silent_is_said_so_once(self) -> None:
        os.mkfifo(self.folder / "pulses")
        radio = Radio("fifo", str(self.folder / "pulses"), "dcf", 0.2, "dcf", 0.0)
        log = PulseLog(self.host, str(self.folder), 0, "dcf", "b0070001")
        feed = Feed(self.host, 0, radio, log, lambda *_: None)
        self.addCleanup(feed.source.close)
        with self.assertLogs("keeper") as said:
            self.turn(feed, lambda: feed.silent_since)
            end = time.monotonic() + 0.5
            self.turn(feed, lambda: time.monotonic() > end)
        self.assertEqual([one.rpartition("radios:")[2] for one in said.output],
                         ["radio 0: no pulse for 0 s"])
        self.assertEqual((feed.state, feed.restarts), ("stalled", 0))

    def test_what_was_logged_says_when_the_last_pulse_came(self) -> None:
        feed = self.feed("exec sleep 60", stall=0.3)
        now = time.monotonic_ns() // 1000
        feed.recall([Pulse(now - 70_000_000, 7)])
        ago = time.clock_gettime(time.CLOCK_BOOTTIME) - feed.pulse_at
        self.assertLess(abs(ago - 70), 5)
        with self.assertLogs("keeper"):
            self.turn(feed, lambda: feed.silent_since)
        self.assertEqual(feed.silent_since, feed.pulse_at)

    def test_what_ignores_the_end_holds_nothing_up(self) -> None:
        feed = self.feed("trap '' TERM; while :; do sleep 61; done", stall=0.2)
        began = time.monotonic()
        with self.assertLogs("keeper"):
            self.turn(feed, lambda: feed.state == "waiting")
            self.assertLess(time.monotonic() - began, 2)
            child = feed.source.child  # type: ignore[attr-defined]
            self.turn(feed, lambda: feed.restarts == 2)
        self.assertNotEqual(child, feed.source.child)  # type: ignore[attr-defined]

    def test_the_last_minutes_are_at_hand_and_no_older_ones(self) -> None:
        feed = self.feed("exec sleep 60")
        now = time.monotonic_ns() // 1000
        feed.recall([Pulse(max(1, now - OLDEST - 10_000_000), 7), Pulse(now - 100, 7)])
        self.assertEqual([one.given.start for one in feed.last_minutes()][-1:], [now - 100])
        self.assertLessEqual(len(feed.last_minutes()), 2)
        feed.host.monotonic = lambda: now / 1e6 + 901  # type: ignore
        self.assertEqual(feed.last_minutes(), [])

    def test_after_a_sleep_nothing_of_before_goes_on(self) -> None:
        now = time.monotonic_ns() // 1000
        feed = self.feed(f"echo {now - 100} 7; read x < {self.folder}/go; echo {now - 50} 7; "
                         f"echo {now + 900000} 9; exec sleep 60")
        os.mkfifo(self.folder / "go")
        self.turn(feed, lambda: feed.pulses == 1)
        feed.wake()
        (self.folder / "go").write_text("\n")
        self.turn(feed, lambda: feed.pulses == 2)
        self.assertEqual([one.raw.start for one in feed.recent], [now + 900000])
        self.assertEqual(feed.lines.bad, 0)

    def jittered(self, count: int) -> list[bytes]:
        """Lines of the last minutes up to now, each up to 15 ms early or late."""
        now, draw = time.monotonic_ns() // 1000, random.Random(7)
        off = [draw.randint(-15_000, 15_000) for _ in range(count)]
        return [b"%d 100000\n" % (now - (count - place) * 1_000_000 + one)
                for place, one in enumerate(off)]

    def steadied(self, lines: list[bytes]) -> bytes:
        words = [TOP / "feeders/steady.py"]
        done = subprocess.run(words, input=b"".join(lines), stdout=subprocess.PIPE, timeout=60)
        return done.stdout

    def test_a_steadied_radio_is_kept_as_it_came_and_handed_on_as_steady_has_it(self) -> None:
        lines = self.jittered(300)
        (self.folder / "lines").write_bytes(b"".join(lines))
        feed = self.feed(f"cat {self.folder}/lines; exec sleep 60", steady=True)
        self.turn(feed, lambda: feed.pulses == 300)
        self.assertEqual(self.lines(), self.steadied(lines))
        self.assertEqual(b"".join(one.raw.line() for one in self.heard), b"".join(lines))
        self.assertNotEqual(self.lines(), b"".join(lines))

    def test_a_steadied_radio_begins_with_what_was_logged(self) -> None:
        lines = self.jittered(301)
        feed = self.feed(f"printf '{lines[300].decode()}'; exec sleep 60", steady=True)
        feed.recall([Pulse(*map(int, line.split())) for line in lines[:300]])
        self.turn(feed, lambda: feed.pulses == 1)
        given = b"".join(one.given.line() for one in feed.last_minutes())
        self.assertEqual(given, self.steadied(lines))


class OfAHost(unittest.TestCase):
    def test_a_source_that_can_not_be_opened(self) -> None:
        radio, host = Radio("file", "/nosuch", "", 60.0, "dcf", 0.0), Host()
        log = PulseLog(host, "/nosuch", 0, "dcf", "b0070001")
        feed = Feed(host, 0, radio, log, lambda *_: None)
        self.addCleanup(feed.source.close)
        with self.assertLogs("keeper") as said:
            feed.turn()
        self.assertIn("radio 0: its source can't be opened: /nosuch: No such file or directory; it "
                      "is opened again in 1 s", said.output[0])


if __name__ == "__main__":
    unittest.main()
