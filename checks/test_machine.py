"""Tests of what checks/machine reckons: edges, answers, logs that a cut left, bounds.

    python3 -m unittest checks.test_machine
"""

import calendar
import contextlib
import io
import itertools
import os
import pathlib
import socket
import struct
import subprocess
import sys
import tempfile
import time
import unittest
import unittest.mock

from checks.machine import evening, modem, outside, pair, receiver, strain, vm
from checks.machine.client import Client, Judged, judged, silence, worst
from checks.machine.guest import agent
from checks.machine.image import Image
from checks.machine.trial import Result
from lab.client import Answer
from lab.held import Wrong
from lab.packets import UNIX, WHOLE, read, reply, request

NOON = float(calendar.timegm((2026, 12, 1, 12, 0, 0)))
BASE = NOON  # UTC where the monotonic clock outside is 0


def answer(came: float, error: float = 0.0, has_time: bool = True, distance: float = 0.01) -> Judged:
    """An answer whose request was sent a millisecond before it came."""
    return Judged(came - 0.001, came, has_time, error, distance)


def datagram(receive: float, transmit: float, stratum: int = 1, leap: int = 0) -> bytes:
    """An answer with these stamps (UTC s) to request 7; root delay 0.5 s and root dispersion 0.25 s."""
    stamps = [round((moment + UNIX) * WHOLE) for moment in (receive, transmit)]
    return struct.pack(">BBbbII4sQQQQ", leap << 6 | 0x24, stratum, 6, -20, 0x8000, 0x4000, b"DCF\0", 0, 7, *stamps)


def met(receive: float, transmit: float, stratum: int = 1, leap: int = 0) -> Judged:
    """That answer to a request that was sent 5 s and answered 6 s after noon."""
    header = read(datagram(NOON + receive, NOON + transmit, stratum, leap))
    assert header is not None
    return judged(Answer(header, 5.0, 6.0), BASE)


class Pulses(unittest.TestCase):
    def minute(self) -> list[tuple[float, float]]:
        """The pulses of 12:00: when each begins in it, and its width, in seconds."""
        found = itertools.islice(receiver.pulses("dcf", NOON + 30.5), 59)
        return [(begin - NOON, round(end - begin, 6)) for begin, end in found]

    def test_a_minute_has_no_mark_in_its_last_second(self):
        self.assertEqual([moment for moment, _ in self.minute()], list(range(59)))

    def test_a_minute_names_the_next_one(self):
        """By PTB's table: bits 21 to 58, least weights first; the senders keep winter time."""
        bits = [{0.1: 0, 0.2: 1}[width] for _, width in self.minute()]

        def number(first: int, past: int) -> int:
            return sum(weight * bit for weight, bit in zip((1, 2, 4, 8, 10, 20, 40, 80), bits[first:past]))

        told = [number(*places) for places in ((21, 28), (29, 35), (36, 42), (42, 45), (45, 50), (50, 58))]
        self.assertEqual(told, [1, 13, 1, 2, 12, 26])  # 13:01 CET, Tuesday 1 December 2026

    def test_a_log_of_what_was_received(self):
        """Of the last three seconds, by a counter that began two seconds before noon; each mark is 12 ms late."""
        rows = [row.split() for row in receiver.log_before("dcf", NOON + 3.5, 3.0, 2.0 - NOON).splitlines()]
        self.assertEqual([row[0] for row in rows], ["2012000", "3012000", "4012000", "5012000"])
        self.assertEqual({row[1] for row in rows} - {"100000", "200000"}, set())


class Answers(unittest.TestCase):
    def test_one_that_is_right(self):
        one = met(5.25, 5.5)
        self.assertEqual((one.error, one.distance, one.has_time, one.is_wrong), (0.0, 0.5, True, False))

    def test_one_that_is_late_and_one_that_is_ahead(self):
        late, ahead = met(4.0, 4.5), met(6.25, 6.75)
        self.assertEqual((late.error, ahead.error), (-1.0, 0.75))
        self.assertTrue(late.is_wrong and ahead.is_wrong)

    def test_an_error_within_what_it_reports(self):
        one = met(4.5, 5.5)
        self.assertEqual((one.error, one.is_wrong), (-0.5, False))

    def test_one_without_the_time(self):
        for stratum, leap in ((0, 3), (1, 3), (0, 0)):
            one = met(0.0, 0.0, stratum, leap)
            self.assertEqual((one.has_time, one.is_wrong), (False, False))

    def test_spans_and_the_worst(self):
        some = [answer(1), answer(2, -0.5), answer(3, 0.2), answer(4, 9.0, has_time=False)]
        self.assertEqual((worst(some), worst([])), (-0.5, 0.0))
        self.assertEqual((silence(some, 0.5, 7), silence([], 10, 14)), (4, 4))


class Bounds(unittest.TestCase):
    """Each judge lets its bound pass, and nothing beyond it."""

    def faults(self, judge, *words) -> int:
        result = Result()
        with contextlib.redirect_stdout(io.StringIO()):
            judge(*words, result)
        self.assertEqual(len(result.figures) + len(result.faults), 1)
        return len(result.faults)

    def test_a_pause(self):
        for last, faults in ((110.0, 0), (110.1, 1)):
            some = [answer(100.5), answer(last, -31.8), answer(200)]
            self.assertEqual(self.faults(outside.judge_pause, 31.8, some, 100.0), faults)
        self.assertEqual(self.faults(outside.judge_pause, 31.8, [], 100.0), 1)

    def test_a_sleep(self):
        some = [answer(99.0, -1.0), answer(101.0, has_time=False), answer(101.25, -40)]
        for left, faults in ((0.25, 0), (0.2, 1), (-1.0, 1)):
            self.assertEqual(self.faults(outside.judge_sleep, "x", some, 100.0, left), faults)
        self.assertEqual(self.faults(outside.judge_sleep, "x", some[:2], 100.0, -1.0), 0)
        self.assertEqual(self.faults(outside.judge_sleep, "x", some[:1], 100.0, 0.5), 1)

    def test_answers_that_have_to_be_right(self):
        for some, faults in (([answer(1, 0.01)], 0), ([answer(1), answer(2, 0.02)], 1), ([], 1)):
            self.assertEqual(self.faults(lambda result, some=some: result.right("x", some)), faults)


    def test_a_span_without_the_time(self):
        """The client's answers and the moment of asking: 0.5 s and 2 s without the time."""
        for longest, faults in ((2.1, 0), (1.9, 1)):
            client = unittest.mock.Mock(since=lambda began: [answer(0.5), answer(2.5)])
            trial = unittest.mock.Mock(result=Result())
            with unittest.mock.patch("time.monotonic", return_value=3.0), contextlib.redirect_stdout(io.StringIO()):
                strain.met(trial, "x", client, 0.0, longest)
            self.assertEqual((len(trial.result.figures), len(trial.result.faults)), (2 - faults, faults))

    def test_a_client_of_two(self):
        """One has the time up to 3 s, the other one from 4.9 s or 5.1 s on."""
        for first, faults in ((4.9, 0), (5.1, 1)):
            both = []
            for some in (range(4), [first, *range(6, 9)]):
                client = unittest.mock.Mock(since=lambda _, some=some: [answer(one) for one in some])
                both.append(unittest.mock.Mock(result=Result(), clients=[client]))
            with unittest.mock.patch("time.monotonic", return_value=9.0), contextlib.redirect_stdout(io.StringIO()):
                pair.met(both, "x", 0.0)
            self.assertEqual(len(both[0].result.faults), faults)


class Tails(unittest.TestCase):
    def test_what_a_log_says(self):
        for text, tail in (
            (b"1000000 100000\n2500000 200000\n", (2, 0, 0, 2.5)),
            (b"", (0, 0, 0, 0.0)),
            (b"1000000 100000\n25000", (1, 1, 0, 1.0)),
            (b"1000000 100000\n\0\0\0", (1, 1, 3, 1.0)),
            (b"1000000 100000\n\0\0\n2500000 200000\n", (2, 1, 2, 2.5)),
        ):
            self.assertEqual(outside.tail(text), tail)


class Ends(unittest.TestCase):
    """What stands outside, over a socket whose other end a test has."""

    def setUp(self):
        folder = pathlib.Path(self.enterContext(tempfile.TemporaryDirectory()))
        self.path = folder / "port"
        self.heard = self.enterContext(socket.socket(socket.AF_UNIX))
        self.heard.bind(str(self.path))
        self.heard.listen()
        self.heard.settimeout(10)

    def accepted(self) -> socket.socket:
        """What has been connected."""
        one = self.enterContext(self.heard.accept()[0])
        one.settimeout(10)
        return one

    def test_at_most_one_edge_is_under_way(self):
        line = receiver.Line(self.path)
        self.addCleanup(line.lose)
        line.move(True)
        ours = self.accepted()
        self.assertEqual(ours.recv(10), b"H")
        line.move(False)  # the first isn't confirmed
        ours.send(b"H")
        line.move(False)
        self.assertEqual(ours.recv(10), b"L")
        ours.send(b"L")
        line.move(False)  # it has that level
        line.move(True)
        self.assertEqual(ours.recv(10), b"H")
        self.assertEqual((line.figures.moved, line.figures.lost), (3, 1))

    def test_a_machine_that_is_off_and_on_again(self):
        line = receiver.Line(self.path)
        self.addCleanup(line.lose)
        line.move(True)
        self.accepted().close()
        line.move(False)
        line.move(False)
        self.assertEqual(self.accepted().recv(10), b"L")

    def test_a_client_asks_again_where_the_machine_was_off(self):
        client = Client(self.path, BASE, 200)
        client.start()
        self.addCleanup(client.close)
        for number in (1, 2):
            ours = self.accepted()
            asked = ours.recv(50, socket.MSG_WAITALL)
            self.assertEqual(asked[:3], b"\0\x7b\x23")  # port 123, a client's request
            now = round((NOON + time.monotonic() + 5 + UNIX) * WHOLE)
            ours.sendall(reply(request(1), now, now))  # nobody asked for this one
            ours.sendall(reply(asked[2:], now, now))
            end = time.monotonic() + 10
            while len(client.answers) < number and time.monotonic() < end:
                time.sleep(0.01)
            self.assertEqual([1 < one.error <= 5 and one.is_wrong for one in client.answers], [True] * number)
            ours.close()
        self.assertEqual(len(client.answers), 2)

    def test_lines_of_the_monitor(self):
        stream = vm.Stream(self.path)
        self.addCleanup(stream.socket.close)
        ours = self.accepted()
        stream.send({"execute": "stop"})
        self.assertEqual(ours.recv(100), b'{"execute": "stop"}\n')
        ours.sendall(b'{"return"')
        self.assertIsNone(stream.next(time.monotonic() + 0.05))
        ours.sendall(b": {}}\nhalf of another\n")
        self.assertEqual(stream.next(time.monotonic() + 10), {"return": {}})
        self.assertEqual(stream.next(time.monotonic() + 10), {})
        ours.close()
        with self.assertRaisesRegex(Wrong, "QEMU has ended"):
            stream.next(time.monotonic() + 10)


class Lines(unittest.TestCase):
    """DCD as QEMU sees it: its library answers for a terminal that has no such line."""

    def test_a_modem_line(self):
        port = modem.Modem(pathlib.Path(self.enterContext(tempfile.TemporaryDirectory())))
        self.addCleanup(port.close)
        asked = "import array, fcntl, termios as t; b = array.array('i', [0]); fcntl.ioctl(0, t.TIOCMGET, b); print(b[0] & t.TIOCM_CD)"
        for level, bit in ((False, 0), (True, 0x40)):
            port.move(level)
            env = os.environ | port.environment()
            done = subprocess.run([sys.executable, "-c", asked], stdin=port.ends[1], env=env, capture_output=True)
            self.assertEqual(int(done.stdout), bit)
        self.assertEqual(port.figures.moved, 1)


class Words(unittest.TestCase):
    def test_the_pages_steps(self):
        page = evening.PAGE.read_text(encoding="utf-8")
        self.assertEqual(evening.step(page, 2).splitlines()[0], "timeout 10 gpiomon gpiochip0 17")
        self.assertEqual(evening.step(page, 4), "/usr/sbin/radio_ntpd decode --plan dcf --log first.log")
        feeder = "/usr/lib/radio_ntpd/feeders/edges_to_log.py"
        self.assertIn(f" {feeder} stdbuf -oL gpiomon", evening.step(page, 3))
        self.assertIn(f'"{feeder} stdbuf', evening.step(page, 6))

    def test_a_machine_has_no_network(self):
        words = vm.words(Image(*map(pathlib.Path, "kid")), pathlib.Path("/w"))
        self.assertEqual(words[words.index("-nic") + 1], "none")
        self.assertIn("-nodefaults", words)
        self.assertFalse([word for word in words if "netdev" in word or "hostfwd" in word])

    def test_a_wire_has_two_ends(self):
        """Only the first waits for the other, and their cards differ."""
        both = [" ".join(pair.Wire(pathlib.Path("/w"), number).words()) for number in (1, 2)]
        self.assertEqual(["server=on" in one for one in both], [True, False])
        self.assertEqual(len({one.partition("mac=")[2] for one in both}), 2)
        machine = vm.words(Image(*map(pathlib.Path, "kid")), pathlib.Path("/w"), (), [pair.Wire(pathlib.Path("/w"), 1)])
        self.assertIn(both[0], " ".join(machine))

    def test_the_agent(self):
        for command, status, text in (("echo a; exit 3", 3, "a\n"), ("", 0, ""), ("echo a; sleep 9", 124, "a\n")):
            before = time.monotonic()
            line = b'{"number": 7, "command": "%s", "limit": 1}' % command.encode()
            told = vm.json.loads(agent.answer(line))
            self.assertEqual((told["number"], told["status"], told["text"]), (7, status, text))
            self.assertTrue(before <= told["monotonic"] <= time.monotonic())
