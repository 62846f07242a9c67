"""What the supervisor takes from the file of the keeper before it."""

import os
import pathlib
import tempfile
import unittest
from unittest import mock

from keeper.ntp import EPOCH, Answer
from keeper.supervisor.pulses import Pulse
from keeper.supervisor.radios import Heard
from keeper.supervisor.reports import FACTS, Reports, _link
from keeper.supervisor.service import Service
from keeper.supervisor.watchdog import Link
from keeper.tests.fake_host import FakeHost


class Before(unittest.TestCase):
    def setUp(self) -> None:
        folder = tempfile.TemporaryDirectory()
        self.addCleanup(folder.cleanup)
        self.path = pathlib.Path(folder.name) / FACTS
        self.host = FakeHost()
        self.addCleanup(self.host.close_all)
        self.reports = Reports(self.host, folder.name, dict)

    def test_when_the_host_was_paused(self) -> None:
        self.assertEqual(self.reports.paused_before(), 0.0)  # there was none before
        for text, due in (('{"paused": 1700000000.5}', 1700000000.5), ('{"paused": 3}', 3.0),
                          ("{}", 0.0)):
            self.path.write_text(text, encoding="ascii")
            self.assertEqual(self.reports.paused_before(), due, text)

    def test_where_it_says_nothing_that_can_be_read_it_may_just_have_been(self) -> None:
        """Whatever stands in the file, the next keeper begins."""
        texts = ("", "{", "[]", "3", "null", '{"paused": []}', '{"paused": null}',
                 '{"paused": "x"}', "[" * 100_000, f'{{"paused": 1{"0" * 400}}}')
        for text in texts:
            with self.subTest(text=text[:20]):
                self.path.write_text(text, encoding="ascii")
                self.assertEqual(self.reports.paused_before(), self.host.realtime())
        self.path.unlink()
        os.mkdir(self.path)
        self.assertEqual(self.reports.paused_before(), self.host.realtime())


class Told(unittest.TestCase):
    def test_of_noise_the_last_pulses_are_told_to_a_reporter_that_begins(self) -> None:
        host = FakeHost()
        self.addCleanup(host.close_all)
        told = Reports(host, "/run", dict)
        self.addCleanup(told.close)
        feed = mock.Mock(number=0)
        pulses = [Pulse(one, 1) for one in range(4005)]
        feed.last_minutes.return_value = [Heard(one, one) for one in pulses]
        with mock.patch.object(told, "_tell") as tell:
            told._keep([feed], host.monotonic())
        last = tell.call_args.args[0]["pulses"]
        self.assertEqual((len(last), last[0], last[-1]), (4000, [5, 1, 5], [4004, 1, 4004]))


class Links(unittest.TestCase):
    def test_a_link_has_an_offset_where_it_has_the_time(self) -> None:
        stamp = 1_700_000_000.0 + EPOCH
        service = mock.Mock(spec=Service, requests={123: (7, 0.5)})
        for leap, due in ((0, 0.25), (3, 0.0)):
            said = Answer(leap, 1, "DCF", 0.0, 0.01, stamp, 1, stamp, stamp)
            link = Link(123, asked_at=50.0, answered_at=50.5, last=said, came_unix=1.7e9,
                        offset=0.25)
            told = _link(link, service, 1.7e9 - 50.5, 1.7e9)
            self.assertEqual(told["offset"], due)
            self.assertEqual((told["answered_at"], told["reference_time"]), (1.7e9, 1.7e9))
            self.assertEqual((told["requests"], told["requests_per_second"]), (7, 0.5))
        told = _link(Link(123), service, 1.7e9, 1.7e9)
        self.assertEqual((told["asked_at"], told["answered_at"]), (0.0, 0.0))  # never


if __name__ == "__main__":
    unittest.main()
