"""Tests of kept_client.py: how it counts what it met.

    python3 -m unittest lab.test_kept_client
"""

import unittest

from lab.kept_client import Client, Spans, Stalls
from lab.packets import Header, stamp


class Counting(unittest.TestCase):
    def setUp(self):
        self.client = Client(9, 0.0, 100)
        self.addCleanup(self.client.socket.close)
        self.number = 0

    def ask(self, answer: str) -> None:
        """A request every 10 ms, and what comes of it."""
        sent, self.number = 50.0 + self.number / 100, self.number + 1
        self.client.ask(round(sent * 1e9))
        if answer != "nothing":
            self.answer(self.number - 1, answer)

    def answer(self, number: int, answer: str) -> None:
        """An answer 2 ms after the request of this number."""
        sent = 50.0 + number / 100
        now = stamp(sent + 0.001 + (5.0 if answer == "wrong" else 0.0))
        self.client.take(Header(3 if answer == "INIT" else 0, 4, 4, 1, 6, -20, 0, 64, 0, 0, round(sent * 1e9), now, now), sent + 0.002)

    def met(self, *answers: str) -> dict:
        for one in answers:
            self.ask(one)
        self.client.finish()
        return self.client.report()

    def test_an_answer_that_overtakes_another_loses_nothing(self):
        for _ in range(4):
            self.ask("nothing")
        for number in (1, 0, 3):
            self.answer(number, "time")
            self.client.settle(49.5)
        self.assertEqual([number for number, _ in self.client.open], [2, 3])
        self.client.settle(50.02)
        found = self.client.report()
        self.assertEqual((found["asked"], found["answered"], found["timed"]), (4, 3, 3))
        self.assertEqual((found["silences"], found["untimes"]), ([(50.02, 0.01, 1)], [(50.02, 0.01, 1)]))
        self.answer(2, "time")
        self.assertEqual(self.client.answered, 3, "it came too late")

    def test_no_time_counts_from_the_first_time_on(self):
        found = self.met("INIT", "nothing", "INIT", "time", "time")
        self.assertEqual((found["asked"], found["answered"], found["timed"], found["untimes"]), (5, 4, 2, []))
        self.assertEqual(found["silences"], [(50.01, 0.01, 1)])

    def test_spans(self):
        found = self.met("time", "nothing", "nothing", "INIT", "time", "nothing", "time")
        self.assertEqual(found["silences"], [(50.01, 0.02, 2), (50.05, 0.01, 1)])
        self.assertEqual(found["untimes"], [(50.01, 0.03, 3), (50.05, 0.01, 1)])
        self.assertEqual((found["silent"], found["untimed"], found["wrong"]), (0.02, 0.03, 0))

    def test_a_wrong_time(self):
        found = self.met("time", "wrong", "time")
        self.assertEqual((found["timed"], found["wrong"]), (3, 1))
        self.assertAlmostEqual(found["error"], 4.999, places=3)

    def test_a_span_that_has_not_ended(self):
        spans = Spans()
        spans.miss(0.5, 70.5)
        spans.miss(0.6, 70.6)
        spans.finish(0.9)
        self.assertEqual(spans.all, [(70.5, 0.4, 2)])

    def test_stalls_by_the_second(self):
        stalls = Stalls()
        for at, seconds in ((5.1, 0.02), (5.9, 0.03), (6.0, 0.001), (9.0, 0.005)):
            stalls.note(at, seconds)
        self.assertEqual((stalls.worst(), stalls.long()), (0.03, [(5, 0.03), (9, 0.005)]))
