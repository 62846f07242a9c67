"""Tests of soak_report.py: what each span without an answer or without the time is put down to, and the verdict.

    python3 -m unittest checks.test_soak_report
"""

import unittest

from checks.kept_bounds import SLOW
from checks.soak_report import CHANGED, RECEIVER, REPORTER, SERVER, Event, judge, lines, stalled_near, verdict

BEGAN = 1000.0
CYCLE = 600.0
RUNS = {1: ("start", 999.0), 2: ("cycle", 1600.0), 3: ("died", 1900.2)}
KILLS = [Event(SERVER, 1900.0), Event(RECEIVER, 2500.0)]


def met(silences=(), untimes=(), wrong=0, stalls=()):
    lost, late = sum(one[2] for one in silences), sum(one[2] for one in untimes)
    return {"asked": 9000, "answered": 9000 - lost, "timed": 9000 - max(lost, late), "wrong": wrong, "error": 0.0019, "silences": silences, "untimes": untimes, "stalls": stalls}


class Verdicts(unittest.TestCase):
    def judged(self, runs=RUNS, kills=KILLS, **what):
        return judge(met(**what), runs, kills, BEGAN, CYCLE)

    def test_nothing_missing(self):
        report = self.judged()
        self.assertEqual(report.faults, [])
        self.assertEqual(verdict(report, 2.0)[:24], "soak passed: 2.00 hours,")
        self.assertEqual([report.costs[one.name].events for one in (CHANGED, SERVER, RECEIVER, REPORTER)], [1, 1, 1, 0])

    def test_a_wrong_time_is_never_excused(self):
        report = self.judged(wrong=1, stalls=[(second, 9.0) for second in range(1000, 3000)])
        self.assertEqual(verdict(report, 2.0), "soak failed after 2.00 hours: 1 answers had a wrong time")

    def test_within_the_bound_of_a_change(self):
        report = self.judged(silences=[(1599.98, 0.03, 3)], untimes=[(1599.98, 0.09, 9)])
        self.assertEqual(report.faults, [])
        cost = report.costs[CHANGED.name]
        self.assertEqual((cost.unanswered, cost.untimed, cost.silence, cost.untime), (3, 9, 0.03, 0.09))
        self.assertIn("  change of run (1): 3 without an answer, 6 more without the time, for 30 and 90 ms at most; "
                      "50 and 100 ms are allowed on a quiet machine", lines(report))

    def test_beyond_the_bound_of_a_change(self):
        most = 0.05 * SLOW
        report = self.judged(silences=[(1600.1, most + 0.01, 6)])
        self.assertEqual(report.faults, [f"after 0.17 h {most * 1000 + 10:.0f} ms without an answer at a change of run, where {most * 1000:.0f} are the most"])

    def test_a_kill_has_its_own_bound(self):
        report = self.judged(silences=[(1900.01, 0.2, 20)], untimes=[(1900.01, 0.39, 39)])
        self.assertEqual(report.faults, [])
        self.assertEqual(report.costs[SERVER.name].unanswered, 20)
        self.assertEqual(report.costs[CHANGED.name].unanswered, 0)

    def test_a_kill_counts_before_a_change_of_run(self):
        report = self.judged({**RUNS, 3: ("died", 1600.9)}, [Event(SERVER, 1600.5)], silences=[(1600.6, 0.2, 20)])
        self.assertEqual((report.costs[SERVER.name].unanswered, report.faults), (20, []))

    def test_a_receiver_that_is_killed_costs_nothing(self):
        report = self.judged(untimes=[(2500.5, 0.01, 1)], stalls=[(2500, 0.3)])
        self.assertEqual(report.faults, ["after 0.42 h 10 ms without the time at a kill of a receiver, where 0 are the most"])

    def test_at_another_time_nothing_may_be_missing(self):
        report = self.judged(silences=[(2000.0, 0.01, 1)], untimes=[(2000.0, 0.02, 2)], stalls=[(2000, 0.5)])
        self.assertEqual(report.faults, [f"after 0.28 h {lost}, and nothing had happened" for lost in ("10 ms without an answer", "20 ms without the time")])
        self.assertIn("  at other times: 1 without an answer, 1 more without the time, for 10 and 20 ms at most; none is allowed", lines(report))

    def test_a_stalled_machine_answers_for_a_part(self):
        spans = [(1600.0, 0.4, 40)]
        self.assertEqual(len(self.judged(silences=spans).faults), 1)
        self.assertEqual(self.judged(silences=spans, stalls=[(1599, 0.1)]).faults, [])
        # A stall at another time says nothing of this span, and no stall excuses a second.
        self.assertEqual(len(self.judged(silences=spans, stalls=[(1500, 0.1), (1604, 0.1)]).faults), 1)
        self.assertEqual(len(self.judged(silences=[(1600.0, 1.0, 100)], stalls=[(1600, 5.0)]).faults), 1)

    def test_what_is_near(self):
        stalls = {"stalls": [(10, 0.1), (20, 0.2), (30, 0.3)]}
        self.assertEqual(stalled_near(stalls, 20.5, 0.0), 0.2)
        self.assertEqual(stalled_near(stalls, 15.0, 12.0), 0.2)
        self.assertEqual(stalled_near(stalls, 25.0, 2.0), 0.0)

    def test_runs_that_begin_without_a_reason(self):
        for cause in ("died", "silent", "link", "reload"):
            with self.subTest(cause=cause):
                report = self.judged({**RUNS, 4: (cause, 2501.0)})
                self.assertEqual(report.faults, [f"run 4 began ({cause}), and nothing had been killed"])
        self.assertEqual(self.judged({**RUNS, 4: ("died", 2801.0)}, [*KILLS, Event(SERVER, 2800.0)]).faults, [])
        self.assertEqual(len(self.judged({**RUNS, 4: ("died", 2801.0)}, [*KILLS, Event(REPORTER, 2800.0)]).faults), 1)

    def test_an_event_lasts_until_its_run_has_begun(self):
        """On a busy machine a run that ends may need half a minute until it is used up."""
        runs, kills = {**RUNS, 4: ("died", 2830.0), 5: ("cycle", 3450.0)}, [*KILLS, Event(SERVER, 2800.0)]
        report = self.judged(runs, kills, silences=[(at, 0.03, 3) for at in (2799.95, 2825.0, 2831.9, 3431.0)])
        self.assertEqual(report.faults, [])
        self.assertEqual((report.costs[SERVER.name].unanswered, report.costs[CHANGED.name].unanswered), (9, 3))
        report = self.judged(runs, kills, silences=[(at, 0.03, 3) for at in (2799.8, 2833.0, 3429.0, 3453.0)])
        self.assertEqual(len(report.faults), 4)

    def test_a_run_that_nobody_saw(self):
        self.assertEqual(self.judged({**RUNS, 5: ("cycle", 2400.0)}).faults, ["run 4 lasted less than a second"])
