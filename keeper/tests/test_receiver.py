"""What receivers look like: the examples' logs, which no code of the keeper made, ten seconds at a
time."""

import pathlib
import random
import re
import time
import unittest
from collections.abc import Iterator

from keeper.receiver import CLASSES, Level, Marks, fits, judge, marks_of, shift_of

TOP = pathlib.Path(__file__).parent.parent.parent
RADIOS = TOP / "examples" / "radios"
PLANS = {"dcf77": "dcf", "msf": "msf", "wwvb": "wwvb"}
WIDTHS = [100_000] * 9 + [200_000]
RANGE = "widths 100.0 ms to 200.0 ms"
Pairs = list[tuple[int, int]]


def log(name: str) -> Pairs:
    lines = (RADIOS / f"{name}.log").read_text().splitlines()
    return [(int(start), int(width)) for start, width in map(str.split, lines)]


def upside_down(marks: Pairs) -> Pairs:
    """The marks of a receiver whose output is the other way round: the gaps."""
    return [(start + width, later - start - width)
            for (start, width), (later, _) in zip(marks, marks[1:])]


def pieces(marks: Pairs, seconds: int = 10) -> Iterator[Pairs]:
    """This many seconds from each seventh second on."""
    for first in range(10, 500, 7):
        yield [one for one in marks
               if first * 1_000_000 <= one[0] < (first + seconds) * 1_000_000]


def seen(marks: Pairs, seconds: float = 10) -> Marks:
    return marks_of([(float(start), float(width)) for start, width in marks], seconds)


class Looks(unittest.TestCase):
    def test_each_plan_and_polarity_in_ten_seconds(self) -> None:
        for name, plan in PLANS.items():
            for turned in (False, True):
                marks = upside_down(log(name)) if turned else log(name)
                for piece in pieces(marks):
                    with self.subTest(plan=plan, turned=turned, first=piece[0]):
                        found = seen(piece)
                        self.assertEqual(found.inverted, turned)
                        self.assertIn(plan, found.plans)
                        self.assertEqual("wwvb" in found.plans, plan == "wwvb")

    def test_jitter_does_not_change_it(self) -> None:
        chance = random.Random(4)
        for name, plan in PLANS.items():
            marks = [(start + chance.randint(-8000, 8000), width + chance.randint(-8000, 8000))
                     for start, width in log(name)]
            for piece in pieces(marks, 30):
                found = seen(sorted(piece), 30)
                self.assertFalse(found.inverted)
                self.assertIn(plan, found.plans)

    def test_the_classes_are_those_of_the_page(self) -> None:
        """A plan reads the widths of docs/FORMATS.md and no others."""
        page = (TOP / "docs" / "FORMATS.md").read_text(encoding="utf-8")
        plan, said = "", dict[str, list[tuple[int, int]]]((name, []) for name in CLASSES)
        row = r"(?m)^\| (\w*) ?\| (\d+) to (\d+) \| (?:Zero|One|Both|Long)"
        for name, least, most in re.findall(row, page):
            plan = {"DCF77": "dcf", "MSF": "msf", "WWVB": "wwvb"}.get(name, plan)
            said[plan].append((int(least), int(most)))
        self.assertEqual(said, {name: [(least, most) for least, most, _ in classes]
                                for name, classes in CLASSES.items()})

    def test_nine_of_ten_have_to_fit(self) -> None:
        for widths, due in (([1e5] * 9 + [3e5], True), ([1e5] * 8 + [3e5] * 2, False),
                            ([40_000.0, 260_000.0] * 5, True), ([39_999.0, 260_001.0] * 5, False)):
            self.assertEqual(fits("dcf", widths), due)

    def test_msf_shows_itself_in_a_minute(self) -> None:
        for piece in pieces(log("msf"), 60):
            self.assertEqual(seen(piece, 60).plans, ["msf"])
        for piece in pieces(log("dcf77"), 62):
            self.assertEqual(seen(piece, 62).plans, ["dcf"])

    def test_noise(self) -> None:
        chance = random.Random(2)
        noise = sorted((chance.randrange(10**7), chance.randrange(5_000, 60_000))
                       for _ in range(60))
        self.assertIsNone(seen(noise).inverted)
        self.assertEqual(seen(noise).rate, 6.0)

    def test_a_flood_is_noise_at_once(self) -> None:
        """Nobody looks how its marks lie to one another."""
        began = time.monotonic()
        found = seen([(20_000_000 + place * 200, 100) for place in range(50_000)])
        self.assertEqual(found.rate, 5000)
        self.assertLess(time.monotonic() - began, 5)

    def test_marks_that_are_all_too_long_or_too_short(self) -> None:
        """By how much, where the plan reads others than were sent; where it reads the same nothing
        is wrong."""
        for name, plan in PLANS.items():
            for piece in pieces(log(name)):
                widths = [width for _, width in piece]
                if len(widths) < 10 or max(widths) - min(widths) < 50_000:
                    continue  # of one width nobody can say which one was sent
                for shift in (-65_000, 0, 65_000, 165_000):
                    is_read = shift == 0 or (plan == "wwvb" and abs(shift) < 100_000)
                    with self.subTest(plan=plan, shift=shift, first=piece[0]):
                        self.assertAlmostEqual(shift_of(plan, [one + shift for one in widths]),
                                               0 if is_read else shift, delta=5_000)
        self.assertEqual(shift_of("dcf", [48_000, 150_000] * 5), 0)
        self.assertEqual(shift_of("dcf", [155_000, 255_000] * 5), 55_000)
        chance = random.Random(5)
        self.assertEqual(shift_of("dcf", [chance.randrange(20_000, 430_000) for _ in range(10)]), 0)


class Sentences(unittest.TestCase):
    def test_each(self) -> None:
        noise, hum = "noise, or another signal", "the line hums with the mains: look at its wiring"
        few = "too few to say more; read it for longer with --seconds 60"
        turned = "its output is the other way round: give edges_to_log.py `--low`, or take it away"
        anywhere = "its marks begin anywhere in a second: interference, or another signal"
        none = "marks of no plan that is known, and the station says MSF: interference, or the"
        for found, plan, level, said in (
            (Marks(40.0, WIDTHS), "dcf", Level.BAD, noise),
            (Marks(3.1, WIDTHS), "dcf", Level.BAD, noise),
            (Marks(50.1, WIDTHS), "dcf", Level.BAD, hum),
            (Marks(58.0, WIDTHS), "dcf", Level.BAD, hum),
            (Marks(96.5, WIDTHS), "dcf", Level.BAD, hum),
            (Marks(90.0, WIDTHS), "dcf", Level.BAD, noise),
            (Marks(0.4, WIDTHS[-4:]), "dcf", Level.NOTE, few),
            (Marks(1.0, WIDTHS), "dcf", Level.BAD, anywhere),
            (Marks(1.0, WIDTHS, True), "dcf", Level.BAD, turned),
            (Marks(1.0, WIDTHS, False, ["dcf"]), "dcf", Level.WELL, "marks of DCF77"),
            (Marks(1.0, WIDTHS, False), "msf", Level.BAD, none),
        ):
            with self.subTest(said=said, rate=found.rate):
                self.assertEqual(judge(found, plan)[0], level)
                due = f"{found.rate:.1f} marks a second, {RANGE}: {said}"
                self.assertTrue(judge(found, plan)[1].startswith(due), judge(found, plan))

    def says(self, marks: Pairs, plan: str, level: Level, words: str, seconds: int = 10) -> None:
        found = judge(seen(marks, seconds), plan)
        self.assertEqual(found[0], level, found)
        self.assertIn(words, found[1])

    def test_of_the_examples(self) -> None:
        marks = log("dcf77")[20:30]
        self.says(marks, "dcf", Level.WELL, "marks of DCF77")
        self.says(marks, "wwvb", Level.BAD, "marks of DCF77 or MSF, and the station says WWVB")
        self.says(log("wwvb")[20:30], "dcf", Level.BAD, "marks of WWVB, and the station says DCF77")
        self.says(upside_down(log("dcf77"))[20:30], "dcf", Level.BAD, "the other way round")
        self.says([(one * 137_000, 20_000) for one in range(70)], "dcf", Level.BAD, "noise")
        for by, how in ((-65_000, "too short by some 66 ms"), (65_000, "too long by some 64 ms")):
            moved = [(start, width + by) for start, width in log("dcf77")[20:31]]
            self.says(moved, "dcf", Level.BAD, f"{how} for DCF77: the receiver's threshold, or its")

    def test_widths_at_the_borders_of_a_plan(self) -> None:
        """DCF77's Zero has 40000 to 149999, its One 150000 to 260000."""
        marks = [(one * 1_000_000, 150_000 if one % 3 else 48_000) for one in range(20, 30)]
        self.says(marks, "dcf", Level.WELL, "marks of DCF77")

    def test_another_sender_in_five_seconds(self) -> None:
        """MSF is named where its minute mark was seen, or two marks in a second."""
        minute, often, longer = (
            [(one * 1_000_000, wide if is_it(one) else 200_000) for one in range(20, 25)]
            for wide, is_it in ((500_000, lambda one: one == 22), (500_000, lambda one: one % 2),
                                (300_000, lambda one: one % 2)))
        self.says(minute, "dcf", Level.BAD, "marks of MSF or WWVB, and the station says DCF77", 5)
        self.says(often, "dcf", Level.BAD, "marks of WWVB, and the station says DCF77", 5)
        self.says(longer, "msf", Level.WELL, "marks of MSF or WWVB", 5)
        self.says(longer, "dcf", Level.BAD, "too long by some 100 ms for DCF77", 5)


if __name__ == "__main__":
    unittest.main()
