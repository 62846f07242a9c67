#!/usr/bin/env python3
"""Tests of plots.py and svg_chart.py: what stands where in a picture.

    tools/test_plots.py
"""

import math
import random
import unittest
import xml.etree.ElementTree

from journal_text import read_entry, run_of, station_of
from made_entries import NOON, NOON_UNIX, verdicts
from plots import (
    RED_TO_GREEN,
    bars_of,
    begin_of,
    heard,
    lines_of,
    offset_axis,
    reception,
    scale_of,
    shade,
    spread_of,
)
from svg_chart import Band, Bar, Line, Panel, log_axis, picture, round_axis, utc_axis

SVG = "{http://www.w3.org/2000/svg}"


class Columns(unittest.TestCase):
    """How many entries a column of --reception has."""

    def heights(self, entries):
        labels = {"verdict": "#000000"}
        scale = scale_of(entries[-1].at - entries[0].at)
        return [shape.high for shape in bars_of(entries, labels, entries[0].at, scale, "x").shapes]

    def shaken(self, minutes, seed):
        """Entries once a minute that are up to 5 ms off either way."""
        draw = random.Random(seed)
        return [
            read_entry(f"0 {60_000_000 * (minute + 1) + draw.randint(-5000, 5000)} verdict {NOON} 0")
            for minute in range(minutes)
        ]

    def test_an_hour_of_good_minutes_has_one_in_each_column(self):
        for seed in range(20):
            for minutes in (8, 31, 60):
                self.assertEqual(self.heights(self.shaken(minutes, seed)), [1] * minutes)

    def test_longer_ones_are_as_full_as_they_can_be(self):
        for seed in range(20):
            self.assertEqual(self.heights(self.shaken(62, seed)), [5] * 12 + [2])
            self.assertEqual(self.heights(self.shaken(180, seed)), [5] * 36)
            self.assertEqual(self.heights(self.shaken(240, seed)), [15] * 16)
            self.assertEqual(self.heights(self.shaken(1440, seed)), [60] * 24)

    def test_a_minute_that_is_missing_is_a_gap_of_its_own(self):
        entries = self.shaken(30, 1)
        del entries[7]
        panel = bars_of(entries, {"verdict": "#000000"}, entries[0].at, scale_of(60_000_000), "x")
        middles = [(bar.left + bar.right) / 2 for bar in panel.shapes]
        self.assertEqual([round(middle) for middle in middles], [*range(7), *range(8, 30)])
        self.assertTrue(all(bar.right - bar.left < 1 for bar in panel.shapes))

    def test_the_first_and_the_last_column_are_drawn_whole(self):
        entries = self.shaken(31, 4)
        drawn = xml.etree.ElementTree.fromstring(reception(entries, station_of(entries)))
        widths = [float(one.get("width")) for one in drawn.iter(f"{SVG}rect") if one.get("fill") == "#2a7f3f"]
        # The last one is that of the key.
        self.assertEqual(len(widths), 32)
        self.assertLess(max(widths[:-1]) - min(widths[:-1]), 0.2)

    def test_feeds_that_begin_within_one_another_s_minute_have_their_own_columns(self):
        other = [entry._replace(at=entry.at - 29_999_000) for entry in self.shaken(31, 2)]
        first = other[0].at
        bars = bars_of(self.shaken(31, 3), {"verdict": "#000000"}, first, scale_of(60_000_000), "x").shapes
        self.assertEqual([bar.high for bar in bars], [1] * 31)


class Charts(unittest.TestCase):
    """What svg_chart.py makes of values."""

    def test_round_axes(self):
        for values, has_zero, said in (
            ([0.0, 24.0], True, ["0", "5", "10", "15", "20"]),
            ([-1.0, 1.0], False, ["-1.0", "-0.5", "0.0", "0.5", "1.0"]),
            ([0.012, 0.038], False, ["0.015", "0.020", "0.025", "0.030", "0.035"]),
            ([], False, ["0.0", "0.2", "0.4", "0.6", "0.8", "1.0"]),
        ):
            with self.subTest(values=values):
                axis = round_axis(values, has_zero=has_zero)
                self.assertEqual([letters for _, letters in axis.ticks], said)
                self.assertTrue(all(axis.low <= value <= axis.high for value in values))
        flat = round_axis([7.0, 7.0])
        self.assertTrue(flat.low < 7 < flat.high)

    def test_an_axis_of_offsets_magnifies_no_rounding(self):
        self.assertEqual([letters for _, letters in offset_axis([7.0, 7.0]).ticks], ["6.96", "6.98", "7.00", "7.02", "7.04"])
        self.assertEqual([letters for _, letters in offset_axis([-1.0, 1.0]).ticks], ["-1.0", "-0.5", "0.0", "0.5", "1.0"])

    def test_when_a_run_begins(self):
        self.assertEqual(begin_of(run_of(verdicts(range(3)))), "From 2026-01-01 12:00 UTC on")
        self.assertEqual(begin_of(None), "")

    def test_places_on_an_axis(self):
        self.assertEqual([log_axis(1, 100, (1, 10, 1000)).part(value) for value in (0.1, 1, 10, 100, 1e9)], [0, 0, 0.5, 1, 1])
        self.assertEqual([letters for _, letters in log_axis(4.5, 60, (5, 10, 100)).ticks], ["5", "10"])

    def test_hours_of_utc(self):
        axis = utc_axis(NOON_UNIX - 60, NOON_UNIX + 24 * 3600)
        self.assertEqual([letters for _, letters in axis.ticks], ["12:00", "15:00", "18:00", "21:00", "2026-01-02", "03:00", "06:00", "09:00", "12:00"])

    def test_short_stretches_of_utc_have_ticks_too(self):
        for minutes, said in (
            (4, ["12:02", "12:03", "12:04", "12:05", "12:06"]),
            (57, ["12:10", "12:20", "12:30", "12:40", "12:50"]),
            (180, ["12:30", "13:00", "13:30", "14:00", "14:30", "15:00"]),
        ):
            axis = utc_axis(NOON_UNIX + 120, NOON_UNIX + 120 + 60 * minutes)
            self.assertEqual([letters for _, letters in axis.ticks], said)

    def test_shapes(self):
        """A line is broken where a value isn't a number; a bar lies where its values say; letters are escaped."""
        nan = math.nan
        panel = Panel("a < b\nc", 100, round_axis([0.0, 1.0]), key={"one & two": "#123456"})
        panel.shapes = [Line([(0, 0), (1, 1), (2, nan), (3, 1)], "#000001"), Band([0, 1, 2, 3, 4], [0, 0, nan, 0, 0], [1, 1, nan, 1, 1], "#000002"), Bar(1, 3, 0, 0.5, "#000003")]
        drawn = xml.etree.ElementTree.fromstring(picture([panel], round_axis([0.0, 4.0], has_zero=True), "s", "over it"))
        self.assertEqual(len(drawn.findall(f"{SVG}polyline")), 1)
        self.assertEqual(len(drawn.findall(f"{SVG}circle")), 3)
        self.assertEqual(len(drawn.findall(f"{SVG}polygon")), 2)
        bar = next(one for one in drawn.findall(f"{SVG}rect") if one.get("fill") == "#000003")
        self.assertAlmostEqual(float(bar.get("width")), 2 / 4.16 * 680, delta=0.2)
        self.assertAlmostEqual(float(bar.get("height")), 0.5 / 1.04 * 100, delta=0.2)
        said = [one.text for one in drawn.iter(f"{SVG}tspan")]
        self.assertTrue({"a < b", "c", "one & two", "s", "over it"} <= set(said))

    def test_few_points_are_drawn_as_they_are(self):
        points = [(float(place), 0.0) for place in range(121)]
        self.assertEqual([type(shape) for shape in lines_of(points[:120], 10.0, "#000000")], [Line])
        self.assertEqual([type(shape) for shape in lines_of(points, 10.0, "#000000")], [Band, Line])

    def test_a_row_of_quarters_of_an_hour(self):
        """Of an hour from noon on, whose second quarter has half of its minutes refused and whose last has nothing."""
        entries = verdicts([*range(15), *range(15, 30, 2), *range(30, 45)])
        entries += [entry._replace(kind="refused", fields=["2"]) for entry in verdicts(range(16, 30, 2))]
        run = run_of(entries)
        bars = heard([run], [0], station_of(entries)).shapes
        self.assertEqual([bar.left - NOON_UNIX for bar in bars], [0, 900, 1800])
        self.assertEqual([bar.right - bar.left for bar in bars], [900] * 3)
        green = shade(RED_TO_GREEN, 1.0)
        self.assertEqual([bar.colour == green for bar in bars], [True, False, True])

    def test_medians_and_bands(self):
        points = [(place / 10, float(place % 10)) for place in range(20)] + [(5.5, 1.0)]
        spread = spread_of(points, 1.0)
        self.assertEqual((spread.at[:2], spread.low[:2], spread.median[:2], spread.high[:2]), ([0.5, 1.5], [1.0, 1.0], [4.5, 4.5], [8.0, 8.0]))
        self.assertEqual([math.isfinite(value) for value in spread.median], [True, True, False, True])
        self.assertEqual([scale_of(hours * 3_600_000_000).name[:4] for hours in (1, 24, 100)], ["minu", "hour", "days"])
        self.assertEqual([shade(((0, 0, 0), (100, 0, 0), (100, 100, 0)), part) for part in (0, 0.25, 0.5, 1)], ["#000000", "#320000", "#640000", "#646400"])


if __name__ == "__main__":
    unittest.main()
