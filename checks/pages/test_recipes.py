"""Tests the recipes of docs/RECORDING.md: each makes the log of examples/ again from another form.

    python3 -m unittest checks.pages.test_recipes
"""

import re
import subprocess
import tempfile
import unittest
from pathlib import Path

from lab.program import TOP

LOG = TOP / "examples" / "dcf77-hour.log"
PAGE = TOP / "docs" / "RECORDING.md"
Pulse = tuple[int, int]


def recipe(begin: str) -> str:
    """Returns the command of the row that begins with these words, or of a sentence with them."""
    text = PAGE.read_text(encoding="utf-8")
    row = rf"(?m)^\| {re.escape(begin)}[^|]*\| `([^`]*)`"
    found = re.search(row, text) or re.search(rf"{begin}`(awk [^`]*)`", text)
    if found is None:
        raise AssertionError(f"RECORDING.md has no recipe for {begin}")
    return found[1].replace("\\|", "|")


def apply(command: str, given: str) -> list[Pulse]:
    """Returns the pulses of what a recipe makes of a file with this text."""
    with tempfile.TemporaryDirectory() as folder:
        file = Path(folder) / "file"
        file.write_text(given, encoding="ascii")
        run = ["sh", "-c", command.replace("FILE", str(file))]
        made = subprocess.run(run, cwd=TOP, capture_output=True, text=True, check=True)
    lines = [line for line in made.stdout.split("\n")[:-1] if re.fullmatch(r"\d+ \d+", line)]
    if len(lines) != made.stdout.count("\n"):
        raise AssertionError(f"{command} made lines that are none of a log")
    return [(int(at), int(width)) for at, width in map(str.split, lines)]


def pulses() -> list[Pulse]:
    """Returns the pulses of the log of examples/."""
    lines = LOG.read_text(encoding="ascii").splitlines()
    return [(int(at), int(width)) for at, width in map(str.split, lines)]


def written(form: str) -> str:
    """Returns the log of examples/ with each line in this form: of its start, width and end."""
    return "".join(form.format(at, width, at + width) for at, width in pulses())


def with_point(microseconds: int, digits: int) -> str:
    """Returns microseconds in a unit of 10^digits of them, exactly."""
    whole, rest = divmod(microseconds, 10**digits)
    return f"{whole}.{rest:0{digits}d}"


class Recipes(unittest.TestCase):
    def test_other_forms_give_the_log_again(self):
        for begin, form in (
            ("lines that end with a carriage return", "{0} {1}\r\n"),
            ("nanoseconds", "{0}000 {1}000\n"),
            ("where a pulse starts", "{0} {2}\n"),
        ):
            with self.subTest(form=begin):
                self.assertEqual(apply(recipe(begin), written(form)), pulses())

    def test_units_with_decimals(self):
        for begin, digits in (("milliseconds", 3), ("seconds with decimals", 6)):
            lines = ([with_point(number, digits) for number in pulse] for pulse in pulses())
            text = "".join(f"{at} {width}\n" for at, width in lines)
            self.assertEqual(apply(recipe(begin), text), pulses())

    def test_edges(self):
        edges = ((with_point(at, 6), with_point(at + width, 6)) for at, width in pulses())
        text = "".join(f"{rise} rising\n{fall} falling\n" for rise, fall in edges)
        self.assertEqual(apply(recipe("edges"), text), pulses())

    def test_a_table_with_names(self):
        for sign in ",;\t":
            text = f"start{sign}width\n" + written("{0}" + sign + "{1}\n")
            self.assertEqual(apply(recipe("a first line of names"), text), pulses())

    def test_unix_times_begin_at_0(self):
        first = pulses()[0][0]
        text = "".join(f"{at + 1767261605000000} {width}\n" for at, width in pulses())
        made = apply(recipe("Unix times"), text)
        self.assertEqual(made, [(at - first, width) for at, width in pulses()])

    def test_the_times_between_are_turned_round(self):
        pairs = zip(pulses(), pulses()[1:])
        text = "".join(f"{at + wide} {then - at - wide}\n" for (at, wide), (then, _) in pairs)
        made = apply(recipe("times between"), text)
        self.assertEqual(made, pulses()[1:-1])

    def test_a_fast_counter_is_slowed(self):
        text = "".join(f"{round(at * 1.003)} {width}\n" for at, width in pulses())
        made = apply(recipe("such as 60180000; then "), text)
        self.assertTrue(all(abs(at - was) <= 1 for (at, _), (was, _) in zip(made, pulses())))
        self.assertEqual(len(made), len(pulses()))

