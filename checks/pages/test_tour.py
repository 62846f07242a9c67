"""Tests that the code and definitions on the page docs/TOUR.md are those of the sources.

    python3 -m unittest checks.pages.test_tour
"""

import unittest

from dev.rattle_source import read_files
from lab.program import TOP

PAGE = TOP / "docs" / "TOUR.md"
FENCE = "```"


def even(text: str) -> str:
    """Returns a text with one space in place of each stretch of blanks and line ends."""
    return " ".join(text.split())


def quotes(page: str) -> list[list[str]]:
    """Returns the lines of each quotation between fences, without their indents."""
    return [[even(line) for line in part.splitlines() if line.strip()] for part in page.split(FENCE)[1::2]]


def has_in_order(text: str, lines: list[str]) -> bool:
    """Whether a text has all these lines, one after the other, with anything between them."""
    at = 0
    for line in lines:
        at = text.find(line, at)
        if at < 0:
            return False
        at += len(line)
    return True


class Tour(unittest.TestCase):
    def test_each_quotation_is_of_one_file(self):
        texts = [even(file.text) for file in read_files(TOP)]
        found = quotes(PAGE.read_text(encoding="utf-8"))
        for lines in found:
            self.assertTrue(any(has_in_order(text, lines) for text in texts), "no file has all lines of:\n" + "\n".join(lines))
        self.assertGreaterEqual(len(found), 25)

    def test_a_changed_line_is_noticed(self):
        text = even("let a = 1;\n    let b = 2;\n    let c = 3;")
        self.assertTrue(has_in_order(text, ["let a = 1;", "let c = 3;"]))
        self.assertFalse(has_in_order(text, ["let c = 3;", "let a = 1;"]))
        self.assertFalse(has_in_order(text, ["let a = 1;", "let b = 3;"]))

