"""Tests that each command of the pages for users is followed in a bare Debian, or is named with the reason why not.

    python3 -m unittest checks.pages.test_followed
"""

import re
import unittest
from collections import Counter

from checks.pages.commands import PAGES, block, commands_of
from checks.pages.follow import faults_of, script_of
from checks.pages.followed import LEFT, PACKAGES, ROWS, Row
from checks.pages.test_links import pages
from lab.program import TOP

ADDRESS = re.compile(r"https?://[^\s)`>\"]*")
FORM = re.compile(r"https?://[a-z0-9-]+(\.[a-z0-9-]+)+(/[\w./~%-]*)?(#[\w-]+)?")


class Followed(unittest.TestCase):
    def test_each_command_of_a_page_has_a_row(self):
        rows = Counter((page, command) for row in (*ROWS, *LEFT) for page, command in ((row.page, each) for each in row.commands))
        rows += Counter(PACKAGES)
        there = Counter((page, command.text) for page in PAGES for command in commands_of(page))
        self.assertEqual(sorted((there - rows).elements()), [], "on a page, without a row")
        self.assertEqual(sorted((rows - there).elements()), [], "in a row, on no page")
        self.assertGreater(there.total(), 100)

    def test_each_text_that_a_row_looks_for_is_on_its_page(self):
        for row in ROWS:
            for text in row.shows:
                self.assertIn(text, (TOP / row.page).read_text(encoding="utf-8"), row.commands)

    def test_each_row_says_what_it_looks_for(self):
        for row in ROWS:
            self.assertTrue(row.shows or row.matches or row.exact, row.commands)
            self.assertNotRegex(script_of(row), r"@[0-9]\b(?!\))", row.commands)

    def test_blocks(self):
        lines = ["$ ./radio_ntpd drill --seed 7", "feed 0", "status 0", "$ rdate"]
        self.assertEqual([(one.text, one.shown) for one in block("", lines)],
                         [("./radio_ntpd drill --seed 7", ("feed 0", "status 0")), ("rdate", ())])
        self.assertEqual([one.text for one in block("", ["port 0", ".ci/run", "cd /"])], [".ci/run", "cd /"])

    def test_what_a_page_does_not_say_is_a_fault(self):
        row = Row("README.md", ("x",), shows=("a b",), matches=(r"c\d",))
        self.assertEqual(faults_of(row, 0, "say a b\n c1\n"), [])
        self.assertEqual(len(faults_of(row, 1, "a\nc12\n")), 3)
        exact = Row("README.md", ("./radio_ntpd drill --seed 7",), exact=True)
        self.assertEqual(faults_of(exact, 0, "status 0\n"), ["it says something else than the page shows"])
        self.assertEqual(faults_of(exact, 0, "\n".join(commands_of("README.md")[0].shown)), [])

    def test_addresses_of_other_hosts_have_their_form(self):
        """Nothing asks them."""
        for page in pages():
            for address in ADDRESS.findall(page.read_text(encoding="utf-8")):
                self.assertRegex(address.rstrip(".,"), FORM, page.name)
