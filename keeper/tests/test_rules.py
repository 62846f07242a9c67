"""The numbers of a journal in words, against the pages that have them."""

import pathlib
import re
import unittest

from keeper.reporter import rules

DOCS = pathlib.Path(__file__).parent.parent.parent / "docs"
NUMBERS = {"dcf": (1, 2, 3, *range(10, 25)), "msf": (1, 2, 3, *range(30, 43)),
           "wwvb": (1, 2, 3, *range(50, 57), 58)}


class Words(unittest.TestCase):
    def test_some(self) -> None:
        self.assertEqual(rules.rule("dcf", "10"),
                         ("StartBit", "bit errors, or a signal that isn't DCF77"))
        self.assertEqual(rules.rule("msf", "41"),
                         ("NoSuchDate", "two bit errors that the parity missed"))
        self.assertEqual(rules.declined("3"), (
            "NotAsked", "no request was outstanding: an answer that came twice or late"))
        self.assertEqual(rules.cause("reload"), "the files were read anew")
        self.assertEqual(rules.cause("another"), "another")

    def test_each_number_has_a_name_and_a_sentence(self) -> None:
        for plan, numbers in NUMBERS.items():
            for number in range(100):
                has = all(rules.rule(plan, str(number)))
                self.assertEqual(has, number in numbers, (plan, number))
        for number in range(12):
            self.assertEqual(all(rules.declined(str(number))), 1 <= number <= 10, number)

    def test_rules_have_the_names_of_the_page(self) -> None:
        """docs/CODE_PLANS.md has a table for each plan; a row may have several rules."""
        page = (DOCS / "CODE_PLANS.md").read_text(encoding="utf-8")
        sections = dict(re.findall(r"(?ms)^## (DCF77|MSF|WWVB)$(.*?)(?=^## )", page))
        for plan, title in rules.PLANS.items():
            named = dict[str, str]()
            for numbers, names in re.findall(r"(?m)^\| ([\d, ]+) \| ([A-Z][\w, ]+) \|",
                                             sections[title]):
                named.update(zip(numbers.split(", "), names.split(", "), strict=True))
            known = {str(number): rules.rule(plan, str(number))[0] for number in NUMBERS[plan]}
            self.assertEqual(named, known)

    def test_refusals_have_the_names_of_the_page(self) -> None:
        page = (DOCS / "PROTOCOL.md").read_text(encoding="utf-8")
        named = dict(re.findall(r"(?m)^\| (\d+) \| ([A-Z]\w+) \|", page))
        known = {str(number): rules.declined(str(number))[0] for number in range(1, 11)}
        self.assertEqual(named, known)

    def test_of_which_rules_an_inverted_output_is_suspected(self) -> None:
        """`decode` refuses the example's logs, turned, by these: DCF77 by 1, without jitter by 2,
        MSF by 1, WWVB by 3 and 1."""
        found = [(plan, number) for plan in NUMBERS for number in (1, 2, 3)
                 if "the other way round" in rules.rule(plan, str(number))[1]]
        self.assertEqual(found, [("dcf", 1), ("dcf", 2), ("msf", 1), ("wwvb", 1), ("wwvb", 3)])

    def test_odd_numbers_are_none(self) -> None:
        for odd in ("²", "", "-1", "1 ", "9" * 5000, "x", "１"):
            self.assertEqual((rules.rule("dcf", odd), rules.declined(odd)), (("", ""), ("", "")))

    def test_reference_ids(self) -> None:
        for name, due in (("MSF", "MSF (radio)"), ("INIT", "no time yet"), ("PPS", "PPS"),
                          ("RATE", "asked too often"), ("10.0.0.1", "the server 10.0.0.1")):
            self.assertEqual(rules.reference(name), due)


if __name__ == "__main__":
    unittest.main()
