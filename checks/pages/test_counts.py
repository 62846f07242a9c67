"""Tests that counts and versions on the pages are those of the sources.

    python3 -m unittest checks.pages.test_counts
"""

import functools
import re
import unittest

from build.crate_graph import read_crates
from lab.program import TOP

KIT = re.compile(r'(?m)^KIT = "(.*)"$')
LAYER = re.compile(r"(?m)^# (\d)\. ")


def page(name: str) -> str:
    return (TOP / name).read_text(encoding="utf-8")


def longest_chain() -> int:
    """How many crates stand on each other, of the program's."""
    below = read_crates(TOP)

    @functools.cache
    def height(name: str) -> int:
        return 1 + max((height(other) for other in below[name]), default=0)

    return max(map(height, below))


def layers() -> dict[str, set[str]]:
    """The crates of each layer, by crates.txt."""
    _, *parts = LAYER.split(page("crates.txt"))
    return {number: set(re.findall(r"(?m)^(\w+):", text)) for number, text in zip(parts[::2], parts[1::2])}


def rows() -> dict[str, set[str]]:
    """The crates that the rows of ARCHITECTURE name first, outside of their brackets."""
    found = {}
    for number, cell in re.findall(r"(?m)^\| (\d) [^|]*\| ([^|]*) \|$", page("docs/ARCHITECTURE.md")):
        while (bare := re.sub(r"\([^()]*\)", "", cell)) != cell:
            cell = bare
        found[number] = set(re.findall(r"`(\w+)`", cell))
    return found


class Counts(unittest.TestCase):
    def test_the_kit_is_the_one_that_the_build_asks_for(self):
        kit = KIT.findall(page("build/build_program.py"))
        self.assertEqual(len(kit), 1)
        self.assertIn(f"`{kit[0]}`", page("README.md"))
        self.assertIn(f"`{kit[0].split()[0]}`", page("README.md"))

    def test_the_longest_chain_of_crates(self):
        said = re.search(r"longest chain, (\d+) crates, would have (\d+)", " ".join(page("docs/DECISIONS.md").split()))
        assert said, "DECISIONS says no such chain"
        self.assertEqual([int(one) for one in said.groups()], [longest_chain(), longest_chain() + 1])

    def test_each_layer_has_its_crates(self):
        there, said = layers(), rows()
        self.assertEqual(len(there), 7)
        tests = {name for name in set().union(*there.values()) if name.endswith("_tests")}
        for number, crates in there.items():
            self.assertEqual(sorted(crates - tests), sorted(said[number] - {"_tests"}), number)
