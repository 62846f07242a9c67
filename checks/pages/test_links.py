"""Tests that each relative link of the pages leads to a file, and each anchor to a heading or a line of it.

    python3 -m unittest checks.pages.test_links
"""

import re
import unittest
from collections.abc import Iterator
from pathlib import Path

from lab.program import TOP

LINK = re.compile(r"\]\(([^)\s]+)\)")
FENCE = re.compile(r"(?ms)^```.*?^```|`[^`\n]*`")
HEADING = re.compile(r"(?m)^#{1,6} +(.*)$")
LINE = re.compile(r"L(\d+)")


def pages() -> list[Path]:
    """Returns the pages that people read."""
    return [*sorted(TOP.glob("*.md")), *sorted((TOP / "docs").glob("*.md"))]


def links_of(text: str) -> Iterator[str]:
    """Gives the targets of a page's links that lead to no other host. Links within code are none."""
    for target in LINK.findall(FENCE.sub(lambda found: "`" * found.group().startswith("`"), text)):
        if "://" not in target and not target.startswith("mailto:"):
            yield target


def anchors_of(text: str) -> set[str]:
    """Returns the anchors of a page's headings, as GitHub makes them; a second one of a name has a number after it."""
    anchors: set[str] = set()
    for heading in HEADING.findall(re.sub(r"(?ms)^```.*?^```", "", text)):
        plain = re.sub(r"\[([^\]]*)\]\([^)]*\)", r"\1", heading)
        name = re.sub(r"[^\w\- ]", "", plain.strip().lower()).replace(" ", "-")
        numbered = (f"{name}-{count}" if count else name for count in range(100))
        anchors.add(next(each for each in numbered if each not in anchors))
    return anchors


def fault_of(page: Path, target: str) -> str | None:
    """Returns what is wrong with a page's link, or None."""
    name, _, anchor = target.partition("#")
    there = (page.parent / name).resolve() if name else page
    if not there.is_relative_to(TOP) or not there.exists():
        return "there is no such file"
    if not anchor:
        return None
    text = there.read_text(encoding="utf-8") if there.is_file() else ""
    if there.suffix == ".md":
        return None if anchor in anchors_of(text) else "there is no such heading"
    line = LINE.fullmatch(anchor)
    return None if line and 1 <= int(line[1]) <= len(text.splitlines()) else "there is no such line"


class Links(unittest.TestCase):
    def test_each_link_leads_somewhere(self):
        found = 0
        for page in pages():
            for target in links_of(page.read_text(encoding="utf-8")):
                found += 1
                self.assertIsNone(fault_of(page, target), f"{page.name}: {target}")
        self.assertGreater(found, 300)

    def test_a_wrong_link_is_found(self):
        readme = TOP / "README.md"
        for target in ("docs/NO_PAGE.md", "#no-heading", "docs/PAGE.md#no-heading", ".ci/run#L9999", "../README.md"):
            self.assertIsNotNone(fault_of(readme, target), target)

    def test_links_in_code_are_none(self):
        self.assertEqual(list(links_of("`a](b)` [c](d)\n```\n[e](f)\n```\n[g](https://h.org)")), ["d"])

    def test_anchors_are_those_of_headings(self):
        self.assertEqual(anchors_of("# A b, `c_d`\n## A b, `c_d`\n```\n# no\n```\n"), {"a-b-c_d", "a-b-c_d-1"})

