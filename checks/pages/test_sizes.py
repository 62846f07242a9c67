"""Tests that the pages together, and some by themselves, stay as short as they were asked to be, and that their sentences do.

    python3 -m unittest checks.pages.test_sizes
"""

import re
import unittest
from collections.abc import Iterator

from checks.pages.test_links import pages

ALL = 45000  # words, as `wc -w` counts them
OF_ONE = {"README.md": 1400, "PERFORMANCE.md": 1300, "ATTACKS.md": 900}
OF_A_SENTENCE = 25
CODE = re.compile(r"(?ms)^```.*?^```|^    .*?$")
SIGNS = re.compile(r"`[^`]*`")  # of code: a word, whatever is in it
# A paragraph or an item of a list ends where the next one begins. Rows of tables are no sentences.
BREAK = re.compile(r"\n\s*\n|\n(?=\s*[-*|#>] |\s*\d+\. |\|)")
END = re.compile(r"(?<=[.!?:;])\**\)?\s+")
WORD = re.compile(r"[\w'’.%^/+-]*\w[\w'’.%^/+-]*")


def sentences_of(text: str) -> Iterator[str]:
    """Gives the sentences of a page, without links' targets."""
    for paragraph in BREAK.split(CODE.sub("", text)):
        if not paragraph.lstrip().startswith(("|", "#")):
            plain = re.sub(r"\]\([^)]*\)", "]", SIGNS.sub("code", paragraph))
            yield from END.split(" ".join(plain.split()))


class Sizes(unittest.TestCase):
    def test_pages_are_short(self):
        words = {page.name: len(page.read_text(encoding="utf-8").split()) for page in pages()}
        self.assertLessEqual(sum(words.values()), ALL)
        for name, most in OF_ONE.items():
            self.assertLessEqual(words[name], most, name)

    def test_sentences_are_short(self):
        found = 0
        for page in pages():
            for sentence in sentences_of(page.read_text(encoding="utf-8")):
                found += 1
                self.assertLessEqual(len(WORD.findall(sentence)), OF_A_SENTENCE, f"{page.name}: {sentence}")
        self.assertGreater(found, 1000)

    def test_a_sentence_is_read_whole(self):
        text = "One `two of them`\n[three](x.md). **Four.** Five\n\n- Six\n  seven: eight\n\n| nine. |\n\n    ten\n"
        self.assertEqual(list(sentences_of(text)), ["One code [three].", "**Four.", "Five", "- Six seven:", "eight", ""])
