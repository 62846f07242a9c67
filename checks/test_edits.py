"""Each must-fail edit, in the gate or in attacks/, finds the text that it replaces, and replaces it by another."""

import unittest
from collections.abc import Iterator
from pathlib import Path

from lab.program import TOP

EDITS = sorted([*TOP.glob("crates/*/must-fail/*.edit"), *TOP.glob("attacks/*/*.edit")])


def replacements(edit: Path) -> Iterator[tuple[Path, str, str]]:
    """The file, the old text and the new one of each replacement of an edit, in order."""
    crate = edit.relative_to(TOP).parts[1]
    file, old = Path(), ""
    for line in edit.read_text(encoding="utf-8").splitlines():
        word, _, text = line.partition(": ")
        if word == "file":
            file = TOP / "crates" / crate / text
        elif word == "old":
            old = text
        elif word == "new":
            yield file, old, text


class Edits(unittest.TestCase):
    def test_each_finds_its_text_once(self) -> None:
        self.assertGreater(len(EDITS), 100)
        for edit in EDITS:
            found = list(replacements(edit))
            self.assertTrue(found, edit)
            for file, old, new in found:
                with self.subTest(edit=str(edit.relative_to(TOP)), old=old):
                    self.assertEqual(file.read_text(encoding="utf-8").count(old), 1)
                    self.assertNotEqual(old, new)


if __name__ == "__main__":
    unittest.main()
