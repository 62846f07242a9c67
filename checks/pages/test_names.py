"""Tests that the pages name what is there: functions, tests, edits, definitions and laws, and in tables the clauses of functions.

    python3 -m unittest checks.pages.test_names
"""

import re
import unittest
from collections.abc import Iterator
from pathlib import Path

from dev.rattle_source import FUNCTION, SOURCE, File, hide, read_files
from lab.program import TOP

# Words of several parts, as a name of source has them: snake_case and CamelCase.
NAME = re.compile(r"\b(?:[a-z][a-z0-9]*(?:_[a-z0-9]+)+|[A-Z][a-z0-9]+(?:[A-Z][a-z0-9]+)+)\b")
WORD = re.compile(r"\w+")
QUOTED = re.compile(r"`([^`]+)`")
CLAUSE_NAME = re.compile(r"\bensures\s+(\w+)\s*\{")
# A page of lessons, whose names are of no file here.
LESSONS = "PROVING.md"
# Tables whose row has functions and, after a colon, names of their clauses: the page, and the column that has them.
TABLES = (("docs/CLAIMS.md", 2), ("README.md", 3))


def pages() -> list[Path]:
    """Returns the pages that people read."""
    return [*sorted(TOP.glob("*.md")), *sorted((TOP / "docs").glob("*.md"))]


def known_words() -> set[str]:
    """Returns each word of the repository's files, and of their names, but for the pages."""
    words: set[str] = set()
    for folder in ("crates", "attacks", "keeper", "feeders", "tools", "lab", "dev", "build", "checks", "bench", "packaging", "examples"):
        for path in (TOP / folder).rglob("*"):
            relative = path.relative_to(TOP)
            if path.is_file() and "out" not in relative.parts:
                words.update(WORD.findall(str(relative)))
                words.update(WORD.findall(path.read_text(encoding="utf-8", errors="replace")))
    return words | set(WORD.findall(" ".join(path.name for path in TOP.iterdir())))


def clauses_of(files: list[File]) -> dict[str, set[str]]:
    """Returns the names of the clauses of each function that has some, by the function's name alone."""
    clauses: dict[str, set[str]] = {}
    for file in files:
        if file.kind == SOURCE:
            bare = hide(file.text)
            starts = [(found.start(), found.group(1)) for found in FUNCTION.finditer(bare)]
            ends = [start for start, _ in starts[1:]] + [len(bare)]
            for (start, name), end in zip(starts, ends):
                clauses.setdefault(name, set()).update(CLAUSE_NAME.findall(bare, start, end))
    return clauses


def named_clauses(row: str, column: int) -> Iterator[tuple[list[str], list[str]]]:
    """Gives of each part of a row's column the functions before its colon, and the names after it."""
    cells = [cell.strip() for cell in row.strip("|").split("|")]
    for part in cells[column - 1].split("; ") if len(cells) >= column else ():
        before, colon, after = part.partition("`: `")
        if colon:
            functions = [words[-1] for quoted in QUOTED.findall(before + "`") if (words := WORD.findall(quoted))]
            yield functions, [quoted for quoted in QUOTED.findall("`" + after) if WORD.fullmatch(quoted)]


class Names(unittest.TestCase):
    def test_each_name_on_a_page_is_somewhere_in_the_sources(self):
        words = known_words()
        for page in pages():
            if page.name != LESSONS:
                for number, line in enumerate(page.read_text(encoding="utf-8").splitlines(), 1):
                    for name in NAME.findall(" ".join(QUOTED.findall(line))):
                        self.assertTrue(name in words, f"{page.name}:{number}: {name}")

    def test_each_clause_of_a_table_is_of_a_function_beside_it(self):
        clauses = clauses_of(read_files(TOP))
        found = 0
        for page, column in TABLES:
            for number, line in enumerate((TOP / page).read_text(encoding="utf-8").splitlines(), 1):
                for functions, names in named_clauses(line, column) if line.startswith("|") else ():
                    there = set().union(*(clauses.get(function, set()) for function in functions))
                    for name in names if there else ():
                        found += 1
                        self.assertTrue(name in there, f"{page}:{number}: {functions} have no {name}")
        self.assertGreater(found, 100)

