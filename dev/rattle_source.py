"""Reads Rattle's sources: which files there are of each kind, and of a file its functions, its clauses and its lines of code.

A crate whose name ends in `_tests` is of tests as a whole. In the others a module that is declared under `#[cfg(test)]` is, with its
proofs. Lines are counted from 1. What a macro writes isn't seen.
"""

import re
from collections.abc import Iterator
from dataclasses import dataclass
from pathlib import Path

SOURCE, TESTS, DEFINITIONS, PROOFS, TEST_PROOFS = "source", "tests", "definitions", "proofs", "test-proofs"
FOLDERS = (("src", "*.rt", SOURCE), ("specs", "*.antt", DEFINITIONS), ("proofs", "*.antt", PROOFS))
OPENING, CLOSING = "([{<", ")]}>"

# Comments, strings and characters of .rt, and comments of .antt.
HIDDEN = re.compile(r"//[^\n]*|\"(?:\\.|[^\"\\])*\"|'(?:\\.|[^'\\\n])'", re.DOTALL)
ANTT_COMMENT = re.compile(r"(?m)(?:^|(?<=\s))--.*$")
TEST_MODULE = re.compile(r"#\[cfg\(test\)\]\s*(?:pub(?:\([a-z]+\))? )?mod (\w+);")
FUNCTION = re.compile(r"\bfn\s+(\w+)\s*")
CLAUSE = re.compile(r"\s*(?:requires|ensures|decreases|(?:pub )?ghost (?!use ))\b")
GHOST_IMPORT = re.compile(r"\s*(?:pub )?ghost use ")
IMPORT = re.compile(r"\s*(?:pub(?:\([a-z]+\))? )?(?:ghost )?use ")
MODULE = re.compile(r"\s*(?:pub(?:\([a-z]+\))? )?mod \w+;")


@dataclass(frozen=True)
class File:
    """A file: where it stands from the top of the checkout, its crate, its module or function there, its kind, and its text."""

    path: str
    crate: str
    module: tuple[str, ...]
    kind: str
    text: str

    @property
    def lines(self) -> list[str]:
        """Its lines, without their ends."""
        return self.text.splitlines()


def blank(found: re.Match[str]) -> str:
    """Returns blanks for what was found, with its line ends."""
    return re.sub(r"[^\n]", " ", found.group())


def hide(text: str) -> str:
    """Returns a text of .rt with blanks in place of its comments, strings and characters. Each line keeps its number."""
    return HIDDEN.sub(blank, text)


def without_comments(file: File) -> str:
    """Returns a file's text with blanks in place of its comments. Each line keeps its number."""
    if file.path.endswith(".antt"):
        return ANTT_COMMENT.sub(blank, file.text)
    return HIDDEN.sub(lambda found: blank(found) if found.group().startswith("//") else found.group(), file.text)


def module_of(path: Path) -> tuple[str, ...]:
    """Returns the module of a file, by its path in src/. That of a crate's root is empty."""
    parts = path.with_suffix("").parts
    return parts[:-1] if parts[-1] in ("lib", "main", "mod") else parts


def test_modules(crate: Path) -> list[tuple[str, ...]]:
    """Returns the modules of a crate that stand under `#[cfg(test)]`."""
    folder = crate / "src"
    return [
        (*module_of(path.relative_to(folder)), name)
        for path in sorted(folder.rglob("*.rt"))
        for name in TEST_MODULE.findall(path.read_text(encoding="utf-8"))
    ]


def read_files(top: Path) -> list[File]:
    """Returns the files of all crates of a checkout, in the order of their paths. It raises OSError and UnicodeDecodeError."""
    files = []
    for crate in sorted(path for path in (top / "crates").iterdir() if path.is_dir()):
        modules = test_modules(crate)
        for folder, pattern, kind in FOLDERS:
            for path in sorted((crate / folder).rglob(pattern)):
                own = module_of(path.relative_to(crate / folder))
                tests = crate.name.endswith("_tests") or any(own[: len(module)] == module for module in modules)
                now = (TESTS if kind == SOURCE else TEST_PROOFS) if tests else kind
                files.append(File(str(path.relative_to(top)), crate.name, own, now, path.read_text(encoding="utf-8")))
    return files


def split_top(text: str, mark: str, opening: str = OPENING, closing: str = CLOSING) -> list[str]:
    """Returns the parts of a text between the marks that stand in no bracket. A mark is one character."""
    parts, start, depth = [], 0, 0
    for place, one in enumerate(text):
        depth += (one in opening) - (one in closing)
        if one == mark and depth == 0:
            parts.append(text[start:place])
            start = place + 1
    return [*parts, text[start:]]


def end_of_group(text: str, start: int) -> int:
    """Returns the place after the bracket that closes the one at `start`, or the text's length where none does."""
    depth = 0
    for place in range(start, len(text)):
        depth += (text[place] in OPENING) - (text[place] in CLOSING)
        if depth == 0:
            return place + 1
    return len(text)


def functions(text: str) -> Iterator[tuple[int, str, int]]:
    """Gives the line, the name and the number of parameters of each function. `self` is one of them."""
    bare = hide(text).replace("->", "  ").replace("=>", "  ")
    for found in FUNCTION.finditer(bare):
        start = found.end()
        if bare[start : start + 1] == "<":
            start = end_of_group(bare, start)
        if bare[start : start + 1] == "(":
            inside = bare[start + 1 : end_of_group(bare, start) - 1]
            yield bare.count("\n", 0, found.start()) + 1, found.group(1), sum(bool(part.strip()) for part in split_top(inside, ","))


def spans(text: str, start: re.Pattern[str]) -> Iterator[tuple[int, str]]:
    """Gives the number and the text of each line that begins so, and of those after it until its brackets are closed.

    Comments and blank lines aren't among them."""
    depth = 0
    for number, (line, bare) in enumerate(zip(text.splitlines(), hide(text).splitlines()), 1):
        if depth == 0 and not start.match(bare):
            continue
        if bare.strip():
            yield number, line
        depth = max(0, depth + sum((one in "([{") - (one in ")]}") for one in bare))


def code_lines(text: str) -> list[tuple[int, str]]:
    """Returns the lines of code without indentation: no comment, no import, no `mod`, no blank line."""
    imports = {number for number, _ in spans(text, IMPORT)}
    return [
        (number, line.strip())
        for number, line in enumerate(text.splitlines(), 1)
        if line.strip() and number not in imports and not line.lstrip().startswith("//") and not MODULE.match(line)
    ]
