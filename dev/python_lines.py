"""Prints how many lines of each Python file are code, docstrings, comments and blank ones. Tests are left out.

    python3 -m dev.python_lines FOLDER..

A line with code and a comment counts as code. A text that stands first in a module, class or function is its docstring.
"""

import argparse
import ast
import io
import os
import tokenize
from collections import Counter
from pathlib import Path

from lab import ends

KINDS = ("code", "docstring", "comment", "blank")
LAYOUT = {tokenize.COMMENT, tokenize.NL, tokenize.NEWLINE, tokenize.INDENT, tokenize.DEDENT, tokenize.ENDMARKER}


def docstrings(text: str) -> set[int]:
    """The lines of a file that are docstrings, from 1 on. Raises SyntaxError."""
    found: set[int] = set()
    for node in ast.walk(ast.parse(text)):
        body = getattr(node, "body", None)
        first = body[0] if isinstance(body, list) and body else None
        is_text = isinstance(first, ast.Expr) and isinstance(first.value, ast.Constant) and isinstance(first.value.value, str)
        if first and is_text and isinstance(node, (ast.Module, ast.ClassDef, ast.FunctionDef, ast.AsyncFunctionDef)):
            found.update(range(first.lineno, (first.end_lineno or first.lineno) + 1))
    return found


def lines_of(text: str) -> Counter[str]:
    """How many lines of a file are of each kind. Raises SyntaxError."""
    kinds = dict.fromkeys(range(1, len(text.splitlines()) + 1), "blank")
    for token in tokenize.generate_tokens(io.StringIO(text).readline):
        if token.type == tokenize.COMMENT and kinds[token.start[0]] == "blank":
            kinds[token.start[0]] = "comment"
        elif token.type not in LAYOUT:
            kinds |= dict.fromkeys(range(token.start[0], token.end[0] + 1), "code")
    return Counter((kinds | dict.fromkeys(docstrings(text), "docstring")).values())


def measure(folders: list[str]) -> int:
    """Measures the files of these folders. Raises OSError."""
    for folder in folders:
        os.stat(folder)
    paths = [path for folder in folders for path in sorted(Path(folder).rglob("*.py")) if "tests" not in path.parts]
    counts = {str(path): lines_of(path.read_text(encoding="utf-8")) for path in paths if not path.name.startswith("test_")}
    print(f"{'file':44}{'lines':>8}" + "".join(f"{kind:>11}" for kind in KINDS))
    for name, count in [*counts.items(), ("all", sum(counts.values(), Counter[str]()))]:
        print(f"{name:44}{sum(count.values()):>8}" + "".join(f"{count[kind]:>11}" for kind in KINDS))
    return 0


def main() -> int:
    parser = argparse.ArgumentParser(description="Lines of Python, by kind.")
    parser.add_argument("folder", nargs="+")
    return measure(parser.parse_args().folder)


if __name__ == "__main__":
    ends.run(main)
