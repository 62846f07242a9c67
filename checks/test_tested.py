"""Tests that where a module is tested is found by its name: by a test of that name, or by the test of a module that imports it. Of a
program that has neither `test_ends.py` has how it ends.

    python3 -m unittest checks.test_tested
"""

import ast
import unittest
from collections.abc import Iterator
from pathlib import Path

from checks.test_ends import CASES
from lab.program import TOP

# A folder of modules, and the one of their tests.
OWN = (("keeper", "keeper/tests"), ("keeper/supervisor", "keeper/tests"), ("keeper/reporter", "keeper/tests"), ("feeders", "feeders"))
SHARED = ("tools", "dev", "build", "lab")
NO_MODULE = ("__init__", "__main__")


def names(folder: str) -> set[str]:
    """The modules of a folder, without its tests."""
    return {path.stem for path in (TOP / folder).glob("*.py") if path.stem not in NO_MODULE and not path.stem.startswith("test_")}


def imported(path: Path) -> Iterator[str]:
    """The last words of what a file imports, and of what it takes of that."""
    for node in ast.walk(ast.parse(path.read_text(encoding="utf-8"))):
        if isinstance(node, ast.ImportFrom):
            yield from ((node.module or "").rpartition(".")[2], *(one.name for one in node.names))
        elif isinstance(node, ast.Import):
            yield from (one.name.rpartition(".")[2] for one in node.names)


def has_test(name: str, folder: str) -> bool:
    return (TOP / folder / f"test_{name}.py").exists()


class Tested(unittest.TestCase):
    def test_each_module_that_serves_has_a_test_of_its_name(self):
        for folder, tests in OWN:
            self.assertEqual([name for name in sorted(names(folder)) if not has_test(name, tests)], [], folder)
        self.assertGreater(len(names("keeper/supervisor")), 10)

    def test_each_other_one_has_one_or_is_imported_where_there_is_one(self):
        """The gate's own checks are made of `lab`, and so are its tests."""
        for folder in SHARED:
            tests = [*(TOP / folder).glob("test_*.py"), *((TOP / "checks").glob("*.py") if folder == "lab" else ())]
            paths = [TOP / folder / f"{name}.py" for name in names(folder) if has_test(name, folder)]
            reached = {name for path in (*tests, *paths) for name in imported(path)}
            reached |= {each for name in reached & names(folder) for each in imported(TOP / folder / f"{name}.py")}
            left = {name for name in names(folder) - reached if not has_test(name, folder)}
            programs = {Path(program).stem for program, _, _ in CASES if program.startswith(f"{folder}/")}
            self.assertEqual(sorted(left - programs), [], folder)

    def test_imports_are_read(self):
        found = set(imported(TOP / "checks" / "test_tested.py"))
        self.assertLessEqual({"ast", "unittest", "Iterator", "program", "TOP"}, found)


if __name__ == "__main__":
    unittest.main()
