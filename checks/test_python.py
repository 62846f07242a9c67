"""Tests of checks/python.sh over folders with faults of their own; and of how this repository's folders import one another.

    python3 -m unittest checks.test_python
"""

import ast
import os
import pathlib
import shutil
import subprocess
import tempfile
import unittest

HERE = pathlib.Path(__file__).resolve().parent
# Each a fault that one of the tools names: a field that may be None, a default that isn't of its
# type, a line that no run reaches, types of another folder, a method that another of its name hides,
# a name that nobody gave.
TWICE = "class A:\n    def f(self): pass\n\n    def f(self): pass\n"
FAULTS = {
    "keeper/field.py": ("mypy", "import re\nprint(re.match('a', 'a').group())\n"),
    "tools/default.py": ("mypy", "from relay import X\ndef f(x: int = None) -> int:\n    return X\n"),
    "bench/unreached.py": ("mypy", "def f(x: int) -> int:\n    return x\n    x += 1\n"),
    "lab/model/inner.py": ("mypy", "x: int = ''\n"),
    "checks/other.py": ("mypy", "from lab.model.good import X\ny: str = X\n"),
    "checks/simulation/own.py": ("mypy", "from checks.simulation.good import X\ny: str = X\n"),
    "feeders/hidden.py": ("pyflakes3", TWICE),
    "keeper/tests/unknown.py": ("pyflakes3", "def f():\n    return nosuch\n"),
}


class Checks(unittest.TestCase):
    def setUp(self):
        held = tempfile.TemporaryDirectory()
        self.addCleanup(held.cleanup)
        self.top = pathlib.Path(held.name)
        # Modules of one name in two folders.
        for name in ("tools/relay.py", "bench/relay.py", "keeper/relay.py", "lab/model/good.py", "checks/simulation/good.py"):
            self.put(name, "X = 1\n")
        for name in ("python.sh", "mypy.ini"):
            shutil.copy(HERE / name, self.top / "checks" / name)

    def put(self, name: str, text: str) -> None:
        path = self.top / name
        path.parent.mkdir(parents=True, exist_ok=True)
        path.write_text(text, encoding="ascii")

    def run_it(self, **about: str) -> tuple[int, str, str]:
        words = [str(self.top / "checks/python.sh")]
        env = {**os.environ, **about}
        done = subprocess.run(words, env=env, capture_output=True, text=True, timeout=300)
        return done.returncode, done.stdout, done.stderr

    @unittest.skipUnless(shutil.which("mypy") and shutil.which("pyflakes3"), "not both installed")
    def test_what_is_good_passes_and_each_fault_is_named(self):
        status, said, wrong = self.run_it()
        self.assertEqual((status, wrong), (0, ""))
        self.assertRegex(said, r"^python: \d+ files, read by: mypy pyflakes3\n$")
        for name, (_, text) in FAULTS.items():
            self.put(name, text)
        status, said, wrong = self.run_it()
        self.assertEqual((status, said), (1, ""))
        for name in FAULTS:
            self.assertIn(f"{name}:", wrong)
        # mypy sees all but the unknown name, which is in a function without types.
        self.assertEqual(wrong.count("error: "), len(FAULTS) - 1)

    def test_what_is_not_installed_is_named_and_fails_nothing(self):
        tools = self.top / "bin"
        tools.mkdir()
        for name in ("sh", "dirname", "mktemp", "rm", "find", "sort", "wc", "sed", "grep"):
            (tools / name).symlink_to(shutil.which(name) or name)
        self.put("feeders/hidden.py", FAULTS["feeders/hidden.py"][1])
        status, said, wrong = self.run_it(PATH=str(tools))
        self.assertEqual((status, wrong), (0, ""))
        self.assertEqual([line.split()[1] for line in said.splitlines()[:2]], ["mypy", "pyflakes3"])
        self.assertRegex(said.splitlines()[2], r"^python: \d+ files, read by: nothing$")


# What takes a module by its file's place, and so hides from who reads imports which folder needs which.
BY_PATH = {("sys", "path"), ("util", "spec_from_file_location"), ("runpy", "run_path"), ("machinery", "SourceFileLoader")}


def imports_by_path(text: str) -> bool:
    """Whether a module of this text imports by a path."""
    for node in ast.walk(ast.parse(text)):
        if isinstance(node, ast.Attribute):
            base = node.value.attr if isinstance(node.value, ast.Attribute) else getattr(node.value, "id", "")
            if (base, node.attr) in BY_PATH:
                return True
        if isinstance(node, ast.ImportFrom) and node.module:
            if any((node.module.split(".")[-1], name.name) in BY_PATH for name in node.names):
                return True
    return False


class ImportsByPath(unittest.TestCase):
    def test_each_way_is_seen(self):
        for text in (
            "import sys\nsys.path.append('x')\n",
            "from runpy import run_path as r\n",
            "import importlib.util\nimportlib.util.spec_from_file_location('x', 'y')\n",
        ):
            self.assertTrue(imports_by_path(text), text)
        self.assertFalse(imports_by_path("import os, sys\nprint(os.path, sys.argv, 'sys.path')\n"))

    def test_two_modules_do(self):
        """The tools find the model's page where both are installed; `install` asks what builds the program for its age."""
        top = HERE.parent
        files = [path for path in top.rglob("*.py") if "out" not in path.parts]
        found = {str(path.relative_to(top)) for path in files if imports_by_path(path.read_text())}
        self.assertEqual(found, {"tools/journal_text.py", "keeper/install.py"})
