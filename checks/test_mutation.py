"""Tests of mutation.py over a package of a few lines, whose one test leaves some changes unseen.

    python3 -m unittest checks.test_mutation
"""

import contextlib
import io
import tempfile
import unittest
from argparse import Namespace
from pathlib import Path

from checks import mutation

MODULE = """def sign(one):
    if one < 0:
        return "minus"
    return f"plus {one + 0}"


def greatest(values):
    return max(values)
"""
OWN = """import unittest
from pack import thing


class Tests(unittest.TestCase):
    def test_it(self):
        self.assertEqual(thing.sign(-2), "minus")
        self.assertEqual(thing.sign(2), "plus 2")
        self.assertEqual(thing.greatest([1, 3, 2]), {greatest})
"""


class Mutation(unittest.TestCase):
    def setUp(self):
        held = tempfile.TemporaryDirectory()
        self.addCleanup(held.cleanup)
        self.top = Path(held.name)
        self.put("pack/__init__.py", "")
        self.put("pack/thing.py", MODULE)
        self.put("pack/user.py", "from pack import thing\n")
        self.put("pack/test_thing.py", OWN.format(greatest=3))

    def put(self, name: str, text: str) -> None:
        path = self.top / name
        path.parent.mkdir(exist_ok=True)
        path.write_text(text, encoding="ascii")

    def tried(self) -> tuple[int, list[str]]:
        out, asked = io.StringIO(), Namespace(limit=30.0, seeds=0, most=0, seed=1)
        with contextlib.redirect_stdout(out):
            missed = mutation.try_all(self.top, "pack/thing.py", asked)
        return missed, out.getvalue().splitlines()

    def test_what_no_test_sees_is_listed_and_the_module_is_left_as_it_was(self):
        # Neither 0 nor -1 is tested; the rest is.
        self.assertEqual(self.tried(), (2, [
            "pack/thing.py:2: 'one < 0' -> '(one <= 0)'", "pack/thing.py:2: '0' -> '(1)'",
            "pack/thing.py: 2 of 6 changes not seen (6 there are)"]))
        self.assertEqual((self.top / "pack/thing.py").read_text(encoding="ascii"), MODULE)

    def test_a_test_that_fails_without_a_change_is_named(self):
        self.put("pack/test_thing.py", OWN.format(greatest=2))
        named = ["pack/thing.py: pack/test_thing.py: fails without a change"]
        self.assertEqual(self.tried(), (-1, named))

    def test_a_test_that_hangs_sees_the_change(self):
        self.put("pack/test_thing.py", "while True:\n    pass\n")
        self.assertFalse(mutation.test(self.top, "pack/test_thing.py", 0.5))

    def test_the_own_test_is_the_first_and_those_of_users_follow(self):
        for name in ("a", "other", "user"):
            self.put(f"pack/test_{name}.py", "import pack.thing\n" if name == "a" else "")
        names = mutation.tests_of(self.top, "pack/thing.py")
        self.assertEqual(names, [f"pack/test_{one}.py" for one in ("thing", "a", "user")])

    def test_each_kind_of_change(self):
        rows = {
            "a = b >= c": ["a = (b > c)"], "a = b is None": ["a = (b is not None)"],
            "a = 2.0": ["a = (3.0)"], "a = True": ["a = (False)"],
            "a = b and c": ["a = (b or c)"], "a = b - c": ["a = (b + c)"],
            "a.b = c": ["pass"], "a += b": ["a -= b"], "f(a)": ["pass"],
            "a = not b": ["a = (b)"], "a = any(b)": ["a = (all(b))"],
            "if a:\n    b": ["if (not a):\n    b"], "'ä'; a == b": ["'ä'; (a != b)"],
            "def f(): return a": ["def f(): return"]}
        for source, wanted in rows.items():
            data = source.encode()
            found = [one.applied(data).decode() for one in mutation.changes(data)]
            self.assertEqual([one.replace("(not (a))", "(not a)") for one in found], wanted)


if __name__ == "__main__":
    unittest.main()
