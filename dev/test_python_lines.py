"""Tests of dev/python_lines.py.

    python3 -m unittest dev.test_python_lines
"""

import unittest

from dev.python_lines import lines_of

TEXT = '''"""A module."""

import os  # for its path


# A comment.
class Name:
    """A class
    in two lines."""

    def text(self) -> str:
        return """
# no comment"""
'''


class Lines(unittest.TestCase):
    def test_each_kind(self) -> None:
        self.assertEqual(dict(lines_of(TEXT)), {"docstring": 3, "blank": 4, "code": 5, "comment": 1})

    def test_a_text_that_is_assigned_is_code(self) -> None:
        self.assertEqual(dict(lines_of('name = """\nx\n"""\n')), {"code": 3})


if __name__ == "__main__":
    unittest.main()
