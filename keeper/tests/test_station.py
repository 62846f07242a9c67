"""The text of a station that a run gets."""

import tomllib
import unittest

from keeper import station

TEXTS = (
    "leap = 1\n", "radio = 3\n", "[link]\nport = 3\n",
    'a = "\\u0001\\"\\\\é\\n\\u007f\\U0001f4fb"\n',
    'bound = 1.5\nflag = true\nlist = [1, "a"]\n', "list = []\n[[radio]]\n",
    '"odd key" = 1\n[[radio]]\nplan = "dcf"\n[[radio]]\nplan = "msf"\nmore = {a = 1, b = [true]}\n',
)


class Text(unittest.TestCase):
    def test_it_reads_back_as_it_was(self) -> None:
        """Also much that the program would refuse."""
        for text in TEXTS:
            with self.subTest(text=text):
                values = tomllib.loads(text)
                self.assertEqual(tomllib.loads(station.text_of(values)), values)

    def test_tables_come_after_the_keys_of_the_top(self) -> None:
        values = {"radio": [{"plan": "dcf"}], "bound": 50}
        self.assertEqual(station.text_of(values), '"bound" = 50\n\n[["radio"]]\n"plan" = "dcf"\n')


if __name__ == "__main__":
    unittest.main()
