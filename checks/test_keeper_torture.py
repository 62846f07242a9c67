"""Tests of keeper_torture.py: what goes wrong is told by its kind and number, and what is drawn is
read as the pages say.

    python3 -m unittest checks.test_keeper_torture
"""

import contextlib
import io
import logging
import random
import tempfile
import time
import unittest
from pathlib import Path
from unittest import mock

from checks import keeper_arguments, keeper_inputs, keeper_torture, odd_values
from keeper import reload


class Torture(unittest.TestCase):
    def setUp(self):
        self.addCleanup(logging.disable, logging.NOTSET)
        held = tempfile.TemporaryDirectory()
        self.addCleanup(held.cleanup)
        self.folder = Path(held.name)

    def test_what_goes_wrong_is_told_and_counted(self):
        def odd(draw: random.Random, folder: Path) -> None:
            raise KeyError("nosuch")

        out, errors = io.StringIO(), io.StringIO()
        with contextlib.redirect_stdout(out), contextlib.redirect_stderr(errors):
            bad = keeper_torture.run(0.2, 7, {"odd": odd, "even": lambda draw, folder: None})
        self.assertGreater(bad, 0)
        self.assertEqual(errors.getvalue().splitlines()[0], "keeper: odd 0: KeyError('nosuch')")
        said = rf"^keeper: {bad} inputs of each kind \(odd, even\), seed 7, in 0 s: {bad} not as "
        self.assertRegex(out.getvalue(), said)

    def test_what_hangs_is_wrong(self):
        with self.assertRaisesRegex(keeper_arguments.Wrong, "^hangs: 0.1 s$"):
            with keeper_torture.limited(0.1):
                time.sleep(20)

    def test_some_of_each_kind(self):
        for name, kind in keeper_torture.KINDS.items():
            for number in range(3):
                with self.subTest(name=name, number=number):
                    keeper_torture.one(kind, name, number, 1, self.folder)

    def test_a_reader_that_raises_is_seen(self):
        """As one did whose number was infinite."""
        with mock.patch.object(reload, "told", side_effect=OverflowError):
            with self.assertRaises(OverflowError):
                keeper_inputs.states(random.Random(1), self.folder)

    def test_a_command_that_refuses_without_a_word_is_seen(self):
        with mock.patch.object(keeper_arguments.keeper_main, "main", return_value=71):
            with self.assertRaisesRegex(keeper_arguments.Wrong, "^it says $"):
                keeper_arguments.command("status")

    def test_odd_values_stand_in_place_of_good_ones(self):
        good = {"a": {"b": [1, 2]}, "c": "x"}
        texts = {odd_values.json_text(random.Random(number), good) for number in range(50)}
        self.assertGreater(len(texts), 20)
        self.assertEqual(good, {"a": {"b": [1, 2]}, "c": "x"})
        tomls = {odd_values.toml_text(random.Random(one), "a = 1\nb = 2\n") for one in range(50)}
        self.assertGreater(len(tomls), 20)


if __name__ == "__main__":
    unittest.main()
