"""The arguments of each command: what they say, their bounds, and how wrong ones end."""

import contextlib
import io
import unittest

from keeper.arguments import COMMANDS, parse, parsers
from keeper.errors import USAGE
from keeper.lateness import FEWEST


def refusal(*words: str) -> tuple[object, str]:
    """The exit status of words that aren't valid, and the last line that is said."""
    said = io.StringIO()
    with contextlib.redirect_stderr(said):
        try:
            parse(list(words))
        except SystemExit as end:
            return end.code, said.getvalue().splitlines()[-1]
    return None, ""


class Arguments(unittest.TestCase):
    def test_what_is_left_out(self) -> None:
        asked = parse(["check"])
        self.assertEqual((asked.command, asked.config, asked.seconds), ("check", None, 10))
        asked = parse(["calibrate"])
        self.assertEqual((asked.radio, asked.server, asked.port, asked.pace, asked.minutes), (0, None, 123, 64, 60))
        asked = parse(["install"])
        self.assertEqual((asked.do, asked.remove, asked.root, asked.prefix), (False, False, "/", "/usr/local"))

    def test_each_command_has_its_words(self) -> None:
        self.assertEqual(set(parsers()[1]), set(COMMANDS))
        self.assertEqual(parse(["status", "--json", "--folder", "x"]).folder, "x")
        self.assertEqual(parse(["watch", "--every", "0.5"]).every, 0.5)

    def test_bounds_are_the_last_numbers_that_pass(self) -> None:
        for command, option, least, most in (("check", "--seconds", 0, 600), ("calibrate", "--minutes", FEWEST, 10080),
                                             ("calibrate", "--port", 1, 65535), ("calibrate", "--pace", 16, 1024)):
            for number in (least, most):
                self.assertEqual(getattr(parse([command, option, str(number)]), option[2:]), number)
            for number in (least - 1, most + 1):
                status, said = refusal(command, option, str(number))
                self.assertEqual(status, USAGE)
                self.assertIn(option, said)

    def test_wrong_words_end_with_a_sentence(self) -> None:
        for words in ((), ("nosuch",), ("check", "--seconds", "x"), ("status", "--json", "--nagios"), ("run", "more")):
            status, said = refusal(*words)
            self.assertEqual(status, USAGE, words)
            self.assertTrue(said.startswith("radio_keeper"), said)


if __name__ == "__main__":
    unittest.main()
