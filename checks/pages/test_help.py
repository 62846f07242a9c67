"""The help of the program against its pages: the command lines, the statuses, the bounds and the defaults. It runs nothing.

    python3 -m unittest checks.pages.test_help
"""

import re
import unittest

from lab.program import TOP



def page(name: str) -> str:
    return (TOP / name).read_text(encoding="utf-8")


def found(form: str, text: str) -> str:
    """What the first group of a regular expression is in a text."""
    match = re.search(form, text, re.DOTALL | re.MULTILINE)
    assert match, f"there is no {form}"
    return match[1]


def constant(name: str) -> str:
    """A text of texts.rt."""
    return found(rf'pub const {name}: &str =\s*"((?:[^"\\]|\\.)*)";', page("crates/standard_error/src/texts.rt"))


def command_lines(text: str) -> list[str]:
    """The command lines of a text, each in one line."""
    joined = re.sub(r"\n +\[", " [", text)
    return [line for line in joined.splitlines() if re.match(r"radio_ntpd [a-z]+ --", line)]


def synopsis() -> list[str]:
    """Those of the manual page, in the help's form."""
    lines = found(r"^\.Sh SYNOPSIS\n(.*?)^\.Sh", page("docs/radio_ntpd.8")).splitlines()
    given: list[str] = []
    for line in lines:
        words = re.sub(r"Fl Fl ", "--", line[1:]).replace("Ar ", "")
        if words.startswith("Nm"):
            given.append("radio_ntpd")
        elif words.startswith("Cm ") and given and " " not in given[-1]:
            given[-1] += " " + words[3:]
        elif given and " " in given[-1] and words.startswith(("--", "Op --")):  # of a command, which --help and --version are not
            option, value = words.removeprefix("Op ").split()
            said = f"{option} {value.upper()}"
            given[-1] += f" [{said}]" if words.startswith("Op") else f" {said}"
    return [line for line in given if "--" in line]


class Help(unittest.TestCase):
    def test_the_command_lines_are_those_of_the_manual_page(self):
        self.assertEqual(len(synopsis()), 5)
        for name in ("HELP", "COMMAND_LINES"):
            self.assertEqual(sorted(command_lines(constant(name))), sorted(synopsis()), name)

    def test_each_status_has_the_name_of_its_line(self):
        """The status line's table in docs/FORMATS.md: one of a status's names. Status 0 has no name there, and 8 no line."""
        due = {"0": ["done"], "8": ["write"]}
        for number, name in re.findall(r"`status (\d+) ([a-z]+)", page("docs/FORMATS.md").partition("## The status line")[2]):
            due.setdefault(number, []).append(name)
        said = dict(re.findall(r"(\d+) ([a-z]+)[,.]", constant("HELP").partition("The exit status")[2]))
        self.assertEqual(sorted(said, key=int), [str(number) for number in range(11)])
        for number, name in said.items():
            self.assertIn(name, due[number], number)

    def test_bounds_and_defaults_are_those_of_the_pages(self):
        said, manual = constant("HELP"), " ".join(page("docs/radio_ntpd.8").split())
        hearings = re.search(r"HEARINGS  0 to (\d+) .*by default (\d+) and (\d+)", said).groups()
        during = re.search(r"Fl during \(0 to (\d+), by default (\d+)\)", manual).groups()
        after = re.search(r"Fl after \(0 to (\d+), by default none\)", manual)[1]
        self.assertEqual(hearings, (*during, "0"))
        self.assertEqual(after, during[0])
        commands = " ".join(page("docs/COMMANDS.md").split())
        self.assertIn(f"`--during` hearings (by default {during[1]})", commands)
        self.assertIn("`--after` more (by default none)", commands)
        entries = re.search(r"ENTRIES   1 to (\d+), .*by default (\d+)", said).groups()
        self.assertEqual(entries, re.search(r"may have, 1 to (\d+), by default (\d+)", manual).groups())
        self.assertEqual(re.search(r"SEED      0 to (\d+)", said)[1], re.search(r"seed is 0 to (\d+)", manual)[1])

