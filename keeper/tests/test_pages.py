"""What the pages name is what the keeper knows: keys, events, commands, files, exit statuses,
metrics, and the fields of its state."""

import pathlib
import re
import unittest

from keeper import arguments, config, errors, install
from keeper.reporter.__main__ import METRICS, PAGE, STATE
from keeper.reporter.alarms import EVENTS, Alarms
from keeper.reporter.state import Alarm, State
from keeper.supervisor.host import Host
from keeper.tests import tables

DOCS = pathlib.Path(__file__).parent.parent.parent / "docs"
MANUAL = (DOCS / "radio_keeper.1").read_text(encoding="utf-8")
STATION = (DOCS / "radio_ntpd.toml.5").read_text(encoding="utf-8")
EVENING = (DOCS / "FIRST_EVENING.md").read_text(encoding="utf-8")
KEEPER = (DOCS / "KEEPER.md").read_text(encoding="utf-8")
KEYS = {**config.TOP, **config.ALARMS, **config.RADIO}
DEFAULTS = ("cycle", "days", "pace", "alarms.unheard", "alarms.limit", "radio.I.stall",
            "radio.I.steady")


def rows(title: str) -> list[str]:
    """The rows of the table below a title of docs/KEEPER.md, without its head."""
    section = re.search(rf"(?ms)^##+ {re.escape(title)}\n(.*?)(?=^#|\Z)", KEEPER)
    assert section, title
    return [line for line in section[1].splitlines() if line.startswith("|")][2:]


def manual(key: str) -> str:
    """What the manual page says of a key, in one line."""
    found = re.search(rf"(?ms)^\.(?:It )?Cm {key}\n(.*?)(?=^\.(?:It|El|Cm))", MANUAL)
    assert found, key
    return found[1].replace("\n", " ")


class Tables(unittest.TestCase):
    """Of docs/KEEPER.md, which `python3 -B -m keeper.tests.tables` prints."""

    def test_metrics(self) -> None:
        self.assertEqual(rows("Metrics"), tables.families())

    def test_the_state(self) -> None:
        self.assertEqual(rows("The state"), tables.fields())

    def test_alarms(self) -> None:
        self.assertEqual(rows("Alarms"), tables.alarms())

    def test_the_page_is_no_longer_than_it_is(self) -> None:
        self.assertLessEqual(len(KEEPER.split()), 3000)


class Keys(unittest.TestCase):
    def test_each_key_of_the_keepers_file(self) -> None:
        for key in KEYS:
            named = {"radio": "[[radio]]", "alarms": "[alarms]"}.get(key, key)
            told = re.escape(named)
            self.assertRegex(MANUAL, rf"(?m)^\.(It )?Cm {told}\b|^\.It Cm {told}$", key)

    def test_ranges_of_the_keepers_file(self) -> None:
        page = {row.split("`")[1].rpartition(".")[2]: row for row in rows("The file")}
        for key, (_, *limits) in KEYS.items():
            if limits:
                told = rf"\b{limits[0]} to {limits[1]}\b"
                self.assertRegex(manual(key), told)
                self.assertRegex(page[key], told)

    def test_what_is_left_out_is_the_same_on_both_pages(self) -> None:
        page = {row.split("`")[1]: row.split("|")[3].strip(" `") for row in rows("The file")}
        for key in DEFAULTS:
            found = re.search(r"[Bb]y default ([a-z0-9]+)", manual(key.rpartition(".")[2]))
            assert found, key
            self.assertEqual(page[key].split(";")[0], found[1], key)

    def test_each_key_of_a_station(self) -> None:
        formats = (DOCS / "FORMATS.md").read_text(encoding="utf-8")
        table = re.search(r"(?ms)^## Station file$(.*?)^## ", formats)
        assert table
        keys = re.findall(r"(?m)^\| `([a-z_.I]+)` \|[^|]*\|[^|]*\|$", table[1])
        self.assertGreater(len(keys), 12)
        for key in keys:
            name, *rest = key.split(".I.")
            for told in ([f"[[{name}]]", *rest] if rest else [name]):
                self.assertRegex(STATION, rf"(?m)^\.It Cm {re.escape(told)}$", key)


class Names(unittest.TestCase):
    def test_each_alarm_and_what_to_do(self) -> None:
        for event in EVENTS:
            self.assertIn(event, MANUAL)
            self.assertIn(f"| `{event}` |", EVENING)

    def test_each_command_file_and_status(self) -> None:
        for command in arguments.COMMANDS:
            self.assertIn(f"\n.It Cm {command}\n", MANUAL)
        for name in (STATE, PAGE, METRICS):
            self.assertIn(name, MANUAL)
            self.assertIn(f"`{name}`", KEEPER)
        numbers = {name: value for name, value in vars(errors).items() if isinstance(value, int)}
        self.assertEqual(len(numbers), 8)
        for number in numbers.values():
            self.assertIn(f"\n.It {number}\n", MANUAL)

    def test_what_an_alarms_command_gets(self) -> None:
        found = Alarms(Host()).environment(State(), Alarm())
        self.assertEqual(len(found), 11)
        for name in found:
            self.assertIn(name, MANUAL)

    def test_each_option(self) -> None:
        for command, parser in arguments.parsers()[1].items():
            synopsis = re.search(rf"(?ms)^\.Cm {command}$(.*?)^\.Nm$", MANUAL)
            assert synopsis, command
            for option in parser._option_string_actions:
                if option.startswith("--") and option != "--help":
                    told = rf"Fl Fl {option[2:]}\b"
                    self.assertRegex(synopsis[1], told, f"{command} {option}")

    def test_installed_files_are_there(self) -> None:
        for source in install.FILES.values():
            self.assertTrue((install.TOP / source).exists())


if __name__ == "__main__":
    unittest.main()
