"""Tests that what has the keys of a station file agrees with the program's table of them, crates/station_reader/src/rows.rt: the sentences
of standard error, docs/FORMATS.md, the manual page, the reader of the checks, and the defaults of keeper/ and tools/.

    python3 -m unittest checks.test_station_keys
"""

import pathlib
import re
import unittest
from typing import NamedTuple

from lab import grammar

REPOSITORY = pathlib.Path(__file__).resolve().parent.parent
ROW = re.compile(r'pub const (\w+): Row = Row \{\s*key: "(\w+)",\s*form: Form::(\w+)(?:\(([^)]*)\))?,\s*need: Need::(\w+)(?:\(([^)]*)\))?,\s*\};')
# The constant that has the rows of a table, and its table.
LISTS = {"TOP_ROWS": "", "RADIO_ROWS": "radio", "SERVER_ROWS": "server", "LINK_ROWS": "link", "KEY_ROWS": "key", "DENY_ROWS": "deny"}
LIST = re.compile(r"const (\w+_ROWS): \[Row; (\d+)\] = \[([^\]]*)\];")
SENTENCE = re.compile(r'Range \{\s*table: "(\w*)",\s*name: "(\w+)",\s*wants: "((?:[^"\\]|\\.)*)"')
DEFAULT = re.compile(r'(?:_value\(\w+, |\.get\()"(\w+)", (\d+)\)')


class Row(NamedTuple):
    """A key: the form of its value, its least and greatest number where it is one, and its default; None where it has none."""

    form: str
    bounds: tuple[int, ...] | None
    need: str
    default: int | None


def number(text: str) -> int:
    """A number of a source file: digits, or a shift."""
    parts = [int(part) for part in text.replace("_", "").split("<<")]
    return parts[0] << sum(parts[1:])


def rows() -> dict[tuple[str, str], Row]:
    """The program's table: each row by its table, "" for the top one, and its key."""
    text = (REPOSITORY / "crates/station_reader/src/rows.rt").read_text(encoding="utf-8")
    named = {}
    for name, key, form, numbers, need, default in ROW.findall(text):
        bounds = tuple(number(part) for part in numbers.split(",")) if numbers else None
        named[name] = (key, Row(form, bounds, need, number(default) if default else None))
    found = {}
    for name, count, items in LIST.findall(text):
        names = re.findall(r"\w+", items)
        assert len(names) == int(count)
        for item in names:
            key, row = named[item]
            found[LISTS[name], key] = row
    return found


def manual() -> dict[tuple[str, str], str]:
    """What the manual page says of each key, by its table and its name."""
    page = (REPOSITORY / "docs/radio_ntpd.toml.5").read_text(encoding="utf-8")
    found, table = {}, ""
    for item in re.split(r"^\.It Cm ", page[: page.index(".Sh EXAMPLES")], flags=re.MULTILINE)[1:]:
        name, text = item.split("\n", 1)
        if name.startswith("[["):
            table = name.strip("[]")
            found["", table] = text
        else:
            found[table, name] = " ".join(text.split())
    return found


class Keys(unittest.TestCase):
    def setUp(self) -> None:
        self.rows = rows()
        # Each key, but for those of arrays of tables.
        self.plain = {at: row for at, row in self.rows.items() if row.form != "Tables"}

    def test_the_table_is_read_whole(self) -> None:
        self.assertEqual({table for table, _ in self.rows}, set(LISTS.values()))
        self.assertEqual({key for table, key in self.rows if self.rows[table, key].form == "Tables"}, set(LISTS.values()) - {""})
        self.assertEqual(self.rows["", "bound"], Row("Whole", (1, 16000), "Preset", 1000))
        self.assertEqual(self.rows["key", "secret"], Row("Secret", None, "Required", None))

    def test_keys_go_by_their_bytes(self) -> None:
        for name in LISTS.values():
            keys = [key for table, key in self.rows if table == name]
            self.assertEqual(keys, sorted(keys, key=str.encode))

    def test_standard_error_has_a_sentence_for_each(self) -> None:
        text = (REPOSITORY / "crates/standard_error/src/texts.rt").read_text(encoding="utf-8")
        wants = {(table, name): said for table, name, said in SENTENCE.findall(text)}
        self.assertEqual(set(wants), set(self.rows))
        for at, row in self.rows.items():
            if row.bounds:
                self.assertIn("{} to {}".format(*row.bounds), wants[at], at)

    def test_the_table_of_the_page(self) -> None:
        page = (REPOSITORY / "docs/FORMATS.md").read_text(encoding="utf-8")
        said = {key: (value, left_out) for key, value, left_out in re.findall(r"^\| `([\w.]+)` \| (.*) \| (.*) \|$", page, re.MULTILINE)}
        for (table, key), row in self.plain.items():
            value, left_out = said[f"{table}.I.{key}" if table else key]
            if row.bounds:
                self.assertIn("{} to {}".format(*row.bounds), value.replace("2^49 (562949953421312)", "562949953421312"), (table, key))
            if row.need == "Optional":
                self.assertEqual(left_out, "there is none")
            else:
                self.assertEqual(left_out, "required" if row.need == "Required" else str(row.default), (table, key))

    def test_the_manual_page(self) -> None:
        said = manual()
        self.assertEqual(set(said), set(self.rows))
        for at, row in self.plain.items():
            self.assertEqual(row.need == "Required", "It must be given" in said[at], at)
            if row.need == "Preset":
                self.assertRegex(said[at], rf"\bBy default {row.default}\b", at)
            if row.bounds:
                self.assertIn("{} to {}".format(*row.bounds), said[at], at)

    def test_the_reader_of_the_checks(self) -> None:
        tables = {"": grammar.TOP, **grammar.TABLES}
        self.assertEqual({(table, key) for table, keys in tables.items() for key in keys}, set(self.plain))
        for (table, key), row in self.plain.items():
            other = tables[table][key]
            self.assertEqual(other.default, ... if row.need == "Required" else row.default, (table, key))
            if row.bounds:
                least, most = row.bounds
                judged = [other.may(value) for value in (least - 1, least, most, most + 1)]
                self.assertEqual(judged, [False, True, True, False], (table, key))

    def test_defaults_of_other_readers(self) -> None:
        read = 0
        for path in ("keeper/config.py", "tools/journal_text.py"):
            for key, default in DEFAULT.findall((REPOSITORY / path).read_text(encoding="utf-8")):
                table = "radio" if ("radio", key) in self.rows else ""
                if (table, key) in self.rows:
                    self.assertEqual(int(default), self.rows[table, key].default, (path, key))
                    read += 1
        self.assertGreaterEqual(read, 4)


if __name__ == "__main__":
    unittest.main()
