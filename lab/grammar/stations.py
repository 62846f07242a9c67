"""The first fault of a station file, and what `replay` writes of a station."""

import re
import tomllib
from collections.abc import Callable, Iterator
from typing import Any, NamedTuple

from .forms import RULES, lines_of, need

# Whether a key's value may stand there.
Check = Callable[[object], bool]


class Row(NamedTuple):
    """What a key's value may be, and what stands for the key where it is left out: `...` where it must be given."""

    may: Check
    default: Any = ...


# The keys of a table.
Rows = dict[str, Row]


def whole(least: int, most: int) -> Check:
    """Returns the check of a whole number from the least to the most."""
    return lambda value: type(value) is int and least <= value <= most


def is_address(value: object) -> bool:
    octet = "(?:0|[1-9][0-9]?|1[0-9][0-9]|2[0-4][0-9]|25[0-5])"
    return isinstance(value, str) and re.fullmatch(rf"{octet}(?:\.{octet}){{3}}", value) is not None


def is_net(value: object) -> bool:
    parts = value.split("/") if isinstance(value, str) else []
    return len(parts) == 2 and is_address(parts[0]) and re.fullmatch("[0-9]|[12][0-9]|3[0-2]", parts[1]) is not None


def is_in(net: str, address: str) -> bool:
    """Returns whether an address agrees with a net's in the net's first bits."""
    whole_net, bits = net.split("/")
    numbers = [int.from_bytes(bytes(map(int, text.split("."))), "big") >> 32 - int(bits) for text in (whole_net, address)]
    return numbers[0] == numbers[1]


def is_name(value: object) -> bool:
    return isinstance(value, str) and value != ""


TABLES: dict[str, Rows] = {
    "radio": {"plan": Row(lambda value: value in tuple(RULES)), "log": Row(is_name), "delay": Row(whole(0, 100000), 0)},
    "server": {"address": Row(is_address), "port": Row(whole(1, 65535)), "polls": Row(whole(0, 100000), 8)},
    "link": {"port": Row(whole(1, 65535))},
    "key": {
        "id": Row(whole(1, 2**32 - 1)),
        "secret": Row(lambda value: isinstance(value, str) and re.fullmatch("[!-~]{1,32}", value) is not None),
    },
    "deny": {"net": Row(is_net)},
}
TOP: Rows = {
    "bound": Row(whole(1, 16000), 1000),
    "start": Row(whole(0, 2**49), 0),
    "gap": Row(whole(0, 60_000_000), 0),
    "clients": Row(whole(1, 65536), 1024),
    "leap_file": Row(is_name, None),
}


def filled(table: dict, rows: Rows) -> dict[str, Any]:
    """Returns the values of a table without faults, with what stands for the keys that are left out."""
    return {key: table.get(key, row.default) for key, row in rows.items()}


class Station:
    """A station file's tables: those of its arrays that are arrays of tables, after the top one, each with its prefix and its keys."""

    def __init__(self, table: dict):
        self.top = table
        self.arrays = {name: table.get(name, []) for name in TABLES}
        self.good = {name: isinstance(rows, list) and all(isinstance(row, dict) for row in rows) for name, rows in self.arrays.items()}
        self.sheets: list[tuple[str, dict, Rows]] = [("", table, TOP)]
        for name, keys in TABLES.items():
            if self.good[name]:
                self.sheets += [(f"{name}.{i}.", row, keys) for i, row in enumerate(self.arrays[name])]

    def faults(self) -> Iterator[str]:
        """Yields the faults, those of a kind that comes first before all others."""
        yield from self.unknown()
        yield from self.missing()
        yield from self.out_of_range()
        yield from self.too_many()

    def unknown(self) -> Iterator[str]:
        for prefix, table, keys in self.sheets:
            for key in sorted(table, key=str.encode):
                if key not in keys and not (prefix == "" and key in TABLES):
                    yield f"unknown {prefix}{key}"

    def missing(self) -> Iterator[str]:
        for prefix, table, keys in self.sheets:
            for key in sorted(keys):
                if keys[key].default is ... and key not in table:
                    yield f"missing {prefix}{key}"

    def out_of_range(self) -> Iterator[str]:
        taken: list[int] = []
        for prefix, table, keys in self.sheets:
            for key in sorted(table, key=str.encode):
                if key in keys and not keys[key].may(table[key]) or prefix == "" and key in TABLES and not self.good[key]:
                    yield f"range {prefix}{key}"
                if prefix.startswith("key.") and key == "id":
                    if table[key] in taken:
                        yield f"range {prefix}{key}"
                    taken.append(table[key])

    def too_many(self) -> Iterator[str]:
        radios, servers, links, keys, nets = self.arrays.values()
        feeds = len(radios) + len(servers) + ("leap_file" in self.top)
        if feeds > 16:
            yield f"many radio {feeds}"
        for plan in RULES:
            count = sum(radio["plan"] == plan for radio in radios)
            if count > 4:
                yield f"many radio {count}"
        for name, rows, most in (("link", links, 8), ("key", keys, 8), ("deny", nets, 16)):
            if len(rows) > most:
                yield f"many {name} {len(rows)}"


def station_fault(table: dict) -> str | None:
    """Returns the first fault of a station, or None."""
    return next(Station(table).faults(), None)


def judge_station(data: bytes, output: bytes, status: int, answers_of: Callable[[bool], list[str]]) -> None:
    """Judges what `replay` writes of a station, with a script that each station can play; Wrong where a page says otherwise.
    `answers_of` gives the script's answers where 127.0.0.1 is denied, and where it isn't."""
    answers: list[str] = []
    try:
        station = tomllib.loads(data.decode())
        fault = station_fault(station)
        if not fault:
            answers = answers_of(any(is_in(one["net"], "127.0.0.1") for one in station.get("deny", [])))
    except (ValueError, RecursionError):
        fault = "toml"
    lines = lines_of(output)
    if fault == "toml" and not lines[-1].startswith("status 3 station toml"):
        # Python reads TOML 1.0, the program 1.1, which has more documents.
        need(is_1_1(data), f"no TOML, and it ends with {lines[-1]!r}")
        return
    if fault != "toml" and lines[-1] == "status 3 station toml":
        need(re.search(rb"[0-9_]{18,}", data), f"TOML, and it ends with {lines[-1]!r}; the first fault is {fault}")
        return
    if not fault and lines == ["status 9 memory"]:
        # A table as large as this is more than a run of these checks may hold.
        need(status == 9 and station.get("clients", 0) > 8192, f"no memory for {station.get('clients')} clients")
        return
    want = [f"status 3 station {fault}"] if fault else answers
    need(lines == want and status == (3 if fault else 0), f"ends with {status} and {lines!r}, and the first fault is {fault}")


def is_1_1(data: bytes) -> bool:
    """Returns whether there is something that TOML 1.1 has and 1.0 hasn't: a mark of the byte order, an escape, seconds that are left out,
    or a line's end or a comma at the end of an inline table."""
    return (
        data.startswith(b"\xef\xbb\xbf")
        or re.search(rb"\\[ex]", data) is not None
        or re.search(rb"[0-9]{2}:[0-9]{2}(?!:)", data) is not None
        or re.search(rb"\{[^}]*[\n,#]", data) is not None
    )
