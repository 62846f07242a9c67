"""Values that nobody expects, put into files of TOML and JSON beside what spoils.py does to their
lines."""

import copy
import json
import random
from typing import Any

from checks.spoils import spoil

DEEP = 30_000  # brackets in one another: more than a recursion takes
ODD: tuple[Any, ...] = (
    None, True, False, 0, -1, 1, 65536, 2**53, 2**63, -2**64, 10**30, 10**400, 0.5, -0.0, 1e18,
    1e308, -1e308, float("nan"), float("inf"), -float("inf"), "", " ", "\0", "a\0b", "\ud800",
    "\x1b[2J", "|", "%s %d", "../..", "/", "x" * 5000, "9" * 5000, "1e999", [], {}, [[]], [None],
    [{}], {"": ""}, [0] * 1000)
TOML = (
    '""', '" "', '"\\u0000"', '"a\\u001bb"', '"/"', '"."', "''", "'''a\nb'''", "0", "-1", "1",
    "2", "65535", "65536", "9" * 20, "9" * 5000, "0.5", "nan", "-inf", "1e400", "true", "false",
    "[]", "[[]]", "[1, 2]", '["a"]', "{}", "{a = 1}", "[{}]", "2026-01-01", "07:32:00",
    "1979-05-27T07:32:00Z", '"' + "x" * 70_000 + '"', "[" * DEEP, '"ä\\U0010ffff"', "0x10", "")


def json_text(draw: random.Random, value: Any) -> bytes:
    """The JSON of a value, odd at up to three places; of some its text is spoilt too."""
    value = copy.deepcopy(value)
    for _ in range(draw.choice((0, 1, 1, 2, 3))):
        _replace(draw, value)
    text = json.dumps(value, indent=draw.choice((None, 1))).encode()
    if draw.random() < 0.3:
        text = spoil(draw, text.splitlines(keepends=True))
    if draw.random() < 0.02:
        text = draw.choice((b"", b"[" * DEEP, b'{"a":' * DEEP, b"\xff", b"\xef\xbb\xbf{}", b"null"))
    return text


def _replace(draw: random.Random, value: Any) -> None:
    """Puts something odd in the place of something below, or takes that away."""
    while isinstance(value, (dict, list)) and value:
        keys: list[Any] = list(value) if isinstance(value, dict) else list(range(len(value)))
        key = draw.choice(keys)
        if isinstance(value[key], (dict, list)) and value[key] and draw.random() < 0.8:
            value = value[key]
            continue
        if draw.random() < 0.2:
            del value[key]
        else:
            value[key] = copy.deepcopy(draw.choice(ODD))
        return


def toml_text(draw: random.Random, text: str) -> bytes:
    """A file of TOML, with odd values at up to two keys; of some its text is spoilt too."""
    lines = text.splitlines(keepends=True)
    for _ in range(draw.choice((0, 1, 1, 2))):
        place = draw.randrange(len(lines))
        key, is_key, _ = lines[place].partition(" = ")
        if is_key:
            lines[place] = f"{key} = {draw.choice(TOML)}\n"
        elif draw.random() < 0.3:
            lines[place] = draw.choice(("[[radio]]\n", "[radio]\n", "[alarms]\n", "a.b = 1\n"))
    data = [line.encode() for line in lines]
    return spoil(draw, data) if draw.random() < 0.5 else b"".join(data)
