"""The command line (docs/FORMATS.md, "Command line"): which arguments are a command, and what it is asked."""

import re
from typing import Callable, NamedTuple, Sequence

Takes = Callable[[str], bool]


def _whole(least: int, most: int) -> Takes:
    return lambda text: re.fullmatch("0|[1-9][0-9]{0,11}", text) is not None and least <= int(text) <= most


def _name(text: str) -> bool:
    return True


_LIMIT = {"limit": _whole(1, 4194304)}
_HEARINGS = {"during": _whole(0, 1000000), "after": _whole(0, 1000000)}
# Of each command the options that it needs, and those that it may have.
COMMANDS: dict[str, tuple[dict[str, Takes], dict[str, Takes]]] = {
    "decode": ({"plan": lambda text: text in ("dcf", "msf", "wwvb"), "log": _name}, {}),
    "replay": ({"station": _name, "script": _name}, _LIMIT),
    "serve": ({"station": _name}, {**_HEARINGS, **_LIMIT}),
    "drill": ({"seed": _whole(0, 2**32 - 1)}, _LIMIT),
    "migrate": ({"station": _name, "journal": _name}, {}),
}


class Asked(NamedTuple):
    """A command and the values of its options."""

    command: str
    options: dict[str, str]


def _taken_apart(words: Sequence[str]) -> tuple[list[str], list[tuple[str, str]]] | None:
    """The command words, and the options with their values; None where an option has none."""
    commands: list[str] = []
    options: list[tuple[str, str]] = []
    rest = list(words)
    while rest:
        word = rest.pop(0)
        if word == "--":
            return commands + rest, options
        if not word.startswith("-"):
            commands.append(word)
            continue
        name, joined, value = word.partition("=")
        if not joined:
            if not rest:
                return None
            value = rest.pop(0)
        options.append((name, value))
    return commands, options


def read(words: Sequence[str]) -> Asked | None:
    """The command that the words are, or None."""
    apart = _taken_apart(words)
    if apart is None:
        return None
    commands, pairs = apart
    options = dict(pairs)
    if len(commands) != 1 or commands[0] not in COMMANDS or len(options) < len(pairs):
        return None
    needs, may = ({f"--{name}": takes for name, takes in row.items()} for row in COMMANDS[commands[0]])
    takes = {**needs, **may}
    if not set(needs) <= set(options) <= set(takes):
        return None
    if any(value == "" or value.startswith("-") or not takes[name](value) for name, value in options.items()):
        return None
    return Asked(commands[0], {name[2:]: value for name, value in options.items()})
