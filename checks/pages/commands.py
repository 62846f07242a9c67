"""The commands that the pages for users have: lines of their blocks of code, and code within their sentences."""

import re
from typing import NamedTuple

from lab.program import TOP

PAGES = ("README.md", "docs/FIRST_EVENING.md", "docs/RECORDING.md", "docs/COMMANDS.md", "docs/OPERATING.md",
         "docs/CLIENTS.md", "docs/KEEPER.md", "CONTRIBUTING.md")
FENCE = re.compile(r"(?ms)^```.*?^```$")
QUOTED = re.compile(r"`([^`]*)`")
# The first words of commands in the pages: programs of this repository, of Debian and of the toolchain.
PROGRAM = re.compile(
    r"(\.ci/run|\./\w+|(?:tools|feeders|checks|packaging)/\w+\.(?:py|sh)|/usr/s?bin/\w+|radio_keeper|radio_ntpd|sudo|timeout"
    r"|printf|cd|sed|grep|awk|tr|head|tail|date|chmod|setcap|openssl|ip|nft|systemctl|journalctl|gpiomon|chronyc|ntpdig"
    r"|w32tm|man|apt-get|rt|python3)(?= |$)")
FRAGMENTS = ("ip nat",)  # a table's name


class Command(NamedTuple):
    """A command as its page has it, and the lines that the page shows below it."""

    page: str
    text: str
    shown: tuple[str, ...]


def block(page: str, lines: list[str]) -> list[Command]:
    """Those of a block of code: `$ ` begins one whose output follows. Else each line whose first word is a program's is one."""
    if not any(line.startswith("$ ") for line in lines):
        return [Command(page, line, ()) for line in lines if PROGRAM.match(line)]
    found: list[tuple[str, list[str]]] = []
    for line in lines:
        if line.startswith("$ "):
            found.append((line[2:], []))
        elif found:
            found[-1][1].append(line)
    return [Command(page, text, tuple(shown)) for text, shown in found]


def commands_of(page: str) -> list[Command]:
    """The commands of a page. A word alone within a sentence is a name, and no command."""
    text = FENCE.sub("", (TOP / page).read_text(encoding="utf-8"))
    blocks = re.split(r"(?m)^(?!    )", text)
    found = [one for part in blocks for one in block(page, indented(part))]
    prose = "\n".join(line for line in text.splitlines() if not line.startswith("    "))
    for quoted in QUOTED.findall(prose.replace("\\|", "|")):
        if " " in quoted and PROGRAM.match(quoted) and quoted not in FRAGMENTS:
            found.append(Command(page, quoted, ()))
    return found


def indented(part: str) -> list[str]:
    """The lines of a part that are indented by four blanks, without these."""
    return [line[4:].rstrip() for line in part.splitlines() if line.startswith("    ")]
