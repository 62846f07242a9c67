"""`decode` of a radio's pulses: what it says, and the minute of each line."""

import os
import re
import subprocess
from collections.abc import Iterable

LINE = re.compile(r"\d+ (\d{1,19}) (verdict|lone|differs|refused) (\d{1,19})( \d{1,19})*", re.ASCII)
Child = subprocess.Popen[bytes]


def begun(program: str, plan: str, pulses: Iterable[tuple[int, int]]) -> Child:
    """`decode` of these starts and widths (us). It neither waits nor is waited for. Raises
    OSError."""
    with open(os.memfd_create("log"), "w+b") as log:
        log.writelines(b"%d %d\n" % one for one in pulses)
        log.seek(0)
        words = [program, "decode", "--plan", plan, "--log", "/dev/stdin"]
        return subprocess.Popen(words, stdin=log, stdout=subprocess.PIPE,
                                stderr=subprocess.DEVNULL)


def said(child: Child) -> list[str]:
    """The whole lines that it has said, once it has ended."""
    return child.communicate()[0].decode("ascii", "replace").split("\n")[:-1]


def closed(line: str) -> tuple[int, str, int] | None:
    """The minute of a line: when it closed (us of the counter), its kind, and its second since
    1900, or the rule that refused it. None where a line is of no minute."""
    found = LINE.fullmatch(line)
    return (int(found[1]), found[2], int(found[3])) if found else None
