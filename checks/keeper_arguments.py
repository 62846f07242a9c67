"""Arguments for the keeper's commands and for the feeders, drawn by chance. A command ends with one
of its statuses, and says in one sentence why it refuses; nothing is begun by it."""

import contextlib
import functools
import importlib
import io
import random
import socket
import sys
import time
from pathlib import Path
from types import ModuleType
from unittest import mock

from checks.spoils import spoil
from keeper import __main__ as keeper_main
from keeper import arguments

STATUSES = (0, 1, 2, 3, 64, 71, 78)
WORDS = (
    *arguments.COMMANDS, "stop", "--config", "--folder", "--json", "--nagios",
    "--prometheus", "--every", "--seconds", "--root", "--prefix", "--program", "--remove",
    "--radio", "--server", "--port", "--pace", "--minutes", "--help", "--version", "--nosuch", "--",
    "-h", "-1", "0", "1", "nan", "inf", "1e400", "9" * 5000, "", " ", "ä", "\udcff", "a\nb", "%s",
    "/nosuch", "keeper.toml", "--every=0.5", "--port=0x10", "--seconds=1_0")
OPTIONS = {
    "chrony_sock": ("--delay", "--fresh"), "edges_to_log": ("--low", "--"),
    "serial_edges": ("--line", "--dtr", "--rts", "dcd", "on"), "steady": ("--most",)}
VALUES = ("0", "1", "90", "-1", "0.5", "nan", "inf", "1e400", "9" * 30, "9" * 5000, "", "/nosuch")


class Wrong(Exception):
    """A reader did what it doesn't say."""


@functools.cache
def feeder(name: str) -> ModuleType:
    return importlib.import_module(f"feeders.{name}")


def need(is_so: bool, what: str) -> None:
    if not is_so:
        raise Wrong(what)


def command(*words: str) -> None:
    """A command of the keeper ends with one of its statuses, and says why it refuses."""
    out, errors = io.StringIO(), io.StringIO()
    with contextlib.redirect_stdout(out), contextlib.redirect_stderr(errors):
        status = keeper_main.main(list(words))
    said = out.getvalue() + errors.getvalue()
    need(status in STATUSES, f"{words[0]} ends with {status}")
    need("Traceback" not in said, said)
    if status >= 64:
        text = errors.getvalue()  # a name in it may have line breaks
        need(f"radio_keeper {words[0]}: " in text, f"it says {text}")
    if "--nagios" in words and status < 64:
        need(status <= 3 and out.getvalue().startswith("RADIO_NTPD "), f"to Nagios: {said}")
        need(out.getvalue().count("\n") == 1, f"more than a line for Nagios: {said}")


def words(draw: random.Random, folder: Path) -> None:
    """Arguments for the keeper: they are valid, or it ends with 64 and says what isn't."""
    given = [draw.choice(WORDS) for _ in range(draw.randrange(6))]
    out, errors = io.StringIO(), io.StringIO()
    with contextlib.redirect_stdout(out), contextlib.redirect_stderr(errors):
        try:
            arguments.parse(given)
        except SystemExit as end:
            need(end.code in (0, 64), f"{given} end with {end.code}")
            text = out if end.code == 0 else errors
            need(text.getvalue().strip() != "", f"{given}: nothing is said")


def feeders(draw: random.Random, folder: Path) -> None:
    """Arguments and lines for a feeder: a status, or a sentence."""
    name = draw.choice(list(OPTIONS))
    given = [draw.choice(draw.choice((OPTIONS[name], VALUES))) for _ in range(draw.randrange(4))]
    now, unix = time.monotonic_ns() // 1000, int(time.time()) + 2_208_988_800
    lines = [b"%d 100000\n" % now, b"0 %d verdict %d 0\n" % (now, unix), b"status 0\n",
             b"%d.5 rising x\n" % (now // 10**6), b"%d.6 falling x\n" % (now // 10**6)]
    if name == "chrony_sock":
        path = folder / "sock"
        given.insert(0, str(path))
    elif name == "serial_edges":
        given.insert(0, draw.choice(("/dev/null", str(folder), "/nosuch", "")))
    (folder / "lines").write_bytes(spoil(draw, lines))
    errors = io.StringIO()
    with contextlib.ExitStack() as held:
        if name == "chrony_sock":
            taker = held.enter_context(socket.socket(socket.AF_UNIX, socket.SOCK_DGRAM))
            path.unlink(missing_ok=True)
            taker.bind(str(path))
        given_in = held.enter_context((folder / "lines").open(encoding="ascii", errors="replace"))
        out = held.enter_context((folder / "out").open("w"))
        held.enter_context(mock.patch.multiple(sys, argv=[f"{name}.py", *given], stdin=given_in,
                                               stdout=out, stderr=errors))
        held.enter_context(mock.patch("signal.signal"))
        try:
            end = feeder(name).main()
        except SystemExit as ended:
            end = ended.code
        status = 1 if isinstance(end, str) else end or 0
        decoded = range(12) if name == "chrony_sock" else ()  # it ends as the `decode` that it reads
        need(status in (0, 1, 2, 127, *decoded), f"{name} {given} ends with {status}")
        need("Traceback" not in errors.getvalue(), errors.getvalue())
        said = errors.getvalue() + (end if isinstance(end, str) else "")
        need(status == 0 or said.strip() != "", f"{name} {given} says nothing")


KINDS = {one.__name__: one for one in (words, feeders)}
