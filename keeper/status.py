"""`status` and `watch`: the state of a station for a person, for a program, for Nagios."""

import argparse
import contextlib
import dataclasses
import json
import os
import sys
import time

from keeper.chosen_file import HERE, INSTALLED, SERVED
from keeper.config import File, opened
from keeper.durations import span
from keeper.errors import DONE, UNKNOWN, Fault
from keeper.reporter import metrics, overview
from keeper.reporter.__main__ import STATE
from keeper.reporter.health import GONE, Level, judge, summary, worst
from keeper.reporter.state import State, load
from keeper.reporter.state import read as read_state
from keeper.reporter.station_state import Station
from keeper.supervisor.reports import FACTS

FOLDERS = ["/run/radio_ntpd", SERVED]
STANDS = 30.0  # a reporter that has drawn nothing for so long stands still (s)
FILES = (HERE, INSTALLED)
CLEAR = "\033[H\033[2J"


def main(asked: argparse.Namespace) -> int:
    """The exit status."""
    if asked.command == "status" and asked.nagios:
        return nagios(asked.folder, asked.config)
    folders = [asked.folder] if asked.folder else folders_of(asked.config)
    if asked.command == "watch":
        return watch(folders, asked.every)
    try:
        written, now = last(folders), time.time()
    except Fault as fault:
        said = "does the keeper run, and are --config and --folder right?"
        raise Fault(f"{fault}; {said}") from fault
    state = current(written)
    if asked.json:
        print(json.dumps(written, default=vars, indent=1))
    elif asked.prometheus:
        sys.stdout.write(metrics.render(state, now))
    else:
        sys.stdout.write(overview.render(state, now, takes_blocks()))
        return min(int(worst(judge(state, now))), int(Level.CRITICAL))
    return DONE


def folders_of(config: str | None) -> list[str]:
    """Where a state may be, by the keeper's file: the runtime folder and the state folder. The
    station file isn't read, so that nobody has to see its keys to see the state; who may not read
    the installed keeper's file has the folders that it names as it is installed. Raises Fault."""
    path = config or next((one for one in FILES if os.access(one, os.R_OK)), None)
    if path is None:
        return FOLDERS
    file = File(path)
    folder = str(file.values.get("state", "state"))
    return [file.beside(one) for one in (str(file.values.get("runtime", folder)), folder)]


def last(folders: list[str]) -> State:
    """The state of the first folder that has one. Where the reporter stands still, what the
    supervisor itself wrote last is put in. Raises Fault."""
    folder = next((one for one in folders if os.path.exists(os.path.join(one, STATE))), folders[0])
    path, facts = os.path.join(folder, FACTS), {}
    with contextlib.suppress(OSError, RecursionError, ValueError):
        with opened(path) as file:
            facts = json.loads(file.read() or b"")
    try:
        state = load(os.path.join(folder, STATE))
    except Fault:
        if not facts:
            raise
        state = State()
    try:
        if not facts or facts["at"] - state.written <= STANDS:
            return state
        station, late = Station(state), span(facts["at"] - state.written)
        station.take(facts)
        station.state.notes.append(f"the reporter has drawn nothing for {late}")
        station.state.written = facts["at"]
        return read_state(json.dumps(station.state, default=vars))
    except (ArithmeticError, AttributeError, LookupError, TypeError, ValueError) as error:
        raise Fault(f"{path} isn't of a keeper: {error!r}") from error


def is_there(process: int) -> bool:
    """Whether there is a process of this number."""
    try:
        os.kill(process, 0)
    except PermissionError:
        return True
    except (ProcessLookupError, OverflowError):
        return False
    return True


def current(written: State) -> State:
    """The state as it stands: a keeper that was killed could not write that it has ended."""
    has_gone = written.keeper_pid != 0 and not is_there(written.keeper_pid)
    return dataclasses.replace(written, keeper_pid=GONE) if has_gone else written


def nagios(folder: str | None, config: str | None) -> int:
    """One line on standard output, whatever is wrong, with its figures after a bar."""
    try:
        state, now = current(last([folder] if folder else folders_of(config))), time.time()
        level, said = worst(judge(state, now)), summary(state, now)
        figures = [f"root_dispersion_{one.port}={one.root_dispersion:.6f}s;;{state.bound:g}"
                   for one in state.links]
        figures += [f"verdicts_{one.number}={one.verdicts_hour};;;0;60" for one in state.radios]
        said += f" | {' '.join(figures)}" if figures else ""
    except Fault as error:
        level, said = Level(UNKNOWN), str(error).replace("|", "/")
    print(f"RADIO_NTPD {level.name}: {said}")
    return int(level)


def takes_blocks() -> bool:
    """Whether the terminal takes more than ASCII."""
    return (sys.stdout.encoding or "").lower().replace("-", "") == "utf8"


def watch(folders: list[str], every: float) -> int:
    """Draws the state until it is interrupted."""
    clear = CLEAR if sys.stdout.isatty() else ""
    while True:
        try:
            said = overview.render(current(last(folders)), time.time(), takes_blocks())
        except Fault as fault:
            said = f"{fault}\n"
        sys.stdout.write(clear + said)
        sys.stdout.flush()
        time.sleep(every)
