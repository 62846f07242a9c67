"""The reporter: PYTHON -m keeper.reporter FOLDER, beside the supervisor.

It reads what happens as lines of JSON from its standard input, until that has an end. It writes the
state, the page and the metrics into the supervisor's runtime folder, saves the state on the disk
once an hour and at the end, raises alarms, and keeps logs and journals within their bounds. It may
be killed at any moment, and is started again.
"""

import contextlib
import json
import logging
import os
import select
import sys
import time
from collections.abc import Callable, Mapping
from datetime import datetime, timedelta, timezone

from keeper import config
from keeper.errors import Fault
from keeper.reporter import metrics, page
from keeper.reporter.alarms import Alarms
from keeper.reporter.state import State, load, put, save, text_of
from keeper.reporter.station_state import Facts, Station
from keeper.reporter.tidy import tidy
from keeper.supervisor.clocks import Clocks
from keeper.supervisor.host import Host, say

Render = Callable[[State, float], str]
STATE, PAGE, METRICS = "state.json", "status.html", "radio_ntpd.prom"
SHOWN: Mapping[str, Render] = {
    STATE: lambda state, now: text_of(state), PAGE: page.render, METRICS: metrics.render}
TURN = 0.5  # the longest turn (s)
RENEWED = 10.0  # how often what is shown is renewed (s)
SAVED = 3600.0  # how often the state is put on the disk, and logs are tidied (s)
PIECE = 1 << 16

log = logging.getLogger(__name__)


def last_state(*paths: str) -> State | None:
    """The newest state of these files that can be read."""
    found: list[State] = []
    for path in paths:
        with contextlib.suppress(Fault):
            found.append(load(path))
    return max(found, key=lambda one: one.written) if found else None


class Reporter:
    """`folder` is the runtime folder."""

    def __init__(self, host: Host, folder: str) -> None:
        self.host, self.folder = host, folder
        self.station: Station | None = None
        self.alarms = Alarms(host, os.path.join(folder, STATE))
        self.clocks = Clocks(host)
        self.facts: Facts = {}
        self.half = b""
        self.is_over = False
        self.due = {"renew": 0.0, "save": time.monotonic() + SAVED, "tidy": 0.0}
        self.failed: set[str] = set()

    def turn(self) -> None:
        """One round."""
        if select.select([0], [], [], TURN)[0]:
            self._read()
        if (station := self.station) is None:
            return
        if step := self.clocks.step():
            station.move(step)
            self.alarms.move(step)
            self.due["renew"] = 0.0  # who reads the age of what is shown counts by the new clock
        for radio in station.radios:
            self._try(f"decode of radio {radio.radio.number}", radio.decode, time.time())
        self._try("alarms", self._judge, station)
        if self._is_due("renew", RENEWED):
            self._renew(station)
        if self._is_due("save", SAVED) and self.facts["folder"] != self.folder:
            path = os.path.join(self.facts["folder"], STATE)
            self._try("the state", save, self.host, station.state, path)
        if self._is_due("tidy", SAVED) and not self.is_over:
            self._try("logs and journals", self._tidy)

    def _is_due(self, what: str, every: float) -> bool:
        """Whether something is done now: once in this many seconds, and at the end."""
        is_due = self.is_over or time.monotonic() >= self.due[what]
        if is_due:
            self.due[what] = time.monotonic() + every
        return is_due

    def _read(self) -> None:
        piece = os.read(0, PIECE)
        self.is_over = not piece
        *lines, self.half = (self.half + piece).split(b"\n")
        for line in lines:
            self._try("what the supervisor says", self._take, line)

    def _take(self, line: bytes) -> None:
        message = json.loads(line)
        if "facts" in message:
            facts = self.facts = message["facts"]
            station = self.station = self.station or self._begin(facts)
            station.take(facts)
            self._try("the last journal", station.read_journal, facts)
            self.alarms.settings = config.Alarms(**facts["alarms"])
        elif self.station:
            self.station.heard(message["radio"], message["pulses"])

    def _begin(self, facts: Facts) -> Station:
        """Goes on with what a reporter before this one left."""
        before = last_state(*(os.path.join(one, STATE) for one in (self.folder, facts["folder"])))
        is_same = before and before.keeper_pid == facts["pid"]
        if before:
            self.alarms.recall(before.alarms, facts["since"], before.run.number * bool(is_same))
        return Station(before)

    def _judge(self, station: Station) -> None:
        state = station.state
        last = state.alarms[-1:]
        for one in station.news:
            self.alarms.raise_alarm(state, one["event"], one["text"], one["at"])
        station.news.clear()
        self.alarms.judge(state, time.time())
        self.alarms.commands.turn()
        if state.alarms[-1:] != last:
            self.due["renew"] = 0.0  # so that one that is killed doesn't raise it again

    def _renew(self, station: Station) -> None:
        """What is shown; one that can't be drawn or written leaves the others alone."""
        now = time.time()
        self._try("reception", station.renew, now)
        for name, render in SHOWN.items():
            self._try(name, self._show, name, render, station.state, now)

    def _show(self, name: str, render: Render, state: State, now: float) -> None:
        put(self.host, os.path.join(self.folder, name), render(state, now))

    def _tidy(self) -> None:
        now, facts = datetime.now(timezone.utc), self.facts
        today, recent = now.date(), {now.date(), (now - timedelta(hours=1)).date()}
        for folder in (os.path.join(facts["folder"], name) for name in ("logs", "journals")):
            if os.path.isdir(folder):
                tidy(self.host, folder, today, facts["days"], facts["room"], recent)

    def _try(self, what: str, part: Callable[..., object], *given: object) -> None:
        """Whatever goes wrong in one part leaves the others alone; it is said once."""
        try:
            part(*given)
        except Exception as error:
            if what not in self.failed:
                why = error.strerror if isinstance(error, OSError) else repr(error)
                log.error("the reporter: %s: %s", what, why)
            self.failed.add(what)
        else:
            self.failed.discard(what)


def main(folder: str) -> int:
    for one in ("PYTHONPATH", "PYTHONDONTWRITEBYTECODE"):
        os.environ.pop(one, None)  # they are ours, and not of the alarms' commands
    os.umask(0o022)  # everybody may read what is shown
    host = Host()
    say()
    reporter = Reporter(host, folder)
    try:
        while not reporter.is_over:
            reporter.turn()
    finally:
        reporter.alarms.commands.close()
    return 0


if __name__ == "__main__":
    sys.exit(main(sys.argv[1]))
