"""What the supervisor tells: a file in the runtime folder, and a pipe to the reporter, which draws.
The reporter may die, hang, or be killed; it is started again."""

import dataclasses
import json
import logging
import os
import sys
from collections.abc import Callable, Mapping, Sequence
from typing import Any

from keeper.config import Settings
from keeper.ntp import unix_of
from keeper.supervisor import disk
from keeper.supervisor.pipes import TOP, Outlet
from keeper.supervisor.clocks import Pause
from keeper.supervisor.host import Child, Host
from keeper.supervisor.radios import Feed, Heard
from keeper.supervisor.service import Service
from keeper.supervisor.watchdog import Link
from keeper.errors import ended

FACTS = "service.json"  # in the runtime folder
LONGEST = 1 << 20  # bytes of it that are read
EVERY = 2.0  # how often facts are told (s)
WRITTEN = 10.0  # how often they are written (s)
PENDING = 1 << 18  # bytes that wait for the reporter; where there are more it hangs
MOST = 4000  # pulses of a radio that one that begins is told: of noise there are more
PAUSES = 1.0, 60.0  # before it is started again (s)
END = 0.4  # within which it has to end: clients wait for the next keeper meanwhile (s)
LOOK = 0.02  # how often it is looked at then (s)
OF_SETTINGS = ("station", "folder", "program", "bound", "cycle", "days", "room", "servers",
               "leap_file")
OF_RADIO = ("plan", "name", "delay", "steady", "origin", "stall")
OF_FEED = ("number", "restarts", "pulses")
OF_ANSWERS = ("leap", "stratum", "reference_id", "root_delay", "root_dispersion")

log = logging.getLogger(__name__)


class Reports:
    """`folder` is the runtime folder. `facts` has what there is to tell now."""

    def __init__(self, host: Host, folder: str, facts: Callable[[], Mapping[str, Any]]) -> None:
        self.host, self.folder, self.facts = host, folder, facts
        self.path = os.path.join(folder, FACTS)
        self.child: Child | None = None
        self.pipe = Outlet(host, -1, PENDING)
        self.told_at = self.written_at = self.began = 0.0
        self.pause = Pause(*PAUSES)
        self.note = disk.written(self.path)
        self.news: object = None  # what was told of last

    def paused_before(self) -> float:
        """When the host was paused, as the keeper before has told it (Unix s), 0.0 where it wasn't:
        what was received before that isn't read back. Where nobody knows it may just have been."""
        try:
            told = json.loads(disk.read_all(self.host, self.path, LONGEST))
            return float(told.get("paused", 0.0))
        except FileNotFoundError:
            return 0.0
        except (ArithmeticError, AttributeError, OSError, RecursionError, TypeError, ValueError):
            return self.host.realtime()

    def heard(self, feed: Feed, heard: Sequence[Heard]) -> None:
        pulses = [[one.raw.start, one.raw.width, one.given.start] for one in heard]
        self._tell({"radio": feed.number, "pulses": pulses})

    def _tell(self, message: Mapping[str, Any]) -> None:
        self.pipe.give(json.dumps(message, separators=(",", ":")).encode() + b"\n")

    def turn(self, feeds: Sequence[Feed], news: object) -> None:
        """Tells the facts, where they are due or the news have changed. A reporter that begins is
        told all."""
        now = self.host.monotonic()
        self._keep(feeds, now)
        if news != self.news:
            self.news, self.told_at, self.written_at = news, -EVERY, -WRITTEN
        if now - self.told_at < EVERY:
            return
        self.told_at, facts = now, self.facts()
        self._tell({"facts": facts})
        if now - self.written_at >= WRITTEN:
            self.written_at = now
            try:
                disk.put(self.host, self.path, json.dumps(facts).encode() + b"\n", sync=False)
                self.note.take("")
            except OSError as error:
                self.note.take(disk.why(error))

    def _keep(self, feeds: Sequence[Feed], now: float) -> None:
        """Has the reporter live, and take what it is told."""
        if self.child is None and now >= self.pause.until:
            self._start(feeds, now)
        elif self.child:
            self.pipe.push()
            status = self.host.status(self.child)
            if status is not None:
                self._lose(f"the reporter {ended(status)}", now)
            elif self.pipe.is_broken:
                self._lose("the reporter takes nothing", now)
            elif now - self.began > PAUSES[1]:
                self.pause.reset()

    def _start(self, feeds: Sequence[Feed], now: float) -> None:
        self.began, theirs = now, -1
        try:
            ours, theirs = self.host.outlet()
            self.pipe = Outlet(self.host, ours, PENDING)
            words = [sys.executable, "-P", "-m", "keeper.reporter", self.folder]
            environment = {"PYTHONPATH": TOP, "PYTHONDONTWRITEBYTECODE": "1"}
            self.child = self.host.spawn(words, standard=(theirs, -1, 2), environment=environment)
        except OSError as error:
            self._lose(f"the reporter can't be started: {error.strerror}", now)
            return
        finally:
            self.host.close(theirs)
        self._tell({"facts": self.facts()})
        for feed in feeds:
            self.heard(feed, feed.last_minutes()[-MOST:])

    def _lose(self, why: str, now: float) -> None:
        self.close()
        log.warning("%s; it is started again in %.0f s", why, self.pause.begin(now))

    def end(self, feeds: Sequence[Feed]) -> None:
        """Tells the last of it: the reporter saves what it knows, and ends, or isn't waited for."""
        self.turn(feeds, "the end")
        self.pipe.close()
        until = self.host.monotonic() + END
        while (self.child and self.host.status(self.child) is None
               and self.host.monotonic() < until):
            self.host.wait([], LOOK)

    def close(self) -> None:
        self.pipe.close()
        if self.child:
            self.host.release(self.child)
            self.child = None


def facts_of(host: Host, settings: Settings, service: Service, feeds: Sequence[Feed],
             began: float) -> dict[str, Any]:
    """What there is to tell, as JSON has it. Moments are Unix seconds by the clock as it stands,
    0.0 for never; spans are seconds. `began` is of CLOCK_BOOTTIME."""
    unix, run = host.realtime(), service.serving
    shift, booted = unix - host.monotonic(), unix - host.boottime()
    return {key: getattr(settings, key) for key in OF_SETTINGS} | {
        "at": unix, "since": booted + began, "pid": os.getpid(),
        "alarms": dataclasses.asdict(settings.alarms),
        "run": {
            "number": run.number if run else 0,
            "since": run.began + shift if run and run.began else 0.0,
            "cause": run.cause if run else "", "pid": run.child if run else 0,
            "last_status": service.last.status, "last_journal": service.last.name},
        "links": [_link(link, service, shift, unix) for link in service.watch.links],
        "radios": [_radio(feed, booted) for feed in feeds]}


def _radio(feed: Feed, booted: float) -> dict[str, Any]:
    told = {key: getattr(feed.radio, key) for key in OF_RADIO}
    return told | {key: getattr(feed, key) for key in OF_FEED} | {
        "source": feed.state, "bad_lines": feed.lines.bad, "last_bad": feed.lines.last_bad,
        "pulse_at": feed.pulse_at and feed.pulse_at + booted,
        "silent_since": feed.silent_since and feed.silent_since + booted}


def _link(link: Link, service: Service, shift: float, unix: float) -> dict[str, Any]:
    requests, rate = service.requests.get(link.port, (0, 0.0))
    told = {"port": link.port, "asked_at": link.asked_at and link.asked_at + shift,
            "answered_at": link.answered_at and link.answered_at + shift,
            "requests": requests, "requests_per_second": rate}
    if (said := link.last) is None:
        return told
    return told | {key: getattr(said, key) for key in OF_ANSWERS} | {
        "reference_time": unix_of(said.reference, unix), "came": link.came_unix,
        "offset": link.offset if said.has_time() else 0.0}
