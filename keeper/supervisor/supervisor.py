"""The loop of the supervisor, one turn after the other.

A simulation makes `Supervisor(host, settings)` over a host of its own, calls `begin` once and
`turn` until it is False; `status` is then the exit status. What it starts, by `Host.spawn`: runs
(runs.py), radios' commands (sources.py), and the reporter (reports.py)."""

import logging
import os
import signal
from collections.abc import Callable
from concurrent.futures import Future
from typing import Any

from keeper import lock
from keeper.config import Radio, Settings
from keeper.errors import DONE, NOT_WELL
from keeper.supervisor import clocks
from keeper.supervisor.host import Host, Task
from keeper.supervisor.journals import OUT, Archive
from keeper.supervisor.logs import PulseLog, mend
from keeper.supervisor.pauses import Pauses
from keeper.supervisor.radios import Feed, Heard
from keeper.supervisor.reports import Reports, facts_of
from keeper.supervisor.service import Service

TURN = 0.025  # the longest turn (s)
LEAST = 0.001  # the shortest wait (s), so that nothing spins
FAULTS = 60.0  # how often the same fault of our own is said (s)
LEFT = 2.0  # a run of a keeper that was killed may take so long to end (s)
LAST = 10.0  # within which the disk has to take what is left at the end (s)
EVENTS = 16  # events that are told again to a reporter that begins
PAUSES = 1.0, 30.0  # before a port is tried again (s)
ANY = "0.0.0.0"

log = logging.getLogger(__name__)


class Supervisor:
    """Keeps the station of these settings served. `status` is the exit status once `turn` is
    False. `stopping` is since when the end is asked for (monotonic s)."""

    def __init__(self, host: Host, settings: Settings) -> None:
        self.host, self.settings = host, settings
        self.status = DONE
        self.began = host.boottime()
        self.clocks, self.pauses = clocks.Clocks(host), Pauses(host)
        self.boot = self.counter = ""
        self.paused = 0.0  # when the host was last paused (Unix s)
        self.feeds: list[Feed] = []
        self.closing: list[Task] = []  # logs that are given back
        self.lock = -1
        self.links: dict[int, int] = {}  # sockets by their ports
        self.handed: set[int] = set()  # ports that systemd keeps, so that nobody can bind them
        self.ports = clocks.Pause(*PAUSES)  # after a port was refused
        self.logs = os.path.join(settings.folder, "logs")
        self.archive = Archive(host, os.path.join(settings.folder, "journals"))
        self.service = Service(host, settings, self.archive)
        self.reports = Reports(host, settings.runtime, self._facts)
        self.judging: Future[Settings] | None = None
        self.refused = ""  # why a file was refused at the last reload
        self.reloads = 0
        self.events: list[dict[str, Any]] = []
        self.stopping: float | None = None
        self.pinged = 0.0
        self.faults: dict[str, float] = {}  # by part when it was last said what went wrong

    def begin(self) -> None:
        """Takes the folders, the sockets and the sources. Raises OSError, or Fault where another
        keeper has the folder."""
        for folder in (self.settings.folder, self.settings.runtime):
            self.host.make_folder(folder)
        self.lock = lock.take(self.host, self.settings.folder)
        self.boot = self.host.boot()
        self.paused = self.reports.paused_before()
        self.counter = self._counter()
        self.links = {self.host.port_of(one): one for one in self.host.handed_over()}
        self.handed = set(self.links)
        self.archive.due = self.host.monotonic() + LEFT
        for name in self.host.names(self.settings.runtime):
            if name.endswith(OUT):  # of a supervisor that was killed
                self.archive.add(os.path.join(self.settings.runtime, name), [])
        for place, radio in enumerate(self.settings.radios):
            self.feeds.append(self._feed(place, radio))
            self.feeds[-1].recall(self.feeds[-1].log.last_pulses())
        self.closing.append(self.host.aside(lambda: mend(self.host, self.logs)))
        self.host.notify("READY=1")

    def _feed(self, place: int, radio: Radio) -> Feed:
        return Feed(self.host, place, radio, self._log(place, radio), self._heard)

    def _log(self, place: int, radio: Radio) -> PulseLog:
        tag = clocks.tag_of(self.counter, f"{radio.kind} {radio.value}")
        return PulseLog(self.host, self.logs, place, radio.plan, tag)

    def _heard(self, feed: Feed, heard: list[Heard]) -> None:
        """Pulses of a radio go to the runs first."""
        self.service.heard(feed, heard)
        feed.log.add([one.raw for one in heard])
        self.reports.heard(feed, heard)

    def turn(self) -> bool:
        """One round: waits for what comes, at most a fortieth of a second, and does what is due.
        False once all has ended. Nothing is raised, whatever happens outside."""
        span = min(TURN, self.service.wakes() - self.host.monotonic())
        readable = self.host.wait(self.service.awaits(), max(LEAST, span))
        self._guarded(self._look_at_clocks)
        self._guarded(self._take_signals)
        if self.stopping is None:
            for feed in self.feeds:
                feed.turn()
            self._guarded(self._step_links)
            self._guarded(self._step_reload)
        self._guarded(lambda: self.service.turn(readable))
        self._guarded(self._step_disk)
        self._guarded(self._tell)
        if not self._has_ended():
            return True
        self._guarded(lambda: self.reports.end(self.feeds))
        if self.archive.waiting:
            log.error("the disk takes nothing; journals that wait in %s: %d", self.settings.runtime,
                      len(self.archive.waiting))
        if self.archive.lost or self.archive.waiting:
            self.status = NOT_WELL
        return False

    def _guarded(self, part: Callable[[], None]) -> None:
        """What goes wrong in one part leaves the others alone; it is said once a minute."""
        try:
            part()
        except Exception as error:
            now, where = self.host.monotonic(), part.__qualname__
            if now - self.faults.get(where, -FAULTS) >= FAULTS:
                self.faults[where] = now
                log.exception("in the loop: %r", error)

    def _look_at_clocks(self) -> None:
        if span := self.clocks.sleep():
            self._forget("slept", f"slept for {span:.2f} s")
            self.pauses.forget()
        elif span := self.pauses.look():
            self.paused = self.host.realtime()
            self._forget("paused", f"stood still for {span:.1f} s, as its real-time clock shows")
        if step := self.clocks.step():
            log.warning("the host's clock was set %s by %.0f s; clients' time is the radios' and "
                        "stays", "forward" if step > 0 else "back", abs(step))

    def _counter(self) -> str:
        """What tells the counter since the last sleep and pause from every other one."""
        return f"{clocks.counter(self.host, self.boot)} {self.paused:.1f}"

    def _forget(self, cause: str, said: str) -> None:
        """The counter stood still: what was received before says nothing of now."""
        self.service.sleep(cause)  # at first: each answer is as wrong as that was long
        log.warning("the host %s; a new run begins, without what was received before", said)
        self.counter = self._counter()
        for feed in self.feeds if self.stopping is None else []:
            feed.wake()
            self.closing.append(feed.log.close())
            feed.log = self._log(feed.number, feed.radio)

    def _take_signals(self) -> None:
        for number in self.host.signals():
            if number == signal.SIGHUP:
                # Both files are judged beside the loop, anew where they are judged already.
                now = int(self.host.monotonic() * 1e6)
                self.host.notify(f"RELOADING=1\nMONOTONIC_USEC={now}")
                self.judging = self.host.settings(self.settings.path)
            else:
                self._stop()

    def _stop(self) -> None:
        if self.stopping is None:
            log.info("the end was asked for")
            self.host.notify("STOPPING=1")
            self.stopping = self.host.monotonic()
            for feed in self.feeds:
                feed.source.rest()
                self.closing.append(feed.log.close())
        self.service.stop()

    def _step_links(self) -> None:
        """Gives back what no run needs, binds what isn't bound yet, and then has the station
        served."""
        served = {link.port for link in self.service.watch.links}
        for port in self.links.keys() - self.handed - served - set(self.settings.links):
            self.host.close(self.links.pop(port))
        now = self.host.monotonic()
        if self.service.is_open or now < self.ports.until:
            return
        try:
            self._bind(self.settings)
        except OSError as error:
            log.error("%s; it is tried again in %.0f s", error.strerror, self.ports.begin(now))
            return
        self.service.use(self.settings, self.feeds, self.links)

    def _bind(self, settings: Settings) -> None:
        for port in settings.links:
            if port not in self.links:
                try:
                    self.links[port] = self.host.bind(ANY, port)
                except OSError as error:
                    raise OSError(error.errno, f"port {port}: {error.strerror}") from error

    # Reload

    def _step_reload(self) -> None:
        """Takes what was judged, or says why not, and then all goes on as it was. Later where a run
        is about to serve, whose place it would take."""
        is_about = self.service.serving is None and self.service.next is not None
        if not self.judging or not self.judging.done() or is_about:
            return
        task, self.judging = self.judging, None
        fault = task.exception()
        self.refused = str(fault) if fault else self._take_over(task.result())
        self.reloads += 1
        if self.refused:
            log.error("not reloaded: %s", self.refused)
            self.events.append({"number": self.reloads, "event": "file-refused",
                                "text": self.refused, "at": self.host.realtime()})
            del self.events[:-EVENTS]
        self.host.notify("READY=1")

    def _take_over(self, settings: Settings) -> str:
        """Goes over to settings, or says why not. What they leave as it is goes on."""
        for key in ("folder", "runtime"):
            if getattr(settings, key) != getattr(self.settings, key):
                return f"{key}: the keeper has to be started anew for another one"
        try:
            self._bind(settings)
            feeds = [self._feed_for(place, radio) for place, radio in enumerate(settings.radios)]
        except OSError as error:
            return error.strerror or str(error)
        for feed in self.feeds:
            if feed not in feeds:
                feed.source.close()
                self.closing.append(feed.log.close())
        self.settings, self.feeds = settings, feeds
        self.service.use(settings, feeds, self.links)
        log.info("both files were read anew")
        return ""

    def _feed_for(self, place: int, radio: Radio) -> Feed:
        """The feed that runs where the radio is the same; what another one of the same source has
        heard is at hand."""
        old = self.feeds[place] if place < len(self.feeds) else None
        if old and old.radio == radio:
            return old
        feed = self._feed(place, radio)
        if old and (old.radio.kind, old.radio.value) == (radio.kind, radio.value):
            feed.recall([one.raw for one in old.last_minutes()])
        return feed

    # Disk and people

    def _step_disk(self) -> None:
        now = self.host.monotonic()
        self.archive.turn(now)
        self.closing = [one for one in self.closing if not one.done()]
        for feed in self.feeds if self.stopping is None else []:
            feed.log.turn(now)

    def _tell(self) -> None:
        now, interval = self.host.monotonic(), self.host.watchdog
        if interval is not None and now - self.pinged >= interval:
            self.pinged = now
            self.host.notify("WATCHDOG=1")
        # What `reload`, alarms and the next keeper wait for is told at once.
        said = [link.last and (link.last.leap, link.last.stratum, link.last.reference_id)
                for link in self.service.watch.links]
        silent, run = [feed.silent_since for feed in self.feeds], self.service.serving
        self.reports.turn(self.feeds, (self.paused, self.reloads, run and run.number, silent, said))

    def _facts(self) -> dict[str, Any]:
        notes = [self.service.lacking.text, self.service.note, self.archive.note.text,
                 *(feed.log.note.text for feed in self.feeds),
                 self.refused and f"not reloaded: {self.refused}"]
        facts = facts_of(self.host, self.settings, self.service, self.feeds, self.began) | {
            "notes": [one for one in notes if one], "events": self.events, "paused": self.paused,
            "reloads": self.reloads, "refused": self.refused}
        # One that was stopped hasn't died.
        return facts if self.stopping is None else facts | {"pid": 0}

    def _has_ended(self) -> bool:
        """Whether all has ended that has a journal or a log; the disk may be waited for a while."""
        if self.stopping is None:
            return False
        is_kept = not self.archive.waiting or self.archive.note.text
        goes_on = self.service.serving or self.service.ending or self.closing or not is_kept
        return not goes_on or self.host.monotonic() - self.stopping > LAST

    def close(self) -> None:
        for feed in self.feeds:
            self._guarded(feed.source.close)
        self._guarded(self.service.close)
        self._guarded(self.reports.close)
        for one in (self.lock, *self.links.values()):
            self.host.close(one)
