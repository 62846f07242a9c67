"""Which run serves. The next one stands by, fed with the same pulses. A change of run is: go, look,
end; until the next one was seen to have the time, the one before serves on."""

import logging
from collections.abc import Sequence

from keeper.config import Settings
from keeper.ntp import own_addresses
from keeper.supervisor.clocks import Pause
from keeper.supervisor.host import Host
from keeper.supervisor.disk import Note
from keeper.supervisor.journals import Archive, Journal
from keeper.supervisor.radios import Feed, Heard
from keeper.supervisor.runs import HEARINGS, POLLS, Run
from keeper.supervisor.watchdog import Link, Watch
from keeper.errors import ended, sentence

STANDBY = 0.5  # how long after a change the next run is started (s)
ASKED = {"cycle": 10.0, "busy": 0.5, "reload": 0.5}  # servers are asked so long before a change (s)
FED = {"cycle": 60.0, "busy": 1.0, "reload": 5.0}  # the next may take so long for its pulses (s)
AT_ONCE = 0.5  # the same where nobody serves (s)
EVERY = 0.01  # how often a run is asked that is looked at (s)
ANSWERS = 5  # after this many answers without time it isn't taken where another one has the time
LOOK = 1.0, 8.0  # within which it has to answer, at least and at most (s)
END = 5.0  # within which a run has to end (s)
PAUSES = 1.0, 30.0  # after a run that didn't begin, or that died soon (s)
PATIENT = 2.0  # the longest such pause that isn't kept where nobody serves (s)
REFUSED = 60.0, 3600.0  # after a change that was refused since the time would be lost (s)
LATE = 0.5  # of the time since the look before no more counts (s)
SHORT = 10.0  # a run that dies sooner is followed by a pause before another one is started (s)
USED = 0.7  # the part of its hearings, or of its polls, after which a run is followed
CROWDED = 4.0  # a run that a crowd comes upon is followed then, so that its journal counts it (s)

log = logging.getLogger(__name__)


class Service:
    """Runs are started from `use` on, until `stop`: `is_open` meanwhile. While `looked_at` is there
    the run that stands by has been told to serve, and is asked by it. `cause` is why the next run
    is to serve where none does, `last` the journal before. `looks` is seconds by our own looks."""

    def __init__(self, host: Host, settings: Settings, archive: Archive) -> None:
        self.host, self.settings, self.archive = host, settings, archive
        self.is_open = False
        self.feeds: Sequence[Feed] = ()
        self.links: dict[int, int] = {}
        self.addresses: list[str] = []
        self.serving: Run | None = None
        self.next: Run | None = None
        self.ending: list[Run] = []
        self.watch = Watch(host, [], [])
        self.looked_at: Watch | None = None
        self.looks, self.last_look = 0.0, host.monotonic()
        self.looked_from = 0.0  # since when the next run is looked at, by our looks (s)
        self.number = 0
        self.cause = "start"
        self.wants_reload = False
        self.starts, self.refusals = Pause(*PAUSES), Pause(*REFUSED)
        self.rate = 0.0  # datagrams a second of the busiest link, in the last journal
        self.knows_crowd = False  # whether that journal is of a crowd alone
        self.requests: dict[int, tuple[int, float]] = {}  # of clients, by port: all, and a second
        self.last = Journal(host, "", [])
        self.note = ""
        self.lacking = Note("no run can be started", "runs can be started again")

    def use(self, settings: Settings, feeds: Sequence[Feed], links: dict[int, int]) -> None:
        """From now on runs are of these settings, and have these sockets by their ports."""
        self.wants_reload = self.serving is not None
        self._drop_next()
        self.settings, self.feeds, self.links, self.is_open = settings, feeds, links, True
        self.addresses = own_addresses(settings.denied, settings.gap)

    def _runs(self) -> list[Run]:
        return [run for run in (self.serving, self.next, *self.ending) if run]

    def awaits(self) -> list[int]:
        return (self.looked_at or self.watch).awaits()

    def wakes(self) -> float:
        """When something is to be done at the latest (monotonic s)."""
        asks = self.looked_at or (self.watch if self.serving else None)
        return asks.due() if asks else float("inf")

    def heard(self, feed: Feed, heard: Sequence[Heard]) -> None:
        for run in self._runs():
            run.give(feed, heard)

    def turn(self, readable: set[int]) -> None:
        now = self.host.monotonic()
        # A look that came late is no evidence against a run: we were stopped or starved.
        self.looks += min(now - self.last_look, LATE)
        self.last_look = now
        self._step_ending()
        if self.serving and self.serving.status() is not None:
            self._lose("died", now)
        if self.is_open:
            self._step_next(now)
        for outlet in [one for run in self._runs() for one in run.outlets.values()]:
            outlet.push()
        if self.next and self.looked_at:
            # Meanwhile both runs answer on the same links, which aren't asked.
            self._look(self.next, self.looked_at, readable, now)
        elif self.serving:
            self.watch.turn(readable, now)
        if self.is_open and not self.looked_at and (cause := self._why(now)):
            self._try(cause, now)
        if (run := self.serving) and not run.had_time and self.watch.has_time():
            run.had_time = True
            log.info("run %d has the time after %.0f ms", run.number, run.served_for() * 1000)

    # The run that stands by

    def _step_next(self, now: float) -> None:
        if self.next and not self.looked_at:
            said = f"run {self.next.number}, which stood by,"
            if (status := self.next.status()) is not None:
                self._fail(f"{said} {ended(status)}", now)
            elif self.next.hangs(self.looks):
                self._fail(f"{said} takes no pulses", now)
            elif now - self.next.started > SHORT:
                self.starts.reset()
        # Where nobody serves the first failures are no reason to wait.
        rests = now < self.starts.until and (self.serving or self.starts.span > PATIENT)
        if not self.next and not rests:
            self._start(now)

    def _start(self, now: float) -> None:
        self.number += 1
        links = [self.links[port] for port in self.settings.links]
        try:
            self.next = Run(self.host, self.settings, self.feeds, links, self.number)
            self.lacking.take("")
        except OSError as error:
            self.starts.begin(now)
            self.lacking.take(sentence(error))

    def _fail(self, said: str, now: float) -> None:
        """The run that stood by is no good; another one is started after a pause."""
        log.warning("%s; another one is started in %.0f s", said, self.starts.begin(now))
        self._drop_next()

    def _drop_next(self) -> None:
        if self.looked_at:
            self.looked_at.close()
        if self.next:
            self.next.release()
            self.next.remove_out()
        self.next = self.looked_at = None

    # Changes

    def _why(self, now: float) -> str:
        """Why another run is to serve; nothing where this one goes on."""
        run, cycle, pace = self.serving, self.settings.cycle, self.settings.pace
        if run is None:
            return self.cause
        if self.watch.is_deaf():
            return "silent"
        if now < self.refusals.until:
            return ""
        if any(outlet.is_broken for outlet in run.outlets.values()):
            return "silent"
        if self.wants_reload:
            return "reload"
        lasts = USED * HEARINGS / self.rate if self.rate else float("inf")
        if self.settings.servers and pace:
            cycle = min(cycle, USED * POLLS * pace)
        if self.watch.is_crowded() and not self.knows_crowd:
            lasts = min(lasts, CROWDED)
        if run.served_for() >= min(lasts, cycle):
            return "busy" if lasts < cycle else "cycle"
        return ""

    def _try(self, cause: str, now: float) -> None:
        """Has the next run serve, where there is one and it has read what it was given."""
        run = self.next
        if run is None:
            return
        # A reload that was put off is in no hurry.
        alike = "cycle" if cause == "reload" and self.refusals.span else cause
        asked = ASKED.get(alike, 0.0) if self.settings.servers else 0.0
        if asked:
            run.tell("ask")
            if now - run.asks_since < asked:
                return
        if not run.is_fed() and now - run.started < FED.get(cause, AT_ONCE):
            return
        run.is_crowded = self.watch.is_crowded()
        run.begin(cause)
        port = run.probe or next(iter(self.settings.links), 0)
        self.watch.close()
        self.looked_from = self.looks
        self.looked_at = Watch(self.host, [Link(port)] if port else [], self.addresses, EVERY)

    def _look(self, run: Run, watch: Watch, readable: set[int], now: float) -> None:
        """Looks at the run that was told to serve: whether it does, and has the time."""
        if (status := run.status()) is not None:
            self._fail(f"run {run.number} doesn't begin: it {ended(status)}", now)
            return
        watch.turn(readable, now)
        before = self.serving if self.watch.has_time() and not self.watch.is_deaf() else None
        link = next(iter(watch.links), None)
        look = min(max(LOOK[0], 2 * self.starts.span), LOOK[1])  # longer where one was no good
        if link is None or link.has_time() or link.kissed or (link.answered_at and not before):
            self._accept(run, watch, now)
        elif before and link.answered_at and link.asked > ANSWERS:
            log.info("run %d goes on: the next one would not have the time yet; it is tried again "
                     "in %.0f s", before.number, self.refusals.begin(now))
            self._drop_next()
        elif not link.answered_at and self.looks - self.looked_from > look:
            self._fail(f"run {run.number} doesn't answer", now)

    def _accept(self, run: Run, watch: Watch, now: float) -> None:
        """The run that was looked at serves, and the one before ends."""
        watch.close()
        was_deaf = self.watch.is_deaf()
        if self.serving and run.cause == "silent":
            log.error("run %d doesn't answer any more", self.serving.number)
        self._lose(run.cause, now)
        self.serving, self.next, self.looked_at = run, None, None
        ports = run.settings.links
        if [link.port for link in self.watch.links] != ports:
            self.watch = Watch(self.host, [Link(port, self.links[port]) for port in ports], [])
        self.watch.addresses = self.addresses
        self.watch.begin(now, was_deaf)
        for probe in watch.links:  # its first answer stands for those of its links
            for link in self.watch.links if probe.last else []:
                link.last, link.came_unix, link.offset = probe.last, probe.came_unix, probe.offset
        self.wants_reload = self.wants_reload and run.cause != "reload"
        if run.note and run.note != self.note:
            log.warning("%s", run.note)
        self.note = run.note
        self.refusals.reset()
        if run.cause != "died":
            self.starts.reset()
        self.starts.until = max(self.starts.until, now + STANDBY)
        log.info("run %d (%s) serves", run.number, run.cause)

    # Ends

    def _lose(self, why: str, now: float) -> None:
        """The run that serves, where one does, is told to end; its journal follows."""
        run, self.serving, self.cause = self.serving, None, why
        if run is None:
            return
        for place, link in enumerate(self.watch.links[:len(run.own)]):
            run.own[place] += link.asked
            link.asked = 0
        run.end(why)
        run.ends_at = self.looks
        self.ending.append(run)
        if why == "died" and run.served_for() < SHORT:
            self.starts.begin(now)

    def _step_ending(self) -> None:
        for run in list(self.ending):
            if run.status() is not None:
                self.ending.remove(run)
                self._note_end(run)
            elif self.looks - run.ends_at > END:
                log.error("run %d is ended at once: it didn't end by itself", run.number)
                run.end_at_once()
                run.ends_at = self.looks

    def _note_end(self, run: Run) -> None:
        """A run has ended: its journal goes to the disk, or is lost."""
        said, seconds = ended(run.status()), max(run.served_for(), 0.1)
        run.release()
        self.last = self.archive.add(run.out, run.own)
        status = self.last.status
        if run.why != "cycle" or status != "status 0":
            log.info("run %d ended (%s) after %.0f s: %s", run.number, run.why, seconds,
                     status or f"no status line, it {said}")
        if not status:
            return
        counts = [max(0, count - own) for count, own in zip(self.last.heard, run.own)]
        self.rate = max(counts, default=0) / seconds
        self.knows_crowd = run.is_crowded
        for port, count in zip(run.settings.links, counts):
            self.requests[port] = self.requests.get(port, (0, 0.0))[0] + count, count / seconds

    def sleep(self, cause: str) -> None:
        """The host slept or was paused: each answer would be as wrong as that was long."""
        for run in self._runs():
            run.end_at_once()
        self._drop_next()
        self._lose(cause, self.host.monotonic())

    def stop(self) -> None:
        """Ends the run that serves; a second call ends it at once."""
        for run in [] if self.is_open else self.ending:
            log.warning("run %d is ended at once: its journal is lost", run.number)
            run.end_at_once()
        self.is_open = False
        self._drop_next()
        self._lose("stop", self.host.monotonic())
        self.watch.close()

    def close(self) -> None:
        self._drop_next()
        self.watch.close()
        for run in self._runs():
            run.release()
