"""One radio: its source kept alive, its pulses checked, logged as they came, steadied where the
file says so, kept for 15 minutes, and handed on."""

import collections
import logging
from collections.abc import Callable
from dataclasses import dataclass

from feeders.steady import Steady
from keeper.config import Radio
from keeper.supervisor.clocks import Pause
from keeper.supervisor.host import Host
from keeper.supervisor.logs import PulseLog
from keeper.supervisor.pulses import HISTORY, OLDEST, Lines, Pulse
from keeper.supervisor.sources import Ended, source_of
from keeper.errors import sentence

PAUSES = 1.0, 60.0  # the first and the longest pause before a source is begun again (s)
REPORT = 60.0  # bad lines are reported so often at most (s)

log = logging.getLogger(__name__)


@dataclass(frozen=True)
class Heard:
    """A pulse as it came, and as it is handed on."""

    raw: Pulse
    given: Pulse


class Feed:
    """`heard` gets this feed and its new pulses, `log` keeps them. `state` is a word of the pages:
    `starting`, `running`, `stalled` (it is silent) or `waiting` (it ended, and is begun again).
    `pulse_at` is when the last pulse came, 0.0 for never. `silent_since` is since when none came,
    once that is its `stall`; 0.0 while they come. Both in seconds of CLOCK_BOOTTIME, since a sleep
    is silence too. Beginning the source anew changes neither.

    What steadies lives as long as the feed, and not as its source: the line of a receiver that is
    started again still holds, since the host's counter went on."""

    def __init__(self, host: Host, number: int, radio: Radio, log: PulseLog,
                 heard: "Callable[[Feed, list[Heard]], None]") -> None:
        self.host, self.number, self.radio, self.log, self.heard = host, number, radio, log, heard
        self.source = source_of(host, radio.kind, radio.value)
        self.lines = Lines()
        self.steady = Steady() if radio.steady else None
        self.recent: collections.deque[Heard] = collections.deque()
        self.state = "starting"
        self.pause = Pause(*PAUSES)
        self.restarts = self.pulses = self.reported_bad = 0
        self.pulse_at = self.silent_since = 0.0
        self.born = host.boottime()
        self.alive = host.monotonic()  # its last pulse, or its beginning
        self.begun = self.reported = 0.0  # the source (monotonic s)

    def _heard(self, pulses: list[Pulse]) -> list[Heard]:
        """These pulses, steadied; they are at hand from now on."""
        heard = [Heard(one, Pulse(self.steady.start(one.start), one.width) if self.steady else one)
                 for one in pulses]
        self.recent.extend(heard)
        return heard

    def recall(self, pulses: list[Pulse]) -> None:
        """What was logged of this source before is at hand too."""
        self._heard(pulses)
        if pulses:
            self.lines.last = pulses[-1].start
            self.alive = self.lines.last / 1e6
            self.pulse_at = self.host.boottime() - self.host.monotonic() + self.alive

    def turn(self) -> None:
        """Does what is due. Whatever goes wrong in it ends this source alone, until it is begun
        again."""
        now = self.host.monotonic()
        begins = self.state in ("waiting", "starting")
        try:
            if not begins:
                self._read(now)
            elif now >= self.pause.until:
                self._begin(now)
            self._note_silence(now)
        except Ended as end:
            self._wait(now, str(end))
        except OSError as error:
            said = "opened" if begins else "read"
            self._wait(now, f"its source can't be {said}: {sentence(error)}")
        except Exception as error:  # whatever it is, the others go on
            log.exception("radio %d", self.number)
            self._wait(now, f"{type(error).__name__}: {error}")

    def _begin(self, now: float) -> None:
        self.lines.begin()
        self.source.begin()
        self.state, self.begun = "stalled" if self.silent_since else "running", now

    def _read(self, now: float) -> None:
        self._take(self.lines.take(self.source.read(), int(now * 1e6)), now)
        self._report(now)
        if now - max(self.alive, self.begun) > self.radio.stall and self.source.stalls():
            self._wait(now, f"no pulse for {self.radio.stall:.0f} s")

    def _wait(self, now: float, why: str) -> None:
        """The source is begun again after a pause, which grows until a pulse comes."""
        self.source.rest()
        again = "started" if self.radio.kind == "command" else "opened"
        pause = self.pause.begin(now)
        log.warning("radio %d: %s; it is %s again in %.0f s", self.number, why, again, pause)
        self.state = "waiting"
        self.restarts += 1

    def _note_silence(self, now: float) -> None:
        """Says once that the radio is silent, however often its source begins meanwhile."""
        rests = self.state == "waiting"  # it was said why
        longest = now - self.alive if rests else now - max(self.alive, self.begun)
        if not self.silent_since and longest > self.radio.stall:
            self.silent_since = self.pulse_at or self.born
            if not rests:
                log.warning("radio %d: no pulse for %.0f s", self.number, self.radio.stall)
        if self.silent_since and self.state == "running":
            self.state = "stalled"

    def _take(self, pulses: list[Pulse], now: float) -> None:
        if not pulses:
            return
        if self.silent_since:
            silent = self.host.boottime() - self.silent_since
            log.info("radio %d gives pulses again, after %.0f s", self.number, silent)
        self.alive, self.pulse_at, self.silent_since = now, self.host.boottime(), 0.0
        self.state = "running"
        self.pause.reset()
        self.pulses += len(pulses)
        heard = self._heard(pulses)
        while self.recent[0].given.start < self.recent[-1].given.start - OLDEST:
            self.recent.popleft()
        self.heard(self, heard)

    def _report(self, now: float) -> None:
        new = self.lines.bad - self.reported_bad
        if new and (now - self.reported >= REPORT or not self.reported_bad):
            self.reported, self.reported_bad = now, self.lines.bad
            log.warning("radio %d: %d bad line%s left out; the last: %s", self.number, new,
                        "s" if new > 1 else "", self.lines.last_bad)

    def last_minutes(self) -> list[Heard]:
        oldest = int(self.host.monotonic() * 1e6) - OLDEST
        return [one for one in self.recent if one.given.start >= oldest]

    def wake(self) -> None:
        """The host slept, and the counter stood still: what came before says nothing of now, and
        what lies unread of it is left out."""
        now = int(self.host.monotonic() * 1e6)
        self.lines.last, self.lines.history = now, now + HISTORY
        self.recent.clear()
        self.steady = Steady() if self.steady else None
