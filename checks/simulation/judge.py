"""Judges from outside what clients, runs and the disk see: the rules of the package's text."""

from dataclasses import dataclass
from typing import TYPE_CHECKING

from checks.simulation.air import Mark
from checks.simulation.clients import GAP, Clients
from checks.simulation.kept import Kept
from checks.simulation.told import Told
from checks.simulation.world import SEEN, World

if TYPE_CHECKING:
    from checks.simulation.machine import Machine
    from checks.simulation.program import Feed, Run

WHOLE = 380  # pulses in a row after which the time can be had: four minutes that are whole, a
#              minute until the first begins, and what a kill may take of a log
LASTS = 500.0  # for so long after that the time can be had without new ones (s)
STARTS = 90  # processes that are started within a minute at most
SHOWN, LOOKED = 0.3, 2.0  # a sleep shown by the real-time clock, to who looked at it so long (s)
ENDED = 4.0  # a supervisor that is started sooner after a sleep is told nothing of it (s)
HARMLESS = ("late", "stand", "kill-run", "die-run", "hup", "fade", "set", "kill-reporter")
MARKS, STEADY, SPOILT = 200, 6000, 21_000  # so many marks in a row are steady within (us); others
WINDOW, MOVED = 600.0, 80_000  # a line has the marks of so long (s), and moves them so far (us)
MOST = 2  # findings of a rule that are kept


@dataclass(frozen=True)
class Finding:
    """A rule that was broken at a moment."""

    rule: str
    at: float
    text: str


@dataclass
class Fault:
    """A fault of the history; in force until `ends`."""

    kind: str
    at: float
    ends: float


class Judge:
    """`findings` are the rules that were broken."""

    def __init__(self, world: World, machine: "Machine") -> None:
        self.world, self.machine = world, machine
        self.findings: list[Finding] = []
        self.faults: list[Fault] = []
        self.tags: dict[int, str] = {}
        self.credit: dict[int, int] = {}
        self.last: dict[int, Mark] = {}
        self.good_at: dict[int, float] = {}  # when a radio last had enough pulses in a row
        self.had_since: float | None = None  # since when the time can be had
        self.trouble_at = -1e9  # when a disk was last in trouble
        self.started_at = 0.0  # when the supervisor was last started
        self.woke_at = self.jumped_at = -1e9
        self.is_shown = False  # the last of these, by the real-time clock
        self.unseen = 0.0  # sleeps since the supervisor's start that are too short to be seen (s)
        self.pauses: list[tuple[float, float]] = []  # when nobody saw one, and how long it was (s)
        # Since when the run that serves reads pulses that came after that, and the last of them.
        self.heard_at = self.fed_at = -1e9
        self.spawns: list[float] = []
        self.is_over = False  # the end was asked for
        self.lasts = 0.0  # until when some fault is in force
        self.stands = 0.0  # until when the supervisor was stopped last
        self.clients = Clients(self)
        self.kept = Kept(self)
        self.told = Told(self)

    def found(self, rule: str, text: str) -> None:
        if sum(one.rule == rule for one in self.findings) < MOST:
            self.findings.append(Finding(rule, self.world.now, text))

    # What the history does

    def fault(self, kind: str, lasts: float = 0.0) -> None:
        """A fault begins, and lasts so long."""
        self.clients.settle()
        if not self.burst():
            self.clients.begin_burst()
        self.faults.append(Fault(kind, self.world.now, self.world.now + lasts))
        self.lasts = max(self.lasts, self.world.now + lasts)
        self.clients.plan()

    def burst(self) -> list[Fault]:
        """The faults up to now between which no minute was calm."""
        found: list[Fault] = []
        begins = self.world.now
        for one in reversed(self.faults):
            if min(one.ends, self.world.now) < begins - 60.0:
                continue
            found.append(one)
            begins = min(begins, one.at)
        return found

    def taken(self) -> None:
        """What was received is worth nothing any more: the time has to be had anew."""
        self.credit.clear()
        self.good_at.clear()
        self.clients.plan()

    def replaced(self, radio: int) -> None:
        """A radio has another source: what was received by the one before counts no more."""
        self.credit.pop(radio, None)
        self.good_at.pop(radio, None)
        self.clients.plan()

    def slept(self, seconds: float) -> None:
        """The kernel counted a sleep. Short ones are seen once they are long enough together."""
        self.unseen += seconds
        if self.unseen >= SEEN:
            self.unseen, self.woke_at = 0.0, self.world.now
        else:
            self.pauses.append((self.world.now, seconds))
        self.taken()

    def jumped(self, seconds: float) -> None:
        """The host stood still, which no clock of the kernel counts. The real-time clock shows it
        to a supervisor that has looked at it for a while."""
        self.woke_at = self.jumped_at = self.world.now
        self.is_shown = seconds >= SHOWN and self.world.now - self.started_at > LOOKED
        if not self.is_shown:
            self.pauses.append((self.world.now, seconds))
        self.taken()

    def started(self) -> None:
        """The supervisor begins. What the disk may not have had is no longer at hand."""
        self.started_at, self.unseen = self.world.now, 0.0
        # The one before may have ended before it was certain.
        self.is_shown = self.is_shown and self.world.now - self.jumped_at > ENDED
        if self.world.now - self.trouble_at < 900.0:
            self.taken()
        self.clients.plan()

    def has_supervisor(self) -> bool:
        return self.machine.kills is not None

    def spawned(self) -> None:
        """A process was started."""
        now = self.world.now
        self.spawns = [one for one in self.spawns if now - one < 60.0] + [now]
        if len(self.spawns) > STARTS:
            self.found("processes are started without end", f"{STARTS} within a minute")
            self.spawns = []

    def tag(self, source: str) -> int:
        """The number that stands for a source in a station."""
        for number, known in self.tags.items():
            if known == source:
                return number
        self.tags[len(self.tags) + 1] = source
        return len(self.tags)

    # What is received, and reaches runs

    def delivered(self, mark: Mark) -> None:
        """A line was written for the supervisor."""
        before = self.last.get(mark.radio)
        if before and before.source != mark.source:
            self.replaced(mark.radio)  # the reload may have waited for a hung disk
        follows = before and before.second + 1 == mark.second and before.source == mark.source \
            and abs(before.offset - mark.offset) < 1e-4
        self.credit[mark.radio] = self.credit.get(mark.radio, 0) + 1 if follows else 1
        self.last[mark.radio] = mark
        mark.row = self.credit[mark.radio]
        self.kept.delivered(mark)
        if self.credit[mark.radio] >= WHOLE:
            self.good_at[mark.radio] = self.world.now
            if self.had_since is None:
                self.had_since = self.world.now
                self.clients.plan()

    def can_have(self) -> float | None:
        """Since when the time can be had; None where it can't be had now."""
        last = max(self.good_at.values(), default=-1e9)
        if self.is_over or self.world.now - last > LASTS:
            self.had_since = None
        return self.had_since

    def fed(self, run: "Run", feed: "Feed", mark: Mark, start: int) -> None:
        """A run reads a pulse."""
        if run.served and self.jumped_at < mark.at:
            if self.heard_at < self.jumped_at or self.world.now - self.fed_at > GAP:
                self.heard_at = self.world.now
                self.clients.plan()
            self.fed_at = self.world.now
        if run.epoch == self.world.epoch and mark.epoch != run.epoch:
            self.found("a pulse of another counter reaches a run",
                       f"{run}, of epoch {run.epoch}: pulse of epoch {mark.epoch}")
        if mark.radio != feed.number or mark.source != self.tags.get(feed.tag):
            self.found("a pulse of another source reaches a run",
                       f"{run}, radio {feed.number} ({self.tags.get(feed.tag)}): {mark.source}")
        late = start - mark.start + mark.off
        is_steady = mark.row >= MARKS and mark.at - self.started_at > MARKS
        most = (STEADY if is_steady else SPOILT) + self.moved(mark.at)
        if "steady" not in self.machine.kind.extras:
            if start != mark.start:
                self.found("a pulse was moved", f"{start} in place of {mark.start}")
        elif abs(late) > most:
            self.found("a pulse is off what steadies it", f"{late} us, the {mark.row}th in a row")

    def moved(self, when: float) -> float:
        """By how much pauses that nobody saw may have moved the line by which a mark of a moment
        was steadied (us)."""
        pauses = sum(span for at, span in self.pauses if when - WINDOW < at < when + GAP)
        return min(pauses * 1e6, MOVED)

    def ended(self, run: "Run") -> None:
        self.kept.ended(run)

    def look(self) -> None:
        """What clients are answered may have changed."""
        if self.world.served:
            self.world.served = False
            self.clients.look()

    def said(self, level: int, text: str) -> None:
        self.kept.said(level, text)
        kinds = {one.kind.split(" ")[1] for one in self.burst()}
        if "doesn't answer" in text and kinds <= set(HARMLESS):
            self.found("a run that answers is called silent", text)

    def before_cut(self) -> None:
        self.clients.settle()

    def after_cut(self) -> None:
        self.kept.after_cut()
