"""Histories: what a station is like, and which faults come when. A seed gives one; so does a text.

    seed 7 ends 900 fifo,command 5123 600 60 socket 5
    412.250 kill-run
    413.100 refuse spawn 24 0.5 12
"""

import random
from dataclasses import dataclass, field

from checks.simulation.machine import Kind
from checks.simulation.refusals import CAUSES

WARM = 420.0  # the first fault comes after so long (s)
CALMS = (72.0, 420.0)  # between bursts (s)
SIMPLE = (
    "kill-run", "die-run", "stop-run", "spin-run", "deaf-run", "lag-run", "kill-next", "stop-next",
    "spin-next", "deaf-next", "kill-receiver", "stop-receiver", "mute-receiver", "close-receiver",
    "noise-receiver", "old-receiver", "again-receiver", "flood-receiver", "stubborn-receiver",
    "orphan-receiver", "kill-reporter", "hang-reporter", "hup", "hup-bad", "hup-junk", "hup-hang",
    "hup-source", "hup-swap", "hup-cycle", "kill", "restart", "term-late", "remove-logs",
    "remove-log", "leave", "replace", "shorten")
EXTRAS: dict[str, tuple[str, ...]] = {  # what a station may have besides, and its faults
    "servers": ("server-late", "server-lost"), "steady": (), "leap": ("leap-gone",)}
SPANS = ("fade", "full", "freeze", "slow-disk", "late", "bad-program", "no-program", "full-run")


@dataclass(frozen=True)
class Event:
    """A fault: when (seconds of `World.now`), its kind, and what more it says."""

    at: float
    kind: str
    more: tuple[str, ...] = ()

    def __str__(self) -> str:
        return " ".join((f"{self.at:.3f}", self.kind, *self.more))


@dataclass
class History:
    """`seed` gives all chances that the events leave open; `ends` is when it is stopped."""

    seed: int
    kind: Kind
    ends: float
    events: list[Event] = field(default_factory=list)

    def text(self) -> str:
        kind = self.kind
        head = (f"seed {self.seed} ends {self.ends:.0f} {','.join(kind.radios)} "
                f"{','.join(str(one) for one in kind.ports)} {kind.cycle} {kind.stall} "
                f"{'socket' if kind.handed_over else 'bind'} "
                f"{' '.join((f'{kind.rate:g}', *kind.extras))}")
        return "\n".join((head, *(str(one) for one in self.events))) + "\n"


def parse(text: str) -> History:
    """The history that `History.text` wrote. Raises ValueError."""
    head, *lines = [line.split() for line in text.splitlines() if line.strip()]
    try:
        _, seed, _, ends, radios, ports, cycle, stall, sockets, rate, *extras = head
        kind = Kind(tuple(radios.split(",")), tuple(int(one) for one in ports.split(",")),
                    int(cycle), int(stall), sockets == "socket", float(rate), tuple(extras))
        events = [Event(float(at), kind, tuple(more)) for at, kind, *more in lines]
        return History(int(seed), kind, float(ends), events)
    except ValueError as error:
        raise ValueError(f"no history: {error}") from error


def made(seed: int, span: float) -> History:
    """The history of a seed: bursts of one to ten faults, with calm between them."""
    chance = random.Random(f"history {seed}")
    count = chance.choice((1, 1, 1, 2, 3))
    kinds = chance.choices(("command", "fifo", "file"), (6, 2, 2), k=count)
    ports = (5123,) if chance.random() < 0.8 else (5123, 5124)
    kind = Kind(tuple(kinds), ports, chance.choice((60, 200, 600, 3600)),
                chance.choice((10, 60, 60)), chance.random() < 0.7,
                chance.choice((0.02, 5.0, 5.0, 200.0)))
    history = History(seed, kind, span)
    other = random.Random(f"extras {seed}")
    kind.extras = tuple(one for one in EXTRAS if other.random() < 0.3)
    at = WARM + chance.uniform(0.0, 60.0)
    while at < span - 60.0:
        burst = 1 if chance.random() < 0.6 else chance.randint(2, 10)
        for _ in range(burst):
            event = _event(chance, at, kind)
            history.events.append(event)
            at += chance.choice((0.0, 0.03, 0.3, 2.0, 9.0)) * chance.random()
        at += chance.uniform(*CALMS) if chance.random() < 0.3 else CALMS[0] + chance.random() * 9
        at += _lasts(history.events[-burst:])
    for one, its in EXTRAS.items():
        if one in kind.extras and its:
            when = other.uniform(WARM, max(WARM, span - 90.0))
            more = (str(other.choice((5, 20, 60))),)
            history.events.append(Event(when, other.choice(its), more))
    history.events.sort(key=lambda event: event.at)
    return history


def _lasts(events: list[Event]) -> float:
    """For how long at most something of these is in force (s)."""
    lasting = (*SPANS, "refuse", "flood", "stand")
    return max((float(one.more[-1]) for one in events if one.kind in lasting), default=0.0)


def _event(chance: random.Random, at: float, kind: Kind) -> Event:
    which = chance.random()
    number = str(chance.randrange(len(kind.radios)))
    if which < 0.62:
        name = chance.choice(SIMPLE)
        more: tuple[str, ...] = ()
        if name == "kill" and chance.random() < 0.7:
            more = (str(chance.randrange(1, 400)),)
        elif name.endswith("-receiver") or name in ("leave", "replace", "shorten"):
            more = (number,)
        return Event(at, name, more)
    if which < 0.74:
        span = str(chance.choice((1, 5, 20)))
        name = chance.choice(SPANS)
        if name == "late":
            span = str(chance.choice((0.2, 1.0, 3.0)))
        if name == "late" and chance.random() < 0.5:
            return Event(at, "stand", (str(chance.randrange(1, 400)), span))
        return Event(at, name, (number, span) if name == "fade" else (span,))
    if which < 0.86:
        call = chance.choice(sorted(CAUSES))
        code = str(chance.choice(CAUSES[call]))
        likely = chance.choice(("1.0", "1.0", "0.5", "0.1"))
        return Event(at, "refuse", (call, code, likely, str(chance.choice((1, 5, 20)))))
    if which < 0.90:
        rate = str(chance.choice((1000, 20000, 50000)))
        return Event(at, "flood", (rate, str(chance.choice((5, 30, 60)))))
    if which < 0.94:
        calls = (str(chance.randrange(1, 400)),) if chance.random() < 0.7 else ()
        return Event(at, "cut", calls)
    if which < 0.98:
        return Event(at, chance.choice(("sleep", "sleep", "jump")),
                     (str(chance.choice((0.004, 0.02, 0.6, 40, 30000))),))
    return Event(at, "set", (str(chance.choice((-90000, -3, 3, 86400, 4e8))),))
