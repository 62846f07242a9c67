"""What clients are answered on each port, and whether that may be."""

from dataclasses import dataclass
from typing import TYPE_CHECKING

if TYPE_CHECKING:
    from checks.simulation.judge import Judge

WRONG = 0.02  # an answer is wrong from here on (s); a sleep of half of it isn't seen
AWAKE = 0.1  # within which wrong answers end after a sleep (s)
PAUSED = 2.5  # the same after a sleep that the real-time clock alone shows (s)
JUMPED = 130.0  # after one that no clock shows: by a whole minute the program sees it (s)
GAP = 7.0  # between pulses of a minute that is whole, at most, as a run reads them (s)
AT_ONCE = 0.05  # without a fault nothing is without the time for longer (s)
FAR = 1e9
ONE, MORE = 2.0, 60.0  # after one fault, and after up to ten in a row (s)


@dataclass
class Port:
    """`state` since `since`: `time`, `init` (no time), `none` (no answer) or `wrong`. `spent`:
    how long it was without the time in this burst of faults, though it could have been had."""

    number: int
    state: str = "none"
    since: float = 0.0
    spent: float = 0.0
    plan: int = 0


class Clients:
    """The ports of the station."""

    def __init__(self, judge: "Judge") -> None:
        self.judge = judge
        self.world = judge.world
        self.ports: dict[int, Port] = {}
        self.without = 0.0  # seconds without the time though it could have been had
        self.settled = 0.0

    def _state(self, number: int) -> str:
        server = self.judge.machine.servers.get(number)
        takers = server.answering() if server and not server.is_shut else []
        if not takers:
            return "none"
        if any(one.offset is None for one in takers):
            return "init"
        right = self.world.offset()
        is_right = all(abs((one.offset or 0.0) - right) < WRONG for one in takers)
        return "time" if is_right else "wrong"

    def look(self) -> None:
        self.settle()
        for number in self.judge.machine.kind.ports:
            port = self.ports.setdefault(number, Port(number))
            state = self._state(number)
            server = self.judge.machine.servers.get(number)
            if server:
                server.settle()
                server.serve()
            if state != port.state:
                port.state, port.since = state, self.world.now
                if state == "none" and server and not server.is_shut and server.rate:
                    # Nobody is without an answer before somebody asks.
                    port.since += max(0.0, 1.0 - server.unread) / server.rate
                self._plan_port(port)

    def settle(self) -> None:
        """Counts the time without the time since the last call."""
        span, self.settled = self.world.now - self.settled, self.world.now
        base = self._base()
        for port in self.ports.values():
            if port.state != "time" and base is not None:
                spent = max(0.0, min(span, self.world.now - max(base, port.since)))
                port.spent += spent
                self.without += spent

    def begin_burst(self) -> None:
        for port in self.ports.values():
            port.spent = 0.0

    def _base(self) -> float | None:
        """From when on the time is to be had; None where it isn't."""
        since = self.judge.can_have()
        return None if since is None else max(since, self.judge.started_at)

    def plan(self) -> None:
        for port in self.ports.values():
            self._plan_port(port)

    def _plan_port(self, port: Port) -> None:
        """Plans when a port that is without the time has to have it."""
        port.plan += 1
        limit = self._limit(port)
        if limit is not None:
            self.world.at(max(limit - self.world.now, 0.0) + 0.001, self._check, port, port.plan)

    def _limit(self, port: Port) -> float | None:
        if port.state == "wrong":
            judge = self.judge
            ends = judge.woke_at + AWAKE
            if judge.jumped_at == judge.woke_at and judge.is_shown:
                ends = max(judge.woke_at, self.world.late, judge.stands) + PAUSED
            elif judge.jumped_at == judge.woke_at:
                if judge.heard_at < judge.jumped_at or self.world.now - judge.fed_at > GAP:
                    return None  # nothing comes that could say so
                ends = judge.heard_at + JUMPED
            return max(ends, self.world.late + AWAKE, judge.stands + AWAKE)
        base = self._base()
        if port.state == "time" or base is None or self.judge.machine.kills is None:
            return None
        burst = self.judge.burst()
        if not burst:
            return max(base, port.since) + AT_ONCE
        if len(burst) == 1:
            begins = max(base, port.since, self.world.late)
            before = port.spent - max(0.0, self.world.now - max(base, port.since))
            return begins + max(0.0, ONE - before)
        last = max(min(one.ends, one.at + 90.0) if one.ends < FAR else one.at for one in burst)
        return max(base, last) + MORE

    def _check(self, port: Port, plan: int) -> None:
        if plan != port.plan:
            return
        self.settle()
        limit = self._limit(port)
        if limit is None:
            return
        if self.world.now < limit:
            self._plan_port(port)
            return
        burst = self.judge.burst()
        kinds = ", ".join(f"{one.kind} {self.world.now - one.at:.1f} s ago" for one in burst)
        rule = {"wrong": "clients are told a wrong time", "none": "clients aren't answered",
                "init": "clients aren't told the time"}[port.state]
        self.judge.found(rule, f"port {port.number}, since {port.since:.3f}; "
                         f"{kinds or 'no fault in the last minute'}")
        port.plan += 1
        self.world.at(5.0, self._check, port, port.plan)
