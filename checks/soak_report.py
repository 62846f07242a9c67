"""What a soak came to: each span without an answer or without the time is put down to what happened then, and held against its bound.

All moments are seconds of the monotonic clock, all spans seconds.
"""

from dataclasses import dataclass, field, replace

from checks.kept_bounds import CHANGE, KILLED, NOTHING, bound

EARLY = 0.1  # a span that an event has made may begin so long before it: the request before it may be lost too
# How long after a kill that begins no run a span may be its doing, and how long after a run's beginning.
AFTER_KILL, AFTER_BEGIN = 6.0, 2.0
NEAR = 2.0  # what stalled an echo so shortly before a span, in it or after it may have made it longer


@dataclass(frozen=True)
class Kind:
    """What may happen to a station, and for how long it may leave a client without an answer, and without the time."""

    name: str
    silent: float
    untimed: float


CHANGED = Kind("change of run", *CHANGE)
SERVER, RECEIVER, REPORTER = Kind("kill of the server", *KILLED), Kind("kill of a receiver", *NOTHING), Kind("kill of the reporter", *NOTHING)
KILLS = (SERVER, RECEIVER, REPORTER)
# Why a run begins, and by which kill alone that is as it should be.
CAUSES = {"died": SERVER}


@dataclass(frozen=True)
class Event:
    """One of them. It begins at a moment, and lasts until the next run has begun, where there is one: the old one is used up first, which takes a
    second, and longer on a busy machine."""

    kind: Kind
    at: float
    run: float | None = None  # when the run began that it led to

    def has(self, at: float) -> bool:
        """Whether a span that begins at this moment may be its doing."""
        until = self.at + AFTER_KILL if self.run is None else self.run + AFTER_BEGIN
        return self.at - EARLY <= at <= until


@dataclass
class Cost:
    """What all events of a kind cost a client, or what none of them explains: the spans' number of requests, and the longest span."""

    events: int = 0
    unanswered: int = 0
    untimed: int = 0  # requests without an answer too
    silence: float = 0.0
    untime: float = 0.0


@dataclass
class Report:
    """`costs` by the kinds' names, `other` what no event explains, `faults` what is wrong, as sentences."""

    met: dict
    costs: dict[str, Cost] = field(default_factory=dict)
    other: Cost = field(default_factory=Cost)
    faults: list[str] = field(default_factory=list)


def events_of(runs: dict[int, tuple[str, float]], kills: list[Event], cycle: float) -> tuple[list[Event], list[str]]:
    """All events: the kills, and the runs that began because one was over. `runs` has the cause and the moment of each run's beginning, by its
    number; a run lasts `cycle` seconds. The second are sentences on runs that began without a reason."""
    events, faults = list(kills), []
    for number, (cause, at) in sorted(runs.items()):
        before = runs.get(number - 1, ("", 0.0))[1]
        if not before and number > min(runs):
            faults.append(f"run {number - 1} lasted less than a second")
        if cause == "cycle":
            events.append(Event(CHANGED, min(at, before + cycle) if before else at, at))
        elif cause != "start":
            found = [place for place, one in enumerate(events) if one.kind is CAUSES.get(cause) and before <= one.at <= at]
            if found:
                events[found[-1]] = replace(events[found[-1]], run=at)
            else:
                faults.append(f"run {number} began ({cause}), and nothing had been killed")
    return events, faults


def stalled_near(met: dict, at: float, seconds: float) -> float:
    """By how much the machine stalled an echo about this span at worst."""
    return max((stall for second, stall in met["stalls"] if at - NEAR - 1 <= second <= at + seconds + NEAR), default=0.0)


def judge(met: dict, runs: dict[int, tuple[str, float]], kills: list[Event], began: float, cycle: float) -> Report:
    """What a client met in a soak that began at this moment, of runs that last `cycle` seconds. `met` is what kept_client.py prints."""
    events, faults = events_of(runs, kills, cycle)
    report = Report(met, {kind.name: Cost(sum(one.kind is kind for one in events)) for kind in (CHANGED, *KILLS)}, faults=faults)
    if met["wrong"]:
        report.faults.append(f"{met['wrong']} answers had a wrong time")
    for what, spans in (("answer", met["silences"]), ("time", met["untimes"])):
        for at, seconds, missed in spans:
            _take(report, what, _event(events, at), at - began, (at, seconds, missed))
    return report


def _event(events: list[Event], at: float) -> Event | None:
    """What a span that begins at this moment is put down to: a kill before a change of run, and of those the last one."""
    found = [one for one in events if one.has(at)]
    return max(found, key=lambda one: (one.kind is not CHANGED, one.at)) if found else None


def _take(report: Report, what: str, event: Event | None, after: float, span: tuple[float, float, int]) -> None:
    """Counts a span, and says where it is too long. It began `after` seconds of the soak."""
    at, seconds, missed = span
    cost = report.costs[event.kind.name] if event else report.other
    if what == "answer":
        cost.unanswered, cost.silence = cost.unanswered + missed, max(cost.silence, seconds)
    else:
        cost.untimed, cost.untime = cost.untimed + missed, max(cost.untime, seconds)
    where = f"after {after / 3600:.2f} h {seconds * 1000:.0f} ms without {'an answer' if what == 'answer' else 'the time'}"
    if event is None:
        report.faults.append(f"{where}, and nothing had happened")
        return
    usual = event.kind.silent if what == "answer" else event.kind.untimed
    # What costs nothing costs nothing on a busy machine either.
    most = bound(usual, stalled_near(report.met, at, seconds)) if usual else 0.0
    if seconds > most:
        report.faults.append(f"{where} at a {event.kind.name}, where {most * 1000:.0f} are the most")


def lines(report: Report) -> list[str]:
    """The report: what was asked, what each kind of event cost, and what nothing explains."""
    met = report.met
    said = [f"{met['asked']} asked: {met['asked'] - met['answered']} without an answer, {met['answered'] - met['timed']} answered without the time, "
            f"{met['wrong']} wrong; {met['error'] * 1e3:.2f} ms off at most"]
    for kind in (CHANGED, *KILLS):
        cost = report.costs[kind.name]
        said.append(f"  {kind.name} ({cost.events}): {_words(cost)}; {kind.silent * 1000:.0f} and {kind.untimed * 1000:.0f} ms are allowed on a quiet machine")
    return said + [f"  at other times: {_words(report.other)}; none is allowed"]


def _words(cost: Cost) -> str:
    return f"{cost.unanswered} without an answer, {cost.untimed - cost.unanswered} more without the time, for {cost.silence * 1000:.0f} and {cost.untime * 1000:.0f} ms at most"


def verdict(report: Report, hours: float) -> str:
    """The last line."""
    if report.faults:
        return f"soak failed after {hours:.2f} hours: {'; '.join(report.faults)}"
    return f"soak passed: {hours:.2f} hours, no wrong time, no answer and no time missing but at a change of run or a kill, and there within its bound"
