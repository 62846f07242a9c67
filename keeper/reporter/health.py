"""How well a station is: sentences on its state, each with a level. `status`, the page and the
metrics say these, so that all say the same."""

from collections.abc import Iterator
from enum import IntEnum

from keeper.durations import clock, length, span
from keeper.errors import plain
from keeper.reporter.rules import PLANS
from keeper.reporter.state import SILENT, LinkState, RadioState, State

GONE = -1  # `keeper_pid` where the keeper is no process any more, and hasn't said that it ends
STALE = 60.0  # a state that is older was left by a keeper that has ended (s)
LATE = 20.0  # a state that is older says that its keeper is held up (s)
NEW = 600.0  # a keeper so young may still wait for its first minutes (s)
MISREAD = 600.0  # so long without a verdict is no bad reception, where its marks look wrong (s)
UNHEARD = 3600.0  # a radio without a verdict for so long is unheard (s)
OLD_SAMPLE = 7200.0  # a server without a sample for so long is reported (s)
DIED = 3600.0  # so long a run that died is reported (s)
EXPIRES = 30 * 86400.0  # so long before its end a leap second file is reported (s)
WIDE = 0.5  # the part of the bound from which on a root dispersion is reported


class Level(IntEnum):
    """The exit statuses of Nagios' plugins."""

    OK = 0
    WARNING = 1
    CRITICAL = 2
    UNKNOWN = 3


def judge(state: State, now: float) -> list[tuple[Level, str]]:
    """What isn't well, the worst first; nothing where all is well. `now` in Unix s."""
    if ended := _ended(state, now):
        return [(Level.CRITICAL, ended)]
    if not state.links and not state.run.number:
        return [(Level.CRITICAL, "no run serves yet")]
    found = [one for link in state.links if (one := _link(state, link, now))]
    found += [(Level.WARNING, one) for one in _warnings(state, now)]
    return sorted(found, key=lambda one: -one[0])


def worst(found: list[tuple[Level, str]]) -> Level:
    return max((level for level, _ in found), default=Level.OK)


def is_kept(state: State, now: float) -> bool:
    """Whether a keeper renews this state, so that what it says of links and sources holds."""
    return state.keeper_pid > 0 and abs(now - state.written) <= STALE


def _ended(state: State, now: float) -> str:
    """Why nobody keeps this station; nothing where somebody does."""
    age = now - state.written
    if age > STALE:
        return f"no keeper runs: its state is {span(age)} old"
    if age < -STALE:
        return f"no keeper runs: its state is of {span(-age)} after the host's clock"
    if state.keeper_pid == GONE:
        how = f"it ended within the last {span(age)} without a word, as one that is killed does"
        return f"no keeper runs: {how}"
    return "" if state.keeper_pid else f"the keeper was stopped {span(age)} ago"


def _link(state: State, link: LinkState, now: float) -> tuple[Level, str] | None:
    # By when the state was written: where the disk is full the port may well answer.
    seen, port = min(now, state.written), f"port {link.port}"
    if link.asked_at and seen - max(link.asked_at, link.answered_at) > SILENT:
        why = "the keeper stood still, as where its disk hangs, or no run begins"
        return Level.CRITICAL, f"{port} wasn't asked for {span(seen - link.asked_at)}: {why}"
    if seen - link.answered_at > SILENT:
        return Level.CRITICAL, f"{port} doesn't answer"
    if not link.has_time(seen):
        is_new = now - state.keeper_since < NEW
        why = "yet: a radio needs four verdicts" if is_new else f"({link.reference_id})"
        return Level.CRITICAL, f"{port} has no time {why}"
    if link.root_dispersion >= WIDE * state.bound:
        has, may = (f"{one * 1e3:.0f} ms" for one in (link.root_dispersion, state.bound))
        return Level.WARNING, f"{port}: the root dispersion is {has} of {may}"
    return None


def _warnings(state: State, now: float) -> Iterator[str]:
    age = now - state.written
    if age > LATE:
        why = "the disk is full or hangs, or there is no free processor"
        yield f"the keeper has written nothing for {span(age)}: {why}"
    yield from (said for radio in state.radios if (said := _radio(state, radio, now)))
    for server in state.servers:
        if now - max(server.sample_at, state.keeper_since) > OLD_SAMPLE:
            yield f"server {server.address} has given no sample {_since(server.sample_at, now)}"
    left = state.leap_file.expires - now if state.leap_file and state.leap_file.expires else EXPIRES
    if left < EXPIRES:
        when = "has expired" if left < 0 else f"expires in {span(left)}"
        yield f"the leap second file {when}"
    first = max(now - DIED, state.keeper_since)
    died = [one for one in state.alarms if one.event == "run-died" and first < one.at <= now]
    yield from (f"{one.text}, {span(now - one.at)} ago" for one in died[-3:])
    yield from state.notes


def _radio(state: State, radio: RadioState, now: float) -> str:
    name = title(radio)
    if radio.silent_since:
        return f"{name}: {silence(radio, now)}; its source is {radio.source}"
    if radio.source != "running":
        return f"{name}: its source is {radio.source}"
    silent = now - max(radio.minute_at, state.keeper_since, radio.since)
    if silent > UNHEARD or (silent > MISREAD and radio.fault):
        why = f": {radio.fault}" if radio.fault else ""
        return f"{name}: no verdict {_since(radio.minute_at, now)}{why}"
    return ""


def silence(radio: RadioState, now: float) -> str:
    """For how long a radio's line has been silent, and since when; nothing where it isn't."""
    if not radio.silent_since:
        return ""
    yet, since = "" if radio.pulse_at else " yet,", radio.silent_since
    return f"no pulse{yet} for {span(now - since)}, since {clock(since)} UTC"


def summary(state: State, now: float) -> str:
    """All in one line, without line breaks or bars, as Nagios wants it."""
    found, link = judge(state, now), state.time_link(min(now, state.written))
    if found:
        said = "; ".join(text for _, text in found)
    elif link:
        said = f"time from {link.reference_id}, {precision(link)}"
    else:
        said = "nothing is served"
    return plain(" ".join(said.replace("|", "/").split()))


def precision(link: LinkState) -> str:
    """How good a link's time is."""
    return f"stratum {link.stratum}, root dispersion {length(link.root_dispersion)}"


def title(radio: RadioState) -> str:
    """A radio's name for people."""
    plan = PLANS.get(radio.plan, radio.plan)
    is_named = radio.name and radio.name != radio.plan
    return f"{plan} {radio.name}" if is_named else f"{plan} (radio {radio.number})"


def _since(at: float, now: float) -> str:
    """How long nothing has come, where something came before."""
    return f"for {span(now - at)}" if at else "yet"
