"""Makes a failing history shorter by leaving events out, as long as the same rule is broken."""

from collections.abc import Callable
from dataclasses import replace

from checks.simulation.history import Event, History

Fails = Callable[[History], bool]


def shorten(history: History, fails: Fails) -> History:
    """A history of which no event can be left out: halves at first, then ever smaller pieces."""
    events, size = history.events, max(1, len(history.events) // 2)
    while events:
        tried = _without(history, events, size, fails)
        if len(tried) == len(events) and size == 1:
            break
        size = max(1, size // 2) if len(tried) == len(events) else min(size, max(1, len(tried)))
        events = tried
    return _sooner(replace(history, events=events), fails)


def _without(history: History, events: list[Event], size: int, fails: Fails) -> list[Event]:
    """Leaves out each piece of this size that isn't needed."""
    place = 0
    while place < len(events):
        fewer = events[:place] + events[place + size:]
        if fails(replace(history, events=fewer)):
            events = fewer
        else:
            place += size
    return events


def _sooner(history: History, fails: Fails) -> History:
    """Ends it soon after its last event."""
    ends = max((event.at for event in history.events), default=0.0) + 130.0
    sooner = replace(history, ends=ends)
    return sooner if ends < history.ends and fails(sooner) else history
