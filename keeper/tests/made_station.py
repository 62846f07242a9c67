"""A made-up station with three radios, two servers and a day of its past, for pictures and for a
browser. Nothing of it was measured."""

import random
from collections.abc import Callable

from keeper.reporter.state import (Alarm, LeapFileState, LinkState, Quarter, RadioState,
                                   RunState, ServerState, State)

NOW = 1767269100.0  # 2026-01-01 12:05:00 UTC


def quarters(now: float, draw: random.Random, good: Callable[[float], float]) -> list[Quarter]:
    """The reception of a day; `good` gives the chance of a good minute, by the hours before now."""
    found = []
    for place in range(96):
        at = now // 900 * 900 - (95 - place) * 900
        closed = 15 if place < 95 else int((now - at) // 60)
        refused = sum(draw.random() > good((95 - place) / 4) for _ in range(closed))
        lone = min(draw.randint(0, refused), closed - refused)
        by_rule = {"2": refused - refused // 3, "1": refused // 3}
        counts = {rule: count for rule, count in by_rule.items() if count}
        found.append(Quarter(at, closed - refused - lone, lone, 0, counts))
    return found


def radio(now: float, number: int, plan: str, name: str, spread: float, offset: float,
          good: Callable[[float], float]) -> RadioState:
    reception = quarters(now, random.Random(number), good)
    hour = reception[-4:]
    return RadioState(
        number=number, plan=plan, name=name, source="running", restarts=number // 2,
        pulses=84000 - 900 * number, bad_lines=number, pulse_at=now - 0.4, rate=0.98, width=0.1,
        recent={"verdict": 9, "refused 2": 1}, verdicts_hour=sum(one.verdict for one in hour),
        minutes_hour=sum(one.minutes() for one in hour), minute=now // 60 * 60,
        minute_at=now - now % 60, offset=offset, spread=spread, reception=reception)


def made_station(now: float) -> State:
    """All of it, as it would stand now (Unix s)."""
    radios = [
        radio(now, 0, "dcf", "roof", 0.0021, 0.0006, lambda hours: 0.995 if hours > 3 else 0.93),
        radio(now, 1, "msf", "attic", 0.0044, -0.0031,
              lambda hours: 0.97 if 6 < hours < 18 else 0.86),
        radio(now, 2, "wwvb", "", 0.0078, 0.0048, lambda hours: 0.93 if 8 < hours < 17 else 0.35),
    ]
    servers = [
        ServerState(3, "192.0.2.17", 123, 56, {}, now - 41, 0.00042, 0.0123, 1),
        ServerState(4, "198.51.100.4", 123, 55, {"6": 1}, now - 17, -0.0011, 0.0241, 2),
    ]
    link = LinkState(123, now - 1, now - 1, 0, 1, "DCF", 0.0, 0.00541, now - now % 60,
                     now + 32_900, 991_234, 3.4, 0.0007)
    leap = LeapFileState(5, "/usr/share/zoneinfo/leap-seconds.list", 27, 1483228800.0,
                         now + 150 * 86400)
    alarms = [
        Alarm("radio-unheard", now - 24_000, "radio 2 (wwvb) has had no verdict for 3600 s"),
        Alarm("radio-heard", now - 22_800, "radio 2 (wwvb) is received again")]
    return State(
        written=now, keeper_since=now - 279_000, keeper_pid=1,
        station="/etc/radio_ntpd/station.toml", bound=0.5,
        run=RunState(78, now - 1203, "cycle", 4242, "status 0", "20260101T114500Z.journal"),
        links=[link], radios=radios, servers=servers, leap_file=leap, alarms=alarms)


def a_good_station(now: float = NOW) -> State:
    """A station of which all is well."""
    day = [Quarter((now // 900 - 95 + place) * 900, 14, 0, 0, {"2": 1}) for place in range(96)]
    roof = RadioState(
        0, "dcf", "roof", "running", pulses=9, pulse_at=now - 1, rate=0.98, width=0.1,
        recent={"verdict": 9, "refused 2": 1}, verdicts_hour=58, minutes_hour=60, minute=now,
        minute_at=now, offset=0.0013, spread=0.0021, reception=day)
    return State(
        written=now, keeper_since=now - 90000, keeper_pid=1,
        station="/etc/radio_ntpd/station.toml", bound=0.5,
        run=RunState(number=7, since=now - 600, cause="cycle", last_status="status 0"),
        links=[LinkState(123, now - 1, now - 1, 0, 1, "DCF", 0.0, 0.0054, now - 40, now + 32900,
                         991, 3.4, 0.0007)],
        radios=[roof],
        servers=[ServerState(1, "192.0.2.17", 123, 56, {"6": 2}, now - 60, 0.0004, 0.012, 1)],
        leap_file=LeapFileState(2, "/l", 27, 1483228800.0, now + 100 * 86400))
