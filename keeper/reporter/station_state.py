"""The state of a station, put together from what the supervisor says, what `decode` says, and what
journals have."""

import os
import time
from collections.abc import Mapping
from typing import Any

from keeper.reporter.journal import expiry, read_journal
from keeper.reporter.reception import Reception
from keeper.reporter.state import (DRIFT, LeapFileState, LinkState, RadioState, RunState,
                                   ServerState, State, built)

Facts = Mapping[str, Any]  # service.json, as the supervisor writes it
LATE = 600.0  # events that are older than their facts by this raise no alarm (s)


class Station:
    """`state` is what is shown: at first that of a reporter before this one. `take` takes facts,
    `heard` pulses."""

    def __init__(self, before: State | None) -> None:
        self.state = before or State()
        self.state.leap_file = None  # the file may be another one by now
        self.radios: list[Reception] = []
        self.sources: list[tuple[str, int, str, str]] = []  # what `radios` are of
        self.journal = ""  # the last that was read
        self.events = 0  # the last that was seen
        self.news: list[Facts] = []  # events that are to be alarms

    def take(self, facts: Facts) -> None:
        """What the supervisor knows."""
        state = self.state
        for name in ("station", "bound", "cycle", "notes"):
            setattr(state, name, facts[name])
        state.keeper_since, state.keeper_pid = facts["since"], facts["pid"]
        state.run = built(RunState, facts["run"], "run")
        state.links = [_link(one, state.bound) for one in facts["links"]]
        self._take_radios(facts)
        self._take_servers(facts)
        new = [one for one in facts["events"] if one["number"] > self.events]
        self.events = max([self.events, *(one["number"] for one in new)])
        self.news += [one for one in new if facts["at"] - one["at"] < LATE]

    def _take_radios(self, facts: Facts) -> None:
        """What was known of a radio is kept where its number and plan are."""
        state, said = self.state, facts["radios"]
        now = [(facts["program"], one["number"], one["plan"], one["origin"]) for one in said]
        if now != self.sources:
            old = {(one.number, one.plan): one for one in state.radios}
            known = [old.get((one["number"], one["plan"]), RadioState()) for one in said]
            state.radios = [RadioState(since=facts["at"], plan=one["plan"], minute=was.minute,
                                       minute_at=was.minute_at, pulse_at=was.pulse_at,
                                       reception=was.reception)
                            for one, was in zip(said, known)]
            counted = min(state.written, facts["at"])  # the clock may have been ahead then
            self.radios = [Reception(one, counted, facts["program"]) for one in state.radios]
            self.sources = now
        for radio, one in zip(state.radios, said):
            last = one["pulse_at"] or radio.pulse_at  # of the keeper before where this has none
            since = one["silent_since"]
            vars(radio).update(one, pulse_at=last, silent_since=min(since, last or since))

    def _take_servers(self, facts: Facts) -> None:
        """The servers and the leap second file, which a start or a reload alone changes."""
        state = self.state
        servers = [(str(address), int(port)) for address, port in facts["servers"]]
        if servers != [(one.address, one.port) for one in state.servers]:
            old = {(one.address, one.port): one for one in state.servers}
            # Two of one address are two.
            state.servers = [old.pop(one, ServerState(0, *one)) for one in servers]
        for number, server in enumerate(state.servers, len(state.radios)):
            server.number = number
        path, number = facts["leap_file"], len(state.radios) + len(servers)
        if path != (state.leap_file and state.leap_file.path):
            state.leap_file = path and LeapFileState(number, path, expires=expiry(path))

    def read_journal(self, facts: Facts) -> None:
        """Reads the last run's journal once. Raises OSError."""
        name, state = os.path.basename(facts["run"]["last_journal"]), self.state
        if name in ("", self.journal):
            return
        self.journal = name
        if state.leap_file:
            state.leap_file.expires = expiry(state.leap_file.path)
        if state.servers or state.leap_file:
            path = os.path.join(facts["folder"], "journals", name)
            read_journal(path, state, time.time() - time.monotonic())

    def heard(self, number: int, pulses: list[list[int]]) -> None:
        """Pulses of a radio: starts, widths, and starts as they are handed on (us)."""
        for start, width, given in pulses if 0 <= number < len(self.radios) else ():
            self.radios[number].pulse(start, width, given)

    def renew(self, now: float) -> None:
        """Puts in what only time changes. What lies ahead was noted while the host's clock was
        wrong."""
        for radio in self.radios:
            radio.renew(now)
        for alarm in self.state.alarms:
            alarm.at = min(alarm.at, now)
        for server in self.state.servers:
            server.sample_at = min(server.sample_at, now)
        self.state.written = now

    def move(self, step: float) -> None:
        """The host's clock was set forward by this number of seconds: what was noted by it moves
        with it, so that ages stay right. The picture of the day stays."""
        for alarm in self.state.alarms:
            alarm.at += step
        for radio in self.radios:
            radio.move(step)
        for server in self.state.servers:
            server.sample_at += step if server.sample_at else 0.0


def _link(said: Facts, bound: float) -> LinkState:
    link: LinkState = built(LinkState, said, "link")
    if link.has_time(link.answered_at):
        link.until = said["came"] + max(0.0, bound - link.root_dispersion) / DRIFT
    return link
