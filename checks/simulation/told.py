"""Whether the supervisor's file in the runtime folder names each radio whose line is dead, and
since when."""

import json
from typing import TYPE_CHECKING, Any

from checks.simulation.world import UNIX

if TYPE_CHECKING:
    from checks.simulation.judge import Judge

FILE = "/run/radio/service.json"
LOOKED = 5.0  # how often it is looked at (s)
RENEWED = 15.0  # the file is written so often, and after a fault (s)
NEAR = 3.0  # a moment is right within this (s)
ROW = 30  # pulses in a row: then it is certain that the last one was taken
RECEIVED = 8.0  # pulses of five seconds come at once at most (s)
PAUSED = 65  # after so many it is certain that none of a source's pauses goes on


class Told:
    """Looks from time to time, where nothing of the machine was in trouble for a while."""

    def __init__(self, judge: "Judge") -> None:
        self.judge, self.world = judge, judge.world
        self.world.at(LOOKED, self._look)

    def _look(self) -> None:
        self.world.at(LOOKED, self._look)
        judge, now = self.judge, self.world.now
        since = max(judge.lasts, judge.started_at, judge.trouble_at, self.world.late)
        file = judge.machine.disk.find(FILE)
        if now - since > RENEWED and judge.has_supervisor() and not judge.is_over and file:
            facts = json.loads(bytes(file.data))
            for radio in judge.machine.transmitter.radios:
                self._look_at(radio.number, facts["radios"][radio.number], facts["at"])

    def _look_at(self, number: int, said: dict[str, Any], written: float) -> None:
        judge, last = self.judge, self.judge.last.get(number)
        began = judge.started_at
        at = last.at if last and last.source == judge.machine.transmitter.radios[number].source \
            else -1e9
        # Moments of the file in seconds of `now`. The machine hasn't slept since these pulses.
        ahead = UNIX + self.world.lost + self.world.set_by
        dead, pulse = said["silent_since"] and said["silent_since"] - ahead, said["pulse_at"] - ahead
        stall = float(judge.machine.kind.stall)
        is_taken = at > began and judge.credit.get(number, 0) >= ROW
        if is_taken and pulse > at + NEAR:
            judge.found("a pulse is told that didn't come", f"radio {number}: {pulse:.0f}")
        if is_taken and self.world.now - at > stall + RENEWED:
            if not dead or abs(dead - at) > NEAR:
                judge.found("a dead line isn't named since its last pulse",
                            f"radio {number}, since {at:.0f}: {dead:.0f}")
        elif dead and is_taken and self.world.now - at < RECEIVED \
                and written - ahead > at - judge.credit[number] + PAUSED:
            judge.found("a radio that is received is called silent", f"radio {number}")
