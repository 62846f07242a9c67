"""Alarms: a command of the operator's at each change of state. One runs at a time, for a bounded
time, and holds nothing up."""

import collections
import logging

from keeper import config
from keeper.errors import ended
from keeper.reporter.health import silence
from keeper.reporter.state import SILENT, Alarm, RadioState, State
from keeper.supervisor.host import Child, Host

KEPT = 20  # alarms that the state keeps, and that wait; of more the oldest is dropped
GRACE = 2.0  # between SIGTERM and SIGKILL (s)
TOO_LONG = 124, -9  # how `timeout` ends once it has sent the one or the other
NEVER = 900.0  # a radio alone needs ten minutes at most until clients get the time (s)
DEAD = 600.0  # a radio without a pulse for so long is unheard, whatever `alarms.unheard` is (s)
HELD_OFF = 3600.0  # between two alarms of runs that died: a flood would send thousands (s)
EVENTS = {
    "time-gained": "clients get the time",
    "time-lost": "no link has had the time for 15 s, or none 15 minutes after the start",
    "radio-unheard": "a radio has had no verdict for `alarms.unheard`, or no pulse for ten minutes",
    "radio-heard": "it has a verdict again",
    "run-died": "a run died or fell silent; at most once an hour",
    "file-refused": "a reload was refused",
}
LOST = {"slept": ", since the host slept", "paused": ", since the host was paused"}
BAD_CAUSES = {"died": "ended by itself", "silent": "didn't answer any more"}

log = logging.getLogger(__name__)


class Alarms:
    """`settings` are those of the keeper's file, and `state_file` the name that commands get.
    `time_at` is when clients got the time last, `died` how many runs died since that alarm."""

    def __init__(self, host: Host, state_file: str = "") -> None:
        self.settings, self.state_file = config.Alarms(), state_file
        self.commands = Commands(host)
        self.has_time: bool | None = None
        self.silent: dict[int | None, float] = {}  # since when that was raised, by radios' numbers
        self.run = self.died = 0
        self.time_at, self.died_at = 0.0, -HELD_OFF

    def recall(self, alarms: list[Alarm], since: float, run: int) -> None:
        """What a reporter before this one has raised isn't raised again: these alarms, of which the
        keeper's begin at `since` (Unix s), and what it saw of the run of this number."""
        self.run = run
        for one in alarms:
            if one.at >= since:
                self._note(one)

    def _note(self, raised: Alarm) -> None:
        """What is known once an alarm was raised."""
        if raised.event in ("time-gained", "time-lost"):
            self.has_time, self.time_at = raised.event == "time-gained", raised.at
        elif raised.event == "run-died":
            self.died, self.died_at = 0, raised.at
        elif raised.event == "radio-unheard":
            self.silent[raised.radio] = raised.at
        elif raised.event == "radio-heard":
            self.silent.pop(raised.radio, None)

    def judge(self, state: State, now: float) -> None:
        """Raises what changed since the last call (`now` in Unix s)."""
        self._judge_time(state, now)
        for radio in state.radios:
            self._judge_radio(state, radio, now)
        run = state.run
        if run.number != self.run:
            self.run = run.number
            self.died += run.cause in BAD_CAUSES
        if self.died and now - self.died_at >= HELD_OFF:
            who = "the run before" if self.died == 1 else (
                f"{self.died} runs died or fell silent since the last alarm; the last")
            said = f" ({run.last_status})" if run.last_status else ""
            text = f"{who} {BAD_CAUSES.get(run.cause, 'ended')}{said}; run {run.number} follows"
            self.raise_alarm(state, "run-died", text, now)

    def _judge_time(self, state: State, now: float) -> None:
        if link := state.time_link(now):
            if not self.has_time:
                said = f"clients get the time, from {link.reference_id}"
                self.raise_alarm(state, "time-gained", said, now)
            self.time_at = now
        elif self.has_time and now - self.time_at >= SILENT:
            silent = all(now - one.answered_at >= SILENT for one in state.links)
            said = "no link answers" if silent else "clients get no time"
            self.raise_alarm(state, "time-lost", said + LOST.get(state.run.cause, ""), now)
        # A station that never had it since the keeper began is given its first minutes.
        elif self.has_time is None and state.links and now - state.keeper_since >= NEVER:
            age = now - state.keeper_since
            said = f"clients have had no time since the keeper began, {age:.0f} s ago"
            self.raise_alarm(state, "time-lost", said, now)

    def _judge_radio(self, state: State, radio: RadioState, now: float) -> None:
        name = f"radio {radio.number} ({radio.name or radio.plan})"
        begun = max(state.keeper_since, radio.since)
        silent, raised = now - max(radio.minute_at, begun), self.silent.get(radio.number)
        is_dead = radio.silent_since and now - radio.silent_since >= DEAD
        if silent >= self.settings.unheard or is_dead:
            if raised is None:
                why = silence(radio, now) or radio.fault
                said = f"{name} has had no verdict for {silent:.0f} s{f': {why}' if why else ''}"
                self.raise_alarm(state, "radio-unheard", said, now, radio.number)
        elif raised is not None and radio.minute_at > max(begun, raised):
            self.raise_alarm(state, "radio-heard", f"{name} is received again", now, radio.number)

    def move(self, step: float) -> None:
        """The host's clock was set forward by this number of seconds."""
        self.time_at += step
        self.died_at += step
        self.silent = {number: at + step for number, at in self.silent.items()}

    def raise_alarm(self, state: State, event: str, text: str, now: float,
                    radio: int | None = None) -> None:
        """Puts an alarm into the state, says it on standard error, and has the command run."""
        alarm = Alarm(event, now, text, radio)
        self._note(alarm)
        state.alarms.append(alarm)
        del state.alarms[:-KEPT]
        log.warning("alarm %s: %s", event, text)
        if self.settings.command:
            command = self.settings.command, self.settings.limit, self.environment(state, alarm)
            self.commands.waiting.append(command)

    def environment(self, state: State, alarm: Alarm) -> dict[str, str]:
        """What a command learns of an alarm."""
        found: dict[str, object] = {
            "EVENT": alarm.event, "TEXT": alarm.text, "AT": f"{alarm.at:.0f}",
            "NUMBER": "" if alarm.radio is None else alarm.radio, "RUN": state.run.number,
            "STATION": state.station, "STATE": self.state_file,
            "LEAP": "", "STRATUM": "", "REFERENCE": "", "ROOT_DISPERSION": ""}
        for link in state.links[:1]:
            found |= {"LEAP": link.leap, "STRATUM": link.stratum, "REFERENCE": link.reference_id,
                      "ROOT_DISPERSION": f"{link.root_dispersion:.6f}"}
        return {f"RADIO_{name}": str(value).replace("\0", "\\0")
                for name, value in found.items()}


class Commands:
    """Runs what waits, one after the other: a command, how long it may take (s), and what it gets
    in its environment."""

    def __init__(self, host: Host) -> None:
        self.host = host
        self.waiting: collections.deque[tuple[str, float, dict[str, str]]]
        self.waiting = collections.deque(maxlen=KEPT)
        self.child: Child | None = None

    def turn(self) -> None:
        """Starts the next one where none runs. Call it once a second or more often."""
        if self.child:
            status = self.host.status(self.child)
            if status is None:
                return
            if status in TOO_LONG:
                log.warning("the alarm's command was killed: it took too long")
            elif status:
                log.warning("the alarm's command %s", ended(status))
            self.close()
        if self.waiting:
            command, limit, environment = self.waiting.popleft()
            words = ["timeout", "-k", str(GRACE), str(limit), "/bin/sh", "-c", command]
            try:
                self.child = self.host.spawn(words, standard=(-1, 2, 2), environment=environment)
            except OSError as error:
                log.warning("the alarm's command can't be started: %s", error.strerror)

    def close(self) -> None:
        """Ends a command that still runs, and all that it started."""
        if self.child:
            self.host.release(self.child)
            self.child = None
