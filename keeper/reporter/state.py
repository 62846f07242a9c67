"""What the keeper knows of its station, as the one file that `status`, the page, the metrics and
the alarms read.

Moments are seconds of the Unix epoch (UTC, by the host's clock) and 0.0 where nothing has come yet;
spans are seconds. So a reader takes an age by itself, and the age is right however old the file is.
`load` and `save` are JSON; a field that this version doesn't know is passed over, one that is
missing has its default, and a file of another version is refused. What a field says is its
`about`, which docs/KEEPER.md has too.
"""

import collections
import dataclasses
import json
import types
import typing
from dataclasses import dataclass
from typing import Any

from keeper.config import opened
from keeper.errors import Fault
from keeper.supervisor import disk
from keeper.supervisor.host import Host

VERSION = 1  # of the file's form
LATEST = 2**35  # moments, spans and rates lie between this and its negative: the year 3058
MOST = 2**53  # counts lie below this
QUARTER = 900  # a quarter of an hour (s)
QUARTERS = 96  # as many as are kept: 24 hours
DRIFT = 15e-6  # how fast the root dispersion grows while no source is received (s a second)
SILENT = 15.0  # a link that hasn't answered for so long is silent (s)


def has(default: Any, about: str, metric: str = "", given: str = "") -> Any:
    """A field, its default (or what makes it), what it says, and the metric that has it. Where the
    field of the name `given` is 0 there is no metric."""
    metadata = {"about": about, "metric": metric, "given": given}
    if callable(default):
        return dataclasses.field(default_factory=default, metadata=metadata)
    return dataclasses.field(default=default, metadata=metadata)


@dataclass
class RunState:
    """The run of the program that serves now."""

    number: int = has(0, "runs since the keeper began", "runs_total")
    since: float = has(0.0, "when it was started", "run_start_time_seconds")
    cause: str = has("", "why it serves")
    pid: int = has(0, "its process, or 0")
    last_status: str = has("", "the last journal's status")
    last_journal: str = has("", "its name")


@dataclass
class LinkState:
    """A link on which clients are answered, as the keeper sees it by asking."""

    port: int = has(0, "its UDP port")
    asked_at: float = has(0.0, "last question")
    answered_at: float = has(0.0, "last answer", "link_last_answer_timestamp_seconds")
    leap: int = has(3, "3 says not synchronised", "link_leap_indicator")
    stratum: int = has(0, "0 without time", "link_stratum")
    reference_id: str = has("INIT", "letters or an address")
    root_delay: float = has(0.0, "of its last answer", "link_root_delay_seconds")
    root_dispersion: float = has(16.0, "of its last answer", "link_root_dispersion_seconds")
    reference_time: float = has(0.0, "its source's last", "link_reference_timestamp_seconds")
    until: float = has(0.0, "when its time ends", "link_time_end_timestamp_seconds")
    requests: int = has(0, "clients' in ended runs", "link_requests_total")
    requests_per_second: float = has(0.0, "in the last run")
    offset: float = has(0.0, "its time less the host's clock", "link_offset_seconds", "until")

    def has_time(self, now: float) -> bool:
        """Whether clients that ask now (Unix s) get the time."""
        return self.leap != 3 and self.stratum > 0 and now - self.answered_at <= SILENT


@dataclass
class Quarter:
    """What a quarter of an hour of a radio came to."""

    at: float = has(0.0, "its beginning")
    verdict: int = has(0, "minutes believed")
    lone: int = has(0, "valid alone")
    differs: int = has(0, "unlike the one before")
    refused: dict[str, int] = has(dict, "refused ones by rule")

    def minutes(self) -> int:
        """All minutes that were closed."""
        return self.verdict + self.lone + self.differs + sum(self.refused.values())


@dataclass
class RadioState:
    """A radio: its source, which the keeper starts, and what `decode` says of it as it comes."""

    number: int = has(0, "its feed's number")
    plan: str = has("", "`dcf`, `msf` or `wwvb`")
    name: str = has("", "its name")
    source: str = has("starting", "`starting`, `running`, `stalled` or `waiting`")
    restarts: int = has(0, "starts of its source again", "radio_source_restarts_total")
    pulses: int = has(0, "pulses taken", "radio_pulses_total")
    bad_lines: int = has(0, "lines left out", "radio_bad_lines_total")
    last_bad: str = has("", "the last of them")
    pulse_at: float = has(0.0, "the last pulse", "radio_last_pulse_timestamp_seconds")
    silent_since: float = has(0.0, "of a silent one, else 0",
                              "radio_silent_since_timestamp_seconds")
    stall: float = has(60.0, "the file's")
    rate: float = has(0.0, "pulses a second, last minute", "radio_pulse_rate")
    width: float = has(0.0, "their median", "radio_pulse_width_seconds", "width")
    fault: str = has("", "what is wrong with them")
    recent: dict[str, int] = has(dict, "minutes of the last ten by kind and rule",
                                 "radio_recent_frames")
    verdicts_hour: int = has(0, "of the last hour", "radio_hour_verdicts")
    minutes_hour: int = has(0, "of the last hour", "radio_hour_frames")
    minute: float = has(0.0, "the last verdict's second")
    minute_at: float = has(0.0, "the last verdict", "radio_last_verdict_timestamp_seconds")
    offset: float = has(0.0, "that verdict less the host's clock", "radio_offset_seconds",
                        "minute_at")
    spread: float = has(0.0, "of marks' starts, standard deviation", "radio_mark_spread_seconds",
                        "spread")
    spread_given: float = has(0.0, "the same, steadied", "radio_steadied_mark_spread_seconds",
                              "steady")
    steady: bool = has(False, "whether steadied")
    since: float = has(0.0, "when its reading began")
    delay: float = has(0.0, "the station's")
    origin: str = has("", "a digest of its source")
    reception: list[Quarter] = has(list, "24 hours by quarters")

    def refused(self) -> dict[str, int]:
        """Refused minutes of 24 hours by the rule's number, the most frequent first."""
        counts = collections.Counter[str]()
        for one in self.reception:
            counts.update(one.refused)
        return dict(sorted(counts.items(), key=lambda one: (-one[1], one[0])))


@dataclass
class ServerState:
    """A server that is asked, as the last journal says."""

    number: int = has(0, "its feed's number")
    address: str = has("", "where it is asked")
    port: int = has(0, "its UDP port")
    samples: int = has(0, "in the last journal", "server_journal_samples")
    declined: dict[str, int] = has(dict, "refused there, by number")
    sample_at: float = has(0.0, "the last sample", "server_last_sample_timestamp_seconds")
    offset: float = has(0.0, "its time less the host's clock", "server_offset_seconds", "sample_at")
    delay: float = has(0.0, "there and back", "server_delay_seconds", "sample_at")
    stratum: int = has(0, "of that sample")


@dataclass
class LeapFileState:
    """The leap second file, as the last journal and the file itself say."""

    number: int = has(0, "its feed's number")
    path: str = has("", "its name")
    notices: int = has(0, "its rows in the last journal")
    last: float = has(0.0, "the last leap second's end")
    expires: float = has(0.0, "when it expires", "leap_file_expiry_timestamp_seconds")


@dataclass
class Alarm:
    """An alarm that was raised."""

    event: str = has("", "[its word](#alarms)")
    at: float = has(0.0, "when")
    text: str = has("", "one sentence")
    radio: int | None = has(None, "its radio's number, or null")


@dataclass
class State:
    """All of it. It is renewed every ten seconds; one that is older than a minute says that no
    keeper runs."""

    version: int = has(VERSION, "of this form")
    written: float = has(0.0, "when this was written", "state_timestamp_seconds")
    keeper_since: float = has(0.0, "when the keeper began", "keeper_start_time_seconds")
    keeper_pid: int = has(0, "its process, 0 once stopped")
    station: str = has("", "the station file's name")
    bound: float = has(1.0, "the station's", "bound_seconds")
    cycle: float = has(3600.0, "of a run")
    run: RunState = has(RunState, "the run that serves")
    links: list[LinkState] = has(list, "where clients ask")
    radios: list[RadioState] = has(list, "its radios")
    servers: list[ServerState] = has(list, "its servers")
    leap_file: LeapFileState | None = has(None, "or null")
    alarms: list[Alarm] = has(list, "the last twenty")
    notes: list[str] = has(list, "sentences for now")

    def time_link(self, now: float) -> LinkState | None:
        """The first link from which clients get the time now (Unix s)."""
        return next((one for one in self.links if one.has_time(now)), None)


def built(kind: Any, value: Any, where: str) -> Any:
    """The value of this type from what JSON has; raises ValueError with the field's name."""
    if dataclasses.is_dataclass(kind):
        if not isinstance(value, dict):
            raise ValueError(f"{where} is no table")
        known = [one for one in dataclasses.fields(kind) if one.name in value]
        return typing.cast(Any, kind)(**{
            one.name: built(one.type, value[one.name], f"{where}.{one.name}") for one in known})
    form, inner = typing.get_origin(kind), typing.get_args(kind)
    if form is types.UnionType:
        return None if value is None else built(inner[0], value, where)
    if form is list and isinstance(value, list):
        return [built(inner[0], one, f"{where}.{number}") for number, one in enumerate(value)]
    if form is dict and isinstance(value, dict):
        return {name: built(inner[1], one, f"{where}.{name}") for name, one in value.items()}
    bound = {float: LATEST, int: MOST}.get(kind)
    if bound and type(value) in (int, float) and not -bound < value < bound:  # NaN is out too
        raise ValueError(f"{where} is out of range")
    if kind is float and type(value) is int:
        return float(value)
    if type(value) is not kind:
        raise ValueError(f"{where} has another type")
    return value


def read(text: str) -> State:
    """The state that a text says. Raises ValueError."""
    found = json.loads(text)
    if not isinstance(found, dict) or found.get("version") != VERSION:
        raise ValueError(f"it isn't of version {VERSION}")
    state: State = built(State, found, "state")
    return state


def load(path: str) -> State:
    """The state of a file. Raises Fault."""
    try:
        with opened(path) as file:
            return read((file.read() or b"").decode())
    except OSError as error:
        raise Fault(f"the state {path} can't be read: {error.strerror}") from error
    except (ValueError, RecursionError) as error:
        raise Fault(f"{path} is no state of a keeper: {error}") from error


def put(host: Host, path: str, text: str) -> None:
    """Writes a text for others to read: whole, or not at all. Raises OSError."""
    disk.put(host, path, text.encode(errors="backslashreplace"), sync=False)


def text_of(state: State) -> str:
    """The state as its file has it."""
    return json.dumps(state, default=vars, separators=(",", ":")) + "\n"


def save(host: Host, state: State, path: str) -> None:
    """Writes the state, renamed into place. Raises OSError."""
    put(host, path, text_of(state))
