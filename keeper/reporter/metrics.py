"""The state as a text file for the node exporter of Prometheus (its textfile collector): base
units, one HELP and TYPE for each name. docs/KEEPER.md has the same families."""

import dataclasses
import math
from collections.abc import Callable, Sequence
from typing import Any

from keeper.reporter.health import is_kept, judge, worst
from keeper.reporter.state import (SILENT, LeapFileState, LinkState, RadioState, RunState,
                                   ServerState, State)

PREFIX, MOMENT = "radio_ntpd_", "_timestamp_seconds"
ESCAPES = str.maketrans({"\\": "\\\\", '"': '\\"', "\n": "\\n"})
Label = tuple[str, str]  # its name and its value
# A family: its name without the prefix, what it says, and its value of a part of the state and a
# moment (Unix s; infinite where no keeper runs). None is left out, as is a moment of 0, and a dict
# has values by one more label. A name that ends with `_total` is a counter's.
Family = tuple[str, str, Callable[[Any, float], Any]]
COMPUTED: dict[type, tuple[Family, ...]] = {
    State: (
        ("status", "0 well, 1 warning, 2 critical", lambda one, now: worst(judge(one, now))),),
    LinkState: (
        ("link_up", "whether it answers", lambda one, now: now - one.answered_at <= SILENT),
        ("link_synchronized", "whether it has the time", lambda one, now: one.has_time(now))),
    RadioState: (
        ("radio_source_running", "whether its source gives pulses",
         lambda one, now: one.source == "running" and now < math.inf),
        ("radio_day_refused_frames", "refused minutes of 24 hours, by rule",
         lambda one, now: one.refused())),
}
LABELS = {"radio_recent_frames": "kind", "radio_day_refused_frames": "rule"}


def _of(field: "dataclasses.Field[Any]") -> Family:
    """The family that a field of a part is."""
    name, given = field.name, field.metadata["given"]
    return (field.metadata["metric"], field.metadata["about"],
            lambda part, now: getattr(part, name) if not given or getattr(part, given) else None)


FAMILIES = {kind: (*COMPUTED.get(kind, ()), *(_of(one) for one in dataclasses.fields(kind)
                                              if one.metadata["metric"]))
            for kind in (State, RunState, LeapFileState, LinkState, RadioState, ServerState)}


def render(state: State, now: float) -> str:
    """The file. `now` in Unix s. A family without samples isn't written."""
    seen = now if is_kept(state, now) else math.inf
    radios = [([("radio", str(one.number)), ("plan", one.plan)], one) for one in state.radios]
    servers = [([("feed", str(one.number)), ("server", f"{one.address}:{one.port}")], one)
               for one in state.servers]
    parts: dict[type, Sequence[tuple[list[Label], Any]]] = {
        State: [([], state)], RunState: [([], state.run)],
        LeapFileState: [([], state.leap_file)] if state.leap_file else [],
        LinkState: [([("port", str(one.port))], one) for one in state.links],
        RadioState: radios, ServerState: servers}
    lines = [line for kind, families in FAMILIES.items() for family in families
             for line in _block(family, parts[kind], now if kind is State else seen)]
    return "\n".join(lines) + "\n"


def _block(family: Family, parts: Sequence[tuple[list[Label], Any]], now: float) -> list[str]:
    """The lines of a family, of parts with their labels."""
    (short, about, value), samples = family, list[str]()
    for labels, part in parts:
        said = value(part, now)
        if isinstance(said, dict):
            samples += [_sample(short, [*labels, (LABELS[short], name)], count)
                        for name, count in said.items()]
        elif said or (said is not None and not short.endswith(MOMENT)):
            samples.append(_sample(short, labels, said))
    kind = "counter" if short.endswith("_total") else "gauge"
    head = [f"# HELP {PREFIX}{short} {about}", f"# TYPE {PREFIX}{short} {kind}"]
    return head + samples if samples else []


def _sample(short: str, labels: list[Label], value: float) -> str:
    """A value with its labels in braces; a backslash, a quote and a line feed are escaped, and what
    is no character of UTF-8 is a question mark."""
    said = ",".join(f'{name}="{text.translate(ESCAPES)}"' for name, text in labels)
    number = f"{value:.9g}" if abs(value) < 1e6 else f"{value:.6f}"
    number = str(int(value)) if float(value).is_integer() else number
    braces = f"{{{said}}}".encode(errors="replace").decode() if said else ""
    return f"{PREFIX}{short}{braces} {number}"
