"""The state for people: what `status` prints, and what the page has as HTML."""

from keeper.durations import ago, clock, length, span
from keeper.errors import plain
from keeper.reporter import rules
from keeper.reporter.health import is_kept, judge, summary, title, worst
from keeper.reporter.state import QUARTER, QUARTERS, Quarter, RadioState, ServerState, State

BLOCKS = " ▁▂▃▄▅▆▇█"
DIGITS = " 12345678"
LEAPS = ("none", "+1 s today", "-1 s today", "no time")
Table = list[list[str]]  # its first row is its head


def keeper_lines(state: State, now: float) -> list[str]:
    """The station, and the run that serves. Ages here and below are of the moment that it names."""
    run, at = state.run, state.written
    kept = f"kept for {span(at - state.keeper_since)}" if state.keeper_since else "not kept"
    bound = f"bound {state.bound * 1e3:.0f} ms"
    lines = [f"{clock(at)} UTC, {ago(at, now)}: station {state.station}, {bound}, {kept}"]
    if run.number:
        ended = f"; the one before ended with {run.last_status!r}" if run.last_status else ""
        age, why = span(at - run.since), rules.cause(run.cause)
        lines.append(f"run {run.number}, {age} old, since {why}{ended}")
    return lines


def links(state: State, now: float) -> Table:
    rows = [["LINK", "LEAP", "STRATUM", "REFERENCE", "ROOT DISPERSION", "LASTS", "REQUESTS/S",
             "ANSWERED"]]
    for one in state.links:
        lasts = one.until > state.written and is_kept(state, now)
        rows.append([
            str(one.port), LEAPS[one.leap & 3], str(one.stratum),
            rules.reference(one.reference_id), length(one.root_dispersion),
            span(one.until - state.written) if lasts else "-", f"{one.requests_per_second:.1f}",
            ago(one.answered_at, state.written)])
    return rows


def radios(state: State, now: float) -> Table:
    rows = [["RADIO", "SOURCE", "PULSE", "VERDICTS 1 H", "LAST MINUTE", "OFFSET", "SPREAD", "WIDTH",
             "RESTARTS", "BAD LINES"]]
    for one in state.radios:
        minute = f"{clock(one.minute)[11:16]} UTC, {ago(one.minute_at, state.written)}"
        spread = length(one.spread) if one.spread else "-"
        if one.steady and one.spread_given:
            spread += f", steady {length(one.spread_given)}"
        source = f"silent, {one.source}" if one.silent_since else one.source
        rows.append([
            title(one), source if is_kept(state, now) else "ended",
            ago(one.pulse_at, state.written), f"{one.verdicts_hour} of {one.minutes_hour}",
            minute if one.minute_at else "never", length(one.offset) if one.minute_at else "-",
            spread, f"{length(one.width)}, {one.rate:.1f}/s" if one.rate else "-",
            str(one.restarts), str(one.bad_lines)])
    return rows


def servers(state: State) -> Table:
    rows = [["SERVER", "STRATUM", "OFFSET", "DELAY", "SAMPLES", "LAST SAMPLE"]]
    for one in state.servers:
        heard = [str(one.stratum), length(one.offset), length(one.delay)]
        rows.append([f"{one.address}:{one.port}", *(heard if one.sample_at else ["-"] * 3),
                     str(one.samples), ago(one.sample_at, state.written)])
    return rows


def radio_notes(radio: RadioState) -> list[str]:
    """What is suspected, which rules refused minutes, and the last bad line."""
    lines = [f"last minute: {radio.fault}"] if radio.fault else []
    if radio.recent:
        recent = ", ".join(f"{count} {_kind(radio, kind)}" for kind, count in radio.recent.items())
        lines.append(f"last ten minutes: {recent}")
    for number, count in radio.refused().items():
        name, why = rules.rule(radio.plan, number)
        lines.append(f"24 hours: refused {count} by rule {number} {name}: {why}".rstrip(": "))
    return lines + ([f"last bad line: {radio.last_bad}"] if radio.last_bad else [])


def _kind(radio: RadioState, kind: str) -> str:
    """A kind of minute, with the name of the rule that refused it."""
    word, _, number = kind.partition(" ")
    return f"{kind} {rules.rule(radio.plan, number)[0]}".rstrip() if word == "refused" else word


def server_notes(server: ServerState) -> list[str]:
    """Why answers were declined."""
    said = [(count, number, *rules.declined(number)) for number, count in server.declined.items()]
    return [f"{server.address} declined {count} as {name or number}: {why}".rstrip(": ")
            for count, number, name, why in said]


def last_lines(state: State) -> list[str]:
    """The leap second file, and the last alarms."""
    lines, leap = [], state.leap_file
    if leap is not None:
        expires = f"expires {clock(leap.expires)[:10]}"
        said = expires if leap.expires else "doesn't say when it expires"
        last = f"the last leap second that it has ended {clock(leap.last)[:10]}"
        lines.append(f"leap second file {leap.path}: {said}; {last}")
    alarms = [f"  {clock(one.at)} UTC {one.event}: {one.text}" for one in state.alarms[-5:]]
    return lines + (["last alarms", *alarms] if alarms else [])


def hours(quarters: list[Quarter], now: float, blocks: str = BLOCKS) -> str:
    """24 characters, one an hour up to now: which part of its minutes were verdicts; `.` where
    nothing was received."""
    first = now // QUARTER * QUARTER - (QUARTERS - 1) * QUARTER
    good, heard = [0] * 24, [0] * 24
    for one in quarters:
        hour = int((one.at - first) // 3600)
        if 0 <= hour < 24:
            good[hour] += one.verdict
            heard[hour] += one.minutes()
    return "".join(blocks[max(0, min(8, -(-8 * had // 60)))] if had else ("_" if any_ else ".")
                   for had, any_ in zip(good, heard))


def columns(rows: Table) -> list[str]:
    """A table for a terminal, after an empty line; nothing where it has no row."""
    widths = [max(map(len, column)) for column in zip(*rows)]
    lines = ["  ".join(cell.ljust(width) for cell, width in zip(row, widths)) for row in rows]
    return ["", *(line.rstrip() for line in lines)] if len(rows) > 1 else []


def render(state: State, now: float, unicode: bool = True) -> str:
    """The whole of it, with a line feed at the end of each line. `now` in Unix s."""
    found, blocks = judge(state, now), BLOCKS if unicode else DIGITS
    lines = [f"{worst(found).name}: {summary(state, now)}"]
    lines += [f"  {level.name}: {said}" for level, said in found] if len(found) > 1 else []
    lines += ["", *keeper_lines(state, now), *columns(links(state, now))]
    lines += columns(radios(state, now))
    for radio in state.radios:
        head = f"{title(radio)}: 24 hours of reception, an hour a character, up to now"
        lines += ["", head, f"  [{hours(radio.reception, now, blocks)}]"]
        lines += [f"  {one}" for one in radio_notes(radio)]
    lines += columns(servers(state))
    lines += [f"  {one}" for server in state.servers for one in server_notes(server)]
    rest = last_lines(state)
    return plain("\n".join(lines + ["", *rest] * bool(rest)) + "\n")
