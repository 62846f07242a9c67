"""The state as one page of HTML that needs nothing from elsewhere, for a phone and for a wall."""

import html
import math
import pathlib
import string
import time

from keeper.durations import clock
from keeper.reporter import overview, rules
from keeper.reporter.health import Level, judge, precision, title, worst
from keeper.reporter.state import QUARTER, QUARTERS, Quarter, RadioState, State

FOLDER = pathlib.Path(__file__).parent
STYLE = (FOLDER / "page.css").read_text(encoding="utf-8")
PAGE = string.Template((FOLDER / "page.html").read_text(encoding="utf-8"))


def _table(rows: overview.Table, notes: str = "") -> str:
    """A table that is turned: a row for each column of the terminal's, so that a phone has room."""
    lines = ["".join(f"<td>{html.escape(cell)}</td>" for cell in row) for row in zip(*rows)]
    body = "".join(f"<tr>{line}</tr>" for line in lines)
    return f"<section><table>{body}</table>{notes}</section>" if len(rows) > 1 else ""


def _list(lines: list[str]) -> str:
    return f"<ul>{''.join(f'<li>{html.escape(one)}</li>' for one in lines)}</ul>" if lines else ""


def _banner(state: State, now: float) -> str:
    """The worst that there is to say, or whose time it is where clients get it, and below it what
    isn't well."""
    found, link = judge(state, now), state.time_link(min(now, state.written))
    said = [text[:1].upper() + text[1:] for _, text in found]
    if worst(found) < Level.CRITICAL:
        said.insert(0, "Nothing is served")
    if worst(found) < Level.CRITICAL and link:
        facts = f"{precision(link)}, leap second: {overview.LEAPS[link.leap & 3]}"
        said[:1] = [f"Time from {rules.reference(link.reference_id)}", facts]
    lead, *rest = [html.escape(one) for one in said]
    more = "".join(f"<div>{one}</div>" for one in rest)
    return f'<div class="state {worst(found).name.lower()}"><b>{lead}</b>{more}</div>'


def _radio(radio: RadioState, now: float) -> str:
    picture = reception(radio.reception, radio.plan, now)
    notes = _list(overview.radio_notes(radio))
    return f"<section><h2>{html.escape(title(radio))}</h2>{picture}{notes}</section>"


def reception(quarters: list[Quarter], plan: str, now: float) -> str:
    """A column for each quarter of an hour as SVG: verdicts below, then minutes that give no time
    by themselves, then refused ones. Its hours stand beside it, so that they are never
    stretched."""
    last = now // QUARTER * QUARTER
    first = last - (QUARTERS - 1) * QUARTER
    bars, hours = [], []
    for one in quarters:
        place, base = int((one.at - first) // QUARTER), 15.0
        counts = (("verdict", one.verdict), ("half", one.lone + one.differs),
                  ("refused", sum(one.refused.values())))
        for kind, count in counts if 0 <= place < QUARTERS else ():
            high = max(0.0, min(float(count), base))
            base -= high
            said = f"<title>{html.escape(_said(one, plan))}</title>"
            bars += [f'<rect class="{kind}" x="{place}.04" width="0.92" y="{base:g}" '
                     f'height="{high:g}">{said}</rect>'] * (high > 0)
    for hour in range(math.ceil(first / 21600), math.floor(last / 21600) + 1):
        part = (hour * 21600 - first) / (QUARTER * QUARTERS) * 100
        if 3 <= part <= 97:
            clock_ = time.strftime("%H:%M", time.gmtime(hour * 21600))
            hours.append(f'<span style="left:{part:.2f}%">{clock_}</span>')
    return (f'<div class="plot"><svg viewBox="0 0 {QUARTERS} 15" preserveAspectRatio="none" '
            f'role="img" aria-label="reception of 24 hours">{"".join(bars)}</svg>'
            f'<div class="hours">{"".join(hours)}</div></div>')


def _said(one: Quarter, plan: str) -> str:
    said = [f"{clock(one.at)[11:16]} UTC: {one.verdict} verdicts"]
    said += [f"{one.lone} lone"] if one.lone else []
    said += [f"{one.differs} differ"] if one.differs else []
    said += [f"{count} refused by {rules.rule(plan, number)[0] or 'rule ' + number}"
             for number, count in one.refused.items()]
    return ", ".join(said)


def render(state: State, now: float) -> str:
    """The page. `now` in Unix s."""
    declined = [one for server in state.servers for one in overview.server_notes(server)]
    about = overview.keeper_lines(state, now) + overview.last_lines(state)
    parts = [_table(overview.links(state, now)), _table(overview.radios(state, now)),
             *(_radio(one, now) for one in state.radios),
             _table(overview.servers(state), _list(declined)),
             f"<section>{_list(about)}</section>"]
    return PAGE.substitute(
        level=worst(judge(state, now)).name, style=STYLE, written=clock(state.written),
        banner=_banner(state, now), main="".join(parts), seconds=f"{state.written:.0f}")
