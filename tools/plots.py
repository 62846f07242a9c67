"""The pictures of plot_journal.py, as SVG."""

import collections
import math
import statistics
import time
from typing import NamedTuple

from journal_text import KINDS, Entry, Moment, Run, Station, due, name_of, offset_of, run_of, with_offsets, unix_of
from svg_chart import Axis, Band, Bar, Line, Panel, log_axis, picture, round_axis, utc_axis

HOUR = 3_600_000_000
MINUTE = 60_000_000
QUARTER = 900
# The colours differ in print too; refused minutes are shades of red by their rule.
COLOURS = {"verdict": "#2a7f3f", "lone": "#b8d8b0", "differs": "#e0a030", "sample": "#2f6fb0", "declined": "#a0a0d0", "notice": "#705090"}
REDS = ((252, 174, 145), (165, 15, 21))
RED_TO_GREEN = ((215, 48, 39), (254, 224, 139), (26, 152, 80))
LINES = ("#1f5fa8", "#c05020", "#2a7f3f", "#705090", "#808000", "#008080", "#a02060", "#606060")
GREY, GREEN, RED = "#444444", "#2a7f3f", "#c03030"
FEW = 120  # up to this many points are drawn as they are
DISPERSIONS = (5, 10, 20, 50, 100, 200, 500, 1000, 2000, 5000, 16000)
LEAST_HEIGHT = 0.1  # of the panel of offsets, in milliseconds: less is no more than how the fields are rounded
NOTHING = (math.nan, math.nan, math.nan)


class Scale(NamedTuple):
    """How a time axis is drawn: microseconds of its unit, the unit's name, and how many of them a bar or a band takes."""

    unit: int
    name: str
    step: float


class Spread(NamedTuple):
    """Of the values of each step: where it is, the median, and between which eight tenths of them lie."""

    at: list[float]
    low: list[float]
    median: list[float]
    high: list[float]


def scale_of(span: int) -> Scale:
    """A scale on which a span of microseconds can be read."""
    if span >= 72 * HOUR:
        return Scale(24 * HOUR, "days of the run", 1 / 8)
    if span >= 3 * HOUR:
        return Scale(HOUR, "hours of the run", 1.0 if span >= 12 * HOUR else 0.25)
    return Scale(MINUTE, "minutes of the run", 1.0 if span < HOUR else 5.0)


def spread_of(points: list[tuple[float, float]], step: float) -> Spread:
    """The spreads of some points, each its place and its value; where a step has none they are broken."""
    steps = collections.defaultdict(list)
    for place, value in points:
        steps[int(place // step)].append(value)
    spread = Spread([], [], [], [])
    last = min(steps)
    for number in sorted(steps):
        if number > last + 1:
            extend(spread, (last + 1) * step, NOTHING)
        values = sorted(steps[number])
        tenth = len(values) // 10
        extend(spread, (number + 0.5) * step, (values[tenth], statistics.median(values), values[-1 - tenth]))
        last = number
    return spread


def extend(spread: Spread, place: float, values: tuple[float, float, float]) -> None:
    """Goes on by a step."""
    for part, value in zip(spread, (place, *values)):
        part.append(value)


def shade(colours: tuple[tuple[int, int, int], ...], part: float) -> str:
    """The colour that lies so far, 0 to 1, on the way from the first of some colours to the last."""
    place = part * (len(colours) - 1)
    first = min(int(place), len(colours) - 2)
    mixed = (round(one + (place - first) * (other - one)) for one, other in zip(colours[first], colours[first + 1]))
    return "#" + "".join(f"{value:02x}" for value in mixed)


def lines_of(points: list[tuple[float, float]], step: float, colour: str) -> list[Line | Band]:
    """A median with its band, or the points themselves where there are few."""
    if len(points) <= FEW:
        return [Line(points, colour)]
    spread = spread_of(points, step)
    return [Band(spread.at, spread.low, spread.high, colour), Line(list(zip(spread.at, spread.median)), colour)]


def label_of(entry: Entry) -> str:
    """What an entry is counted as."""
    return f"rule {entry.fields[0]}" if entry.kind == "refused" else entry.kind


def order_of(label: str) -> tuple[int, int]:
    """Kinds in their order, then rules by their numbers."""
    return (1, int(label[5:])) if label.startswith("rule ") else (0, KINDS.index(label))


def bars_of(
    entries: list[Entry], labels: dict[str, str], first: int, scale: Scale, name: str
) -> Panel:
    """How many entries of each label a feed has in each step, one above the other.

    A step begins half a minute before the first entry of the feed: entries come once a minute, and
    jitter is to move none of them over a border.
    """
    panel = Panel(f"{name}\nentries", 140)
    begin = min(entry.at for entry in entries) - MINUTE // 2
    step = scale.step * scale.unit
    counts = collections.Counter((label_of(one), int((one.at - begin) // step)) for one in entries)
    below: collections.Counter[int] = collections.Counter()
    for label, colour in labels.items():
        for (_, bar), count in sorted((key, count) for key, count in counts.items() if key[0] == label):
            left, right = (((bar + part) * step + begin - first) / scale.unit for part in (0.05, 0.95))
            panel.shapes.append(Bar(left, right, below[bar], below[bar] + count, colour))
            panel.key[label] = colour
            below[bar] += count
    panel.axis = round_axis([float(high) for high in below.values()], 4, has_zero=True)
    return panel


def begin_of(run: Run | None) -> str:
    """When the first entry of a run came, by its own time; nothing where the run has none."""
    if run is None:
        return ""
    first = min(entry.at for entry in run.entries)
    return time.strftime("From %Y-%m-%d %H:%M UTC on", time.gmtime(unix_of(run, first)))


def offset_axis(values: list[float]) -> Axis:
    """An axis for offsets in milliseconds, which magnifies no rounding where all of them agree."""
    spare = (LEAST_HEIGHT - (max(values) - min(values))) / 2
    return round_axis([*values, min(values) - spare, max(values) + spare] if spare > 0 else values)


def reception(entries: list[Entry], station: Station) -> str:
    """How each feed was received, by kind of entry and by the rule that a minute broke."""
    names = sorted({label_of(entry) for entry in entries}, key=order_of)
    rules = [label for label in names if label not in COLOURS]
    labels = {label: COLOURS.get(label) or shade(REDS, rules.index(label) / max(1, len(rules) - 1)) for label in names}
    first, last = min(entry.at for entry in entries), max(entry.at for entry in entries)
    scale = scale_of(last - first)
    feeds = sorted({entry.feed for entry in entries})
    panels = [
        bars_of([entry for entry in entries if entry.feed == feed], labels, first, scale, name_of(station, feed))
        for feed in feeds
    ]
    half = MINUTE / 2 / scale.unit
    across = round_axis([-half, (last - first) / scale.unit + half], 10, has_zero=True)
    return picture(panels, across, scale.name, begin_of(run_of(entries)))


def offsets(run: Run, station: Station) -> str:
    """How far each feed was off the line through all offsets, its spread, and the rate of the host's counter."""
    given = with_offsets(run.entries)
    first, last = min(entry.at for entry in run.entries), max(entry.at for entry in run.entries)
    scale = scale_of(last - first)
    above = Panel(f"offset from a line of\n{run.rate * 1e6:.2f} ppm, ms")
    middle = Panel("eight tenths lie\nwithin, ms", 120)
    for place, feed in enumerate(sorted({entry.feed for entry, _ in given})):
        colour = LINES[place % len(LINES)]
        own = [((entry.at - first) / scale.unit, (offset - due(run, entry.at)) * 1000) for entry, offset in given if entry.feed == feed]
        above.shapes += lines_of(own, scale.step, colour)
        above.key[name_of(station, feed)] = colour
        spread = spread_of(own, max(scale.step, 10 * MINUTE / scale.unit))
        # A single value has no spread.
        middle.shapes.append(Line([(at, high - low or math.nan) for at, low, high in zip(spread.at, spread.low, spread.high)], colour))
    above.axis = offset_axis(above.heights())
    samples = [((entry.at - first) / scale.unit, int(entry.fields[2]) / 2**32 * 1000) for entry, _ in given if entry.kind == "sample"]
    if samples:
        middle.shapes += lines_of(samples, scale.step, GREY)
        middle.key["samples' dispersion"] = GREY
    middle.axis = round_axis(middle.heights(), 4, has_zero=True)
    # Feeds that are read from files run ahead of each other, so the entries of a journal needn't rise.
    rates = sorted(((entry.at - first) / scale.unit, entry.rate / 2**32 * 1e6) for entry in run.entries if entry.rate is not None)
    panels = [above, middle]
    if rates:
        panels.append(Panel("rate of the page,\nppm", 120, shapes=[*lines_of(rates, scale.step, GREY)]))
    return picture(panels, round_axis([0.0, (last - first) / scale.unit], 10, has_zero=True), scale.name, begin_of(run))


def heard(runs: list[Run], feeds: list[int], station: Station) -> Panel:
    """A row for each feed: how much of each quarter of an hour gave the time."""
    panel = Panel("", 20 + 18 * len(feeds), Axis(-0.5, len(feeds) - 0.5, [(len(feeds) - 1 - row, name_of(station, feed)) for row, feed in enumerate(feeds)]))
    for row, feed in enumerate(feeds):
        quarters = collections.defaultdict(list)
        for run in runs:
            for entry in run.entries:
                if entry.feed == feed:
                    quarters[int(unix_of(run, entry.at) // QUARTER)].append(offset_of(entry) is not None)
        level = len(feeds) - 1 - row
        panel.shapes += [Bar(at * QUARTER, (at + 1) * QUARTER, level - 0.42, level + 0.42, shade(RED_TO_GREEN, sum(good) / len(good))) for at, good in sorted(quarters.items())]
    return panel


def had_time(moments: list[Moment]) -> list[Bar]:
    """Whether clients had the time: a bar for each stretch of minutes with one answer."""
    bars: list[Bar] = []
    for moment in moments:
        colour = GREEN if moment.has_time else RED
        if bars and bars[-1].colour == colour:
            bars[-1].right = moment.unix + 60
        else:
            bars.append(Bar(moment.unix, moment.unix + 60, 0, 1, colour))
    return bars


def day(runs: list[Run], given: list[list[Moment]], station: Station) -> str:
    """Reception, offsets, root dispersion and whether clients had the time, over the runs of a day, by UTC."""
    feeds = sorted({entry.feed for run in runs for entry in run.entries})
    offset = Panel("offset from the\nrun's line, ms")
    for row, feed in enumerate(feeds):
        points = [(unix_of(run, entry.at), (one - due(run, entry.at)) * 1000) for run in runs for entry, one in with_offsets(run.entries) if entry.feed == feed]
        if points:
            spread = spread_of(points, QUARTER)
            colour = LINES[row % len(LINES)]
            offset.shapes += [Band(spread.at, spread.low, spread.high, colour), Line(list(zip(spread.at, spread.median)), colour)]
            offset.key[name_of(station, feed)] = colour
    seen = [1000 * one.dispersion for moments in given for one in moments if one.has_time] or [5.0]
    dispersion = Panel("root dispersion,\nms", 120, log_axis(4.5, 1.3 * max(seen), DISPERSIONS))
    dispersion.shapes += [Line([(one.unix, 1000 * one.dispersion if one.has_time else math.nan) for one in moments], GREY, False) for moments in given]
    time = Panel("", 36, Axis(0, 1, [(0.5, "time")]), [bar for moments in given for bar in had_time(moments)], {"had it": GREEN, "had none": RED})
    across = utc_axis(min(moments[0].unix for moments in given), max(moments[-1].unix for moments in given) + 60)
    above = "How much of each quarter of an hour gave the time: green all, red none, white: nothing was heard"
    return picture([heard(runs, feeds, station), offset, dispersion, time], across, "UTC", above)


def phase(points: list[tuple[int, float, float]], most: float) -> str:
    """A radio's phase as it came and as steady.py gives it: moments in microseconds, phases in milliseconds."""
    first, last = points[0][0], points[-1][0]
    scale = scale_of(last - first)
    panel = Panel("start of the second, ms\n(eight tenths lie in the band)", 300, key={"as it came": LINES[1], "steady": LINES[0]})
    for column, colour in ((1, LINES[1]), (2, LINES[0])):
        panel.shapes += lines_of([((point[0] - first) / scale.unit, point[column]) for point in points], min(scale.step, 0.5 * HOUR / scale.unit), colour)
    worst = sorted(abs(point[1]) for point in points)
    limit = min(most, 1.3 * worst[len(worst) * 95 // 100] + 0.5)
    panel.axis = round_axis([-limit, limit])
    return picture([panel], round_axis([0.0, (last - first) / scale.unit], 10, has_zero=True), scale.name.replace("run", "log"))
