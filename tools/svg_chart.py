"""Charts as SVG by the standard library alone: panels one below the other that share the axis across, each with lines, bands and bars."""

import html
import math
import time
from dataclasses import dataclass, field
from typing import TypeVar

WIDTH, LEFT, RIGHT = 900, 90, 130  # of a picture, and of what stands left and right of its panels, in pixels
TOP, BETWEEN, BELOW = 26, 14, 44
LETTERS = 12
INK, GRID = "#222222", "#dddddd"
HOUR = 3600
# Between two ticks of UTC, in seconds, and how many steps an axis has at most.
STEPS = (60, 120, 300, 600, 1800, *(HOUR * hours for hours in (1, 2, 3, 6, 12, 24, 48, 96, 168)))
MOST_STEPS = 9
Point = tuple[float, float]
Points = TypeVar("Points", bound=tuple[float, ...])  # a place and the values there


@dataclass
class Axis:
    """From where to where an axis goes, its ticks with their letters, and whether it goes by logarithms."""

    low: float
    high: float
    ticks: list[tuple[float, str]]
    is_log: bool = False

    def part(self, value: float) -> float:
        """Where a value lies: 0 at the low end, 1 at the high one; what is beyond an end lies on it."""
        low, high = self.low, self.high
        value = min(max(value, low), high)
        if self.is_log:
            low, high, value = math.log(low), math.log(high), math.log(value)
        return (value - low) / (high - low)


@dataclass
class Line:
    """A line through points, broken where one isn't a number; with a dot at each where `has_dots`."""

    points: list[Point]
    colour: str
    has_dots: bool = True


@dataclass
class Band:
    """What lies between two lines over the same places, broken where a value isn't a number."""

    at: list[float]
    low: list[float]
    high: list[float]
    colour: str


@dataclass
class Bar:
    """A box, from its left and lower end to its right and upper one."""

    left: float
    right: float
    low: float
    high: float
    colour: str


@dataclass
class Panel:
    """A panel: what stands beside its axis (a line break is one), its height, what it shows, and the key beside it, names with their colours."""

    label: str
    height: int = 160
    axis: Axis | None = None
    shapes: list[Line | Band | Bar] = field(default_factory=list)
    key: dict[str, str] = field(default_factory=dict)

    def heights(self) -> list[float]:
        """All values that its shapes have."""
        found: list[float] = []
        for shape in self.shapes:
            if isinstance(shape, Line):
                found += [value for _, value in shape.points]
            elif isinstance(shape, Band):
                found += shape.low + shape.high
            else:
                found += [shape.low, shape.high]
        return [value for value in found if math.isfinite(value)]


def round_axis(values: list[float], most: int = 6, has_zero: bool = False) -> Axis:
    """An axis around some values whose ticks are 1, 2 or 5 times a power of ten apart, `most` of them at most."""
    low, high = min(values, default=0.0), max(values, default=1.0)
    if has_zero:
        low, high = min(low, 0.0), max(high, 0.0)
    wide = max(high - low, 1e-6 * max(1.0, abs(high)))
    power = 10.0 ** math.floor(math.log10(wide / most))
    step = next(power * times for times in (1, 2, 5, 10) if wide / (power * times) <= most)
    places = max(0, -math.floor(math.log10(step) + 1e-9))
    edge = 0.0 if has_zero else 0.04 * wide
    least, greatest = low - (edge if low else 0.0), high + 0.04 * wide
    numbers = range(math.ceil(least / step - 1e-9), math.floor(greatest / step + 1e-9) + 1)
    return Axis(least, greatest, [(number * step, f"{number * step:.{places}f}") for number in numbers])


def log_axis(low: float, high: float, ticks: tuple[float, ...]) -> Axis:
    """An axis by logarithms with those of these ticks that it has."""
    return Axis(low, high, [(tick, f"{tick:g}") for tick in ticks if low <= tick <= high], True)


def utc_axis(first: float, last: float) -> Axis:
    """An axis of UTC, in seconds since 1970: hours and minutes, and at midnight the day."""
    step = next((step for step in STEPS if (last - first) / step <= MOST_STEPS), STEPS[-1])
    ticks = [at for at in range(math.ceil(first / step) * step, math.floor(last) + 1, step)]
    return Axis(first, last, [(at, time.strftime("%H:%M" if at % (24 * HOUR) else "%Y-%m-%d", time.gmtime(at))) for at in ticks])


def text(x: float, y: float, said: str, anchor: str = "middle", turn: bool = False) -> str:
    """Letters at a place; each line break begins a line."""
    lines = said.split("\n")
    turned = f' transform="rotate(-90 {x:.1f} {y:.1f})"' if turn else ""
    spans = "".join(f'<tspan x="{x:.1f}" dy="{0 if place == 0 else LETTERS + 2}">{html.escape(line)}</tspan>' for place, line in enumerate(lines))
    return f'<text x="{x:.1f}" y="{y:.1f}" text-anchor="{anchor}"{turned}>{spans}</text>'


def runs(points: list[Points]) -> list[list[Points]]:
    """Points in the pieces between those that aren't numbers."""
    pieces: list[list[Points]] = [[]]
    for point in points:
        if all(map(math.isfinite, point)):
            pieces[-1].append(point)
        elif pieces[-1]:
            pieces.append([])
    return [piece for piece in pieces if piece]


class Frame:
    """Where a panel lies in its picture, and its two axes."""

    def __init__(self, panel: Panel, across: Axis, top: float) -> None:
        self.panel, self.across, self.top = panel, across, top
        self.axis = panel.axis or round_axis(panel.heights())

    def x(self, value: float) -> float:
        return LEFT + self.across.part(value) * (WIDTH - LEFT - RIGHT)

    def y(self, value: float) -> float:
        return self.top + (1 - self.axis.part(value)) * self.panel.height

    def place(self, point: Point) -> str:
        return f"{self.x(point[0]):.1f},{self.y(point[1]):.1f}"

    def draw(self, shape: Line | Band | Bar) -> str:
        """A shape, as SVG."""
        if isinstance(shape, Bar):
            left, top = self.x(shape.left), self.y(shape.high)
            wide, high = self.x(shape.right) - left, self.y(shape.low) - top
            return f'<rect x="{left:.1f}" y="{top:.1f}" width="{wide:.1f}" height="{high:.1f}" fill="{shape.colour}"/>'
        if isinstance(shape, Band):
            bands = runs(list(zip(shape.at, shape.low, shape.high)))
            outlines = [[(at, low) for at, low, _ in piece] + [(at, high) for at, _, high in reversed(piece)] for piece in bands]
            return "".join(f'<polygon points="{" ".join(map(self.place, one))}" fill="{shape.colour}" fill-opacity="0.22"/>' for one in outlines)
        pieces = runs(shape.points)
        drawn = [f'<polyline points="{" ".join(map(self.place, one))}" fill="none" stroke="{shape.colour}"/>' for one in pieces if len(one) > 1]
        if shape.has_dots:
            drawn += [f'<circle cx="{self.x(at):.1f}" cy="{self.y(value):.1f}" r="1.8" fill="{shape.colour}"/>' for piece in pieces for at, value in piece]
        return "".join(drawn)

    def grid(self) -> list[str]:
        """The box of the panel, the lines of its ticks and their letters."""
        right, bottom = WIDTH - RIGHT, self.top + self.panel.height
        drawn = []
        for value, said in self.axis.ticks:
            drawn.append(f'<line x1="{LEFT}" x2="{right}" y1="{self.y(value):.1f}" y2="{self.y(value):.1f}" stroke="{GRID}"/>')
            drawn.append(text(LEFT - 6, self.y(value) + 4, said, "end"))
        for value, _ in self.across.ticks:
            drawn.append(f'<line x1="{self.x(value):.1f}" x2="{self.x(value):.1f}" y1="{self.top}" y2="{bottom}" stroke="{GRID}"/>')
        return drawn

    def around(self) -> list[str]:
        """What stands around the panel: its frame, its label and its key."""
        panel = self.panel
        drawn = [f'<rect x="{LEFT}" y="{self.top}" width="{WIDTH - LEFT - RIGHT}" height="{panel.height}" fill="none" stroke="{INK}"/>']
        if panel.label:
            drawn.append(text(16, self.top + panel.height / 2, panel.label, turn=True))
        for row, (name, colour) in enumerate(panel.key.items()):
            y = self.top + 14 + row * (LETTERS + 5)
            drawn.append(f'<rect x="{WIDTH - RIGHT + 10}" y="{y - 9:.1f}" width="12" height="9" fill="{colour}"/>')
            drawn.append(text(WIDTH - RIGHT + 28, y, name, "start"))
        return drawn


def picture(panels: list[Panel], across: Axis, below: str, above: str = "") -> str:
    """A whole picture; `below` is what stands under the axis across, and `above` over the first panel."""
    drawn, top = [text(LEFT, TOP - 8, above, "start")], float(TOP)
    for panel in panels:
        frame = Frame(panel, across, top)
        drawn += [*frame.grid(), *map(frame.draw, panel.shapes), *frame.around()]
        top += panel.height + BETWEEN
    bottom = top - BETWEEN
    drawn += [text(frame.x(value), bottom + 16, said) for value, said in across.ticks]
    drawn.append(text(LEFT + (WIDTH - LEFT - RIGHT) / 2, bottom + 34, below))
    high = bottom + BELOW
    return (
        f'<svg xmlns="http://www.w3.org/2000/svg" width="{WIDTH}" height="{high:.0f}" viewBox="0 0 {WIDTH} {high:.0f}" '
        f'font-family="sans-serif" font-size="{LETTERS}" fill="{INK}">\n<rect width="100%" height="100%" fill="white"/>\n' + "\n".join(drawn) + "\n</svg>\n"
    )
