"""The kinds of cases: of each those that are meant for something, and how a seed makes others."""

import itertools
import random
from types import ModuleType
from typing import Callable, NamedTuple

from . import decode_directed, decode_pairs, lines, migrate_choices, migrate_leaps, migrate_pages, migrate_texts
from . import replay_exchanges, replay_requests, replay_scripts, served, stations, wire
from .case import Case
from .drawn import decode_case, migrate_case
from .drawn_scripts import replay_case


class Kind(NamedTuple):
    """A kind: its cases that are meant for something, how others are drawn, and how many of each hundred cases are of
    it.
    """

    directed: Callable[[], list[Case]]
    draw: Callable[[random.Random], Case] | None
    share: int


def _decode() -> list[Case]:
    plans = [decode_directed.all_of(plan) for plan in ("dcf", "msf", "wwvb")]
    return [*itertools.chain(*plans), *decode_pairs.all_of()]


def _of(*modules: ModuleType) -> Callable[[], list[Case]]:
    return lambda: [case for module in modules for case in module.all_of()]


def _drill(draw: random.Random) -> Case:
    return served.drill_case(draw.randrange(2**32))


KINDS = {
    "lines": Kind(_of(lines), lines.line_case, 5),
    "decode": Kind(_decode, decode_case, 35),
    "migrate": Kind(_of(migrate_pages, migrate_choices, migrate_leaps, migrate_texts), migrate_case, 30),
    "replay": Kind(_of(replay_requests, replay_exchanges, replay_scripts), replay_case, 20),
    "station": Kind(_of(stations), None, 0),
    "serve": Kind(_of(served), served.serve_case, 10),
    "wire": Kind(_of(wire), None, 0),
    "drill": Kind(lambda: [served.drill_case(7)], _drill, 0),
}
# How many drawn cases there are for each drawn day of `drill`, which takes as long as some hundred others.
CASES_OF_A_DAY = 5000


def drawn(cases: int) -> dict[str, int]:
    """How many cases of each kind are drawn, of this many in all."""
    return {
        name: cases // CASES_OF_A_DAY if name == "drill" else cases * kind.share // 100 for name, kind in KINDS.items()
    }


def case(name: str, directed: list[Case], number: int, seed: int) -> Case:
    """The case of a number: one that is meant for something, or past those one that is drawn."""
    if number < len(directed):
        return directed[number]
    draw = KINDS[name].draw
    if draw is None:
        raise IndexError(number)
    return draw(random.Random(f"{seed}/{name}/{number}"))
