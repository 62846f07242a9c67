"""A receiver in software: the pulses of DCF77, MSF or WWVB as a cheap receiver gives them, from the calendar alone, by the codes that PTB,
NPL and NIST publish. It shares no code with the program.

    python3 -m lab.receiver --plan PLAN --minutes N [--first 'YYYY-MM-DD HH:MM'] [--begin MICROSECONDS] [--form log|edges] [what is wrong with it]
    python3 -m lab.receiver --plan PLAN --live SECONDS [--history MINUTES] [--form log|edges] [--since MONOTONIC,UNIX] [what is wrong with it]

With --minutes it writes a log at once; --begin is the counter's value at the first minute, a whole second is 1000000 of it. With --live it
writes what is sent now by the host's clock, for this number of seconds, each reduction as it ends, and before that the last minutes and what
has passed of this one; with --history 0, which is the default, nothing before it began. Its seconds are those of the host's monotonic clock;
--since says which UTC one of its moments had (the host's own, where it isn't given).

What is wrong with it, each nothing where it isn't given:

--jitter MS       each start and each width is off by up to this either way; with --normal this is the standard deviation
--outliers SHARE  this share of the reductions, of 1, comes up to --outlier MS (60) early or late besides
--ppm N           by how many parts in a million the host's counter gains on the sender
--bits SHARE      this share of the bits is received wrong
--lost SHARE      this share of the reductions isn't received
--lag MS          by how much all reductions are late
--fades SHARE     in this share of the minutes nothing is received from some second on
--fade FROM:TO    nothing is received between these seconds of --live, counted from the end of the history
--seed N          another receiver of this kind
"""

import argparse
import dataclasses
import datetime
import itertools
import math
import random
import sys
import time
from typing import Iterator

from lab import ends
from lab.minutes import minute_of
from lab.model.receiver import PLANS
from lab.model.spelling import SECOND
from lab.program import TOP

MINUTE = 60 * SECOND
# What a bit that is received wrong is taken for, by its width. Minute marks, markers and both bits of MSF are received as they are.
WRONG = {"dcf": {100_000: 200_000, 200_000: 100_000}, "msf": {100_000: 200_000, 200_000: 100_000}, "wwvb": {200_000: 500_000, 500_000: 200_000}}
UNIX_EPOCH = datetime.datetime(1970, 1, 1)


@dataclasses.dataclass
class Faults:
    """What is wrong with a receiver. Times are in microseconds, shares are of 1."""

    jitter: float = 0
    normal: bool = False
    outliers: float = 0
    outlier: float = 60_000
    ppm: float = 0
    bits: float = 0
    lost: float = 0
    lag: float = 0
    fades: float = 0


def sent(plan: str, first: datetime.datetime) -> Iterator[tuple[int, int]]:
    """The reductions that are sent from this minute on, without end: microseconds since its beginning, and widths."""
    for minute in itertools.count():
        for moment, width in minute_of(plan, first + datetime.timedelta(minutes=minute)):
            yield minute * MINUTE + moment, width


def heard(plan: str, first: datetime.datetime, faults: Faults, seed: int) -> Iterator[tuple[int, float, int]]:
    """The reductions that a receiver gives: when each was sent, when it came, both in microseconds since `first`, and its width."""
    draw = random.Random(f"{plan} {seed}")
    shake = (lambda: draw.gauss(0, faults.jitter)) if faults.normal else (lambda: draw.uniform(-faults.jitter, faults.jitter))
    # A stream of its own, so that the rest is the same with and without it.
    fading = random.Random(f"{plan} {seed} fades")
    fade, last = math.inf, -math.inf
    for moment, width in sent(plan, first):
        if moment % MINUTE == 0:
            fade = fading.randrange(60) * SECOND if fading.random() < faults.fades else math.inf
        late = faults.lag + shake()
        if draw.random() < faults.outliers:
            late += draw.uniform(-faults.outlier, faults.outlier)
        if draw.random() < faults.bits:
            width = WRONG[plan].get(width, width)
        came = moment * (1 + faults.ppm * 1e-6) + late
        shaken = max(1, round(width + shake()))
        if draw.random() >= faults.lost and came >= last + 1 and moment % MINUTE < fade:
            last = came
            yield moment, came, shaken


def made_log(plan: str, first: datetime.datetime, minutes: int, faults: Faults, seed: int, begin: int = 2 * SECOND) -> Iterator[tuple[int, int, int]]:
    """The lines of a log of some minutes and of what closes the last one: true moments, starts and widths."""
    past = minutes * MINUTE + 2 * SECOND
    for moment, came, width in heard(plan, first, faults, seed):
        if moment >= past:
            return
        if begin + came >= 0:
            yield begin + moment, begin + math.floor(came), width


def edges(start: float, width: int) -> str:
    """The two edges of a reduction, as gpiomon of libgpiod 2 prints them."""
    ends = ((start, "rising"), (start + width, "falling"))
    return "".join(f"{int(at) // SECOND}.{int(at) % SECOND:06}000\t{word}\tgpiochip0 17\n" for at, word in ends)


def line(form: str, start: float, width: int) -> str:
    """A reduction as it is written: a log's line, or its two edges."""
    return edges(start, width) if form == "edges" else f"{int(start)} {width}\n"


def live(words: argparse.Namespace, faults: Faults) -> None:
    """Writes the reductions that are sent now, as they end."""
    monotonic, unix = words.since or (time.monotonic(), time.time())
    begin = time.monotonic()
    from_minute = int((unix + (begin - monotonic) / (1 + faults.ppm * 1e-6)) // 60) - words.history
    first = UNIX_EPOCH + datetime.timedelta(minutes=from_minute)
    # The counter at the first minute.
    zero = (monotonic + (from_minute * 60 - unix) * (1 + faults.ppm * 1e-6)) * SECOND
    for moment, came, width in heard(words.plan, first, faults, words.seed):
        at = zero + came
        if at < 0:
            continue
        since = at / SECOND - begin
        if since > words.live:
            return
        if since < 0 and not words.history:
            continue
        if any(fade_from <= since < to for fade_from, to in words.fade):
            continue
        wait = since + width / SECOND + 0.0005 - (time.monotonic() - begin)
        if wait > 0:
            sys.stdout.flush()
            time.sleep(wait)
        sys.stdout.write(line(words.form, at, width))
        if wait > 0:
            sys.stdout.flush()


def pair(text: str, between: str) -> tuple[float, float]:
    """Two numbers with a sign between them."""
    first, second = text.split(between)
    return float(first), float(second)


def read_words() -> argparse.Namespace:
    words = argparse.ArgumentParser(description=__doc__, formatter_class=argparse.RawDescriptionHelpFormatter)
    words.add_argument("--plan", choices=PLANS, required=True)
    length = words.add_mutually_exclusive_group(required=True)
    length.add_argument("--minutes", type=int)
    length.add_argument("--live", type=float)
    words.add_argument("--first", type=lambda text: datetime.datetime.strptime(text, "%Y-%m-%d %H:%M"), default=datetime.datetime(2026, 1, 1, 12))
    words.add_argument("--begin", type=int, default=2 * SECOND)
    words.add_argument("--history", type=int, default=0)
    words.add_argument("--form", choices=("log", "edges"), default="log")
    words.add_argument("--since", type=lambda text: pair(text, ","))
    words.add_argument("--fade", type=lambda text: pair(text, ":"), action="append", default=[])
    words.add_argument("--seed", type=int, default=1)
    words.add_argument("--normal", action="store_true")
    for name, unset in (("jitter", 0), ("outliers", 0), ("outlier", 60), ("ppm", 0), ("bits", 0), ("lost", 0), ("lag", 0), ("fades", 0)):
        words.add_argument(f"--{name}", type=float, default=unset)
    return words.parse_args()


def command(*options: object) -> list[str]:
    """The words that start one of these, from anywhere."""
    return ["env", f"PYTHONPATH={TOP}", sys.executable, "-B", "-m", "lab.receiver", *map(str, options)]


def main() -> None:
    words = read_words()
    faults = Faults(words.jitter * 1000, words.normal, words.outliers, words.outlier * 1000, words.ppm, words.bits, words.lost, words.lag * 1000, words.fades)
    if words.live is not None:
        live(words, faults)
        return
    for _, start, width in made_log(words.plan, words.first, words.minutes, faults, words.seed, words.begin):
        sys.stdout.write(line(words.form, start, width))


if __name__ == "__main__":
    ends.run(main)
