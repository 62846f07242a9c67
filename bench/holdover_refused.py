"""Up to which bound the time holds what it promises while minutes are refused, by how far the host's counter is off; holdover.sh calls this.

    python3 -m bench.holdover_refused [--seeds N] [--jitter MS ..] [--ppm N ..] [--plan PLAN]

Fifteen minutes of reception by receivers in software, then an hour in which each minute has a bit of no width and is refused. Such a minute
makes a page that begins at the last verdict's offset, without what the counter has drifted since. A request comes in the middle of each minute.
"""

import argparse
import pathlib
import tempfile

from bench.known_logs import BEGIN, FIRST, asked
from bench.steadied import write_logs
from lab import ends
from lab.receiver import MINUTE, Faults, made_log

GOOD = 15  # minutes that are received
BAD = 60  # minutes that are refused
BROKEN = 30_000  # a width of no class, in microseconds


def with_refused_minutes(lines):
    """Lines of which each minute from GOOD on has a reduction of no width in its second 30."""
    for true, start, width in lines:
        minute, moment = divmod(true - BEGIN, MINUTE)
        yield true, start, BROKEN if minute >= GOOD and moment == MINUTE // 2 else width


def row(plan: str, jitter: float, ppm: float, seeds: int) -> str:
    """What all runs of a counter came to: what was reported in the first minute at most, when a run was first farther off than it said, the
    least that one said then, and the greatest error an hour on. Moments are in minutes, the others in milliseconds."""
    broken: list[tuple[float, float]] = []
    last: list[tuple[float, float]] = []
    first = []
    with tempfile.TemporaryDirectory() as name:
        folder = pathlib.Path(name)
        for seed in range(seeds):
            faults = Faults(jitter=1000 * jitter, outliers=0.03, ppm=ppm)
            _, log = write_logs(folder, with_refused_minutes(made_log(plan, FIRST, GOOD + BAD, faults, seed, BEGIN)))
            moments = [round(BEGIN + (minute + 0.5) * MINUTE) for minute in range(GOOD, GOOD + BAD)]
            told = asked(plan, log.read_text().splitlines(), moments, folder, ppm)
            first.append(told[0][1][1])
            last.append(told[-1][1])
            broken += [((at - BEGIN) / MINUTE - GOOD, said) for at, (error, said) in told if abs(error) > said]
    ends = f"{max(abs(error) for error, _ in last):8.1f} {max(said for _, said in last):6.1f}"
    since = f"{min(at for at, _ in broken):8.1f} {min(said for _, said in broken):8.1f}" if broken else "   never        -"
    return f"{plan:5} {jitter:3g} {ppm:4g} | {max(first):8.1f} | {since} | {ends}"


def main() -> None:
    words = argparse.ArgumentParser(description=__doc__, formatter_class=argparse.RawDescriptionHelpFormatter)
    words.add_argument("--seeds", type=int, default=20)
    words.add_argument("--jitter", type=float, nargs="+", default=[2, 8, 15])
    words.add_argument("--ppm", type=float, nargs="+", default=[0, 10, 15, 20, 30, 50, 100])
    words.add_argument("--plan", default="dcf", choices=("dcf", "msf", "wwvb"))
    asked_for = words.parse_args()
    print("plan   ms  ppm | reported | first off after (min), reporting (ms) | an hour on: off, reported (ms)")
    for jitter in asked_for.jitter:
        for ppm in asked_for.ppm:
            print(row(asked_for.plan, jitter, ppm, asked_for.seeds), flush=True)


if __name__ == "__main__":
    ends.run(main)
