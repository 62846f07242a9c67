"""How far off the lag is that `calibrate` works out, and how far it says that it may be: over many receivers in software whose lag is known.
It calls the keeper's own code on made logs, so it takes no waiting; calibrate.sh calls it for `spread`.

    python3 -m bench.calibrate_spread [--seeds N] [--jitter MS] [--minutes N ..]
"""

import argparse
import statistics

from bench.known_logs import BEGIN, FIRST, since_1900
from keeper.lateness import minutes_of, result
from keeper.supervisor.pulses import Pulse
from lab import ends
from lab.packets import UNIX
from lab.receiver import MINUTE, SECOND, Faults, made_log

PLANS = ("dcf", "msf", "wwvb")
LAG = 23_000  # of the receivers, in microseconds
OUTLIERS = 0.03


def worked_out(plan: str, jitter: float, minutes: int, seed: int) -> tuple[float, float]:
    """By how much the lag of a receiver is off, and its standard error as it is printed, in milliseconds. Each minute is believed."""
    first = since_1900(FIRST)
    pulses, lines = list[Pulse](), list[str]()
    for true, start, width in made_log(plan, FIRST, minutes, Faults(jitter=1000 * jitter, outliers=OUTLIERS, lag=LAG), seed, BEGIN):
        pulses.append(Pulse(start, width))
        since = true - BEGIN
        if since and since % MINUTE == 0:
            lines.append(f"0 {start} verdict {first + since // SECOND} 0")
    found = result(minutes_of(pulses, lines, first - UNIX - BEGIN / SECOND))
    assert found is not None, "each minute is believed"
    return 1000 * found.late - LAG / 1000, 1000 * found.error


def main() -> int:
    words = argparse.ArgumentParser(description=__doc__, formatter_class=argparse.RawDescriptionHelpFormatter)
    words.add_argument("--seeds", type=int, default=100)
    words.add_argument("--jitter", type=float, default=15)
    words.add_argument("--minutes", type=int, nargs="+", default=[20, 60])
    asked = words.parse_args()
    print(f"{asked.seeds} receivers, {asked.jitter:g} ms of jitter: how far off (ms), what is printed, in how many of a hundred it is off by at most that")
    print("plan  minutes  spread    mean   worst | printed | within one  within two")
    for plan in PLANS:
        for minutes in asked.minutes:
            rows = [worked_out(plan, asked.jitter, minutes, seed) for seed in range(asked.seeds)]
            off = [one for one, _ in rows]
            within = [100 * sum(abs(one) <= times * error for one, error in rows) / len(rows) for times in (1, 2)]
            printed = statistics.fmean(error for _, error in rows)
            print(
                f"{plan:5} {minutes:7} {statistics.pstdev(off):7.2f} {statistics.fmean(off):7.2f} {max(abs(one) for one in off):7.2f} |"
                f" {printed:7.2f} | {within[0]:10.0f} {within[1]:11.0f}", flush=True
            )
    return 0


if __name__ == "__main__":
    ends.run(main)
