"""How far the time that clients get is off, and how often by no more than it says; see accuracy.sh, which calls this.

    python3 -m bench.accuracy [--minutes N] [--jitter MS] [--fade FROM:TO] [--change MINUTE] [--plan PLAN] [--ppm N ..]

Each case has a receiver in software on the host's monotonic clock, its feeder, a keeper, the server, and chronyd with -x
as a client that asks each second and doesn't select; where chronyd isn't installed this script asks. Beside it the same pulses go through
`decode` and chrony_sock.py into a chronyd of their own. No clock is touched.
"""

import argparse
import contextlib
import os
import pathlib
import signal
import sys
import tempfile
import time
from typing import Callable

from bench.accuracy_case import Case, Plan
from lab import ends
from lab.kept import Wrong
from lab.program import program
from lab.receiver import pair


def run(plan: Plan, ppms: list[float], folder: pathlib.Path, say: Callable[[str], None]) -> None:
    """Runs all cases side by side and says their table."""
    since = (time.monotonic(), time.time())
    cases = []
    with contextlib.ExitStack() as ends:
        for seed, ppm in enumerate(ppms):
            for steady in (False, True):
                cases.append(Case(plan, steady, ppm, seed, since, folder / f"{seed}{'steady' if steady else 'raw'}"))
                ends.callback(cases[-1].end)
                cases[-1].start()
        begin = time.time() + 30
        changed = False
        while (now := time.monotonic() - since[0]) < plan.seconds:
            if not changed and now >= plan.change:
                changed = True
                for case in cases:
                    case.change()
            for case in cases:
                case.look()
            time.sleep(2)
    say(f"load {os.getloadavg()[0]:.0f} on {os.cpu_count()} processors; milliseconds and shares of a hundred")
    say("client starts  ppm  mean ms  spread   worst  within  answered  quick")
    for case in cases:
        say(case.row("ntp", case.readings, begin, 1 if case.judge else 2))
    for case in cases:
        if case.other:
            say(case.row("sock", case.bridged, begin + 270, 2))
    say("of ntp, starts and ppm; when           mean ms   worst  reporting  within")
    for case in cases:
        for line in case.stretches():
            say(line)


def read_words() -> argparse.Namespace:
    words = argparse.ArgumentParser(description=__doc__, formatter_class=argparse.RawDescriptionHelpFormatter)
    words.add_argument("--plan", default="dcf", choices=("dcf", "msf", "wwvb"))
    words.add_argument("--minutes", type=int, default=30)
    words.add_argument("--jitter", type=float, default=8)
    words.add_argument("--outliers", type=float, default=0.03)
    words.add_argument("--fade", type=lambda text: pair(text, ":"), default=(8.0, 18.0), metavar="FROM:TO", help="in minutes")
    words.add_argument("--change", type=float, default=22, help="the minute at which another run begins")
    words.add_argument("--keep", type=pathlib.Path, help="a folder, made anew, in which the measurements and the keepers' files stay")
    words.add_argument("--ppm", type=float, nargs="+", default=[0, 50])
    return words.parse_args()


def main() -> None:
    asked = read_words()
    fade = (round(60 * asked.fade[0]), round(60 * asked.fade[1]))
    plan = Plan(asked.plan, 60 * asked.minutes, asked.jitter, asked.outliers, fade, round(60 * asked.change))
    signal.signal(signal.SIGTERM, signal.default_int_handler)
    program()  # it has to be there
    with tempfile.TemporaryDirectory() as folder:
        if asked.keep:
            asked.keep.mkdir(mode=0o700)
        try:
            run(plan, asked.ppm, asked.keep or pathlib.Path(folder), print)
        except Wrong as fault:
            sys.exit(f"accuracy.py: {fault}")


if __name__ == "__main__":
    ends.run(main)
