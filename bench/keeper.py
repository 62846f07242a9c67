"""What the keeper costs and how accurate its time is, on the built program and receivers in software. See bench/keeper.sh."""

import argparse
import os
import pathlib
import re
import statistics
import time

from lab import ends
from lab.client import offset
from lab.kept import PLANS, Kept, base_now, descendants, radio

STARTS = 30
CHANGES = 10
STEADY = 60.0  # how long processor time is looked at, in seconds
ASKED = 60
RATE = 1000  # requests a second while runs change
TICKS = os.sysconf("SC_CLK_TCK")


def radios(base: float, plans: tuple[str, ...]) -> list[tuple[str, str]]:
    return [(plan, f'command = "{radio(plan, base)}"') for plan in plans]


def starts(base: float) -> None:
    """The error of the served time against the receiver, run by run."""
    with Kept(radios(base, ("dcf",)), "cycle = 2") as kept:
        kept.start()
        errors = []
        for run in range(1, STARTS + 1):
            kept.waits("has the time", 60, run)
            time.sleep(0.1)
            errors.append(offset(kept.port, base, ASKED) * 1e6)
        text = kept.text()
        lags = [float(one) for one in re.findall(r"began (-?\d+) us late", text)][:STARTS]
        bounds = [float(one) for one in re.findall(r"known within (\d+) us", text)][:STARTS]
        after = [float(one) for one in re.findall(r"has the time after (\d+) ms", text)][1:]
        kept.stop()
    sizes = sorted(abs(one) for one in errors)
    print(f"{STARTS} starts: error of the served time {statistics.median(sizes):.0f} us in the median, {sizes[-1]:.0f} at worst ({min(errors):.0f} to {max(errors):.0f})")
    print(f"  counters began {statistics.median(lags):.0f} us late in the median, {max(lags):.0f} at worst; known within {statistics.median(bounds):.0f}, at worst {max(bounds):.0f}")
    print(f"  time after {statistics.median(after):.0f} ms in the median, {max(after):.0f} at worst")


def changes(base: float) -> None:
    """Silence and time without time at a change of run."""
    with Kept(radios(base, PLANS), "cycle = 3") as kept:
        kept.start()
        kept.waits("has the time")
        client = kept.client(base, RATE)
        kept.waits("has the time", 120, CHANGES + 1)
        met = client.report()
        kept.client(base)
        time.sleep(1)
        began = time.monotonic()
        kept.stop()
        ended = time.monotonic() - began
    for name, what in (("silences", "without an answer"), ("untimes", "without time")):
        spans = sorted(seconds * 1000 for _, seconds, _ in met[name]) or [0.0]
        print(f"{CHANGES} changes under {RATE} requests a second: {what} {statistics.median(spans):.1f} ms in the median, {spans[-1]:.1f} at worst, {len(spans)} spans")
    print(f"  {met['asked']} requests, {met['answered']} answered, {met['wrong']} wrong, the greatest error {met['error'] * 1e6:.0f} us")
    print(f"  from SIGTERM to the end, under {kept.RATE} requests a second: {ended:.2f} s")


def used(process: int) -> float:
    """Processor time of a process and of those of its own that have ended (s)."""
    try:
        words = pathlib.Path(f"/proc/{process}/stat").read_text().rpartition(")")[2].split()
    except OSError:
        return 0.0
    return sum(int(one) for one in words[11:15]) / TICKS


def proportional(process: int) -> int:
    """What a process has in memory, its part of what it shares with others (KB)."""
    rows = pathlib.Path(f"/proc/{process}/smaps_rollup").read_text().splitlines()
    return next(int(row.split()[1]) for row in rows if row.startswith("Pss:"))


def costs(base: float) -> None:
    """Processor time and memory of the keeper and of what it starts, the receivers in software left out."""
    with Kept(radios(base, PLANS)) as kept:
        kept.start()
        kept.waits("run 1 has the time")
        time.sleep(3)
        mine = [kept.process.pid, *descendants(kept.process.pid)]
        mine = [one for one in mine if "lab.receiver" not in pathlib.Path(f"/proc/{one}/cmdline").read_text()]
        before, keeper = sum(used(one) for one in mine), used(kept.process.pid)
        time.sleep(STEADY)
        steady, alone = sum(used(one) for one in mine) - before, used(kept.process.pid) - keeper
        memory = {one: proportional(one) for one in mine}
        print(f"an hour of three radios: {steady * 3600 / STEADY:.0f} s of processor time, the keeper alone {alone * 3600 / STEADY:.0f}; memory {sum(memory.values()) / 1024:.0f} MB, the keeper alone {memory[kept.process.pid] / 1024:.0f}")
        before = used(kept.process.pid)
        kept.process.send_signal(1)
        kept.waits("run 2 has the time")
        time.sleep(0.5)
        print(f"  a change of run: {used(kept.process.pid) - before:.1f} s more, the ended server's with it")
        kept.stop()


def main() -> None:
    parts = {part.__name__: part for part in (starts, changes, costs)}
    parser = argparse.ArgumentParser(description="Measures the keeper on the built program.")
    parser.add_argument("part", nargs="*", metavar="PART", help=", ".join(parts))
    given = parser.parse_args().part
    if not set(given) <= set(parts):
        parser.error(f"a part is one of {', '.join(parts)}")
    base = base_now()
    for name in given or parts:
        parts[name](base)
    print(f"load {os.getloadavg()[0]:.1f} on {os.cpu_count()} processors")


if __name__ == "__main__":
    ends.run(main)
