"""What steady.py does to what the program says, by receivers in software whose true moments are known.

    python3 -m bench.steadied spread [--minutes N] [--seeds N]     how far off the moments are that `decode` reports, and how soon they are better
    python3 -m bench.steadied year [--days N] [--bits SHARE ..]    whether any minute of a year of DCF77 says something else
    python3 -m bench.steadied holdover [--seeds N] [--ppm N]       whether the time holds what it promises, an hour and six hours after reception

Each takes --jobs N too: in how many processes it works, one for each processor where it isn't given.

steady.sh, steady_year.sh and holdover.sh call it. It ends with 1 where the program doesn't do its part, and `year` where a verdict is wrong
that isn't wrong without steady.py.
"""

import argparse
import datetime
import functools
import multiprocessing
import os
import pathlib
import signal
import statistics
import tempfile
from typing import Callable, Iterable, Iterator, NoReturn, Sequence

from bench.known_logs import BEGIN, FIRST, Report, decode, errors, is_wrong, late, replay
from feeders.steady import Steady
from lab import ends
from lab.program import program
from lab.receiver import Faults, made_log

PLANS = ("dcf", "msf", "wwvb")
JITTERS = (2, 8, 15)  # milliseconds
OUTLIERS = 0.03


def faults_of(jitter: float, normal: bool, ppm: float, **others: float) -> Faults:
    return Faults(jitter=jitter * 1000, normal=normal, outliers=OUTLIERS, ppm=ppm, **others)


def write_logs(folder: pathlib.Path, lines: Iterable[tuple[int, int, int]]) -> tuple[pathlib.Path, pathlib.Path]:
    """Writes the log of these reductions as it comes and as steady.py gives it."""
    raw, steadied, steady = folder / "raw.log", folder / "steady.log", Steady()
    with raw.open("wb", 1 << 20) as one, steadied.open("wb", 1 << 20) as other:
        for _, start, width in lines:
            line = b"%d %d\n" % (start, width)
            one.write(line)
            other.write(steady.line(line))
    return raw, steadied


def spread_of(plan: str, jitter: float, ppm: float, normal: bool, minutes: int) -> str:
    with tempfile.TemporaryDirectory() as folder:
        lines = made_log(plan, FIRST, minutes, faults_of(jitter, normal, ppm), 1, BEGIN)
        logs = write_logs(pathlib.Path(folder), lines)
        raw, steady = (errors(plan, log, ppm) for log in logs)
    before, after = statistics.pstdev(raw), statistics.pstdev(steady)
    shape = "normal" if normal else "even"
    return (
        f"{plan:5} {shape:7} {jitter:3g} {ppm:4g} {len(raw):6} {before:7.2f} {len(steady):6} {after:7.2f} {before / after:6.1f}"
        f" {statistics.mean(steady):7.2f} {max(abs(one) for one in steady):7.2f}"
    )


def settled(plan: str, jitter: float, ppm: float, seeds: int) -> str:
    """How far off the first minutes of a log are, over many receivers."""
    by_minute: dict[int, list[float]] = {}
    raw: list[float] = []
    with tempfile.TemporaryDirectory() as folder:
        for seed in range(seeds):
            logs = write_logs(pathlib.Path(folder), made_log(plan, FIRST, 16, faults_of(jitter, False, ppm), seed, BEGIN))
            raw += errors(plan, logs[0], ppm)
            for report in decode(plan, logs[1]):
                if report.said.startswith("verdict"):
                    by_minute.setdefault(round((report.close - BEGIN) / 60_000_000), []).append(late(report, ppm))
    cells = " ".join(f"{statistics.pstdev(by_minute[minute]):6.2f}" if minute in by_minute else "     -" for minute in (2, 3, 4, 6, 10, 16))
    return f"{plan:5} {jitter:3g} {ppm:4g} {statistics.pstdev(raw):7.2f} {cells}"


def spread(words: argparse.Namespace) -> int:
    jobs = [
        functools.partial(spread_of, plan, jitter, ppm, normal, words.minutes)
        for normal in (False, True)
        for plan in PLANS
        for jitter in JITTERS
        for ppm in (0, 50)
    ]
    print("plan  jitter   ms  ppm    raw  spread steady  spread  times    mean   worst    (ms)")
    show(side_by_side(jobs, words.jobs))
    print("plan   ms  ppm     raw  spread of the verdicts at minute 2, 3, 4, 6, 10 and 16, steady (ms)")
    show(side_by_side([functools.partial(settled, plan, jitter, 50, words.seeds) for plan in PLANS for jitter in JITTERS], words.jobs))
    return 0


def side_by_side(jobs: Sequence[Callable], processes: int) -> Iterator:
    """What some functions give, in their order, run in this number of processes."""
    with multiprocessing.Pool(processes, end_quietly) as pool:
        yield from pool.imap(call, jobs)


def end_quietly() -> None:
    """Has a worker end when its parent ends it, and leave an interrupt to that."""
    signal.signal(signal.SIGTERM, signal.SIG_DFL)
    signal.signal(signal.SIGINT, signal.SIG_IGN)


def interrupt(*_) -> NoReturn:
    """Ends the work once, however many signals come."""
    signal.signal(signal.SIGTERM, signal.SIG_IGN)
    signal.signal(signal.SIGINT, signal.SIG_IGN)
    raise KeyboardInterrupt


def call(job: Callable):
    return job()


def show(lines: Iterable[str]) -> None:
    """Prints lines as they come."""
    for line in lines:
        print(line, flush=True)


def what(report: Report) -> list[str]:
    """What a line says, without the distance of two closing marks."""
    words = report.said.split()
    return words[:3] if words[0] == "differs" else words


def some_days(bits: float, jitter: float, day: int, days: int) -> dict[str, int]:
    """Counts over some days of DCF77, from this day of the year on, on a counter that is 20 parts in a million off."""
    first = FIRST + datetime.timedelta(days=day)
    lines = made_log("dcf", first, 1440 * days, faults_of(jitter, False, 20, bits=bits, lost=0.001), day, BEGIN)
    with tempfile.TemporaryDirectory() as folder:
        raw, steady = (decode("dcf", log) for log in write_logs(pathlib.Path(folder), lines))
    wrong_raw = {place for place, report in enumerate(raw) if is_wrong(report, first, 20)}
    wrong_steady = {place for place, report in enumerate(steady) if is_wrong(report, first, 20)}
    return {
        "minutes": 1440 * days,
        "verdicts": sum(report.said.startswith("verdict") for report in raw),
        "wrong": len(wrong_raw),
        "steady verdicts": sum(report.said.startswith("verdict") for report in steady),
        "steady wrong": len(wrong_steady),
        "wrong with steady alone": len(wrong_steady - wrong_raw),
        "lines that say something else": sum(what(one) != what(other) for one, other in zip(raw, steady)) + abs(len(raw) - len(steady)),
    }


def year(words: argparse.Namespace) -> int:
    bad = 0
    for bits in words.bits:
        jobs = [functools.partial(some_days, bits, words.jitter, day, min(10, words.days - day)) for day in range(0, words.days, 10)]
        sums: dict[str, int] = {}
        for counts in side_by_side(jobs, words.jobs):
            sums = {name: sums.get(name, 0) + count for name, count in counts.items()}
        bad += sums["wrong with steady alone"]
        counted = ", ".join(f"{name} {count}" for name, count in sums.items())
        print(f"{100 * bits:g} of a hundred bits wrong, {words.jitter:g} ms of jitter: {counted}", flush=True)
    return 1 if bad else 0


def held(plan: str, jitter: float, ppm: float, normal: bool, seeds: int) -> str:
    """In how many of some runs the time was farther off than it said, an hour and six hours after reception."""
    passed = {True: [0, 0, 0], False: [0, 0, 0]}
    worst = {True: (0.0, 0.0), False: (0.0, 0.0)}
    silent = {True: 0, False: 0}
    with tempfile.TemporaryDirectory() as name:
        folder = pathlib.Path(name)
        for seed in range(seeds):
            logs = write_logs(folder, made_log(plan, FIRST, 15, faults_of(jitter, normal, ppm), seed, BEGIN))
            for steady, log in zip((False, True), logs):
                replies = replay(plan, log, folder, ppm)
                if len(replies) != 2:
                    silent[steady] += 1
                    continue
                over = [abs(error) > bound for error, bound in replies]
                passed[steady] = [count + one for count, one in zip(passed[steady], (*over, any(over)))]
                worst[steady] = max(worst[steady], max(replies, key=lambda one: abs(one[0])), key=lambda one: abs(one[0]))
    cells = "".join(f" {passed[one][0]:6} {passed[one][1]:6} {passed[one][2]:6} {silent[one]:5} {abs(worst[one][0]):8.0f} {worst[one][1]:6.0f} |" for one in (False, True))
    return f"{plan:5} {'normal' if normal else 'even':6} {jitter:3g} {ppm:4g} |{cells}"


def holdover(words: argparse.Namespace) -> int:
    jobs = [functools.partial(held, plan, jitter, words.ppm, normal, words.seeds) for normal in (False, True) for plan in PLANS for jitter in JITTERS]
    print(f"of {words.seeds} runs: how many were farther off than they said an hour on, six hours on, at either; had no time; worst error, what it said (ms)")
    print("plan  jitter  ms  ppm |    raw                                    | steady")
    show(side_by_side(jobs, words.jobs))
    return 0


def main() -> int:
    words = argparse.ArgumentParser(description=__doc__, formatter_class=argparse.RawDescriptionHelpFormatter)
    kinds = words.add_subparsers(dest="kind", required=True)
    for name, does in (("spread", spread), ("year", year), ("holdover", holdover)):
        kind = kinds.add_parser(name)
        kind.set_defaults(does=does)
        kind.add_argument("--jobs", type=int, default=os.cpu_count(), help="how many processes work on it (one for each processor)")
    kinds.choices["spread"].add_argument("--minutes", type=int, default=1440)
    kinds.choices["spread"].add_argument("--seeds", type=int, default=40)
    kinds.choices["year"].add_argument("--days", type=int, default=365)
    kinds.choices["year"].add_argument("--bits", type=float, nargs="+", default=[0.01, 0.03])
    kinds.choices["year"].add_argument("--jitter", type=float, default=15)
    kinds.choices["holdover"].add_argument("--seeds", type=int, default=100)
    kinds.choices["holdover"].add_argument("--ppm", type=float, default=0)
    asked = words.parse_args()
    signal.signal(signal.SIGTERM, interrupt)
    signal.signal(signal.SIGINT, interrupt)
    # What a worker that is ended leaves goes with this folder.
    with tempfile.TemporaryDirectory() as tempfile.tempdir:
        program()  # it has to be there
        return asked.does(asked)


if __name__ == "__main__":
    ends.run(main)
