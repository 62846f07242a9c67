"""Spoils good files by chance, runs the program over each, and judges what it writes and how it ends by lab/grammar.

    python3 -m checks.torture COUNT SECONDS [SEED]     COUNT fuzzed files of each kind, as far as the seconds go
    python3 -m checks.torture --one KIND NUMBER [SEED] writes one of them, for a look at what went wrong
    python3 -m checks.torture --keeper SECONDS [SEED]  what the keeper and the feeders read (keeper_torture.py)

A kind is a log of a plan, a script, a station, or a journal of either form (fuzzed_kinds.py). A file has the same spoils wherever it is
made: they depend only on the seed, the kind and the number.
"""

import argparse
import multiprocessing
import os
import pathlib
import queue
import random
import sys
import tempfile
import time

from checks import keeper_torture
from checks.fuzzed_kinds import Kind, kinds
from checks.limited_runner import LONGEST, Runner
from checks.spoils import spoil
from lab import ends, grammar

SEED = 2026


def damaged(kind: Kind, name: str, number: int, seed: int) -> tuple[bytes, random.Random]:
    """Returns the file of this number: its bytes, and the draw that goes on after it."""
    draw = random.Random(f"{seed}/{name}/{number}")
    lines = kind.lines(draw)
    return spoil(draw, lines), draw


def work(
    ours: tuple[int, int], all_: dict[str, Kind], folder: pathlib.Path, count: int, until: float, seed: int, told: multiprocessing.Queue
) -> None:
    """Does the share of one of several workers: every so manieth number, all kinds of it. What is wrong, and then how many numbers were
    done, goes into a queue."""
    place, workers = ours
    path = f"{folder}/damaged.{place}"
    done = 0
    run = Runner(folder, place)
    for number in range(place, count, workers):
        if time.monotonic() > until:
            break
        for name, kind in all_.items():
            data, draw = damaged(kind, name, number, seed)
            with open(path, "wb") as file:
                file.write(data)
            try:
                kind.judge(run, path, data, folder, draw)
            except (grammar.Wrong, ValueError, IndexError) as wrong:
                told.put((name, number, repr(wrong)))
        done += 1
    run.end()
    told.put((None, done, None))


def judge_all(count: int, seconds: float, seed: int) -> int:
    """Judges that many files of each kind in a worker for each processor, says what is wrong, and returns how many are."""
    shared = "/dev/shm" if os.access("/dev/shm", os.W_OK) else None
    with tempfile.TemporaryDirectory(dir=shared) as folder:
        all_ = kinds(pathlib.Path(folder))
        context = multiprocessing.get_context("fork")
        told, workers = context.Queue(), os.cpu_count() or 1
        began = time.monotonic()
        rest = (all_, folder, count, began + seconds, seed, told)
        pool = [context.Process(target=work, args=((place, workers), *rest)) for place in range(workers)]
        for one in pool:
            one.start()
        done = bad = ended = 0
        while ended < workers:
            try:
                name, number, why = told.get(timeout=LONGEST)
            except queue.Empty:
                if any(one.is_alive() for one in pool):
                    continue
                sys.exit(f"torture.py: {workers - ended} of {workers} workers have ended before their time")
            if name is None:
                done, ended = done + number, ended + 1
            else:
                bad += 1
                if bad <= 20:
                    print(f"torture: {name} {number}: {why}", file=sys.stderr)
        for one in pool:
            one.join()
        took = time.monotonic() - began
    what = ", ".join(all_)
    print(f"torture: {done} of {count} files of each kind ({what}), seed {seed}, in {took:.0f} s: {bad} not as the pages say")
    return bad


def main() -> None:
    words = argparse.ArgumentParser(description=__doc__, formatter_class=argparse.RawDescriptionHelpFormatter)
    words.add_argument("--one", metavar="KIND")
    words.add_argument("--keeper", action="store_true")
    words.add_argument("numbers", nargs="+", type=float)
    asked = words.parse_args()
    least = 1 if asked.one or asked.keeper else 2
    if not least <= len(asked.numbers) <= least + 1:
        words.error(f"{least} or {least + 1} numbers")
    seed = int(asked.numbers[least]) if len(asked.numbers) > least else SEED
    if asked.keeper:
        sys.exit(keeper_torture.run(asked.numbers[0], seed) > 0)
    if asked.one:
        with tempfile.TemporaryDirectory() as folder:
            all_ = kinds(pathlib.Path(folder))
            if asked.one not in all_:
                words.error(f"a kind is one of {', '.join(all_)}")
            sys.stdout.buffer.write(damaged(all_[asked.one], asked.one, int(asked.numbers[0]), seed)[0])
        return
    sys.exit(judge_all(int(asked.numbers[0]), asked.numbers[1], seed) > 0)


if __name__ == "__main__":
    ends.run(main)
