"""Runs the program over cases, and compares its whole text and its exit status with what the model gives."""

import collections
import multiprocessing
import os
import pathlib
import queue
import subprocess
import sys
from typing import NamedTuple

from lab.model import notes
from .cases.case import Case
from .cases.kinds import KINDS, case
from lab.model.commands import Ended

# How long a run may take, in seconds.
LONGEST = 120


class Outcome(NamedTuple):
    """What came of some cases: how many, what each met, and the differences."""

    cases: int
    met: collections.Counter[str]
    wrong: list[str]


def run(program: str, folder: pathlib.Path, one: Case) -> Ended:
    """What the program writes in a folder with the case's files, and its status."""
    with one.beside() as more:
        for name, data in {**one.files, **more}.items():
            (folder / name).write_bytes(data)
        done = subprocess.run(
            [program, *one.words], cwd=folder, stdin=subprocess.DEVNULL, capture_output=True, timeout=LONGEST
        )
    return Ended(done.stdout.decode("utf-8", "replace"), done.returncode)


def difference(due: Ended, got: Ended) -> str | None:
    """The first line that differs, as both have it, or None."""
    if due == got:
        return None
    lines = due.text.split("\n"), got.text.split("\n")
    for number, (ours, theirs) in enumerate(zip(*lines), 1):
        if ours != theirs:
            return f"line {number}\n  the model:   {ours}\n  the program: {theirs}"
    if due.text != got.text:
        return f"line {min(map(len, lines))}, where one of both ends"
    return f"the exit status\n  the model:   {due.status}\n  the program: {got.status}"


def judge(program: str, folder: pathlib.Path, one: Case) -> tuple[set[str], str | None]:
    """What the case met, and what is wrong."""
    notes.taken()
    try:
        got = run(program, folder, one)
    except subprocess.TimeoutExpired:
        return set(), f"it runs for more than {LONGEST} s"
    try:
        due = one.due(got.text)
    except Exception as fault:  # whatever is wrong with the model, the other cases go on
        return set(), f"the model falls: {fault!r}"
    met = notes.taken()
    if one.meant and one.meant not in met:
        return met, f"the case doesn't meet what it is meant for: {one.meant}"
    return met, difference(due, got)


def _work(program: str, folder: pathlib.Path, tasks, directed: dict[str, list[Case]], seed: int, told) -> None:
    """A worker: takes the tasks that are left, one by one."""
    folder.mkdir()
    met: collections.Counter[str] = collections.Counter()
    wrong, done = [], 0
    while (task := tasks.get()) is not None:
        name, number = task
        one = case(name, directed[name], number, seed)
        found, why = judge(program, folder, one)
        met.update(found)
        done += 1
        if why:
            again = f"python3 -B -m checks.model --one {name} {number} {seed}"
            wrong.append(f"{name} {number}, {one.name}: {why}\n  again: {again}")
    told.put(Outcome(done, met, wrong))


def all_cases(program: str, folder: pathlib.Path, drawn: dict[str, int], seed: int) -> Outcome:
    """All directed cases, and this many drawn ones of each kind, on all processors."""
    context = multiprocessing.get_context("fork")
    tasks, told, workers = context.Queue(), context.Queue(), os.cpu_count() or 1
    directed = {name: kind.directed() for name, kind in KINDS.items()}
    # The long ones first, so that no worker ends late.
    for name in sorted(KINDS, key=lambda one: one != "drill"):
        for number in range(len(directed[name]) + drawn[name]):
            tasks.put((name, number))
    pool = []
    for place in range(workers):
        tasks.put(None)
        pool.append(
            context.Process(
                target=_work, args=(program, folder / str(place), tasks, directed, seed, told), daemon=True
            )
        )
        pool[-1].start()
    outcomes = [_next(told, pool) for _ in pool]
    met: collections.Counter[str] = sum((one.met for one in outcomes), collections.Counter())
    return Outcome(sum(one.cases for one in outcomes), met, [text for one in outcomes for text in one.wrong])


def _next(told, pool) -> Outcome:
    """A worker's outcome; a worker that fell says so on standard error, and has none."""
    while True:
        try:
            return told.get(timeout=1)
        except queue.Empty:
            if any(one.exitcode for one in pool):
                sys.exit("model: a worker fell")
