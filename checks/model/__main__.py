"""Compares the program with a model of what it computes, lab/model, which is written from the pages of docs/ and
shares no code with it. Each case is a run over files that are meant for a rule, a bound or an outcome, or that a seed
makes; the whole text and the exit status have to be the model's. RADIO_NTPD names another program.

    python3 -m checks.model [CASES [SEED]]             all cases that are meant for something, and this many drawn ones
    python3 -m checks.model --one KIND NUMBER [SEED]   one of them: writes its files, its command and both texts into a folder
"""

import argparse
import collections
import os
import pathlib
import subprocess
import sys
import tempfile
import time

from checks.model import listed
from checks.model.cases import kinds
from checks.model.run import Outcome, all_cases, difference, run
from lab.program import program

CASES, SEED, SHOWN = 1000, 2026, 20


def one(kind: str, number: int, seed: int) -> int:
    """Runs one case, and leaves it in a folder of its own."""
    case = kinds.case(kind, kinds.KINDS[kind].directed(), number, seed)
    folder = pathlib.Path(tempfile.mkdtemp(prefix=f"model-{kind}-{number}-"))
    got = run(program(), folder, case)
    due = case.due(got.text)
    (folder / "model.text").write_text(due.text)
    (folder / "program.text").write_text(got.text)
    why = difference(due, got)
    print(f"{case.name}\nin {folder}: {program()} {' '.join(case.words)}\n{why or 'both are the same'}")
    return int(why is not None)


def missing(met: collections.Counter[str]) -> list[str]:
    """What was listed and not met, and what was met and is not listed."""
    found = [f"no case met '{name}'" for name in sorted(listed.LISTED - set(met))]
    return found + [f"'{name}' was met and is not listed" for name in sorted(set(met) - listed.LISTED)]


def report(outcome: Outcome, seed: int, took: float, show: bool) -> int:
    """What was compared, and each difference."""
    wrong = [*outcome.wrong, *missing(outcome.met)]
    for text in wrong[:SHOWN]:
        print(f"model: {text}", file=sys.stderr)
    if show:
        for name in sorted(outcome.met):
            print(f"{outcome.met[name]:8} {name}")
    met = len(listed.LISTED & set(outcome.met))
    listed_met = f"{met} of {len(listed.LISTED)} rules, refusals and outcomes met"
    print(f"model: {outcome.cases} cases, seed {seed}, in {took:.0f} s: {len(wrong)} wrong; {listed_met}")
    return int(bool(wrong))


def main() -> int:
    words = argparse.ArgumentParser(description=__doc__, formatter_class=argparse.RawDescriptionHelpFormatter)
    words.add_argument("--one", metavar="KIND", choices=kinds.KINDS)
    words.add_argument("--show", action="store_true", help="how many cases met each rule, refusal and outcome")
    words.add_argument("numbers", nargs="*", type=int)
    asked = words.parse_args()
    least = 1 if asked.one else 0
    if not least <= len(asked.numbers) <= least + (1 if asked.one else 2) or min(asked.numbers, default=0) < 0:
        words.error("a case has a number, and may have a seed; a run may have a count and a seed")
    if asked.one:
        return one(asked.one, asked.numbers[0], (asked.numbers + [SEED])[1])
    cases, seed = asked.numbers + [CASES, SEED][len(asked.numbers) :]
    began = time.monotonic()
    shared = "/dev/shm" if os.access("/dev/shm", os.W_OK) else None
    with tempfile.TemporaryDirectory(dir=shared) as folder:
        outcome = all_cases(program(), pathlib.Path(folder), kinds.drawn(cases), seed)
    return report(outcome, seed, time.monotonic() - began, asked.show)


if __name__ == "__main__":
    try:
        sys.exit(main())
    except IndexError as fault:
        sys.exit(f"model: there is no case {fault}")
    except (OSError, subprocess.TimeoutExpired) as fault:
        sys.exit(f"model: {fault}")
