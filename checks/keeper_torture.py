"""What the keeper and the feeders read, by chance and again and again: keeper.toml, state, logs,
answers of servers, arguments. None may raise what it doesn't say, hang, or refuse without a word.

    python3 -m checks.torture --keeper SECONDS [SEED]
    python3 -m checks.keeper_torture KIND NUMBER [SEED]    one of them again, with its traceback

A number of a kind has the same input wherever it is made, but for the clock's moments in it.
"""

import argparse
import contextlib
import logging
import random
import signal
import sys
import tempfile
import time
from collections.abc import Callable, Iterator, Mapping
from pathlib import Path

from checks import keeper_arguments, keeper_inputs

Kind = Callable[[random.Random, Path], None]
KINDS: Mapping[str, Kind] = {**keeper_inputs.KINDS, **keeper_arguments.KINDS}
SEED = 2026
LONGEST = 30.0  # for one input (s)
SHOWN = 20


@contextlib.contextmanager
def limited(seconds: float) -> Iterator[None]:
    """What takes longer raises Wrong."""
    def late(*_: object) -> None:
        raise keeper_arguments.Wrong(f"hangs: {seconds:g} s")

    before = signal.signal(signal.SIGALRM, late)
    signal.setitimer(signal.ITIMER_REAL, seconds)
    try:
        yield
    finally:
        signal.setitimer(signal.ITIMER_REAL, 0)
        signal.signal(signal.SIGALRM, before)


def one(kind: Kind, name: str, number: int, seed: int, folder: Path) -> None:
    """Tries the input of this number. Raises whatever goes wrong."""
    with limited(LONGEST):
        kind(random.Random(f"{seed}/{name}/{number}"), folder)


def run(seconds: float, seed: int = SEED, kinds: Mapping[str, Kind] = KINDS) -> int:
    """How many inputs were read wrongly within a number of seconds; the first are said."""
    logging.disable(logging.CRITICAL)
    end, bad, number = time.monotonic() + seconds, 0, 0
    with tempfile.TemporaryDirectory() as folder:
        while time.monotonic() < end:
            for name, kind in kinds.items():
                try:
                    one(kind, name, number, seed, Path(folder))
                except Exception as wrong:
                    bad += 1
                    if bad <= SHOWN:
                        print(f"keeper: {name} {number}: {wrong!r:.300}", file=sys.stderr)
            number += 1
    what = ", ".join(kinds)
    print(f"keeper: {number} inputs of each kind ({what}), seed {seed}, in {seconds:.0f} s: {bad} "
          "not as the pages say")
    return bad


def main() -> None:
    """Repeats one input, to see where it was raised."""
    parser = argparse.ArgumentParser(description="Repeats one input.")
    parser.add_argument("kind", choices=KINDS)
    parser.add_argument("number", type=int)
    parser.add_argument("seed", type=int, nargs="?", default=SEED)
    asked = parser.parse_args()
    with tempfile.TemporaryDirectory() as held:
        one(KINDS[asked.kind], asked.kind, asked.number, asked.seed, Path(held))


if __name__ == "__main__":
    main()
