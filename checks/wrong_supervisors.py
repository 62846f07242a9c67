"""Plants each bug of simulation/wrong.py in a copy of the keeper, and sees that it is found: by its
own history, or with --seeds by the first seeds.

    python3 -m checks.wrong_supervisors             # each by its history
    python3 -m checks.wrong_supervisors --seeds 1000 --only deaf

Exit status: 0 each was found, 1 one was not, 2 invalid arguments.
"""

import argparse
import re
import subprocess
import sys
import time
from pathlib import Path

from checks.simulation.wrong import WRONG, Bug, planted

TOP = Path(__file__).resolve().parent.parent
SPAN = 900.0  # of a seed's history (s)
FOUND = re.compile(r"^  \d+\.\d{3} (.*)$", re.MULTILINE)


def tried(one: Bug, seeds: int) -> str:
    """By what a bug was found; nothing where it wasn't. Raises ValueError where it can't be
    planted or simulate.py dies."""
    with planted(TOP, one) as tree:
        history = tree / "history"
        history.write_text(one.history())
        words = ["--history", str(history)]
        if seeds:
            words = [str(seeds), "--span", str(SPAN), "--until"]
        done = subprocess.run([sys.executable, "-B", "-m", "checks.simulate", *words],
                              cwd=tree, capture_output=True, text=True, check=False)
    found = FOUND.search(done.stdout)
    if done.returncode != (1 if found else 0):
        raise ValueError(f"its simulation ended with {done.returncode}: {done.stderr[-300:]}")
    seed = re.search(r"^(seed \d+), after", done.stdout, re.MULTILINE)
    return f"{seed[1]}: {found[1]}" if found and seed else found[1] if found else ""


def main() -> int:
    parser = argparse.ArgumentParser(description="Wrong supervisors.")
    parser.add_argument("--seeds", type=int, default=0, help="at most this many for each")
    parser.add_argument("--only", default="", help="those that have this in their names")
    words = parser.parse_args()
    began, missed = time.monotonic(), 0
    chosen = [one for one in WRONG if words.only in one.name]
    for one in chosen:
        try:
            found = tried(one, words.seeds)
        except ValueError as error:
            print(f"{one.name}: CAN'T BE PLANTED: {error}", flush=True)
            missed += 1
        else:
            print(f"{one.name}: {found or 'NOT FOUND'}", flush=True)
            missed += not found
    print(f"{len(chosen)} wrong supervisors, {missed} not found; {time.monotonic() - began:.0f} s")
    return 1 if missed else 0


if __name__ == "__main__":
    sys.exit(main())
