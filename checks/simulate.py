"""Runs the supervisor's own loop through simulated histories of faults, in virtual time.

    python3 -m checks.simulate 200              # the seeds 0 to 199
    python3 -m checks.simulate 1 --first 47 --say --shorten
    python3 -m checks.simulate --history checks/simulation/found/*.txt   # each found something
    python3 -m checks.simulate --changes 10000  # of run, without a fault: nothing grows

What is simulated and what is judged stands in simulation/__init__.py.
Exit status: 0 nothing was found, 1 something was, 2 invalid arguments.
"""

import argparse
import multiprocessing
import sys
import time
from pathlib import Path

from checks.simulation.changes import Changes
from checks.simulation.history import History, made, parse
from checks.simulation.play import Play, play
from checks.simulation.shorten import shorten
from keeper.supervisor.supervisor import Supervisor


def told(history: History, played: Play, says: bool) -> str:
    """What was found in a history, with its text."""
    lines = [history.text().rstrip()]
    if says:
        lines += [f"    {at:.3f} {text}" for at, _, text in played.judge.kept.sentences]
    lines += [f"  {one.at:.3f} {one.rule}: {one.text}" for one in played.findings]
    return "\n".join(lines)


def shortest(history: History, rule: str) -> History:
    """The shortest history in which a rule is broken."""
    return shorten(history, lambda one: any(found.rule == rule
                                            for found in play(one, Supervisor).findings))


def one(given: tuple[int, float, tuple[str, ...]]) -> tuple[int, str, tuple[float, ...]]:
    """Plays a seed. What was found, and counts."""
    seed, span, passed = given
    history = made(seed, span)
    played = play(history, Supervisor)
    judge = played.judge
    judge.findings[:] = [found for found in judge.findings if found.rule not in passed]
    return seed, told(history, played, False) if judge.findings else "", (
        played.world.now, played.turns, played.starts, judge.kept.runs, len(judge.faults),
        judge.clients.without)


def main() -> int:
    parser = argparse.ArgumentParser(description="Simulated histories of faults.")
    parser.add_argument("seeds", type=int, nargs="?", default=1, help="how many")
    parser.add_argument("--first", type=int, default=0, help="the first seed")
    parser.add_argument("--span", type=float, default=1800.0, help="of a history, in seconds")
    parser.add_argument("--jobs", type=int, default=1, help="processes")
    parser.add_argument("--say", action="store_true", help="print what the supervisor said")
    parser.add_argument("--shorten", action="store_true", help="shorten what fails")
    parser.add_argument("--history", type=Path, nargs="+", help="play these histories")
    parser.add_argument("--until", action="store_true", help="stop at the first that fails")
    parser.add_argument("--changes", type=int, help="play this many changes of run, and count")
    parser.add_argument("--pass", dest="passed", action="append", default=[], help="a rule")
    words = parser.parse_args()
    if words.history:
        return min(1, sum([by_text(path, words.say) for path in words.history]))
    return changes(words.changes) if words.changes else many(words)


def by_text(path: Path, says: bool) -> bool:
    """Plays the history of a file. Whether something was found."""
    history = parse(path.read_text())
    played = play(history, Supervisor)
    if says or played.findings:
        print(f"{path}:\n{told(history, played, says)}")
    return bool(played.findings)


def changes(count: int) -> int:
    """Changes of run without a fault: nothing grows."""
    began = time.monotonic()
    played = Changes(Supervisor, count)
    played.run()
    for row in played.counts:
        print("%d changes: %d descriptors, %d processes, %d ends, %d files, %d objects" % row)
    for one in played.findings:
        print(f"  {one.at:.3f} {one.rule}: {one.text}")
    for text in played.grown():
        print(f"  more {text}")
    print(f"{played.judge.kept.runs} changes; {time.monotonic() - began:.0f} s")
    return 1 if played.findings or played.grown() else 0


def many(words: argparse.Namespace) -> int:
    """Plays many seeds, and counts."""
    began, failed, sums = time.monotonic(), 0, [0.0] * 6
    given = [(seed, words.span, tuple(words.passed))
             for seed in range(words.first, words.first + words.seeds)]
    with multiprocessing.Pool(words.jobs) as pool:
        done = pool.imap_unordered(one, given) if words.jobs > 1 else map(one, given)
        for seed, text, counts in done:
            sums = [before + more for before, more in zip(sums, counts)]
            failed += bool(text)
            if text:
                print(text, flush=True)
            if words.say or text and words.shorten:
                more(seed, words)
            if text and words.until:
                print(f"seed {seed}, after {seed - words.first + 1}")
                break
    print(f"{words.seeds} histories, {sums[0] / 3600:.1f} hours, {sums[4]:.0f} faults, "
          f"{sums[3]:.0f} runs, {sums[2]:.0f} starts, {sums[1]:.0f} turns, "
          f"{sums[5]:.1f} s without the time; {failed} failed; "
          f"{time.monotonic() - began:.0f} s")
    return 1 if failed else 0


def more(seed: int, words: argparse.Namespace) -> None:
    """A seed again, with what was said; and each rule that it breaks by its shortest history."""
    history = made(seed, words.span)
    played = play(history, Supervisor)
    if words.say:
        print(told(history, played, True))
    rules = sorted({found.rule for found in played.findings} - set(words.passed))
    for rule in rules if words.shorten else []:
        short = shortest(history, rule)
        print(f"shortest for: {rule}")
        print(told(short, play(short, Supervisor), True))


if __name__ == "__main__":
    sys.exit(main())
