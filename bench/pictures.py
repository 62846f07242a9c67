"""Draws the pictures of the pages from logs of receivers in software; see pictures.sh, which calls this.

    python3 -m bench.pictures WORK PICTURES

WORK is a folder to work in, and PICTURES the one that the pictures are written to.

    reception.svg, offsets.svg  the day that `drill --seed 7` makes up, replayed from its logs
    day.svg                     a day of DCF77 and MSF with 8 ms of jitter, steady, two hours of it without any reception, a bound of 50 ms
    phase.svg                   four hours of DCF77 with 8 ms of jitter, as it came and steady
"""

import dataclasses
import pathlib
import subprocess
import sys
from typing import BinaryIO

from bench.known_logs import BEGIN, FIRST
from bench.steadied import write_logs
from lab import ends
from lab.model.spelling import made_log as drill_log
from lab.program import TOP, program
from lab.receiver import MINUTE, Faults, made_log

DAY = 1440  # minutes
NOISY, SILENT = (300, 480), (720, 840)  # minutes in which 3 of a hundred bits of DCF77 are wrong, and in which nothing is received
JITTER = Faults(jitter=8000, outliers=0.03, ppm=5)


def journal(folder: pathlib.Path, name: str, logs: dict[str, list[str]], bound: int) -> list[str]:
    """Replays the logs of some plans, and gives the words that name the station and the journal for plot_journal.py."""
    script, station, written = (folder / f"{name}.{kind}" for kind in ("script", "toml", "journal"))
    rows = sorted((int(line.split()[0]), feed, line) for feed, lines in enumerate(logs.values()) for line in lines)
    script.write_text("".join(f"pulse {feed} {line}\n" for _, feed, line in rows))
    station.write_text(f"bound = {bound}\n" + "".join(f'[[radio]]\nplan = "{plan}"\nlog = "none"\n' for plan in logs))
    with written.open("wb") as sink:
        call([program(), "replay", "--station", station, "--script", script], sink)
    return ["--station", str(station), str(written)]


def received(folder: pathlib.Path, plan: str, seed: int) -> list[str]:
    """The steady log of a day with noise and silence."""
    noisy = dict((line[0], line) for line in made_log(plan, FIRST, DAY, dataclasses.replace(JITTER, bits=0.03), seed, BEGIN))
    lines = []
    for line in made_log(plan, FIRST, DAY, JITTER, seed, BEGIN):
        minute = (line[0] - BEGIN) // MINUTE
        if not SILENT[0] <= minute < SILENT[1]:
            lines.append(noisy.get(line[0], line) if plan == "dcf" and NOISY[0] <= minute < NOISY[1] else line)
    return write_logs(folder, lines)[1].read_text().splitlines()


def call(words: list, sink: BinaryIO | None = None) -> None:
    """Runs a program. Raises OSError where it doesn't end with 0."""
    done = subprocess.run(list(map(str, words)), stdout=sink)
    if done.returncode:
        raise OSError(f"{' '.join(map(str, words[:3]))} ended with {done.returncode}")


def draw(*words: object) -> None:
    """Calls plot_journal.py with these words."""
    call([sys.executable, "-B", TOP / "tools/plot_journal.py", *words])


def main() -> int:
    if len(sys.argv) != 3:
        print(__doc__, file=sys.stderr)
        return 2
    folder, pictures = pathlib.Path(sys.argv[1]), pathlib.Path(sys.argv[2])
    drilled = journal(folder, "drill", {plan: drill_log(plan, 7).decode().splitlines() for plan in ("dcf", "msf", "wwvb")}, 1000)
    draw("--reception", pictures / "reception.svg", "--offsets", pictures / "offsets.svg", *drilled)
    logs = {plan: received(folder, plan, seed) for seed, plan in enumerate(("dcf", "msf"))}
    draw("--day", pictures / "day.svg", *journal(folder, "day", logs, 50))
    raw, _ = write_logs(folder, made_log("dcf", FIRST, 240, JITTER, 1, BEGIN))
    draw("--phase", pictures / "phase.svg", raw)
    return 0


if __name__ == "__main__":
    ends.run(main)
