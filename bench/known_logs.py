"""What the program says of logs that begin with a known minute, and how far off that is."""

import datetime
import pathlib
import subprocess
from typing import NamedTuple

from lab.packets import QUERY, WHOLE, read
from lab.program import program

BEGIN = 2_000_000  # the counter at the first minute, in microseconds
FIRST = datetime.datetime(2026, 1, 1, 12)
HOUR = 3_600_000_000


class Report(NamedTuple):
    """What `decode` says of a segment: the moment at which it closed, and the rest of the line."""

    close: int
    said: str


def since_1900(moment: datetime.datetime) -> int:
    """The seconds from 1900-01-01 00:00 UTC to this moment."""
    return (moment - datetime.datetime(1900, 1, 1)) // datetime.timedelta(seconds=1)


def decode(plan: str, log: pathlib.Path) -> list[Report]:
    """What the program says of a log, its segments in order."""
    done = subprocess.run([program(), "decode", "--plan", plan, "--log", str(log)], capture_output=True, text=True)
    *lines, status = done.stdout.splitlines() or [""]
    if status != "status 0":
        raise OSError(f"decode of {log.name} ended with '{status}' {done.stderr.strip()}")
    parts = (line.split(" ", 2) for line in lines)
    return [Report(int(close), said) for _, close, said in parts]


def late(report: Report, ppm: float) -> float:
    """By how many milliseconds the close of a minute lies after its true moment."""
    true = (report.close - BEGIN) / (1 + ppm * 1e-6)
    return ((true + 30_000_000) % 60_000_000 - 30_000_000) / 1000


def is_wrong(report: Report, first: datetime.datetime, ppm: float) -> bool:
    """Whether a verdict says another second than the one that began, in a log that begins with this minute."""
    words = report.said.split()
    if words[0] != "verdict":
        return False
    minute = round((report.close - BEGIN) / (1 + ppm * 1e-6) / 60_000_000)
    return int(words[1]) != since_1900(first) + 60 * minute


def errors(plan: str, log: pathlib.Path, ppm: float) -> list[float]:
    """How late the verdicts of a log are, in milliseconds."""
    return [late(report, ppm) for report in decode(plan, log) if report.said.startswith("verdict")]


def replay(plan: str, log: pathlib.Path, folder: pathlib.Path, ppm: float, after: tuple[int, ...] = (HOUR, 6 * HOUR)) -> list[tuple[float, float]]:
    """The error and the root dispersion, in milliseconds, of the replies a time after a log's end, in microseconds; none where it has no time."""
    pulses = log.read_text().splitlines()
    end = int(pulses[-1].split()[0])
    return [given for _, given in asked(plan, pulses, [end + span for span in after], folder, ppm)]


def asked(plan: str, pulses: list[str], moments: list[int], folder: pathlib.Path, ppm: float) -> list[tuple[int, tuple[float, float]]]:
    """Each of these moments at which there is a time, and the error and the root dispersion of the reply, in milliseconds. Moments rise."""
    script, station = folder / "script", folder / "station"
    lines = [(int(line.split()[0]), f"pulse 0 {line}\n") for line in pulses] + [(at, f"request 0 {at} {at} {QUERY.hex()}\n") for at in moments]
    script.write_text("".join(line for _, line in sorted(lines, key=lambda one: one[0])))
    station.write_text(f'bound = 16000\n\n[[radio]]\nplan = "{plan}"\nlog = "none"\n')
    done = subprocess.run([program(), "replay", "--station", str(station), "--script", str(script)], capture_output=True, text=True)
    if not done.stdout.endswith("status 0\n"):
        raise OSError(f"replay ended with '{done.stdout[-60:].strip()}' {done.stderr.strip()}")
    replies = [read(bytes.fromhex(line.split()[1])) for line in done.stdout.splitlines() if line.startswith("reply ")]
    found = []
    for at, reply in zip(moments, replies):
        if reply is None or reply.leap == 3:
            continue
        true = since_1900(FIRST) + (at - BEGIN) / (1 + ppm * 1e-6) / 1e6
        found.append((at, (1000 * (reply.transmit / WHOLE - true), reply.root_dispersion / 65.536)))
    return found
