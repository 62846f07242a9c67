"""A radio beside servers on a counter that runs free, for a day, by `replay`: asked at the start alone, as `serve` does by itself, and one
exchange in 16 s, as a run under the keeper has it. Says how far the time was off at most, and how far off it was reported to be.

    python3 -m checks.pacing [--hours H] [--pace S]

It fails where a paced row has a moment at which the error is above the reported root dispersion, or has no time once it had one.
RADIO_NTPD names another program.
"""

import argparse
import datetime
import pathlib
import random
import subprocess
import sys
import tempfile

from lab import ends
from lab.minutes import minute_of
from lab.packets import QUERY, UNIX, WHOLE, Header, read
from lab.program import program

BEGIN = datetime.datetime(2026, 1, 1, 12, 0)
FIRST = int(BEGIN.replace(tzinfo=datetime.timezone.utc).timestamp()) + UNIX
ASKED_FROM = 270.0  # when the servers are asked first, in true seconds
BURST = 8  # exchanges at the start without pacing, as a station's default has it
FIRST_PACED = 4  # exchanges at the start
JITTER = 2000  # how late a mark of the radio comes at most, in microseconds
DCF = int.from_bytes(b"DCF\0", "big")  # the reference ID of the servers
WAY = 0.0002  # one way to a server, in seconds
EVERY = 60  # a client asks so often, in seconds
# Parts per million that the counter is fast, and how many servers stand beside the radio.
ROWS = ((0, 2), (20, 2), (50, 2), (50, 1))


class Counter:
    """The counter that runs so much too fast: it stands at 2 s when the first minute begins."""

    def __init__(self, ppm: float) -> None:
        self.rate = 1 + ppm * 1e-6

    def at(self, true: float) -> int:
        return round((true + 2) * self.rate * 1e6)


def stamp(true: float) -> int:
    """The time at a true second after the first minute's beginning, in 64 bits."""
    return (FIRST * WHOLE + round(true * WHOLE)) % 2**64


def radio(counter: Counter, hours: float, draw: random.Random):
    yield counter.at(-2), f"pulse 0 {counter.at(-2)} 100000"
    for minute in range(int(hours * 60)):
        for moment, width in minute_of("dcf", BEGIN + datetime.timedelta(minutes=minute)):
            at = counter.at(minute * 60 + (moment + draw.randint(0, JITTER)) / 1e6)
            yield at, f"pulse 0 {at} {width}"


def exchange(counter: Counter, feed: int, true: float):
    asked, answered = counter.at(true), counter.at(true + 2 * WAY)
    origin = (1 << 63) + asked * WHOLE // 10**6
    header = Header(0, 4, 4, 1, 6, -20, 0, 328, DCF, stamp(true - 30), origin, stamp(true + WAY), stamp(true + WAY + 1e-5)).bytes()
    return [(asked, f"ask {feed} {asked}"), (answered, f"answer {feed} {answered} {header.hex()}")]


def script(ppm: float, servers: int, hours: float, pace: float | None) -> tuple[str, list[float]]:
    """The script, and the true seconds at which its client asks."""
    counter = Counter(ppm)
    events = list(radio(counter, hours, random.Random(7)))
    moments = [ASKED_FROM + place * 0.001 for place in range(BURST if pace is None else FIRST_PACED)]
    if pace is not None:
        moments += [ASKED_FROM + place * pace for place in range(1, int((hours * 3600 - ASKED_FROM) / pace))]
    for feed in range(1, servers + 1):
        for true in moments:
            events += exchange(counter, feed, true + feed * 0.0003)
    asked = [float(true) for true in range(300, int(hours * 3600), EVERY)]
    for true in asked:
        at = counter.at(true + 0.5)
        events.append((at, f"request 0 {at} {at} {QUERY.hex()}"))
    return "".join(line + "\n" for _, line in sorted(events, key=lambda event: event[0])), [true + 0.5 for true in asked]


def play(text: str, servers: int) -> list[bytes]:
    """The replies of `replay`."""
    with tempfile.TemporaryDirectory() as name:
        folder = pathlib.Path(name)
        rows = "".join(f'[[server]]\naddress = "10.0.0.{place + 2}"\nport = 123\n' for place in range(servers))
        (folder / "station").write_text(f'[[radio]]\nplan = "dcf"\nlog = "x"\n{rows}')
        (folder / "script").write_text(text)
        done = subprocess.run([program(), "replay", "--station", folder / "station", "--script", folder / "script"], stdout=subprocess.PIPE, timeout=600)
    lines = done.stdout.decode().splitlines()
    if lines[-1:] != ["status 0"]:
        sys.exit(f"pacing: replay ends with {lines[-1:]}")
    return [bytes.fromhex(line.split()[1]) for line in lines if line.startswith("reply ")]


class Row:
    """What a client got over the day."""

    def __init__(self, replies: list[bytes], moments: list[float]) -> None:
        self.worst = self.told = self.over = 0.0
        self.lost = 0
        self.timed = timed = False
        for reply, true in zip(replies, moments, strict=True):
            header = read(reply)
            if header is None or header.leap == 3:
                self.lost += timed
                continue
            self.timed = timed = True
            dispersion = header.root_dispersion / 65536
            error = abs(header.transmit - stamp(true)) / WHOLE
            if error > self.worst:
                self.worst, self.told = error, dispersion
            self.over = max(self.over, error - dispersion)

    def text(self) -> str:
        return f"off by {self.worst * 1e3:.1f} ms at worst, reported {self.told * 1e3:.1f}; {'within' if self.over <= 0 else 'NOT within'} what is reported; {self.lost} of the minutes without time"


def main() -> None:
    parser = argparse.ArgumentParser()
    parser.add_argument("--hours", type=float, default=24)
    parser.add_argument("--pace", type=float, default=16)
    words = parser.parse_args()
    bad = 0
    for ppm, servers in ROWS:
        for pace in (None, words.pace):
            text, moments = script(ppm, servers, words.hours, pace)
            row = Row(play(text, servers), moments)
            print(f"{ppm} ppm, a radio and {servers} server{'s' if servers > 1 else ''}, {'asked at the start' if pace is None else f'one exchange in {pace:.0f} s'}: {row.text()}", flush=True)
            bad |= pace is not None and (row.over > 0 or row.lost > 0 or not row.timed)
    if bad:
        sys.exit("pacing: a paced station was further off than it reported, lost its time, or never had it")
    print(f"pacing: {len(ROWS)}")


if __name__ == "__main__":
    ends.run(main)
