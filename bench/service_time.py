"""How far the time that a held run serves is from that of its log, by CLOCK_MONOTONIC.

    python3 -m bench.service_time [--starts N] [--load N]

The log is MSF's, without jitter. At each of N starts a client asks 200 times
and takes the answer with the least delay; its offset is printed in microseconds, the greatest of
all starts, without and with a load of N busy processes. Exit status: 0, 1 where an offset is
above 50 us, 2 invalid arguments.
"""

import argparse
import contextlib
import subprocess
import sys
import tempfile
import time
from pathlib import Path
from typing import Iterator

from lab import ends, held, receiver
from lab.client import offset, socket_on
from lab.packets import UNIX

MOST = 50.0  # microseconds
ASKS = 200
DELAY = 2.6  # the path delay of the made log, in milliseconds
MINUTES = 10


@contextlib.contextmanager
def load(count: int) -> Iterator[None]:
    """`count` busy processes, which end by themselves after two minutes."""
    busy = "import time\nend = time.monotonic() + 120\nwhile time.monotonic() < end: pass"
    some = [subprocess.Popen([sys.executable, "-c", busy]) for _ in range(count)]
    try:
        yield
    finally:
        for one in some:
            one.kill()
            one.wait()


def starts(folder: Path, count: int) -> list[float]:
    """The offsets of `count` starts, in microseconds."""
    found = []
    log = folder / "msf.log"
    with log.open("wb") as out:
        subprocess.run(receiver.command("--plan", "msf", "--minutes", MINUTES, "--lag", DELAY), stdout=out, check=True)
    for _ in range(count):
        link = socket_on()
        port = link.getsockname()[1]
        station = held.station(port).replace(f'"{held.LOG}"', f'"{log}"\ndelay = {round(1000 * DELAY)}')
        run = held.Held(folder, station, sockets=(link,), signals="end")
        held.with_time(port)
        found.append(1e6 * offset(port, held.MINUTE - held.MINUTE_AT - UNIX, ASKS))
        run.end()
        link.close()
    return found


def main() -> int:
    parser = argparse.ArgumentParser(description=__doc__.splitlines()[0])
    parser.add_argument("--starts", type=int, default=30)
    parser.add_argument("--load", type=int, default=16)
    words = parser.parse_args()
    bad = 0
    with tempfile.TemporaryDirectory() as name:
        for busy in (0, words.load):
            with load(busy):
                begun = time.monotonic()
                found = starts(Path(name), words.starts)
            most = max(abs(one) for one in found)
            bad |= most > MOST
            print(f"load {busy}: {len(found)} starts, {min(found):.1f} to {max(found):.1f} us from "
                  f"the log's time, {time.monotonic() - begun:.0f} s")
    return int(bad)


if __name__ == "__main__":
    ends.run(main)
