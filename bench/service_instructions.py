"""The user instructions of a reply, of a run with its own socket and of one that a supervisor holds.

    python3 -m bench.service_instructions

Each is run under valgrind twice, with 1000 and with 3000 requests one after the other; the
difference is divided by 2000. In each the log ends where the link's moments begin: an answer from
an old page takes more instructions. Exit status: 0, 1 where a held run takes more than 20 more.
"""

import argparse
import os
import re
import subprocess
import tempfile
import time
from pathlib import Path

from lab import ends, held
from lab.client import socket_on
from lab.program import program

MOST = 20
FEW, MANY = 1000, 3000


def station(folder: Path, port: int, is_held: bool) -> str:
    """A station whose log ends where the moments begin; that of a held run is a shifted copy."""
    lines = [line.split() for line in held.LOG.read_text().splitlines()]
    last = int(lines[-1][0])
    if not is_held:
        return held.station(port).replace("start = 0", f"start = {last}", 1)
    ahead = int(time.monotonic() * 1e6) - last
    log = folder / "pulses.log"
    log.write_text("".join(f"{int(at) + ahead} {width}\n" for at, width in lines))
    return held.station(port).replace(str(held.LOG), str(log), 1)


def instructions(folder: Path, is_held: bool, count: int) -> int:
    """How many instructions a run takes that answers `count` requests."""
    link = socket_on()
    port = link.getsockname()[1]
    path = folder / "station.toml"
    path.write_text(station(folder, port, is_held))
    env = {name: value for name, value in os.environ.items() if name != "RADIO_NTPD_SERVICE"}
    numbers: list[int] = []
    if is_held:
        numbers = [link.fileno()]
        env["RADIO_NTPD_SERVICE"] = f"socket={link.fileno()}"
    else:
        link.close()
    child = subprocess.Popen(
        ["valgrind", "--tool=callgrind", f"--callgrind-out-file={folder}/callgrind", program(), "serve",
         "--station", str(path), "--during", str(count)], env=env, pass_fds=numbers,
        stdout=subprocess.DEVNULL, stderr=subprocess.PIPE, text=True)
    client = socket_on()
    client.settimeout(0.2)
    answered = 0
    end = time.monotonic() + 120
    while answered < count and time.monotonic() < end and child.poll() is None:
        try:
            held.asked(client, port, answered + 1)
            answered += 1
        except (TimeoutError, ConnectionRefusedError):
            pass
    if answered < count:
        child.kill()
    _, told = child.communicate(timeout=60)
    found = re.search(r"Collected : (\d+)", told)
    if answered < count or found is None:
        raise OSError(f"a run under valgrind answers {answered} of {count}")
    return int(found[1])


def main() -> int:
    argparse.ArgumentParser(description=__doc__.splitlines()[0]).parse_args()
    with tempfile.TemporaryDirectory() as name:
        folder = Path(name)
        each = [
            (instructions(folder, is_held, MANY)
             - instructions(folder, is_held, FEW)) / (MANY - FEW)
            for is_held in (False, True)
        ]
    print(f"instructions a reply: {each[0]:.1f} with its own socket, {each[1]:.1f} held")
    return int(each[1] - each[0] > MOST)


if __name__ == "__main__":
    ends.run(main)
