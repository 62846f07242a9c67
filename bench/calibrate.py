"""What `radio_keeper calibrate` says of receivers in software; see calibrate.sh, which calls this.

    python3 -m bench.calibrate [--minutes N] [--jitter MS ..]
"""

import argparse
import os
import pathlib
import re
import socket
import subprocess
import tempfile
import threading
import time

from lab import ends, receiver
from lab.client import socket_on
from lab.packets import reply, stamp
from lab.program import TOP, program

PLANS = ("dcf", "msf", "wwvb")
LAG = 23  # of the receivers, in milliseconds
AHEAD = 0.04  # by how many seconds the server is ahead of the host's clock
PACE = 16  # seconds between two requests to it
OUTLIERS = 0.03
SAID = re.compile(r"come (-?[\d.]+) ms late, within ([\d.]+) ms; a closing mark scatters by ([\d.]+) ms")


def serve(link: socket.socket) -> None:
    """Answers each request as a stratum 1 server whose clock is AHEAD, until its socket is closed."""
    while True:
        try:
            datagram, client = link.recvfrom(1024)
        except OSError:
            return
        link.sendto(reply(datagram, stamp(time.time() + AHEAD), stamp(time.time() + AHEAD)), client)


def began(folder: pathlib.Path, plan: str, jitter: float, ahead: float, minutes: int, port: int | None, seed: int) -> subprocess.Popen:
    """Starts `calibrate` on a receiver whose sender's clock is `ahead` of the host's, against a server's port or the host's clock."""
    folder.mkdir()
    since = f"{time.monotonic()!r},{time.time() + ahead!r}"
    words = receiver.command("--plan", plan, "--live", 60 * minutes + 300, "--history", 3, "--since", since,
                             "--jitter", jitter, "--outliers", OUTLIERS, "--lag", LAG, "--seed", seed)
    (folder / "station.toml").write_text(f'[[radio]]\nplan = "{plan}"\nlog = "x"\n')
    (folder / "keeper.toml").write_text(f"station = \"station.toml\"\n[[radio]]\ncommand = '''exec {' '.join(words)}'''\n")
    asked = [TOP / "radio_keeper", "calibrate", "--config", folder / "keeper.toml", "--minutes", minutes]
    asked += ["--server", "127.0.0.1", "--port", port, "--pace", PACE] if port else []
    return subprocess.Popen(list(map(str, asked)), stdin=subprocess.DEVNULL, stdout=subprocess.PIPE, stderr=subprocess.PIPE, text=True)


def row(plan: str, jitter: float, name: str, child: subprocess.Popen) -> str:
    """What one case came to."""
    said, faults = child.communicate()
    found = SAID.search(said)
    count = re.search(r"(\d+) minutes were believed", said)
    if not found or not count:
        return f"{plan:5} {jitter:4g} {name:6} {' '.join((said + faults).split())}"
    late, error, closing = map(float, found.groups())
    return f"{plan:5} {jitter:4g} {name:6} {int(count[1]):7} {late:8.2f} {error:6.2f} {late - LAG:8.2f} {closing:8.2f}  {said.splitlines()[-1]}"


def main() -> int:
    words = argparse.ArgumentParser(description=__doc__, formatter_class=argparse.RawDescriptionHelpFormatter)
    words.add_argument("--minutes", type=int, default=20)
    words.add_argument("--jitter", type=float, nargs="+", default=[2, 8, 15])
    asked = words.parse_args()
    os.environ["RADIO_NTPD"] = program()
    cases: list[tuple[str, float, str, subprocess.Popen]] = []
    with tempfile.TemporaryDirectory() as folder, socket_on() as link:
        threading.Thread(target=serve, args=(link,), daemon=True).start()
        try:
            for plan in PLANS:
                for jitter in asked.jitter:
                    for name, ahead, port in (("host", 0.0, None), ("server", AHEAD, link.getsockname()[1])):
                        place = pathlib.Path(folder, f"{plan}{jitter:g}{name}")
                        cases.append((plan, jitter, name, began(place, plan, jitter, ahead, asked.minutes, port, len(cases))))
            print("plan    ms against minutes  late ms within  off lag  closing  it says", flush=True)
            for case in cases:
                print(row(*case), flush=True)
        finally:
            for *_, child in cases:
                child.terminate()
                child.wait()
    print(f"load {os.getloadavg()[0]:.0f} on {os.cpu_count()} processors")
    return 0


if __name__ == "__main__":
    ends.run(main)
