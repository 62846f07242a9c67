"""What chronyd writes down of a server, and reports of its own time."""

import calendar
import pathlib
import re
import subprocess
import time
from typing import NamedTuple


class Reading(NamedTuple):
    """When it was read, by how much the server's time is ahead of the host's, how far it may be off as it says, how long the exchange took; in s."""

    unix: float
    offset: float
    distance: float
    took: float


def chrony_readings(log: pathlib.Path) -> list[Reading]:
    """What chronyd measured of a server, by its log of measurements."""
    readings = []
    for line in log.read_text().splitlines() if log.exists() else []:
        fields = line.split()
        # Date, time, address, leap, stratum, three groups of tests, two polls, score, offset, peer's delay and dispersion, root's.
        if len(fields) < 16 or not re.fullmatch(r"\d{4}-\d\d-\d\d", fields[0]) or fields[3] not in "N+-":
            continue
        unix = calendar.timegm(time.strptime(f"{fields[0]} {fields[1]}", "%Y-%m-%d %H:%M:%S"))
        offset, delay, dispersion, root_delay, root_dispersion = map(float, fields[11:16])
        readings.append(Reading(unix, offset, root_delay / 2 + root_dispersion + delay / 2 + dispersion, delay))
    return readings


def tracking(commands: pathlib.Path) -> list[Reading]:
    """What a chronyd reports of the time that it has: one reading, or none where it has no source."""
    words = ["chronyc", "-n", "-h", str(commands), "tracking"]
    try:
        text = subprocess.run(words, capture_output=True, text=True, timeout=5).stdout
    except (OSError, subprocess.TimeoutExpired):
        return []
    values = {name.strip(): value.split() for name, _, value in (line.partition(":") for line in text.splitlines())}
    if values.get("Stratum", ["0"])[0] == "0" or "System time" not in values:
        return []
    size, sense = float(values["System time"][0]), values["System time"][2]
    distance = float(values["Root delay"][0]) / 2 + float(values["Root dispersion"][0])
    return [Reading(time.time(), size if sense == "slow" else -size, distance, 0.0)]
