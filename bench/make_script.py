"""Writes a script for `replay` from the calendar alone.

    python3 -m bench.make_script --lines N
    python3 -m bench.make_script --station

With --lines it writes a script of that many lines: the pulses of twelve radios in order of time, and in each minute an exchange
with each of four servers and a client's request. With --station it writes the station file that goes with it: four radios of
DCF77, four of MSF and four of WWVB, and the servers, sixteen feeds in all. The first minute begins at 2 s of the host's counter
and is 2026-01-01 12:00 UTC; winter time is kept all year.
"""

import argparse
import datetime
import itertools
import random
import sys

from bench.known_logs import since_1900
from lab import ends
from lab.minutes import minute_of
from lab.packets import QUERY, WHOLE, Header

FIRST = datetime.datetime(2026, 1, 1, 12, 0)
START = 2_000_000
JITTER = 2500
# How much later each radio's pulses come than those of the one before it, which its path delay makes up for.
DELAY = 7000
SERVERS = range(12, 16)
# A request takes this long to a server, and its answer the same, in microseconds.
ONE_WAY = 4000


def stamp(at):
    """The time at a moment of the host's counter, in RFC 5905's 64 bits."""
    return since_1900(FIRST) * WHOLE + (at - START) * WHOLE // 1_000_000


def exchange(feed, at):
    """A request to a server of stratum 2 and its answer, each its moment and its line."""
    asked, served = 2**63 + at * WHOLE // 1_000_000, stamp(at + ONE_WAY)
    header = Header(0, 4, 4, 2, 6, -20, 256, 512, 0x0A000001, 0, asked, served, served).bytes().hex()
    return [(at, f"ask {feed} {at}\n"), (at + 2 * ONE_WAY, f"answer {feed} {at + 2 * ONE_WAY} {header}\n")]


PLANS = ("dcf", "msf", "wwvb")


def lines():
    """The lines in order of time, without end."""
    draw = random.Random(77)
    for minute in itertools.count():
        begin = START + minute * 60_000_000
        sent = FIRST + datetime.timedelta(minutes=minute)
        timed = [(begin + 30_700_000, f"request {minute % 8} {begin + 30_700_000} {begin + 30_700_050} {QUERY.hex()}\n")]
        for feed in SERVERS:
            timed += exchange(feed, begin + 20_500_000 + DELAY * feed)
        for number, plan in enumerate(PLANS):
            pulses = minute_of(plan, sent)
            for feed in range(4 * number, 4 * number + 4):
                for moment, width in pulses:
                    at = begin + moment + DELAY * feed + draw.randint(0, JITTER)
                    timed.append((at, f"pulse {feed} {at} {width + draw.randint(-JITTER, JITTER)}\n"))
        timed.sort(key=lambda line: line[0])
        yield from (line for _, line in timed)


def station():
    plans = [plan for plan in PLANS for _ in range(4)]
    radios = (f'\n[[radio]]\nplan = "{plan}"\nlog = "{feed}.log"\ndelay = {DELAY * feed}\n' for feed, plan in enumerate(plans))
    servers = (f'\n[[server]]\naddress = "127.0.0.{feed}"\nport = 123\n' for feed in SERVERS)
    return "bound = 1000\n" + "".join(radios) + "".join(servers)


def main():
    parser = argparse.ArgumentParser()
    parser.add_argument("--lines", type=int)
    parser.add_argument("--station", action="store_true")
    words = parser.parse_args()
    if words.station:
        sys.stdout.write(station())
    if words.lines:
        # A DCF77 receiver knows its first minute mark by the second that is left out before it.
        first = [f"pulse {feed} {DELAY * feed} 100000\n" for feed in range(4)]
        # Two markers in a row begin a minute of WWVB.
        first += [f"pulse {feed} {1_000_000 + DELAY * feed} 800000\n" for feed in range(8, 12)]
        out = itertools.islice(itertools.chain(first, lines()), words.lines)
        while piece := list(itertools.islice(out, 100_000)):
            sys.stdout.write("".join(piece))


if __name__ == "__main__":
    ends.run(main)
