"""`calibrate`: which delay to set for a radio, by a server's time or the host's clock."""

import argparse
import os
import sys
import time
from collections.abc import Iterator

from keeper import config, lock
from keeper.check import pieces
from keeper.chosen_file import chosen
from keeper.errors import DONE, NOT_WELL, Fault
from keeper.host_checks import become_service
from keeper.lateness import LEAST, Minute, minutes_of, result, sentences
from keeper.reference import Server
from keeper.reporter.decoder import begun, said
from keeper.supervisor.host import Host
from keeper.supervisor.logs import PulseLog
from keeper.supervisor.pulses import Lines, Pulse
from keeper.supervisor.sources import Ended, source_of

REPORTS = 20  # how often it says how far it is
MOST = 2_000_000  # pulses that are kept: a week of MSF has 800,000
HOST_CLOCK = "the host's clock, which has to be good by itself: `chronyc tracking` says how good"


def main(asked: argparse.Namespace) -> int:
    """The exit status."""
    settings = config.load(chosen(asked.config))
    become_service(settings)
    config.judge(settings)
    if not 0 <= asked.radio < len(settings.radios):
        many = f"the station has {len(settings.radios)}"
        raise Fault(f"there is no radio {asked.radio}: {many}")
    server = Server(asked.server, asked.port, asked.pace) if asked.server else None
    print(f"radio {asked.radio} is read for {asked.minutes} min; ^C ends that", flush=True)
    minutes = listen(settings, asked.radio, server, asked.minutes * 60.0)
    print(f"compared with {server.words() if server else HOST_CLOCK}")
    found = result(minutes)
    if found is None:
        print(f"{len(minutes)} minutes were believed and could be compared; {LEAST} are needed")
        return NOT_WELL
    radio = settings.radios[asked.radio]
    said = sentences(found, radio.plan, round(radio.delay * 1e6))
    print(f"{found.minutes} minutes were believed", *said, sep="\n")
    return DONE if said[-1].startswith("set ") else NOT_WELL


def listen(settings: config.Settings, number: int, server: Server | None,
           seconds: float) -> list[Minute]:
    """The minutes that are believed within a number of seconds, and can be compared. A log that a
    keeper writes gives those before too, where the host's clock counts."""
    began, pulses = time.time(), list[Pulse]()
    shift, lines = began - time.monotonic(), Lines()
    begin = due = time.monotonic()
    try:
        for at, piece in heard(settings, number, seconds):
            now = time.monotonic()
            if server:
                server.turn(now)
            pulses += lines.take(piece, at)
            if len(pulses) > MOST:
                raise Fault(f"radio {number}: it is noise: more than {MOST} pulses came")
            if now >= due + seconds / REPORTS:
                due += seconds / REPORTS
                far = f"{(now - begin) / 60:.0f} of {seconds / 60:.0f} min"
                clock = time.strftime("%H:%M:%S", time.gmtime())
                print(f"{clock} {far}: {len(pulses)} pulses were read", file=sys.stderr, flush=True)
    except Ended as error:
        raise Fault(f"radio {number}: its source ended: {error}") from error
    except KeyboardInterrupt:
        pass  # what was read up to here counts
    marks = ((one.start, one.width) for one in pulses)
    verdicts = said(begun(settings.program, settings.radios[number].plan, marks))
    minutes = minutes_of(pulses, verdicts, shift)
    if server is None:
        return minutes
    return [one.moved(offset) for one in minutes
            if one.at >= began and (offset := server.offset_at(one.at)) is not None]


def written_tag(host: Host, folder: str, number: int, plan: str) -> str:
    """The tag of the log that the keeper writes of a radio: the newest one's. We can't reckon it,
    since only the keeper knows the pauses of its counter, and a container may show it another boot.
    Raises OSError."""
    names = [one for one in host.names(folder)
             if one.startswith(f"{number}-{plan}.") and one.endswith(".log")]
    if not names:
        raise Fault(f"radio {number}: the keeper that runs has no log of it yet")
    newest = max(names, key=lambda one: host.stat(os.path.join(folder, one)).st_mtime)
    return newest.split(".")[-2]


def heard(settings: config.Settings, number: int, seconds: float) -> Iterator[tuple[int, bytes]]:
    """The pieces of a radio's source; those of its log of the day where a keeper runs."""
    host, radio = Host(), settings.radios[number]
    if not lock.is_taken(settings.folder):
        yield from pieces(host, source_of(host, radio.kind, radio.value), seconds)
        return
    folder = os.path.join(settings.folder, "logs")
    tag = written_tag(host, folder, number, radio.plan)
    log, end = PulseLog(host, folder, number, radio.plan, tag), time.monotonic() + seconds
    while (left := end - time.monotonic()) > 0:
        path = os.path.join(folder, log.name(time.time()))
        for at, piece in pieces(host, source_of(host, "file", path), left):
            yield at, piece
            today = os.path.join(folder, log.name(time.time()))
            if not piece and path != today and os.path.exists(today):
                break
