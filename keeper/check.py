"""`check`: both files, the host, and some seconds of each receiver, before a start. It changes
nothing."""

import argparse
import os
import time
from collections.abc import Iterator

from keeper import config, host_checks, lock
from keeper.chosen_file import chosen
from keeper.errors import DONE, NOT_WELL, Fault, plain
from keeper.log_lines import judge_log, look
from keeper.receiver import Finding, Level
from keeper.supervisor.host import Host
from keeper.supervisor.sources import Ended, Source, source_of

LEAST_BOUND = 0.005  # the least root dispersion that a radio has (s)
EARLY_BOUND = 0.945  # at the fourth verdict a radio's root dispersion may be so great (s)
RAW_BOUND = 0.05  # up to this bound marks need not be steadied (s)
LOOK = 0.05  # how often a source is looked at (s)
MOST = 1 << 20  # bytes that are looked at of a radio; a source that writes more writes noise


def main(asked: argparse.Namespace) -> int:
    """The exit status."""
    bad = 0
    for level, text in findings(config.load(chosen(asked.config)), asked.seconds):
        print(plain(f"{level.value:<5} {text}"), flush=True)
        bad += level is Level.BAD
    print(f"{bad} to mend" if bad else "nothing to mend")
    return NOT_WELL if bad else DONE


def findings(settings: config.Settings, seconds: int) -> Iterator[Finding]:
    """All of them, of receivers that are each read for a number of seconds."""
    yield Level.WELL, f"{settings.path}: every key is known and in range"
    running = lock.is_taken(settings.folder)
    yield from host_checks.look_at_ports(settings, running)
    yield from host_checks.become_service(settings)
    yield from judge_station(settings)
    yield from host_checks.look(settings)
    if running and seconds:
        yield Level.NOTE, ("a keeper runs and reads the receivers: `radio_keeper status` says how "
                           "they are")
    for place in range(len(settings.radios)) if seconds and not running else ():
        yield from hear(settings, place, seconds)


def judge_station(settings: config.Settings) -> list[Finding]:
    """What the program itself says of the station file, and what it can't know: what a bound brings
    with it (docs/OPERATING.md, How to choose a bound), servers, the leap second file, keys."""
    try:
        config.judge(settings)
    except Fault as fault:
        return [(Level.BAD, str(fault))]
    radios, servers, station = settings.radios, settings.servers, settings.station
    bound = f"with a bound of {settings.bound * 1e3:.0f} ms"
    is_too_small = bool(radios) and settings.bound <= LEAST_BOUND
    can_have_time = bool(radios) and not is_too_small
    is_raw = not all(radio.steady for radio in radios)
    has_keys = settings.text.get("key") and os.stat(station).st_mode & 0o007
    leap_file = settings.leap_file
    rows: tuple[tuple[object, Level, str], ...] = (
        (True, Level.WELL, f"{station}: the program takes it"),
        (not radios and not servers, Level.NOTE,
         "the station has no radio and no server: it will never have a time"),
        (is_too_small, Level.BAD, f"{bound} no radio gives a time, ever: its root dispersion is "
         f"{LEAST_BOUND * 1e3:.0f} ms at least"),
        (can_have_time and settings.bound < EARLY_BOUND, Level.NOTE, f"{bound} there may be no "
         "time before the fifth verdict after a first start, or a later one"),
        (can_have_time and settings.bound > RAW_BOUND and is_raw, Level.NOTE,
         f"{bound} and without `steady = true` the time may be farther off than it says, some "
         "while after reception ends"),
        (servers and radios and not settings.pace, Level.NOTE,
         "servers beside a radio without pacing outvote it after minutes: set `pace`"),
        (leap_file and not os.path.exists(leap_file), Level.BAD,
         f"leap_file {leap_file}: it isn't there"),
        (has_keys, Level.NOTE, f"{station} has keys and can be read by everyone: chmod 640 it, "
         "with the group of the keeper's user"),
    )
    return [(level, said) for is_so, level, said in rows if is_so]


def hear(settings: config.Settings, place: int, seconds: int) -> list[Finding]:
    """Some seconds of a radio's source, and what they look like."""
    radio = settings.radios[place]
    name = host_checks.name_of(place, radio)
    print(f"      {name} is read for {seconds} s ..", flush=True)
    host, received, ended, left = Host(), list[tuple[int, bytes]](), "", MOST
    try:
        for piece in pieces(host, source_of(host, radio.kind, radio.value), seconds):
            received.append(piece)
            left -= len(piece[1])
            if left < 0:
                break
    except Ended as error:
        ended = str(error)
    except OSError as error:
        return [(Level.BAD, f"{name}: its source can't be begun: {error.strerror}")]
    seen = look(received, seconds, time.monotonic(), time.time())
    if radio.kind == "file" and not seen.lines:
        need = "something has to write to it, and a recording is for `radio_ntpd decode`"
        return [(Level.BAD, f"{name}: nothing was added to {radio.value}: {need}")]
    found = [(Level.BAD, f"{name}: its source ended: {ended}")] if ended else []
    return found + [(level, f"{name}: {said}") for level, said in judge_log(seen, radio.plan)]


def pieces(host: Host, source: Source, seconds: float) -> Iterator[tuple[int, bytes]]:
    """What a source writes within a number of seconds, each piece with when it came (us of the
    monotonic clock); b"" where nothing came. Raises OSError and Ended."""
    end, piece = time.monotonic() + seconds, b""
    source.begin()
    try:
        while (wait := end - time.monotonic()) > 0:
            if not piece:
                host.wait([], min(wait, LOOK))
            at, piece = time.monotonic_ns() // 1000, source.read()
            yield at, piece
    finally:
        source.close()
