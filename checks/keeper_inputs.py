"""What the keeper reads from outside, each kind made by chance and read by what reads it. A reader
raises nothing but what it says that it raises, and a refusal is one sentence."""

import contextlib
import json
import os
import random
import time
import tomllib
from pathlib import Path
from unittest import mock

from checks.keeper_arguments import command, feeder, need
from checks.odd_values import json_text, toml_text
from checks.spoils import spoil
from keeper import config, lateness, log_lines, reference, reload
from keeper.errors import Fault
from keeper.reporter import journal, page, reception, state
from keeper.station import text_of
from keeper.supervisor import journals, logs, pulses, reports, sources, watchdog
from keeper.supervisor.host import Host
from keeper.tests.made_station import made_station
from keeper.tests.test_station_state import facts

KEEPER = """station = "station.toml"
program = "program"
state = "state"
runtime = "runtime"
cycle = 3600
days = 30
room = 1000
pace = 16
[[radio]]
command = "cat receiver"
name = "roof"
stall = 60
steady = true
[[radio]]
fifo = "fifo"
[alarms]
command = "true"
unheard = 3600
limit = 30
"""
STATION = """bound = 100
gap = 2000000
leap_file = "leap.list"
[[radio]]
plan = "dcf"
log = "a"
delay = 1000
[[radio]]
plan = "msf"
log = "b"
[[server]]
address = "192.0.2.1"
port = 123
[[link]]
port = 12300
[[deny]]
net = "198.51.100.0/24"
"""
def files(draw: random.Random, folder: Path) -> None:
    """Both files: `check` and `status`, and what a run is given of the station."""
    program, keeper, station = (folder / one for one in ("program", "keeper.toml", "station.toml"))
    if not program.exists():
        program.write_text("#!/bin/sh\necho status 0\n")
        program.chmod(0o755)
    which = draw.randrange(3)
    keeper.write_bytes(KEEPER.encode() if which == 0 else toml_text(draw, KEEPER))
    station.write_bytes(STATION.encode() if which == 1 else toml_text(draw, STATION))
    try:
        text = config.load(str(keeper)).text
    except Fault as fault:
        # It names one of both files, or what stands there for the station.
        need(fault.status == 78 and "/" in str(fault), f"{fault.status}: {fault}")
    else:
        if not any(one in repr(text) for one in ("nan", "inf", "datetime")):
            again = tomllib.loads(text_of(text))
            need(again == text, f"a run gets {again} for {text}")
    command("status", "--config", str(keeper))
    if draw.random() < 0.1:
        command("check", "--seconds", "0", "--config", str(keeper))


def states(draw: random.Random, folder: Path) -> None:
    """The reporter's and the supervisor's files: `status` in each form, the page, `reload`, and
    the supervisor that begins."""
    now = time.time()
    told = {**facts(str(folder), servers=[["192.0.2.1", 123]]), "at": now, "pid": os.getpid(),
            "reloads": 1, "refused": "", "paused": 1.0}
    written = json.loads(state.text_of(made_station(now - draw.choice((1, 500)))))
    (folder / "state.json").write_bytes(json_text(draw, written))
    (folder / "service.json").write_bytes(json_text(draw, told))
    form = draw.choice(("", "--json", "--nagios", "--prometheus"))
    command(*filter(None, ("status", "--folder", str(folder), form)))
    with contextlib.suppress(Fault):
        page.render(state.load(str(folder / "state.json")), now)
    with contextlib.suppress(Fault):
        reload.told(str(folder / "service.json"))
    reports.Reports(Host.__new__(Files), str(folder), dict).paused_before()
    if draw.random() < 0.3:
        (folder / "state.json").unlink()


class Files(Host):
    """The host's files and clocks alone: no thread, no pipe."""


def received(draw: random.Random, folder: Path) -> None:
    """A radio's log, as its source writes it and as the disk has it."""
    now = time.monotonic_ns() // 1000
    lines = [b"%d %d\n" % (now - (60 - place) * 1_000_000, draw.choice((100_000, 200_000)))
             for place in range(60)]
    text, host = spoil(draw, lines), Host.__new__(Files)
    reader = pulses.Lines()
    cuts = sorted(draw.randrange(len(text) + 1) for _ in range(3))
    pieces = [(now, text[a:b]) for a, b in zip([0, *cuts], [*cuts, len(text)])]
    found = [one for at, piece in pieces for one in reader.take(piece, at)]
    need(all(a.start < b.start for a, b in zip(found, found[1:])), "starts don't rise")
    seen = log_lines.look(pieces, 60.0, now / 1e6, time.time())
    if seen.lines:
        log_lines.judge_log(seen, draw.choice(("dcf", "msf", "wwvb", "x")))
    kept = sources.live_from(host, text, draw.random() < 0.5, draw.uniform(0, 99))
    need(0 <= kept <= len(text), f"a log is of this counter from {kept} on")
    log = logs.PulseLog(host, str(folder), 0, "dcf", "0")
    (folder / log.name(time.time())).write_bytes(text)
    log.last_pulses()
    steady = feeder("steady").Steady()
    for line in text.splitlines(keepends=True):
        need(steady.line(line).count(b"\n") == line.count(b"\n"), "a steadied line is lost")
    (folder / log.name(time.time())).unlink()


def decoded(draw: random.Random, folder: Path) -> None:
    """Lines of `decode` and journals, as the reporter and `calibrate` read them."""
    lines = [b"0 %d %s 3976257%d 0\n" % (60_000_000 * place, draw.choice((b"verdict", b"refused")),
                                         60 * place) for place in range(1, 9)]
    text = spoil(draw, lines)
    kept = reception.Reception(state.RadioState(plan="dcf", pulse_at=time.time()))
    for line in text.decode("ascii", "replace").split("\n"):
        kept.take(line, time.time())
    kept.renew(time.time())
    marks = [pulses.Pulse(one * 1_000_000, 100_000) for one in range(600)]
    lateness.result(lateness.minutes_of(marks, text.decode("ascii", "replace").split("\n"), 0.0))
    entries = [f"j2 {place} 0 3 {place}000000 sample {3976257660 << 32} 9 0 1 7f000001 0 0\n"
               .encode() for place in range(5)]
    entries += [b"j2 9 0 5 9 notice 3692217600\n", b"j2 9 0 4 9 declined 6\n",
                b"link 0 answered 3 dropped 0 again 0 kissed 0 unkept 0\n", b"status 0\n"]
    path = folder / "20260101T000000Z-1.out"
    path.write_bytes(spoil(draw, entries))
    journal.read_journal(str(path), made_station(time.time()), 0.0)
    journals.Journal(Host.__new__(Files), str(path), [1]).keep(str(folder / "journals"))
    leap = folder / "leap.list"
    leap.write_bytes(spoil(draw, [b"#@ 3991593600\n", b"3692217600 37\n"]))
    journal.expiry(str(leap))


class Answering(Files):
    """A server's socket that gives one datagram to each request."""

    def __init__(self, draw: random.Random) -> None:
        self.draw, self.asked = draw, b""

    def client(self, own: str, port: int) -> int:
        return 7

    def close(self, descriptor: int) -> None:
        """It is none."""

    def write(self, descriptor: int, data: bytes) -> int:
        self.asked = data
        return len(data)

    def read(self, descriptor: int, most: int) -> bytes:
        stamp = self.draw.choice((self.asked[40:48], self.draw.randbytes(8)))
        head = bytes([self.draw.randrange(256), self.draw.choice((0, 1, 2, 16, 255)), 6, 0xEC])
        data = head + self.draw.randbytes(20) + stamp + self.draw.randbytes(16)
        return spoil(self.draw, [data])[:most]

    def send(self, data: bytes) -> int:
        return self.write(-1, data)

    def recv(self, most: int) -> bytes:
        if self.draw.random() < 0.3:
            raise TimeoutError
        return self.read(-1, most)

    def settimeout(self, seconds: float) -> None:
        """It never waits."""


def answers(draw: random.Random, folder: Path) -> None:
    """What a server answers, to the watchdog and to `calibrate`."""
    server = Answering(draw)
    watch = watchdog.Watch(server, [watchdog.Link(123)], ["127.0.0.1"])
    for place in range(5):
        watch.turn({7}, 100.0 + place * 3)
    watch.is_deaf()
    service = mock.Mock(requests={})
    for link in watch.links:
        said = json.dumps(reports._link(link, service, 1e9, time.time()))
        state.built(state.LinkState, json.loads(said), "link")
    compared = reference.Server.__new__(reference.Server)
    compared.pace, compared.due, compared.refused, compared.found = 16.0, 0.0, 0, []
    compared.socket = server  # type: ignore[assignment]
    compared.turn(1.0)
    compared.offset_at(time.time())
    compared.words()


KINDS = {one.__name__: one for one in (files, states, received, decoded, answers)}
