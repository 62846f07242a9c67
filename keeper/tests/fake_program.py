#!/usr/bin/env python3
"""Stands in for the program where a test needs one that can be had at once: `serve`, `decode` and
`replay` as far as the keeper sees them.

Its time is that of the host, taken at the start of a pulse; it has one when a feed has received 240
pulses, or a server has answered. It proves nothing of the real program: checks/keeper.sh runs that.

With RADIO_NTPD_SERVICE in its environment it has the links that its supervisor hands over: it adopts
sockets by their port, answers nothing before `go` has an end, asks no server before `ask` has one,
and each link ends within a quarter of a second once `end` has one.

FAKE_FAULT makes `replay` refuse the station; FAKE_REFUSES makes `decode` refuse each minute;
FAKE_DIES is how long after its beginning it dies (s); FAKE_HEARINGS is how many hearings a link
makes in place of --during.
"""

import argparse
import contextlib
import os
import select
import socket
import struct
import sys
import threading
import time
import tomllib

EPOCH = 2208988800
BEGUN = time.monotonic_ns()
ENOUGH = 240
LOOK = 0.2  # how often a link looks whether it is to end (s)
TAKEN = {"socket", "ask", "go", "end", "pace"}


class Service:
    """What the environment says of the links; all of it empty where it says nothing."""

    def __init__(self, text: str | None) -> None:
        self.is_there = text is not None
        self.sockets: dict[int, socket.socket] = {}
        self.numbers: dict[str, int] = {}
        seen = set()
        for word in (text or "").split(" ") if text is not None else []:
            name, _, value = word.partition("=")
            if name not in TAKEN or not value.isdecimal() or word in seen:
                raise ValueError(word)
            if name == "socket":
                link = socket.socket(fileno=int(value))
                link.setblocking(False)
                self.sockets[link.getsockname()[1]] = link
            elif name in self.numbers:
                raise ValueError(word)
            else:
                self.numbers[name] = int(value)
            seen.add(word)
        self.numbers.setdefault("pace", 0)

    def has_end(self, name: str) -> bool:
        """Whether the other end of a signal is closed; `ask` is as `go` where it isn't given."""
        if name == "ask" and name not in self.numbers:
            name = "go"
        if name not in self.numbers:
            return name != "end"
        return bool(select.select([self.numbers[name]], [], [], 0)[0])

    def await_end(self, *names: str) -> None:
        """Waits until one of these has an end."""
        while not any(self.has_end(name) for name in names):
            select.select([self.numbers[one] for one in names if one in self.numbers], [], [], LOOK)


class Page:
    """What the feeds have said: `offset` is what is to be added to the counter's microseconds to
    have Unix microseconds."""

    def __init__(self, start: int, is_absolute: bool) -> None:
        self.start = start if is_absolute else start - BEGUN // 1000
        self.offset: int | None = None
        self.minutes: list[str] = []

    def counter(self) -> int:
        return self.start + time.monotonic_ns() // 1000

    def pulse(self, feed: int, count: int, at: int) -> None:
        if count >= ENOUGH:
            tenth = round(10 * (time.time() - (self.counter() - at) / 1e6))
            self.offset = tenth * 100_000 - at
        if count % 60 == 0:
            self.minutes.append(f"{feed} {at} verdict {at // 1_000_000} 0")


def stamp(microseconds: int) -> int:
    return (microseconds << 32) // 1_000_000 % 2**64


def read_log(page: Page, feed: int, name: str) -> None:
    count = 0
    with open(name, "rb") as log:
        for line in log:
            count += 1
            page.pulse(feed, count, int(line.split()[0]))


def ask_server(page: Page, service: Service, feed: int, row: dict) -> None:
    """Four requests at first, then one in `pace` seconds, up to its polls or the end."""
    service.await_end("ask", "end")
    pace = service.numbers["pace"]
    for count in range(row.get("polls", 8)):
        if count >= 4 and pace:
            due = time.monotonic() + pace
            while time.monotonic() < due and not service.has_end("end"):
                time.sleep(LOOK)
        if service.has_end("end"):
            return
        with socket.socket(socket.AF_INET, socket.SOCK_DGRAM) as client:
            client.settimeout(2)
            with contextlib.suppress(OSError):
                client.connect((row["address"], row["port"]))
                client.send(bytes([0x23, 0, 6, 0xEC]) + bytes(36) + struct.pack(">Q", count + 1))
                said = client.recv(1024)
                transmit = struct.unpack(">Q", said[40:48])[0]
                unix = (transmit * 1_000_000 >> 32) - EPOCH * 1_000_000
                page.offset = unix - page.counter()
                page.minutes.append(f"{feed} {page.counter()} sample {transmit} 4096 4096 1")


def reply(page: Page, datagram: bytes, arrived: int) -> bytes:
    offset = page.offset
    has_time = offset is not None
    shift = (offset or 0) + EPOCH * 1_000_000 if has_time else 0
    kind = (0x24, 1, 400, b"DCF\0") if has_time else (0xE4, 0, 16 << 16, b"INIT")
    first, stratum, dispersion, word = kind
    reference = stamp(shift + arrived) if has_time else 0
    head = struct.pack(">BBBbII4sQ", first, stratum, datagram[2], -20, 0, dispersion, word, reference)
    stamps = struct.pack(">QQ", stamp(shift + arrived), stamp(shift + page.counter()))
    return head + datagram[40:48] + stamps


def serve_link(page: Page, service: Service, link: socket.socket, during: int,
               counts: list[int]) -> None:
    service.await_end("go", "end")
    looked, silence = 0.0, 0.0
    for _ in range(during):
        silence = time.monotonic() + 2
        while True:
            now = time.monotonic()
            if now - looked >= LOOK:
                looked = now
                if service.has_end("end"):
                    counts[2] = 1
                    return
            try:
                datagram, who = link.recvfrom(1024)
                break
            except BlockingIOError:
                select.select([link], [], [], min(LOOK, silence - now) if now < silence else 0)
                if now >= silence:
                    datagram = b""
                    break
        if not datagram:
            continue
        arrived = page.counter()
        if len(datagram) < 48:
            counts[1] += 1
            continue
        counts[0] += 1
        with contextlib.suppress(OSError):
            link.sendto(reply(page, datagram, arrived), who)


def open_link(service: Service, port: int) -> socket.socket:
    if service.is_there:
        return service.sockets[port]
    link = socket.socket(socket.AF_INET, socket.SOCK_DGRAM)
    link.bind(("0.0.0.0", port))
    link.setblocking(False)
    return link


def serve(words: argparse.Namespace) -> int:
    with open(words.station, "rb") as file:
        station = tomllib.load(file)
    service = Service(os.environ.get("RADIO_NTPD_SERVICE"))
    page = Page(station.get("start", 0), service.is_there)
    radios, servers = station.get("radio", []), station.get("server", [])
    if "leap_file" in station and not os.path.exists(station["leap_file"]):
        print(f"status 2 open feed {len(radios) + len(servers)}")
        return 2
    links, counts = [], []
    for place, row in enumerate(station.get("link", [])):
        try:
            links.append(open_link(service, row["port"]))
        except (OSError, KeyError):
            print(f"status 2 open link {place}")
            what = f"link {place} (port {row.get('port')})"
            print(f"radio_ntpd: cannot open {what}: another program or link has the port",
                  file=sys.stderr)
            return 2
        counts.append([0, 0, 0])
    during = int(os.environ.get("FAKE_HEARINGS", words.during))
    threads = [threading.Thread(target=read_log, args=(page, place, row["log"]))
               for place, row in enumerate(radios)]
    threads += [threading.Thread(target=ask_server, args=(page, service, len(radios) + place, row))
                for place, row in enumerate(servers)]
    threads += [threading.Thread(target=serve_link, args=(page, service, link, during, count))
                for link, count in zip(links, counts)]
    if "FAKE_DIES" in os.environ:
        threading.Thread(target=die_after, args=(service,), daemon=True).start()
    for one in threads:
        one.start()
    for one in threads:
        one.join()
    for number, line in enumerate(page.minutes, 1):
        print(f"j2 {number} 0 {line}")
    for place, (answered, dropped, is_ended) in enumerate(counts):
        end = "linkend" if is_ended else "count"
        print(f"link {place} answered {answered} dropped {dropped} again 0 kissed 0 unkept 0 end "
              f"{end}")
    print("page 0 0 0 494e4954 0 0 0 0 1048576 0000000000000000 0 0\nstatus 0")
    return 0


def die_after(service: Service) -> None:
    service.await_end("go")
    time.sleep(float(os.environ["FAKE_DIES"]))
    os._exit(1)


def decode(words: argparse.Namespace) -> int:
    with open(words.log, "rb") as log:
        for count, line in enumerate(log, 1):
            if count % 60 == 0:
                verdict = f"verdict {int(time.time()) + EPOCH} 0"
                said = "refused 3" if "FAKE_REFUSES" in os.environ else verdict
                print(f"0 {line.split()[0].decode()} {said}", flush=True)
    print("status 0")
    return 0


def replay(words: argparse.Namespace) -> int:
    fault = os.environ.get("FAKE_FAULT")
    print(f"status 3 station {fault}" if fault else "status 0")
    if fault:
        key = fault.split()[-1]
        print(f"radio_ntpd: the station file ({words.station}): there is no key {key}",
              file=sys.stderr)
    return 3 if fault else 0


def main() -> int:
    parser = argparse.ArgumentParser()
    parser.add_argument("command")
    for word in ("--station", "--script", "--plan", "--log"):
        parser.add_argument(word)
    parser.add_argument("--during", type=int, default=16)
    words = parser.parse_args()
    if words.command == "replay":
        return replay(words)
    return decode(words) if words.command == "decode" else serve(words)


if __name__ == "__main__":
    sys.exit(main())
