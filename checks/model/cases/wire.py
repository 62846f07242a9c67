"""Stations for `serve` with servers and clients on sockets of 127.0.0.1: moments are taken from what went over the
wire.
"""

import contextlib
import itertools
import socket
import threading
import time
from typing import Callable, Iterator, Sequence

from lab.client import HOST as LOOPBACK, free_port, socket_on, to_server
from lab.model import exchanges, replies, station as stations
from lab.model.clients import DENY, PASS, RATE, Gate
from lab.model.commands import Ended, due_log, ended
from lab.model.entries import Entry, numbered
from lab.model.exchanges import Event
from lab.model.header import LENGTH, read
from lab.model.notes import met
from lab.model.page import Page
from lab.model.spelling import Tape
from .case import Case, Files
from .decode_directed import NOON, spelt
from .journals import LETTERS
from .scripts import QUERY, answer, sealed

CLIENT = 0x7F000001
# The most hearings of a round, and how long a server's socket waits for a request, in seconds.
MOST_HEARINGS, WAIT = 8, 20.0
# Of each poll in turn, what is sent: whether by a stranger, and the datagram by the moment of asking.
Turn = tuple[bool, Callable[[int], bytes]]


def moment_of(span: int) -> int:
    """The moment whose span this is: spans of two moments differ by 4294 units or more."""
    return -(-span * 10**6 // 2**32)


class Server:
    """A server of one port that answers each request by the turns of its poll, and a stranger on another port."""

    def __init__(self, polls: Sequence[Sequence[Turn]]):
        self.polls = polls
        self.heard: list[tuple[bool, Event]] = []

    @contextlib.contextmanager
    def __call__(self) -> Iterator[Files]:
        self.heard = []
        with contextlib.ExitStack() as stack:
            own, stranger = (stack.enter_context(socket_on()) for _ in range(2))
            own.settimeout(WAIT)
            serving = threading.Thread(target=self._serve, args=(own, stranger))
            serving.start()
            port = own.getsockname()[1]
            yield {
                "station": f'[[server]]\naddress = "{LOOPBACK}"\nport = {port}\npolls = {len(self.polls)}\n'.encode()
            }
            serving.join()

    def _serve(self, own: socket.socket, stranger: socket.socket) -> None:
        for turns in self.polls:
            try:
                request, client = own.recvfrom(1024)
            except TimeoutError:
                return
            header = read(request)
            asked = moment_of(header.transmit - 2**63) if header else 0
            self.heard.append((False, Event(asked, request, is_request=True)))
            for is_stranger, datagram in turns:
                data = datagram(asked)
                self.heard.append((is_stranger, Event(0, data)))
                (stranger if is_stranger else own).sendto(data, client)

    def due(self, text: str) -> Ended:
        """What has to be written: each datagram is judged at the moment that its entry has."""
        station = stations.read(f'[[server]]\naddress = "{LOOPBACK}"\nport = 1\n'.encode())
        assert isinstance(station, stations.Station)
        journal = station.journal()
        history: list[Event] = []
        lines: list[str] = []
        moments = iter([int(line.split(" ")[4]) for line in text.splitlines() if line.startswith("j2 ")])
        for is_stranger, event in self.heard:
            if event.is_request:
                _note_round(history)
                history.append(event)
                if event.datagram != exchanges.request(event.at):
                    return ended([f"the request of {event.at} is {event.datagram.hex()}"], "status 0")
                continue
            # No answer comes before its request.
            at = max(next(moments, 0), event.at, history[-1].at)
            code = exchanges.refusal(history, event.datagram, is_stranger)
            asked = exchanges.outstanding(history)
            history.append(Event(at, event.datagram, taken=code is None))
            values = (code,) if code else exchanges.sample(asked or 0, at, event.datagram, station.servers[0])
            journal.add(Entry(0, at, "declined" if code else "sample", values))
            lines.append(numbered(journal.page.length, journal.page.rate, journal.entries[-1]))
        return ended([*lines, journal.page.line()], "status 0")


def _note_round(history: list[Event]) -> None:
    """Notes how the round before a request ended."""
    if history and not history[-1].taken:
        last = max(place for place, event in enumerate(history) if event.is_request)
        is_full = len(history) - 1 - last == MOST_HEARINGS
        met(f"wire: a round {'of eight hearings' if is_full else 'that silence ends'}")


def polled() -> Iterator[Case]:
    bad: Turn = (False, lambda asked: answer(asked, mode=3))
    cases: tuple[tuple[str, list[list[Turn]], str], ...] = (
        ("four answers", [[(False, answer)]] * 4, "answer: taken"),
        ("a stranger, and then the server", [[(True, answer), (False, answer)]] * 2, "answer: refused by 1"),
        ("a short stranger", [[(True, lambda asked: b"x"), (False, answer)]], "answer: refused by 1"),
        ("seven refused, and then an answer", [[bad] * 7 + [(False, answer)]] * 2, "answer: refused by 5"),
        ("eight refused, and the next request", [[bad] * 8, [(False, answer)]], "wire: a round of eight hearings"),
        ("silence, and the next request", [[bad], [(False, answer)]], "wire: a round that silence ends"),
    )
    for name, polls, meant in cases:
        server = Server(polls)
        yield Case(f"polls: {name}", ["serve", "--station", "station"], {}, server.due, meant, server)


class Client:
    """A client of a link: sends its datagrams one by one, each after the reply to the one before. The first one has a
    reply.
    """

    def __init__(self, top: str, tables: str, datagrams: Sequence[bytes]):
        self.top, self.tables, self.datagrams = top, tables, datagrams
        self.got: list[bytes | None] = []
        self.log = Tape("dcf", [spelt("dcf", NOON + 60 * i) for i in range(6)]).log()

    @contextlib.contextmanager
    def __call__(self) -> Iterator[Files]:
        self.got = []
        port = free_port()
        asking = threading.Thread(target=self._ask, args=(port,))
        asking.start()
        yield {"station": self.station(port), "log": self.log}
        asking.join()

    def station(self, port: int) -> bytes:
        radio = LETTERS["dcf"].replace('"x"', '"log"')
        return f"{self.top}{radio}[[link]]\nport = {port}\n{self.tables}".encode()

    def _ask(self, port: int) -> None:
        with to_server(port, WAIT) as client:
            for datagram in self.datagrams:
                self.got.append(_answer(client, datagram))
                if self.got[-1] is None and not replies.dropped(datagram):
                    return

    def due(self, text: str) -> Ended:
        """What has to be written; what was answered is judged by _wrong_reply."""
        station = stations.read(self.station(1))
        assert isinstance(station, stations.Station)
        journal, gate = station.journal(), station.gate()
        lines = []
        for entry in due_log(0, "dcf", 0, self.log)[0]:
            journal.add(entry)
            lines.append(numbered(journal.page.length, journal.page.rate, entry))
        counts = {PASS: 0, DENY: 0, RATE: 0, "dropped": 0}
        for datagram, got in itertools.zip_longest(self.datagrams, self.got):
            if replies.dropped(datagram):
                counts["dropped"] += 1
                continue
            code, wrong = _judged(station, journal.page, gate, datagram, got)
            counts[code] += 1
            if wrong:
                return ended([wrong], "status 0")
        kissed = counts[DENY] + counts[RATE]
        link = f"link 0 answered {counts[PASS]} dropped {counts['dropped']} again 0 kissed {kissed} unkept 0 end count"
        return ended([*lines, link, journal.page.line()], "status 0")


def _judged(
    station: stations.Station, page: Page, gate: Gate, datagram: bytes, got: bytes | None
) -> tuple[str, str | None]:
    """The code of a request, and what is wrong with its reply: its moments are read from it, and it is made again
    from them. The page's rate is 0.
    """
    header = read(got or b"")
    stamps = (header.receive, header.transmit) if header else (page.offset, page.offset)
    arrived, sent = (moment_of((stamp - page.offset) % 2**64) for stamp in stamps)
    code = gate.judge(CLIENT, arrived)
    due = replies.reply(code, page, station.keys, datagram, arrived, sent)
    met("wire: a kiss code" if code else "wire: a sealed reply" if len(due) > LENGTH else "wire: a reply")
    if got == due and arrived <= sent:
        return code, None
    return code, f"the reply is {got.hex() if got else None}, not {due.hex()}"


def _answer(client: socket.socket, datagram: bytes) -> bytes | None:
    """The reply to a datagram that has one. It is sent again as long as nobody has the port."""
    for _ in range(1000):
        try:
            client.send(datagram)
            return None if replies.dropped(datagram) else client.recv(1024)
        except ConnectionRefusedError:
            time.sleep(0.02)
        except TimeoutError:
            break
    return None


def asked() -> Iterator[Case]:
    key = '[[key]]\nid = 5\nsecret = "longwave"\n'
    other = [
        QUERY[:47],
        b"\x2b" + QUERY[1:],
        b"\x24" + QUERY[1:],
        QUERY + bytes(20),
        sealed(QUERY, 5, b"longwave"),
        b"\x1b" + QUERY[1:],
    ]
    for name, top, tables, meant in (
        ("a client of a link", "", key, "wire: a sealed reply"),
        ("a client that asks too often", "gap = 60000000\n", key, "wire: a kiss code"),
        ("a client that is denied", "", '[[deny]]\nnet = "127.0.0.0/30"\n', "wire: a kiss code"),
    ):
        client = Client(top, tables, [QUERY, *other])
        words = ["serve", "--station", "station", "--during", "0", "--after", str(1 + len(other))]
        yield Case(name, words, {}, client.due, meant, client)


def all_of() -> Iterator[Case]:
    yield from polled()
    yield from asked()
