"""A small exact model of `radio_ntpd serve` under RADIO_NTPD_SERVICE, as far as clients and its
supervisor see it.

It adopts the sockets that it was handed, reads its radios' logs, and has the time after four whole
minutes of one radio that agree. It answers from `go` on. Once the other end of `end` is closed and
its logs have ended it prints its journal, within a quarter of a second.
"""

import tomllib
from collections.abc import Sequence
from typing import TYPE_CHECKING

from checks.simulation.air import Air
from checks.simulation.feed import MINUTES, NEAR, Feed
from checks.simulation.opened import Open, PairEnd, PipeReader
from checks.simulation.polls import Polls
from checks.simulation.processes import Process
from checks.simulation.sockets import Server
from checks.simulation.texts import journal_of, reply_of
from checks.simulation.world import World

if TYPE_CHECKING:
    from checks.simulation.judge import Judge

HEARINGS = 1_000_000
LEAP = "/srv/radio/leap"
TOLD = 10.0  # within which it is gone once it was told to end, whatever is wrong with it (s)


class Run(Process):
    """The program. `judge` is told what reaches it."""

    def __init__(self, world: World, words: Sequence[str], table: dict[int, Open],
                 service: str, air: Air, judge: "Judge") -> None:
        super().__init__(world, words, table)
        self.service, self.air, self.judge = service, air, judge
        self.feeds: list[Feed] = []
        self.links: list[Server] = []
        self.signals: dict[str, PairEnd] = {}
        self.hearings: dict[int, float] = {}
        self.is_open = self.is_ending = self.printed = self.served = self.was_told = False
        self.fault = ""  # "deaf": its links are; "spins": it does nothing at all
        self.lag = 0.0  # it reads only after so long (s)
        self.epoch = world.epoch
        self.offset: float | None = None
        self.polls: list[Polls] = []
        self.token = ""
        self.went_at = 0.0

    def __str__(self) -> str:
        return f"run {self.pid}"

    def begin(self) -> None:
        self.token = f"{self.pid}"
        self.world.at(self.world.random.uniform(0.005, 0.03), self._read_station)

    def is_held(self) -> bool:
        return super().is_held() or self.fault == "spins"

    # Its beginning

    def _station(self) -> PipeReader:
        name = self.words[self.words.index("--station") + 1]
        found = self.table[int(name.rpartition("/")[2])]
        assert isinstance(found, PipeReader)
        return found

    def _read_station(self) -> None:
        if self.is_held() or self.is_open:
            return
        reader = self._station()
        if reader.pipe.writer.holders > 0:
            reader.pipe.listener = self._read_station
            return
        reader.pipe.listener = None
        try:
            values = tomllib.loads(bytes(reader.pipe.data).decode())
            self._open(values)
        except (KeyError, ValueError, AssertionError) as error:
            self.judge.found("a station that can't be read", repr(error))
            self.end(3)

    def _open(self, values: dict[str, object]) -> None:
        words = [one.split("=") for one in self.service.split()]
        given = [self.table[int(value)] for name, value in words if name == "socket"]
        for name, value in words:
            if name in ("go", "ask", "end"):
                end = self.table[int(value)]
                assert isinstance(end, PairEnd)
                self.signals[name] = end
                end.listeners.append(self.told)
        if values["start"] != 0:
            self.judge.found("a run's counter isn't the host's", str(values["start"]))
        for place, row in enumerate(list(values.get("radio", []))):  # type: ignore[call-overload]
            reader = self.table[int(row["log"].rpartition("/")[2])]
            assert isinstance(reader, PipeReader)
            self.feeds.append(Feed(self, place, int(row["delay"]), reader))
            reader.pipe.listener = self.poll
        if not self._open_others(values, dict(one for one in words if one[0] == "pace")):
            return
        for place, row in enumerate(list(values.get("link", []))):  # type: ignore[call-overload]
            link = next((one for one in given if isinstance(one, Server)
                         and one.port == row["port"]), None)
            if link is None:
                self._say(f"radio_ntpd: cannot open link {place} (port {row['port']}): "
                          "nobody handed its socket\n")
                self.end(2)
                return
            self.links.append(link)
            link.runs.append(self)
        self.is_open = True
        self.told()
        self.poll()

    def _open_others(self, values: dict[str, object], pace: dict[str, str]) -> bool:
        """Its servers and its leap second file. Whether it goes on."""
        there = self.judge.machine.disk.find(LEAP)
        if "leap_file" in values and not there:
            self._say(f"radio_ntpd: cannot read {LEAP}\n")
            self.end(2)
            return False
        if there and "leap_file" not in values and self.world.now - self.judge.lasts > 1.0:
            self.judge.found("a run goes without its leap second file", str(self))
        for row in list(values.get("server", [])):  # type: ignore[call-overload]
            if not pace:
                self.judge.found("a run isn't told its pace", str(self))
            self.polls.append(Polls(self, int(row["polls"]), float(pace.get("pace", 1.0))))
        return True

    def _say(self, text: str) -> None:
        errors = self.table.get(2)
        if errors:
            try:
                errors.write(text.encode())
            except OSError:
                pass

    # What it is told and given

    def told(self) -> None:
        """An end of `go`, `ask` or `end` was closed."""
        if self.is_open and not self.was_told and self._is_told():
            self.was_told = True
            self.world.at(TOLD, self._lives_on)
        if self.is_held() or not self.is_open:
            return
        if self._is_told() and not self.is_ending:
            self.is_ending = True
            self.world.at(self.world.random.uniform(0.0, 0.25), self.finish)
        if "ask" in self.signals and self.signals["ask"].readable():
            for one in self.polls:
                one.begin()
        if self.went() and not self.served:
            self.served, self.went_at = True, self.world.now
            for one in self.polls:
                one.serves()
            self._serve()
        self.world.disturb()

    def _is_told(self) -> bool:
        return "end" in self.signals and self.signals["end"].readable()

    def _lives_on(self) -> None:
        if self.alive:
            self.judge.found("a run that was told to end lives on", str(self))

    def went(self) -> bool:
        return "go" not in self.signals or self.signals["go"].readable()

    def _serve(self) -> None:
        for link in self.links:
            link.settle()
            link.serve()
            self.plan_deafness(link)

    def poll(self) -> None:
        """Reads what its pipes have."""
        if self.is_held() or not self.is_open:
            return
        if self.lag:
            lag, self.lag = self.lag, 0.0
            self.world.at(lag, self.poll)
            return
        for feed in self.feeds:
            feed.read()
        self._judge_time()
        if self.is_ending:
            self.finish()

    def _judge_time(self) -> None:
        """Radios that don't agree with the newest pulse have to begin anew. What it had stays until
        a whole minute says otherwise."""
        newest = max(self.feeds, key=lambda one: one.second, default=None)
        if newest is None or newest.offset is None:
            return
        for one in self.feeds:
            if one.offset is not None and abs(one.offset - newest.offset) > NEAR:
                one.minutes = 0
        ready = [one for one in self.feeds if one.minutes >= MINUTES]
        found = max(ready, key=lambda one: one.second).offset if ready else None
        agrees = self.offset is not None and abs(newest.offset - self.offset) <= NEAR
        if found is None and (agrees or not newest.minutes):
            return
        if found != self.offset:
            self.offset = found
            self.world.served = True

    def resumed(self) -> None:
        self._read_station()
        self.told()
        self.poll()
        self._serve()

    # Answers

    def answers(self, link: Server) -> bool:
        """Whether it takes what comes to a link now."""
        return (self.is_open and self.alive and not self.stopped and not self.fault
                and not self.is_ending and self.served
                and self.hearings.get(link.port, 0.0) < HEARINGS)

    def plan_deafness(self, link: Server) -> None:
        """Its hearings on a link are used up at some time."""
        link.settle()
        left = HEARINGS - self.hearings.get(link.port, 0.0)
        share = max(0.5, link.rate / max(1, len(link.answering())))
        if link.rate > 100 and left > 0:
            self.world.at(left / share, self._used, link)

    def _used(self, link: Server) -> None:
        link.settle()
        if self.alive and HEARINGS - self.hearings.get(link.port, 0.0) < 1:
            self.hearings[link.port] = HEARINGS
            self.world.served = True
        elif self.alive and link.rate > 100:
            self.plan_deafness(link)

    def reply(self, asked: bytes) -> bytes:
        return reply_of(self.offset, self.world.monotonic(), asked)

    # Its end

    def finish(self) -> None:
        """Prints its journal once its links and its logs have ended."""
        if self.is_held() or not self.is_open or not self.is_ending:
            return
        for feed in self.feeds:
            feed.read()
        if not all(feed.ended for feed in self.feeds):
            return
        for link in self.links:
            link.settle()
        status = self._print()
        self.end(status)

    def _print(self) -> int:
        text = journal_of(self.pid, [self.hearings.get(one.port, 0.0) for one in self.links])
        try:
            while text:
                text = text[self.table[1].write(text):]
        except (OSError, KeyError):
            return 74
        self.printed = True
        return 0

    def end(self, status: int) -> None:
        if not self.alive:
            return
        for link in self.links:
            link.settle()
        super().end(status)
        for link in self.links:
            if self in link.runs:
                link.runs.remove(self)
        self.judge.ended(self)
