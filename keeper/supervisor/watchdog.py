"""Asks links as a client would, and says when one doesn't answer any more."""

from dataclasses import dataclass, field

from keeper.ntp import ASKED, Answer, answer, request, unix_of
from keeper.supervisor.host import Host

SILENT = 3  # this often without an answer, and the link is deaf
LOST = 10  # the same in a crowd: most questions find no room then
WAIT = 0.25  # for an answer (s)
SOONER = 0.02  # for an answer of a link in whose queue datagrams wait (s)
LEAST = 0.05  # how soon a question that the host refused is asked again (s)
HURRIED = 8.0  # where links fall silent again and again patience grows to so many times at most
SETTLED = 0.3  # a run that is told to end may answer so long (s)
CALM = 60.0  # after so long without a deaf link patience is what it was (s)
LATE = 0.05  # a look so long after the one before is late: we were stopped or starved (s)
CROWD = 100  # datagrams that find no room within a second make a crowd


@dataclass
class Link:
    """A port that is asked. `queue` is its socket, -1 where there is none to look at. `asked_at`
    and `answered_at` are monotonic seconds; `last` is its last answer that was no kiss code: it
    came at `came_unix`, and was `offset` seconds ahead of the host's clock. `asked` counts
    questions, and `silent` those in a row without an answer. `waits_since`: since when datagrams
    wait in its queue. `judged_from`: since when its answer is waited for."""

    port: int
    queue: int = -1
    asked_at: float = 0.0
    judged_from: float = 0.0
    answered_at: float = 0.0
    last: Answer | None = None
    came_unix: float = 0.0
    offset: float = 0.0
    kissed: bool = False
    due: float = 0.0
    asked: int = 0
    silent: int = 0
    client: int = -1
    origin: int = 0
    waits_since: float | None = None
    waiting: int = 0
    dropped: int = 0

    def has_time(self) -> bool:
        return self.last is not None and self.last.has_time()


@dataclass
class Watch:
    """Watches some links, from loopback addresses in turn; `every` is how often each is asked."""

    host: Host
    links: list[Link]
    addresses: list[str]
    every: float = ASKED
    patience: float = 1.0
    deaf_at: float = -CALM
    looked: float = 0.0
    # In the last second, or since the last turn where that is longer ago.
    dropped: list[tuple[float, int]] = field(default_factory=list)

    def awaits(self) -> list[int]:
        return [link.client for link in self.links if link.client >= 0]

    def due(self) -> float:
        """When something is to be done at the latest (monotonic s)."""
        return min((link.judged_from + self._wait(link) if link.client >= 0 else link.due
                    for link in self.links), default=float("inf"))

    def turn(self, readable: set[int], now: float) -> None:
        """Takes answers and asks what is due. Call it often. A look that came late is no evidence
        against anybody: each question is waited for anew then, once."""
        if now - self.deaf_at > CALM:
            self.patience = 1.0
        is_late, self.looked = now - self.looked > LATE, now
        for link in self.links:
            self._look(link, now)
            if link.client in readable:
                self._receive(link, now)
            if is_late and link.judged_from == link.asked_at:
                link.judged_from = now
            if link.client >= 0 and now - link.judged_from > self._wait(link):
                self._is_silent(link, now)  # it is asked again at once
            if link.client < 0 and now >= link.due:
                self._ask(link, now)
        self.dropped = [one for one in self.dropped if now - one[0] < 1.0] or self.dropped[-1:]
        self.dropped.append((now, sum(link.dropped for link in self.links)))

    def _wait(self, link: Link) -> float:
        """How long an answer is waited for (s)."""
        return min(WAIT, SOONER * self.patience) if link.waits_since is not None else WAIT

    def _look(self, link: Link, now: float) -> None:
        """A link in whose queue datagrams wait at two looks may be deaf, so it is asked now."""
        if link.queue < 0:
            return
        before = link.waiting
        try:
            link.waiting, link.dropped = self.host.queue(link.queue)
        except OSError:
            link.waiting = 0  # the host doesn't say
        if link.waiting < before:
            link.silent = 0  # somebody reads it
        if not link.waiting:
            link.waits_since = None
        elif link.waits_since is None:
            link.waits_since = now
        elif now - link.waits_since >= SOONER * self.patience:
            link.due = min(link.due, now)

    def is_crowded(self) -> bool:
        """Whether more datagrams come than are answered."""
        return bool(self.dropped) and self.dropped[-1][1] - self.dropped[0][1] >= CROWD

    def _ask(self, link: Link, now: float) -> None:
        link.due, link.origin = now + self.every, int(now * 1e9) % 2**64
        own = self.addresses[link.asked % len(self.addresses)]
        try:
            link.client = self.host.client(own, link.port)
            self.host.write(link.client, request(link.origin))
        except OSError:
            # Nothing was sent: the host has no socket now, or its firewall drops what we send.
            self._forget(link, now + LEAST)
            return
        link.asked_at = link.judged_from = now
        link.asked += 1

    def _receive(self, link: Link, now: float) -> None:
        try:
            said = answer(self.host.read(link.client, 1024))
        except BlockingIOError:
            return
        except OSError:  # nobody has the port
            self._is_silent(link, now + LEAST)
            return
        if said is None or said.origin != link.origin:
            return
        self._forget(link, link.due)
        link.silent, link.answered_at, link.kissed = 0, now, said.is_kiss()
        if not said.is_kiss():
            link.last, link.came_unix = said, self.host.realtime()
            middle = unix_of((said.receive + said.transmit) / 2, link.came_unix)
            link.offset = middle - link.came_unix + (now - link.asked_at) / 2

    def _is_silent(self, link: Link, due: float) -> None:
        self._forget(link, due)
        link.silent += 1

    def _forget(self, link: Link, due: float) -> None:
        """Its question is given up or answered; the next one is asked then."""
        self.host.close(link.client)
        link.client, link.due = -1, due

    def has_time(self) -> bool:
        return any(link.has_time() for link in self.links)

    def is_deaf(self) -> bool:
        most = LOST if self.is_crowded() else SILENT
        return any(link.silent >= most for link in self.links)

    def begin(self, now: float, was_deaf: bool) -> None:
        """Another run answers from now on: it is asked once the one before has ended. Where links
        fall silent again and again the host is slow, so more patience is had."""
        if was_deaf:
            self.deaf_at, self.patience = now, min(self.patience * 2, HURRIED)
        for link in self.links:
            link.silent, link.due, link.waits_since = 0, now + SETTLED, None

    def close(self) -> None:
        for link in self.links:
            self._forget(link, link.due)
