"""One process of `serve`: started before it is needed and fed from then on, it serves and ends when
it is told."""

import contextlib
import copy
import errno
import os
import signal
from collections.abc import Sequence

from keeper.config import Settings
from keeper.station import text_of
from keeper.supervisor import disk
from keeper.supervisor.pipes import Outlet
from keeper.supervisor.host import Child, Host
from keeper.supervisor.journals import OUT, name_of
from keeper.supervisor.radios import Feed, Heard

HEARINGS = 1_000_000  # the most that `serve` takes
POLLS = 100_000  # the most that a station takes
LINKS = 8  # the most links of a station
PENDING = 1 << 20  # bytes that wait for a pipe that is full; more says that nobody reads it
HUNG = 2.0  # one that reads no pulse for so long hangs (s)
BEGINS = 10.0  # the same of one that has read none yet: a busy host takes long to start it (s)
LOCAL = "127.0.0.1"


class Run:
    """Started at `started` (monotonic s). It serves from `began` on, for `cause`, and is told to
    end at `ended`, for the reason `why`. `own` counts how often the keeper asked each link.
    `probe` is a port of its own on the loopback, by which it can be asked while another run has the
    same links; 0 where there is no room for one. `note` says what it has to go without. Raises
    OSError, and leaves nothing."""

    began: float | None = None
    ended: float | None = None
    asks_since = float("inf")  # since when its servers are asked (monotonic s)
    cause = why = note = out = ""
    has_read = had_time = False
    read_at: float | None = None  # since when it has been behind, by our looks (s)
    ends_at = 0.0  # when it was told to end, by our looks (s)
    is_crowded = False  # whether more datagrams came than are answered as it began
    probe = 0

    def __init__(self, host: Host, settings: Settings, feeds: Sequence[Feed],
                 links: Sequence[int], number: int) -> None:
        self.host, self.settings, self.number = host, settings, number
        self.started = host.monotonic()
        self.own = [0] * len(links)
        self.outlets: dict[Feed, Outlet] = {}
        self.signals: dict[str, int] = {}  # `ask`, `go` and `end`: what hasn't been told yet
        theirs: list[int] = []
        try:
            self.child = self._start(feeds, list(links), theirs)
        except OSError:
            self._close_pipes()
            self.remove_out()
            raise
        finally:
            for one in theirs:
                host.close(one)
        for feed in feeds:
            self.give(feed, feed.last_minutes())

    def _start(self, feeds: Sequence[Feed], links: list[int], theirs: list[int]) -> Child:
        """Starts the process. `theirs` gets our copies of its descriptors."""
        host = self.host

        def handed(pair: tuple[int, int]) -> int:
            theirs.append(pair[1])
            return pair[0]

        for feed in feeds:
            self.outlets[feed] = Outlet(host, handed(host.outlet()), PENDING)
        logs, words = [f"/dev/fd/{one}" for one in theirs], []
        for name in ("ask", "go", "end"):
            self.signals[name] = handed(host.pair())
            words.append(f"{name}={theirs[-1]}")
        if 0 < len(links) < LINKS:
            theirs.append(host.bind(LOCAL, 0))
            links, self.probe = [*links, theirs[-1]], host.port_of(theirs[-1])
        words += [f"socket={one}" for one in links]
        words += [f"pace={self.settings.pace}"] if self.settings.pace else []
        station = Outlet(host, handed(host.outlet()), 0)
        station.give(self._station(logs).encode())
        is_whole = not station.pending
        station.close()
        if not is_whole:
            raise OSError(errno.ENOSPC, "a pipe takes no station", "the station")
        program = [self.settings.program, "serve", "--station", f"/dev/fd/{theirs[-1]}",
                   "--during", str(HEARINGS)]
        given = sorted({*theirs, *links})
        out = os.path.join(self.settings.runtime, name_of(host.realtime(), self.number) + OUT)
        theirs.append(host.open(out, os.O_RDWR | os.O_CREAT | os.O_EXCL | os.O_NOFOLLOW))
        self.out = out
        return host.spawn(program, standard=(-1, theirs[-1], 2), handed=given, gentle=True,
                          environment={"RADIO_NTPD_SERVICE": " ".join(words)})

    def _station(self, logs: list[str]) -> str:
        """The station's text for this run: its counter is the host's own."""
        values = copy.deepcopy(self.settings.text)
        values["start"] = 0
        for radio, name in zip(values.get("radio", []), logs):
            radio["log"] = name
        for server in values.get("server", []) if self.settings.pace else []:
            server["polls"] = POLLS
        if self.probe:
            values["link"] = [*values["link"], {"port": self.probe}]
        try:
            if path := self.settings.leap_file:
                with disk.opened(self.host, path, os.O_RDONLY) as descriptor:
                    self.host.read(descriptor, 1)
        except OSError as error:  # it is no reason to serve nobody
            del values["leap_file"]
            self.note = f"leap_file {path}: {error.strerror}; the run goes without it"
        return text_of(values)

    def give(self, feed: Feed, heard: Sequence[Heard]) -> None:
        if feed in self.outlets:
            self.outlets[feed].give(b"".join(one.given.line() for one in heard))

    def is_fed(self) -> bool:
        """Whether it has read all that it was given."""
        return not any(one.waits() for one in self.outlets.values())

    def hangs(self, seen: float) -> bool:
        """Whether it hasn't read what it was given for long, by the seconds of our looks."""
        if self.is_fed():
            self.read_at, self.has_read = seen, True
        elif self.read_at is None:
            self.read_at = seen
        return seen - self.read_at > (HUNG if self.has_read else BEGINS)

    def tell(self, name: str) -> None:
        """`ask`: its servers may be asked; `go`: it serves."""
        if name in self.signals:
            self.host.close(self.signals.pop(name))
            if name == "ask":
                self.asks_since = self.host.monotonic()

    def begin(self, cause: str) -> None:
        self.cause, self.began = cause, self.host.monotonic()
        self.tell("ask")
        self.tell("go")

    def end(self, why: str) -> None:
        """Ends it; its journal follows."""
        self.why, self.ended = why, self.host.monotonic()
        self._close_pipes()
        self.host.kill(self.child, signal.SIGCONT)  # one that was stopped ends too

    def end_at_once(self) -> None:
        """What it has printed until then is no whole journal."""
        self.host.kill(self.child, signal.SIGKILL)

    def status(self) -> int | None:
        return self.host.status(self.child)

    def served_for(self) -> float:
        """For how long it served, up to its end or now (s)."""
        end = self.host.monotonic() if self.ended is None else self.ended
        return end - self.began if self.began is not None else 0.0

    def _close_pipes(self) -> None:
        for outlet in self.outlets.values():
            outlet.close()
        while self.signals:
            self.host.close(self.signals.popitem()[1])

    def remove_out(self) -> None:
        if self.out:
            with contextlib.suppress(OSError):
                self.host.remove(self.out)

    def release(self) -> None:
        self._close_pipes()
        self.host.release(self.child)
