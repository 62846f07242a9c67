"""Wrong supervisors: bugs that are planted in a copy of the keeper, to see that the judge finds
them. Each has a history in which it shows; seeds find it too, most within a few."""

from collections.abc import Iterator
from contextlib import contextmanager
from dataclasses import dataclass
from pathlib import Path
from shutil import copytree
from tempfile import TemporaryDirectory

PLAIN = "command 5123 600 60 socket 5"
SHORT = "command 5123 100 60 socket 5"


@dataclass(frozen=True)
class Bug:
    """In `file` of keeper/supervisor each first text stands in the place of the second.
    `events` are of a history of this `kind` in which the judge finds it."""

    name: str
    file: str
    edits: tuple[tuple[str, str], ...]
    events: str = ""
    kind: str = PLAIN
    ends: float = 700.0

    def history(self) -> str:
        events = "\n".join(one.strip() for one in self.events.split(";"))
        return f"seed 1 ends {self.ends:.0f} {self.kind}\n{events}\n"


def bug(name: str, file: str, old: str, new: str, events: str = "", kind: str = PLAIN,
        ends: float = 700.0) -> Bug:
    return Bug(name, file, ((old, new),), events, kind, ends)


def often(event: str, count: int = 14, every: float = 3.0) -> str:
    """An event again and again."""
    return ";".join(f"{430 + place * every:.3f} {event}" for place in range(count))


@contextmanager
def planted(top: Path, one: Bug) -> Iterator[Path]:
    """A copy of the tree's keeper with the bug in it, and of what simulates it. Raises ValueError
    where a text that it changes doesn't stand there once."""
    with TemporaryDirectory() as folder:
        for name in ("keeper", "feeders", "checks", "lab"):
            copytree(top / name, Path(folder) / name)
        path = Path(folder) / "keeper" / "supervisor" / f"{one.file}.py"
        text = path.read_text()
        for old, new in one.edits:
            if text.count(old) != 1:
                raise ValueError(f"{one.name}: {old!r} stands {text.count(old)} times in {path}")
            text = text.replace(old, new)
        path.write_text(text)
        yield Path(folder)


SLEEP = "        for run in self._runs():\n            run.end_at_once()\n        self._drop_next()\n"
WRONG = (
    # The clocks
    bug("sleeps below 10 s aren't seen", "clocks", "AWAKE = 0.01", "AWAKE = 10.0",
        "430 sleep 0.6"),
    bug("a log's name is the same after a sleep", "clocks",
        "{round(slept(host) * 100)}", "0", "430 sleep 40;440 kill"),
    bug("a log's name is without its source", "clocks", "sha256(f\"{counter} {source}\"",
        "sha256(f\"{counter}\"", "430 hup-source;440 kill"),
    bug("sources go on over a sleep", "supervisor", "feed.wake()", "pass", "430 sleep 40"),
    bug("runs go on over a sleep", "supervisor", "self.service.sleep(cause)  #", "pass  #",
        "430 sleep 40"),
    bug("what lies unread goes on over a sleep", "radios",
        "self.lines.last, self.lines.history = now, now + HISTORY", "pass",
        "430 late 3;431.5 sleep 40"),
    bug("the last minutes go on over a sleep", "radios", "self.recent.clear()", "pass",
        "430 sleep 40"),
    Bug("the run that stands by goes on over a sleep", "service",
        ((SLEEP, "        if self.serving:\n            self.serving.end_at_once()\n"),),
        "430 sleep 40"),
    bug("a pause of the host isn't seen", "pauses", "LEAST = 0.2", "LEAST = 1e9", "430 jump 40"),
    bug("the next keeper isn't told of a pause", "reports", "told.get(\"paused\", 0.0)",
        "told.get(\"\", 0.0)", "430 jump 40;440 kill"),
    # The loop
    bug("the loop rests for half a second", "supervisor", "TURN = 0.025", "TURN = 0.5"),
    bug("systemd is told nothing", "supervisor", "self.host.notify(\"WATCHDOG=1\")", "pass"),
    bug("SIGHUP ends the service", "supervisor", "if number == signal.SIGHUP:", "if not number:",
        "430 hup"),
    bug("files that are refused are taken", "supervisor", "str(fault) if fault else self._take",
        "self._take", "430 hup-bad"),
    bug("systemd's sockets aren't taken", "supervisor", "in self.host.handed_over()}", "in []}"),
    # Runs
    bug("a run isn't told to end", "runs", "        self._close_pipes()\n        self.host.kill(",
        "        self.host.kill(", "", SHORT),
    bug("a run is blamed for a late look", "service", "self.looks - self.looked_from > look",
        "run.served_for() > look", "430 stand 10 3;430 kill-run"),
    bug("a run that doesn't end is left", "service", "END = 5.0", "END = 5000.0",
        "430 spin-run"),
    bug("the end leaves the run", "service", "self._lose(\"stop\", self.host.monotonic())", "pass"),
    bug("the first pause is 100 s", "service", "PAUSES = 1.0, 30.0", "PAUSES = 100.0, 300.0",
        "430 no-program 5;430.5 kill-next;430.6 kill-run"),
    bug("a deaf run serves on", "service", "        if self.watch.is_deaf():\n", "        if not run:\n",
        "430 stop-run"),
    bug("the links are asked while the next run is looked at", "service",
        "        elif self.serving:\n            self.watch.turn",
        "        if self.serving:\n            self.watch.turn",
        "430 hup-source;431.356 flood 50000 60", "command 5123 600 60 bind 5"),
    bug("a run is deaf after 300 silences", "watchdog", "SILENT = 3", "SILENT = 300",
        "430 stop-run"),
    bug("what asks a link stays open", "watchdog", "        self.host.close(link.client)\n",
        ""),
    bug("a run's ends stay open", "runs", "            for one in theirs:\n"
        "                host.close(one)", "            pass", "", SHORT),
    bug("a run's pipes stay open", "runs", "        self._close_pipes()\n        self.host.release",
        "        self.host.release", often("kill-next", 20), ends=800),
    bug("the station's pipe stays open", "runs", "        station.close()",
        "        pass"),
    bug("a run is never told to begin", "runs", "        self.tell(\"go\")", "        pass"),
    bug("a run that is dropped isn't released", "service", "            self.next.release()\n", "",
        often("kill-next", 20), ends=800),
    # Servers, the leap second file, steady
    bug("servers are asked at the change", "service", 'ASKED = {"cycle": 10.0',
        'ASKED = {"cycle": 0.0', "", SHORT + " servers"),
    bug("a reload that was put off asks late", "service",
        'if cause == "reload" and self.refusals.span', 'if cause == "cycle"',
        "430 hup-source", PLAIN + " servers", 900),
    bug("a run that stands by asks at once", "runs",
        "        for feed in feeds:\n            self.give(",
        "        self.tell(\"ask\")\n        for feed in feeds:\n            self.give(", "",
        PLAIN + " servers"),
    bug("servers have the operator's polls", "runs", 'server["polls"] = POLLS', "pass", "",
        PLAIN + " servers"),
    bug("servers aren't paced", "runs", "        words += [f\"pace={self.settings.pace}\"] if",
        "        words += [] if", "430 server-lost 20", PLAIN + " servers"),
    bug("a leap second file that is gone stops runs", "runs", 'del values["leap_file"]', "pass",
        "430 leap-gone 300;431 kill-next;431.5 kill-run", PLAIN + " leap", 900),
    bug("a leap second file is always left out", "runs",
        "                    self.host.read(descriptor, 1)",
        "                    raise OSError(5, 'it is so')", "", SHORT + " leap"),
    bug("pulses aren't steadied", "radios", "one.width) if self.steady else one)",
        "one.width) if not self else one)", "", PLAIN + " steady"),
    bug("what steadies goes on over a sleep", "radios",
        "        self.steady = Steady() if self.steady else None", "        pass",
        "430 sleep 0.05", PLAIN + " steady"),
    bug("logs have steadied pulses", "supervisor", "add([one.raw for", "add([one.given for", "",
        PLAIN + " steady"),
    # Sources
    bug("each radio's pulses go to all", "runs", "            self.outlets[feed].give(",
        "            for one in self.outlets.values():\n                one.give(", "",
        "command,command 5123 600 60 socket 5"),
    bug("a run that begins isn't given the last minutes", "radios",
        "return [one for one in self.recent if one.given.start >= oldest]", "return []",
        "430 kill-next;520 kill-run"),
    bug("a source that ended isn't begun again", "radios",
        "self.state in (\"waiting\", \"starting\")", "self.state == \"starting\"",
        "430 kill-receiver 0"),
    bug("a dead line isn't named", "radios", "self.silent_since = self.pulse_at or self.born",
        "pass", "430 fade 0 20"),
    bug("a dead line is named for ever", "radios",
        "self.alive, self.pulse_at, self.silent_since = now, self.host.boottime(), 0.0",
        "self.alive, self.pulse_at = now, self.host.boottime()", "430 fade 0 20", ends=800),
    bug("a dead line is silent since the keeper began", "radios", "self.pulse_at or self.born",
        "self.born", "430 fade 0 20"),
    bug("a dead line is silent since it was noticed", "radios", "self.pulse_at or self.born",
        "self.host.boottime()", "430 fade 0 20"),
    bug("beginning a source counts as a pulse", "radios",
        "        self.lines.begin()\n", "        self.lines.begin()\n"
        "        self.alive, self.pulse_at = now, self.host.boottime()\n", "430 fade 0 20"),
    bug("a command that begins anew is silent no more", "radios",
        "        self.lines.begin()\n", "        self.lines.begin()\n"
        "        self.silent_since = 0.0\n", "430 fade 0 20"),
    bug("moments of pulses aren't of the host's clock", "reports", "feed.silent_since + booted",
        "feed.silent_since + shift", "300 sleep 40;430 fade 0 20"),
    bug("a silent source isn't begun again", "radios", "self.begun) > self.radio.stall and",
        "self.begun) > 1e9 and",
        "430 stop-receiver 0"),
    bug("an output that closed has a status", "sources", "{ended(status)}",
        "{ended(status + 0)}", "430 close-receiver 0"),
    bug("a file of an earlier boot is taken", "sources", "EARLY, LATE = -1.0, 5.0",
        "EARLY, LATE = -50000.0, 5.0", "430 cut", "file 5123 600 60 socket 5", 900),
    bug("a shorter file is read from its old place", "sources",
        " or here.st_size < self.place:", ":", "1400 shorten 0;2400 kill-next;2400.1 kill-run",
        "file 5123 3600 60 socket 5", 2600),
    bug("a line may be far ahead", "pulses", "AHEAD = 1_000_000 ", "AHEAD = 10**15 ",
        often("leave 0", 10, 5.0), "fifo 5123 600 60 socket 5"),
    bug("lines may fall", "pulses", "if pulse.start <= self.last:", "if pulse.start <= -2:",
        "430 again-receiver 0"),
    # The disk
    bug("logs are written each 100 s", "logs", "SYNCED = 1.0,", "SYNCED = 100.0,", "595 cut"),
    bug("logs aren't synced", "logs", "SYNCED = 1.0, 50.0", "SYNCED = 1.0, 5000.0", "559 cut"),
    bug("a silent radio's last lines aren't synced", "logs",
        " or self.unsynced and now - self.synced >= SYNCED", "",
        "430 fade 0 20;530 cut", ends=540),
    bug("a log's name isn't synced", "logs", "                self.host.sync(self.folder)\n",
        "                pass\n", "200.2 cut"),
    bug("a journal isn't synced", "disk", "            if sync:\n                host.sync(",
        "            if not sync:\n                host.sync(", "400 cut", SHORT),
    bug("what was printed stays", "journals", "        self.host.remove(self.out)\n", "        pass\n", "",
        SHORT),
    bug("journals that are whole are lost", "journals", "if status_of(text[-END:]) and",
        "if not status_of(text[-END:]) and", "", SHORT),
    # The reporter
    bug("the reporter's pipe stays open", "reports", "            self.host.close(theirs)",
        "            pass", often("kill-reporter", 20, 20.0), ends=1000),
)
# Planted too, and found neither by a history nor by seeds:
NOT_FOUND = (
    ("watchdog: a link is asked each ten seconds; an answer is waited for 2.5 s",
     "a client's datagram that waits in the socket is seen first, and has the link asked at once"),
    ("watchdog: a late look counts as a silence",
     "it is one of three that are needed; the others are asked at once, and answered"),
    ("service: a run that ends is killed by the clock, and not by the looks",
     "here a run ends while the supervisor has no processor; the unit tests stop both"),
    ("service: a run that stands by and dies isn't replaced",
     "it is seen when it is to serve, and followed within the two seconds that a fault may take"),
    ("service: a run is accepted before it answers",
     "one that is deaf is seen and followed within the two seconds that a fault may take"),
    ("logs: half a line stays where the disk got full",
     "the next opening cuts it off; lines before it stand twice, which no reader minds"),
    ("disk: a journal is written in its place, not beside it",
     "only a power cut between five calls of one job shows it"),
    ("reports: a full pipe of the reporter is taken for its end",
     "only what is drawn is lost; the supervisor starts it again once enough waits"),
    ("sources: a file that was replaced isn't seen",
     "the source's stall finds it within a minute, and nothing is lost meanwhile"),
    ("runs: more than 4096 bytes are written to a pipe at once",
     "shows where a pipe is all but full: a run that reads nothing is replaced after two seconds"),
)
