"""What `replay` writes of a script (docs/FORMATS.md, "Replay script"). Which lines are valid is judged by
lab/grammar.
"""

from typing import Iterator

from lab import grammar

from . import entries, exchanges, receiver, replies
from .entries import Entry, numbered
from .exchanges import Event
from .marks import Reduction
from .notes import met
from .station import Station

FIRST_CLIENT = 0x7F000001


def _due(station: Station, lines: list[list[str]]) -> dict[int, Entry]:
    """The entry of each line at which a radio's receiver answers. A swap puts a blank receiver in the radio's place.
    """
    found: dict[int, Entry] = {}
    for feed, radio in enumerate(station.radios):
        heard: list[tuple[int, Reduction]] = []
        for place, fields in enumerate([*lines, ["swap", str(feed)]]):
            if fields[0] == "pulse" and fields[1] == str(feed):
                heard.append((place, Reduction(int(fields[2]), int(fields[3]))))
            elif fields == ["swap", str(feed)]:
                for answer in receiver.heard(radio.plan, [one for _, one in heard]):
                    found[heard[answer.known][0]] = entries.of_answer(feed, radio.delay, answer)
                heard = []
    return found


class Play:
    """A play of a script's valid lines: the journal that is kept, each server's exchanges, the gate of clients."""

    def __init__(self, station: Station, limit: int):
        self.station, self.limit = station, limit
        self.journal, self.gate = station.journal(), station.gate()
        self.histories: dict[int, list[Event]] = {}
        self.lost = False

    def lines(self, texts: list[str]) -> Iterator[str]:
        """What the lines give, in order."""
        lines = [text.split(" ") for text in texts]
        due = _due(self.station, lines)
        for place, (word, *fields) in enumerate(lines):
            if place in due:
                yield from self._keep(due[place])
            elif word == "swap":
                met("script: swap")
            elif word == "ask":
                yield self._ask(*map(int, fields))
            elif word == "answer":
                yield from self._keep(self._answer(int(fields[0]), int(fields[1]), bytes.fromhex(fields[2])))
            elif word == "leap":
                yield from self._keep(Entry(int(fields[0]), int(fields[1]), "notice", (int(fields[2]),)))
            elif word == "request":
                link, arrived, sent = map(int, fields[:3])
                yield self._request(link, arrived, sent, bytes.fromhex(fields[3]))

    def _keep(self, entry: Entry) -> Iterator[str]:
        if len(self.journal.entries) == self.limit:
            met("script: an entry is lost")
            self.lost = True
            return
        self.journal.add(entry)
        yield numbered(self.journal.page.length, self.journal.page.rate, entry)

    def _ask(self, feed: int, at: int) -> str:
        asked = exchanges.request(at)
        self.histories.setdefault(feed, []).append(Event(at, asked, is_request=True))
        return f"asked {asked.hex()}"

    def _answer(self, feed: int, at: int, datagram: bytes) -> Entry:
        history = self.histories.setdefault(feed, [])
        code = exchanges.refusal(history, datagram)
        asked = exchanges.outstanding(history)
        history.append(Event(at, datagram, taken=code is None))
        if code is not None:
            return Entry(feed, at, "declined", (code,))
        assert asked is not None, "an answer without a request is refused"
        address = self.station.servers[feed - len(self.station.radios)]
        return Entry(feed, at, "sample", exchanges.sample(asked, at, datagram, address))

    def _request(self, link: int, arrived: int, sent: int, datagram: bytes) -> str:
        reason = replies.dropped(datagram)
        if reason:
            return f"drop {reason}"
        code = self.gate.judge(FIRST_CLIENT + link, arrived)
        reply = replies.reply(code, self.journal.page, self.station.keys, datagram, arrived, sent)
        return f"reply {reply.hex()}"


def replay(station: Station, script: bytes, limit: int) -> tuple[list[str], str]:
    """The lines before the status line, and the status line."""
    texts, tail = grammar.cut(script)
    bad = grammar.first_bad(texts, grammar.Script(station.forms).is_bad, tail)
    play = Play(station, limit)
    written = list(play.lines(texts[: bad - 1] if bad else texts))
    written.append(play.journal.page.line())
    if bad:
        met("script: no line feed at the end" if bad > len(texts) else "script: bad line")
        return written, f"status 5 script {bad}"
    return written, f"status 6 full {limit}" if play.lost else "status 0"
