"""A script against a station, and what `replay` writes of it."""

import re
from collections.abc import Sequence

from .forms import LEAP, MOMENTS, OF_RADIOS, PAST_SECOND, RADIOS, SERVER, Entry, cut, first_bad, lines_of, need, number, numbered
from .journals import Journal
from .radio_logs import Pulses

A_DATAGRAM = re.compile("(?:[0-9a-f]{2}){1,1024}")
ACTIONS = ("pulse", "ask", "answer", "swap", "request", "leap")
# How many receivers of a plan there are.
OF_A_PLAN = 4
# The plan of each feed of a station, in order.
Plans = Sequence[str | None]


class Script:
    """A script against a station: of each feed its plan, `SERVER` where it is a server, and `LEAP` where it is a leap second file."""

    def __init__(self, plans: Plans):
        self.plans = plans
        self.pulses = {feed: Pulses() for feed in range(len(plans))}
        self.moments = {feed: 0 for feed in range(len(plans))}
        self.used = {plan: plans.count(plan) for plan in plans}

    def is_bad(self, line: str) -> bool:
        """Returns whether the next line is bad after those before it."""
        word, *fields = line.split(" ")
        if len(line) >= 4096 or word not in ACTIONS:
            return True
        try:
            return not getattr(self, "is_" + word)(*fields)
        except TypeError:
            # There are more fields than the action has, or fewer.
            return True

    def feed(self, text: str, *plans: str | None) -> int | None:
        """Returns the number of a feed of one of these plans, or None."""
        feed = number(text, len(self.plans))
        return feed if feed is not None and self.plans[feed] in plans else None

    def moves(self, feed: int | None, at: str) -> bool:
        """Returns whether a server or the leap second file may have this moment: none is below an earlier one."""
        moment = number(at, MOMENTS)
        if feed is None or moment is None or moment < self.moments[feed]:
            return False
        self.moments[feed] = moment
        return True

    def is_pulse(self, feed: str, at: str, width: str) -> bool:
        radio = self.feed(feed, *RADIOS)
        return radio is not None and not self.pulses[radio].is_bad(at, width)

    def is_ask(self, feed: str, at: str) -> bool:
        return self.moves(self.feed(feed, SERVER), at)

    def is_answer(self, feed: str, at: str, text: str) -> bool:
        return is_datagram(text) and self.is_ask(feed, at)

    def is_leap(self, feed: str, at: str, second: str) -> bool:
        return number(second, PAST_SECOND) is not None and self.moves(self.feed(feed, LEAP), at)

    def is_swap(self, feed: str) -> bool:
        radio = self.feed(feed, *RADIOS)
        if radio is None or self.used[self.plans[radio]] >= OF_A_PLAN:
            return False
        self.used[self.plans[radio]] += 1
        return True

    def is_request(self, link: str, arrived: str, sent: str, text: str) -> bool:
        came, left = number(arrived, MOMENTS), number(sent, MOMENTS)
        is_link = number(link, 8) is not None
        return is_link and came is not None and left is not None and came <= left and is_datagram(text)


def is_datagram(text: str) -> bool:
    """Returns whether a text is a datagram in hexadecimal digits."""
    return A_DATAGRAM.fullmatch(text) is not None


def answer_to(text: str) -> str:
    """Returns how the line begins that a datagram of a client gives."""
    datagram = bytes.fromhex(text)
    if len(datagram) < 48:
        return "drop short"
    if not 1 <= datagram[0] >> 3 & 7 <= 4:
        return "drop version"
    return "drop mode" if datagram[0] & 7 != 3 else "reply "


class Play:
    """The lines that `replay` wrote, taken one after the other as the lines of the script give them."""

    def __init__(self, feeds: int, lines: list[str], limit: int):
        self.journal, self.limit, self.lost = Journal(feeds), limit, False
        self.rest = iter(lines)
        self.line = next(self.rest, None)

    def take(self, text: str) -> None:
        """Takes a valid line of the script, and judges the line that was written for it, if there is one."""
        word, *fields = text.split(" ")
        if word in ("pulse", "answer", "leap") and len(self.journal.entries) == self.limit:
            self.lost = True
        elif word == "swap" or word == "pulse" and not is_of(self.line, fields):
            return
        else:
            line = self.line
            need(line is not None and getattr(self, "is_" + word)(line, fields), f"{line!r} for {text!r}")
            self.line = next(self.rest, None)

    def is_pulse(self, line: str, fields: list[str]) -> bool:
        return self.journal.take(line).word in OF_RADIOS

    def is_leap(self, line: str, fields: list[str]) -> bool:
        self.journal.take(line)
        return numbered(line)[2] == "{} {} notice {}".format(*fields)

    def is_answer(self, line: str, fields: list[str]) -> bool:
        entry = self.journal.take(line)
        return entry.word in ("sample", "declined") and entry.feed == int(fields[0]) and entry.at == int(fields[1])

    def is_ask(self, line: str, fields: list[str]) -> bool:
        return re.fullmatch("asked 230006ec0{72}[0-9a-f]{16}", line) is not None

    def is_request(self, line: str, fields: list[str]) -> bool:
        due = answer_to(fields[3])
        return line == due or line.startswith(due) and is_reply(line, fields[3])


def judge_replay(plans: Plans, data: bytes, output: bytes, status: int, limit: int = 2**20) -> None:
    """Judges what `replay` writes of a script, with a station whose feeds have these plans; Wrong where a page says otherwise."""
    texts, tail = cut(data)
    bad = first_bad(texts, Script(plans).is_bad, tail)
    *lines, told, last = lines_of(output)
    play = Play(len(plans), lines, limit)
    for text in texts[: bad and bad - 1]:
        play.take(text)
    need(play.line is None, f"{play.line!r} for nothing")
    play.journal.ends(told)
    if bad:
        want, number_of = f"status 5 script {bad}", 5
    elif status == 6 and play.lost:
        want, number_of = f"status 6 full {limit}", 6
    else:
        want, number_of = "status 0", 0
    need((status, last) == (number_of, want), f"ends with {status} and {last!r}, and the first bad line is {bad}")


def is_of(line: str | None, fields: list[str]) -> bool:
    """Returns whether a line is an entry of the feed of a pulse, and not of a later one."""
    if line is None or not line.startswith("j2 "):
        return False
    entry = Entry(numbered(line)[2])
    return entry.feed == int(fields[0]) and entry.at <= int(fields[1])


def is_reply(line: str, text: str) -> bool:
    """Returns whether a line has 48 bytes of a server, to this request."""
    found = re.fullmatch("reply ([0-9a-f]{96})", line)
    if not found:
        return False
    reply, request = bytes.fromhex(found[1]), bytes.fromhex(text)
    leap, version, mode = reply[0] >> 6, reply[0] >> 3 & 7, reply[0] & 7
    return (
        mode == 4
        and version == request[0] >> 3 & 7
        and reply[2] == request[2]
        and reply[24:32] == request[40:48]
        and (leap == 3) == (reply[1] == 0) == (reply[12:16] == b"INIT")
    )
