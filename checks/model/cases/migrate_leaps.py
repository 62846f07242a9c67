"""Journals for `migrate` that are each meant for something of leap seconds: words, moments, the cut, and what is
armed.
"""

from typing import Iterator

from lab.model import dates
from lab.model.entries import Entry
from .case import Case
from .journals import BEGAN, of, verdict

HOUR = BEGAN + 3600
STATION = ["dcf", "msf", "leap"]
GOOD = [verdict(0, 60 * i) for i in range(1, 6)]


def moments() -> Iterator[Case]:
    """Leap seconds some seconds on, by verdicts and by notices."""
    for seconds in (-3600, 0, 1, 299, 300, 301, 3600, 43200):
        leap_at = BEGAN + seconds
        told = [verdict(0, 60 * i, 0, leap_at) for i in range(1, 6)]
        yield of(f"verdicts that name a leap second {seconds} s on", STATION, told + [verdict(1, 310)])
        noticed = [
            *GOOD, Entry(2, 0, "notice", (leap_at,)), verdict(1, 310), *[verdict(0, 60 * i) for i in range(6, 11)]
        ]
        yield of(f"a notice of a leap second {seconds} s on", STATION, noticed)
        yield of(f"a notice first, of a leap second {seconds} s on", STATION, [noticed[5], *GOOD, verdict(1, 310)])


def words() -> Iterator[Case]:
    """What a feed's word is, and when it has a moment."""
    yield of(
        "a notice without a verdict", STATION, [Entry(2, 5, "notice", (HOUR,))], "page: a notice without a verdict"
    )
    over = [Entry(2, 5, "notice", (BEGAN,)), *GOOD]
    yield of("a notice of a leap second that is over", STATION, over, "page: a notice of a leap second that is over")
    yield of(
        "a later notice without one takes the word back",
        STATION,
        [*GOOD, Entry(2, 5, "notice", (HOUR,)), Entry(2, 5, "notice", (0,))],
    )
    word = verdict(0, 300, 0, HOUR)
    for name, after in (
        ("a lone frame", Entry(0, 310 * 10**6, "lone", (BEGAN,))),
        ("a refused frame", Entry(0, 310 * 10**6, "refused", (3,))),
        ("a frame that differs", Entry(0, 310 * 10**6, "differs", (BEGAN, BEGAN, 5))),
        ("a verdict without one", verdict(0, 360)),
    ):
        yield of(f"a word and then {name}", STATION, [*GOOD[:4], word, after])
    early = Entry(0, 5, "verdict", (BEGAN, dates.second_of(2025, 1, 1)))
    yield of(
        "a leap second before the counter began",
        STATION,
        [early, *GOOD],
        "page: a leap second before the counter began",
    )


def cuts() -> Iterator[Case]:
    """Which samples are from before a leap second."""
    passed = [verdict(0, 60 * i, 0, BEGAN + 305) for i in range(1, 6)] + [verdict(0, 60 * i) for i in range(6, 12)]
    yield of("a leap second that is taken back before it passes", STATION, passed)
    others = [*passed[:5], Entry(1, 305 * 10**6, "refused", (3,)), *passed[5:]]
    yield of(
        "a leap second that passes by another feed's entry", STATION, others,
        "page: a sample from before a leap second"
    )
    falls = [*GOOD, verdict(1, 10, 0, BEGAN + 200), verdict(0, 360)]
    yield of(
        "a leap second whose moment lies among samples", STATION, falls, "page: a sample from before a leap second"
    )
    exact = [verdict(0, 60 * i) for i in range(1, 10)] + [verdict(1, 10, 0, BEGAN + 300)]
    yield of("a sample at the leap second itself is held", STATION, exact)


def armed() -> Iterator[Case]:
    """The leap second that comes next."""
    both = [verdict(feed, 60 * i, 0, HOUR) for i in range(1, 6) for feed in (1, 0)]
    yield of("two words of one moment", STATION, both, "page: two leap seconds at one moment")
    # The other feed is a second late, so its leap second that ends a second sooner has the same moment.
    late = Entry(1, 311 * 10**6, "verdict", (BEGAN + 310, HOUR - 1))
    for feeds in ((0, 1), (1, 0)):
        differ = [verdict(feeds[0], 60 * i, 0, HOUR) for i in range(1, 6)] + [late._replace(feed=feeds[1])]
        name = f"two leap seconds of one moment, the later one feed {feeds[0]}'s"
        yield of(name, STATION, differ, "page: two leap seconds at one moment")
    two = [verdict(0, 60 * i, 0, HOUR) for i in range(1, 6)] + [verdict(1, 60, 0, HOUR - 40000)]
    yield of("two words, the other feed's sooner", STATION, two, "page: until by a leap second")
    foreign = [*GOOD, verdict(1, 305, 7, 0), Entry(3, 5, "notice", (HOUR,))]
    yield of(
        "a notice dated by another feed", ["dcf", "msf", "server", "leap"], foreign, "page: until by a leap second"
    )
    yield of(
        "a server's verdict is its word",
        ["dcf", "server"],
        [*GOOD, verdict(1, 300, 0, HOUR)],
        "page: until by a leap second",
    )
    yield of(
        "a radio's notice is its word",
        ["dcf"],
        [*GOOD, Entry(0, 300 * 10**6, "notice", (HOUR,))],
        "page: until by a leap second",
    )


def all_of() -> Iterator[Case]:
    for group in (moments, words, cuts, armed):
        yield from group()
