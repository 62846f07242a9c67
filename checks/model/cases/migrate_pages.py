"""Journals for `migrate` that are each meant for something of the page."""

from typing import Iterator, Sequence

from lab.model.entries import Entry
from lab.model.units import LEAST_DISPERSION, MOST_RATE, SECOND, local_span
from .case import Case
from .journals import BEGAN, of, sample, verdict

MINUTE = 60_000_000
DCF, SERVER = ["dcf"], ["server"]


def eight(feed: int, off: int = 0, at: int = MINUTE, **more) -> list[Entry]:
    """Eight equal samples of a server at one moment."""
    return [sample(feed, at, off, **more) for _ in range(8)]


def held_samples() -> Iterator[Case]:
    for count in (1, 2, 3, 4, 7, 8, 9, 17):
        yield of(f"{count} verdicts", DCF, [verdict(0, 60 * i) for i in range(1, count + 1)])
    for kind in ("msf", "wwvb"):
        yield of(
            f"verdicts of {kind}",
            [kind],
            [verdict(0, 60 * i, 1000 * i) for i in range(1, 7)],
            f"page: the peer is {kind}",
        )
    entries = [sample(0, MINUTE * i, 100 * i, delay=9000 - 1000 * (i % 3)) for i in range(1, 12)]
    yield of("samples in order of delay", SERVER, entries, "page: two samples of one delay")
    yield of("samples in order of delay, the moments falling", SERVER, entries[::-1])
    yield of("verdicts whose moments fall", DCF, [verdict(0, 60 * i) for i in (5, 4, 3, 2, 1, 9)])
    far = [
        sample(0, MINUTE, dispersion=2**36 - 1),
        sample(0, 2 * MINUTE, dispersion=2**36),
        sample(0, 3 * MINUTE, dispersion=2**66 - 1),
    ]
    yield of(
        "dispersions by 16 s",
        SERVER,
        far + [sample(0, 4 * MINUTE + i) for i in range(8)],
        "page: a dispersion of 16 s",
    )
    odd = [sample(0, MINUTE + i, dispersion=2 * i + 1, delay=4096 + i) for i in range(8)]
    yield of("dispersions that are odd", SERVER, odd, "page: a root dispersion of 5 ms")
    for off in (2**40 - 1, 2**40, 2**40 + 1, -(2**40) - 1, 2**60):
        yield of(f"an offset {off} from the first", SERVER, [sample(0, MINUTE, off, delay=5000), *eight(0)])
        yield of(
            f"an offset {off} of the first", SERVER, [sample(0, MINUTE, off, delay=4096), *eight(0, delay=5000)][-8:]
        )
    jitter = [
        sample(0, MINUTE + i, off, delay=4096 + i) for i, off in enumerate((0, 3000000, -3000001, 7, 0, 0, 1, 1))
    ]
    yield of("a jitter that is rounded down", SERVER, jitter)
    yield of(
        "a later refused frame", DCF, [verdict(0, 60 * i) for i in range(1, 6)] + [Entry(0, 10**9, "refused", (3,))]
    )


def foreign() -> Iterator[Case]:
    """Entries that are no samples."""
    others = [sample(0, MINUTE * i) for i in range(1, 6)] + [
        Entry(0, MINUTE * i, "lone", (BEGAN,)) for i in range(1, 6)
    ]
    yield of("samples of a radio's feed are none", DCF, others, None)
    yield of("verdicts of a server's feed are no samples", SERVER, [verdict(0, 60 * i) for i in range(1, 6)])


def rates() -> Iterator[Case]:
    for apart in (29_999_999, 30_000_000, 30_000_001):
        entries = [*eight(0), *eight(0, 300, at=MINUTE + apart)[:4]]
        yield of(f"a rate over {apart}", SERVER, entries, "page: a rate over less than 30 s")
    for off in (
        30 * MOST_RATE, 30 * MOST_RATE + 29, 30 * MOST_RATE + 30, -30 * MOST_RATE, -30 * MOST_RATE - 1,
        -30 * MOST_RATE - 31, -1, 1, 29, -29, -30, -31,
    ):
        entries = [*eight(0), *eight(0, off, at=MINUTE + 30_000_000)[:4]]
        yield of(f"a rate of {off} over 30 s", SERVER, entries)
    same = [sample(0, MINUTE, 10 * i) for i in range(4)] + [sample(0, 2 * MINUTE, 1000 * i) for i in range(4)]
    yield of("rates of equal moments", SERVER, same, "page: a rate from 0")
    yield of("rates of equal moments, the later ones first", SERVER, same[::-1], "page: a rate below 0")
    late = [verdict(0, 60 * i, 0 if i < 5 else 3000) for i in range(1, 6)]
    yield of("a verdict 3 ms late", DCF, [*late, verdict(0, 362, 3000)])


def distances() -> Iterator[Case]:
    """A source at the greatest distance, by each part of it; the least root distance; strata."""
    for more in (-2, 0, 1, 2):
        for part in ("delay", "dispersion"):
            entries = _at_distance(SECOND, part, more)
            yield of(f"a distance of 1 s and {more} by its {part}", SERVER, entries, bound=16000)
    for delay in (LEAST_DISPERSION - 1, LEAST_DISPERSION, LEAST_DISPERSION + 1, LEAST_DISPERSION + 2):
        yield of(f"a delay of {delay}", SERVER * 2, [*eight(0, delay=delay), *eight(1, 9000, delay=delay + 5)])
    for root in ((1, 0), (0, 1), (327, 0), (328, 0), (65535, 0), (65536, 3), (40, 32000), (2**32 - 1, 2**32 - 1)):
        yield of(f"root delay and dispersion {root}", SERVER * 2, [*eight(0, root=root), *eight(1, 9000)])
    for stratum in (0, 1, 13, 14, 15, 16, 255):
        meant = "page: a stratum that is too great" if stratum > 14 else "page: the peer is server"
        yield of(f"stratum {stratum}", SERVER, eight(0, stratum=stratum), meant)
    waiting = [*eight(0), Entry(0, 60 * MINUTE, "declined", (6,))]
    yield of("a sample that is an hour old", SERVER, waiting)
    old = [*eight(0), Entry(0, 2**50 - 1, "declined", (6,))]
    yield of("a sample that is older than any bound", SERVER, old, "page: a distance that is too great")


def _at_distance(distance: int, part: str, more: int) -> list[Entry]:
    """Eight samples whose source is at this distance and more."""
    # Of eight equal dispersions d the sum is the eight rounded halves, and a root delay counts half.
    dispersion = sum(-(-4294968 // 2 ** (i + 1)) for i in range(8))
    if part == "delay":
        return eight(0, delay=2 * (distance - dispersion) + 2 * more)
    left = distance - (-(-LEAST_DISPERSION // 2))

    def stages(each: int) -> int:
        return sum(-(-each // 2 ** (i + 1)) for i in range(8))

    most = next(each for each in range(left * 256 // 255 + 8, 0, -1) if stages(each) <= left)
    entries = eight(0, dispersion=most)
    # Of equal delays the later sample stands first, so the first one counts 1/256.
    return [sample(0, MINUTE, dispersion=most + 256 * (left - stages(most) + more)), *entries[1:]]


def bounds() -> Iterator[Case]:
    for bound in (1, 4, 5, 6, 16, 100, 939, 999, 1000, 16000):
        yield of(f"a bound of {bound} ms", DCF, [verdict(0, 60 * i) for i in range(1, 12)], bound=bound)
    for bound in (500, 1000):
        least = local_span(1000 * bound) // 2**16
        dispersion = sum(-(-4294968 // 2 ** (i + 1)) for i in range(8))
        for short in (-1, 0, 1):
            # Root dispersion is a short, so the rest is what the dispersion lacks of a whole one.
            root = least + short - -(-dispersion // 2**16)
            meant = "page: above the bound" if short > 0 and bound < 1000 else None
            yield of(
                f"a root dispersion {short} above {bound} ms", SERVER, eight(0, root=(0, root)), meant, bound=bound
            )


def all_of() -> Iterator[Case]:
    groups: Sequence = (held_samples, foreign, rates, distances, bounds)
    for group in groups:
        yield from group()
