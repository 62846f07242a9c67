"""Journals for `migrate` that are each meant for something of selection and clustering."""

from typing import Iterator

from lab.model.entries import Entry
from lab.model.units import LEAST_DISPERSION
from .case import Case
from .journals import of, sample, verdict
from .migrate_pages import DCF, MINUTE, SERVER, eight


def selections() -> Iterator[Case]:
    one = eight(0, dispersion=10**6)
    distance = -(-LEAST_DISPERSION // 2) + sum(-(-(10**6) // 2 ** (i + 1)) for i in range(8))
    for apart in (2 * distance - 1, 2 * distance, 2 * distance + 1, distance, distance + 1, 0):
        entries = one + eight(1, apart, dispersion=10**6)
        yield of(f"two sources {apart} apart", SERVER * 2, entries)
        yield of(f"two sources {-apart} apart", SERVER * 2, one + eight(1, -apart, dispersion=10**6))
        third = eight(2, 10**11, dispersion=10**6)
        yield of(f"two sources {apart} apart and a false one", SERVER * 3, entries + third, None)
    for name, offs in (
        ("an even split", (0, 5, 10**10, 10**10 + 5)),
        ("two of five are false", (0, 5, 9, 10**10, -(10**10))),
        ("three of five are false", (0, 5, 2 * 10**10, 10**10, -(10**10))),
        ("sixteen agree", tuple(range(0, 1600, 100))),
        ("seven of fifteen are false", (*range(0, 800, 100), *(10**10 * i for i in range(1, 8)))),
        ("an offset outside of what all contain", (0, distance + 5, 2 * distance - 5)),
    ):
        entries = [entry for feed, off in enumerate(offs) for entry in eight(feed, off, dispersion=10**6)]
        yield of(f"selection where {name}", SERVER * len(offs), entries)
    wide = eight(0, dispersion=2 * 10**9) + eight(1, 10**9, dispersion=10**6) + eight(2, -(10**9), dispersion=10**6)
    yield of("a wide interval over two that differ", SERVER * 3, wide)
    wide = eight(0, 10**7, dispersion=2 * 10**9) + eight(1, 0, dispersion=10**6) + eight(2, 100, dispersion=10**6)
    yield of("an offset outside of an interval that holds", SERVER * 3, wide)


def clusters() -> Iterator[Case]:
    for jitter in (39, 40, 41):
        entries: list[Entry] = []
        for feed, off in enumerate((0, 0, 0, 40)):
            entries += [sample(feed, MINUTE, off, delay=4096), sample(feed, MINUTE, off + jitter, delay=5000)]
            entries += [sample(feed, MINUTE, off + jitter, delay=6000 + i) for i in range(6)]
        meant = "page: more than three are left" if jitter > 40 else "page: a source is discarded"
        yield of(f"four sources of a jitter of {jitter}", SERVER * 4, entries, meant)
    for name, offs in (
        ("two are equally far", (100, 0, 0, 100)), ("four pairs", (0, 7, 0, 7, 0, 7, 0, 7)),
        ("sixteen", [i * i * 50 for i in range(16)])
    ):
        entries = [entry for feed, off in enumerate(offs) for entry in eight(feed, off)]
        meant = "page: of equal spreads the later is discarded" if name != "sixteen" else "page: a source is discarded"
        yield of(f"clustering where {name}", SERVER * len(offs), entries, meant)
    strata = [
        entry for feed in range(5) for entry in eight(
            feed, 10 * feed, stratum=(3, 2, 2, 1, 4)[feed], delay=4096 + 10**8 * (feed % 2)
        )
    ]
    yield of("survivors by stratum, distance and feed", SERVER * 5, strata)
    late = [
        *eight(0, 100, dispersion=10**6),
        *eight(1, 200, at=3 * MINUTE, dispersion=5 * 10**6),
        *eight(2, 300, at=2 * MINUTE),
    ]
    yield of("the newest sample isn't the peer's", SERVER * 3, late)
    false = [*eight(0), *eight(1, 50), *eight(2, 2**31, at=3 * MINUTE)]
    yield of("the newest sample is a false source's", SERVER * 3, false, "page: some falsetickers")
    nearer = [verdict(0, 60 * i, 3000 * (i == 4)) for i in range(1, 5)]
    nearer += [sample(1, (200 + 5 * i) * 10**6, 1000 * i, delay=3 * 10**7) for i in range(8)]
    yield of("a peer that is farther than a source of another rate", DCF + SERVER, nearer, "page: the peer is dcf")


def all_of() -> Iterator[Case]:
    for group in (selections, clusters):
        yield from group()
