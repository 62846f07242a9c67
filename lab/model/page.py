"""The page of a journal (docs/PAGE.md): samples, leap seconds, held samples, and the fields that selection and
combining give.
"""

from typing import NamedTuple, Sequence

from . import selection
from .entry import Entry
from .figures import STAGES, Figures, Sample, figures_of
from .notes import met
from .units import LEAST_DISPERSION, MICROSECONDS, SECOND, local_span, phi, stamp, to_short

RADIOS = {"dcf": 0x44434600, "msf": 0x4D534600, "wwvb": 0x57575642}
INIT = 0x494E4954
NO_DISPERSION = 0x00100000
VERDICT_DISPERSION = 4294968


class Page(NamedTuple):
    """The page's fields, in the order of its line."""

    length: int
    sync: bool
    stratum: int
    refid: int
    offset: int
    anchor: int
    until: int
    root_delay: int
    root_dispersion: int
    reference: int
    leap_at: int
    rate: int

    def line(self) -> str:
        return (
            f"page {self.length} {int(self.sync)} {self.stratum} {self.refid:08x} {self.offset} {self.anchor} "
            f"{self.until} {self.root_delay} {self.root_dispersion} {self.reference:016x} {self.leap_at} {self.rate}"
        )


class Journal:
    """A journal of feeds of these kinds (a plan, "server" or "leap") under a bound in milliseconds. What it keeps
    beside the list is said of the whole list: each feed's samples in order, its last verdict or notice, the last
    verdict of all, `now` and `cut`.
    """

    def __init__(self, kinds: Sequence[str], bound: int):
        self.kinds, self.bound = kinds, local_span(1000 * bound)
        self.entries: list[Entry] = []
        self.samples: list[list[Sample]] = [[] for _ in kinds]
        self.told: list[Entry | None] = [None] * len(kinds)
        self.verdict: Entry | None = None
        self.now = self.cut = 0
        self._kept: Page | None = None

    @property
    def page(self) -> Page:
        """The page of the entries so far."""
        if self._kept is None:
            self._kept = self._page()
        return self._kept

    def add(self, entry: Entry) -> None:
        """Adds an entry at the end."""
        self.entries.append(entry)
        self.now = max(self.now, entry.at)
        sample = _sample_of(self.kinds[entry.feed], entry)
        if sample:
            self.samples[entry.feed].append(sample)
        if entry.word in ("verdict", "notice"):
            self.told[entry.feed] = entry
        if entry.word == "verdict":
            self.verdict = entry
        # `cut` is the greatest over all prefixes, and this is one more.
        self.cut = max([self.cut] + [moment for moment, _, _ in self.words() if moment <= self.now])
        self._kept = None

    def words(self) -> list[tuple[int, int, int]]:
        """The leap moment of each feed's word that has one, with the feed and the second that it names."""
        found = []
        for feed, told in enumerate(self.told):
            if told is None or told.values[-1] == 0:
                continue
            leap_at = told.values[-1]
            dated = told if told.word == "verdict" else self.verdict
            if dated is None or dated is not told and leap_at < dated.values[0]:
                met(f"page: a notice {'without a verdict' if dated is None else 'of a leap second that is over'}")
                continue
            moment = dated.at + (leap_at - dated.values[0]) * MICROSECONDS
            if moment < 0:
                met("page: a leap second before the counter began")
            found.append((max(0, moment), feed, leap_at))
        return found

    def sources(self) -> list[Figures]:
        """The figures of each source that holds a sample, in order of feeds."""
        found = []
        for feed, samples in enumerate(self.samples):
            held = [sample for sample in samples[-STAGES:] if sample.at >= self.cut]
            if len(samples) > STAGES:
                met("page: more than eight samples")
            if len(held) < len(samples[-STAGES:]):
                met("page: a sample from before a leap second")
            if held:
                found.append(figures_of(feed, held))
        return found

    def _page(self) -> Page:
        rest = selection.rest_of(self.sources(), self.now)
        none = Page(len(self.entries), False, 0, INIT, 0, self.now, 0, 0, NO_DISPERSION, 0, 0, 0)
        if not rest:
            return none
        peer = rest[0]
        grown = peer.root_dispersion * 2**16 + peer.dispersion + phi(self.now - peer.taken_at) + peer.jitter
        root_dispersion = to_short(max(LEAST_DISPERSION, grown))
        if root_dispersion * 2**16 > self.bound:
            met("page: above the bound")
            return none
        if grown < LEAST_DISPERSION:
            met("page: a root dispersion of 5 ms")
        left = self.bound - root_dispersion * 2**16
        until = self.now + left * 10**12 // (15 * SECOND) + 1
        ahead = [word for word in self.words() if word[0] > self.now]
        moment, _, leap_at = min(ahead, default=(until, 0, 0))
        if sum(word[0] == moment for word in ahead) > 1:
            met("page: two leap seconds at one moment")
        met(f"page: until by {'a leap second' if moment < until else 'the bound'}")
        met(f"page: the peer is {self.kinds[peer.feed]}")
        offset = selection.mean(rest, self.now)
        return Page(
            length=len(self.entries),
            sync=True,
            stratum=peer.stratum + 1,
            refid=RADIOS.get(self.kinds[peer.feed], peer.address),
            offset=offset,
            anchor=self.now,
            until=min(until, moment),
            root_delay=to_short(peer.root_delay * 2**16 + peer.delay),
            root_dispersion=root_dispersion,
            reference=stamp(offset + local_span(max(one.newest for one in rest))),
            leap_at=leap_at,
            rate=peer.rate,
        )


def _sample_of(kind: str, entry: Entry) -> Sample | None:
    """The sample that an entry of a feed of this kind is."""
    if entry.word == "verdict" and kind in RADIOS:
        offset = entry.values[0] * SECOND - local_span(entry.at)
        return Sample(entry.at, offset, 0, VERDICT_DISPERSION, 0, 0, 0, 0)
    if entry.word == "sample" and kind == "server":
        return Sample(entry.at, *entry.values)
    return None
