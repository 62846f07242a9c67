"""The page: what it says, that each element ends, that nothing is fetched, and its picture."""

import html.parser
import unittest

from keeper.reporter import page
from keeper.reporter.state import Quarter, RadioState, State
from keeper.tests.made_station import NOW, a_good_station, made_station

EMPTY = {"meta"}
LAST = NOW // 900 * 900  # the last quarter of an hour: 12:00 UTC


class Reader(html.parser.HTMLParser):
    """Looks whether each element ends, and what would be fetched."""

    def __init__(self) -> None:
        super().__init__()
        self.open: list[str] = []
        self.fetched: list[str | None] = []
        self.words: list[str] = []
        self.bars: list[dict[str, str | None]] = []

    def handle_starttag(self, tag: str, attrs: list[tuple[str, str | None]]) -> None:
        if tag not in EMPTY:
            self.open.append(tag)
        if tag == "rect":
            self.bars.append(dict(attrs))
        links = ("src", "href", "data", "action")
        self.fetched += [value for name, value in attrs if name in links]

    def handle_endtag(self, tag: str) -> None:
        assert self.open.pop() == tag, f"</{tag}> ends another element"

    def handle_data(self, data: str) -> None:
        if self.open and self.open[-1] not in ("style", "script"):
            self.words.append(data)


def reader(text: str) -> Reader:
    found = Reader()
    found.feed(text)
    found.close()
    return found


class Page(unittest.TestCase):
    def read(self, state: State) -> str:
        found = reader(page.render(state, NOW))
        self.assertEqual((found.open, found.fetched), ([], []))
        return "|".join(found.words)

    def test_what_it_says(self) -> None:
        said = self.read(a_good_station())
        for due in (
            "OK: radio_ntpd|", "|radio_ntpd, 2026-01-01 12:05:00 UTC|",
            "Time from DCF77 (radio)|stratum 1, root dispersion 5.4 ms, leap second: none|",
            "|LINK|123|LEAP|none|STRATUM|1|REFERENCE|DCF77 (radio)|ROOT DISPERSION|5.4 ms|LASTS|"
            "9 h 8 min|", "|VERDICTS 1 H|58 of 60|LAST MINUTE|12:05 UTC, 0 s ago|OFFSET|1.3 ms|"
            "SPREAD|2.1 ms|WIDTH|100.0 ms, 1.0/s|", "12:00 UTC: 14 verdicts, 1 refused by Width",
            "|06:00|", "24 hours: refused 96 by rule 2 Width: ", "|SERVER|192.0.2.17:123|",
            "declined 2 as Bogus", "|run 7, 10 min old, since the last one was over",
        ):
            self.assertIn(due, said)
        self.assertNotRegex(page.render(a_good_station(), NOW), r"url\(|@import|https?:")

    def test_what_is_not_well(self) -> None:
        state = a_good_station()
        state.radios[0].source, state.notes = "stalled", ["the disk is full"]
        self.assertIn("|Time from DCF77 (radio)|stratum 1, root dispersion 5.4 ms, leap second: "
                      "none|DCF77 roof: its source is stalled|The disk is full|", self.read(state))
        state.links[0].leap = 3
        self.assertIn("|Port 123 has no time (DCF)|DCF77 roof: its source is", self.read(state))
        self.assertIn('<div class="state critical"><b>Port', page.render(state, NOW))

    def test_what_others_named_is_escaped(self) -> None:
        state = a_good_station()
        state.radios[0].name, state.station = "<b>&", "</style>"
        state.links[0].reference_id, state.notes = "<i>", ["<script>alert(1)</script>"]
        state.radios[0].fault = state.radios[0].last_bad = "<u>"
        state.radios[0].reception[0].refused["<s>"] = 1
        self.assertIn("<b>&", self.read(state))
        for bad in ("<script>alert", "<u>", "<s>", "<i>"):
            self.assertNotIn(bad, page.render(state, NOW))

    def test_a_state_without_anything(self) -> None:
        self.assertIn("|No keeper runs: its state is ", self.read(State()))
        radio = RadioState(source="running")
        state = State(written=NOW, keeper_pid=1, radios=[radio], keeper_since=NOW)
        self.assertIn("|No run serves yet|", self.read(state))

    def test_it_says_when_it_was_written(self) -> None:
        self.assertIn("Date.now() / 1000 - 1767269100)", page.render(a_good_station(), NOW))

    def test_a_made_station(self) -> None:
        said = self.read(made_station(NOW))
        for name in ("DCF77 roof", "MSF attic", "WWVB (radio 2)"):
            self.assertEqual(said.count(f"|{name}|"), 2)


class Pictures(unittest.TestCase):
    def bars(self, quarters: list[Quarter]) -> list[tuple]:
        """Each bar's kind, place from the right, lower and upper end, in minutes."""
        found: list[tuple] = []
        for one in reader(page.reception(quarters, "dcf", NOW)).bars:
            y, high = float(one["y"] or 0), float(one["height"] or 0)
            found.append((one["class"], 95 - int(float(one["x"] or 0)), 15 - y - high, 15 - y))
        return found

    def test_kinds_stand_on_one_another(self) -> None:
        self.assertEqual(self.bars([Quarter(LAST - 900, 9, 1, 2, {"2": 2, "1": 1})]), [
            ("verdict", 1, 0.0, 9.0), ("half", 1, 9.0, 12.0), ("refused", 1, 12.0, 15.0)])

    def test_a_day_is_shown(self) -> None:
        day = [Quarter(LAST - place * 900, 15) for place in (-1, 0, 95, 96)]
        self.assertEqual([one[1] for one in self.bars(day) if one[0] == "verdict"], [0, 95])

    def test_no_bar_is_higher_than_a_quarter(self) -> None:
        for bar in self.bars([Quarter(LAST, 9**9, -5, 3, {"1": 9})]):
            self.assertTrue(0 <= bar[2] <= bar[3] <= 15, bar)


if __name__ == "__main__":
    unittest.main()
