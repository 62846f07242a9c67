"""Tests of lab/model: pages, packets and minutes that were worked out by hand or by another hand's program.

    python3 -m unittest lab.test_model
"""

import hashlib
import pathlib
import random
import re
import unittest

from checks.model.cases import decode_directed, drawn, journals, scripts
from lab import grammar
from lab.model import clients, commands, dates, exchanges, leap_list, notes, page, receiver, replies
from lab.model import spelling, station, units
from lab.model.entries import Entry
from lab.model.marks import Reduction, Symbol
from lab.model.spelling import Tape

NOON = decode_directed.NOON
# docs/PAGE.md works out the page of this journal, and of one more minute: the two page lines that it has.
FIVE = [Entry(0, 62000000, "lone", (NOON,))] + [
    Entry(0, (62 + 60 * i) * 10**6, "verdict", (NOON + 60 * i, 0)) for i in range(1, 5)
]
SIXTH = Entry(0, 362003000, "verdict", (NOON + 300, 0))
PAGE = pathlib.Path(__file__).resolve().parent.parent / "docs/PAGE.md"
PAGES = re.findall(r"^ +(page [0-9].*)$", PAGE.read_text(encoding="utf-8"), re.MULTILINE)

# SHA-256 of what two programs of another hand gave of the same draws, before this model was written: a maker of minutes
# and logs, and a page worked out from the whole list.
ANOTHER_MAKERS_MINUTES = {
    "dcf": "f8c7bfb69b6b86b5b76153576a0ec0aa4b5165802cafed7f89e038d719bd92b1",
    "msf": "04e3b5136490aa0a5e12db19caa0e36c73a3c71a623270c7efc2861de192fe85",
    "wwvb": "44446adddd92b6976285835bcde4b70437d886c7564c70788e85427376a99db6",
}
ANOTHER_MAKERS_LOGS = {
    "dcf": (
        "6a9ed09956c964363b9379576d03f5f51b404beab7b69a5676870b1519ae8d71",
        "832afc886d93f3d1aa5a6d07c7f01c6f0b8efaa1f6deccd4bca32430338456b9",
        "557bd0cff94f7674cf957bd15cdcda5c957130956d28bd986113290cf819d718",
    ),
    "msf": (
        "fcd9d6f04db4ee640974fdf4707ceeafca20e0c182a860b9ecf5e59dde7784a6",
        "76a61f4e02d4b2e9d5dcb118dda2c3fc029fc9b6c2ecd812501b76187ebdac48",
        "e9e86accfeee3334d4b048d6079aaad448e0f7df960cb70690e6d8d2f975a0c7",
    ),
    "wwvb": (
        "f7ba659ebe6aec88b70995f13b3ad91a6dedb9a6e39ed7bcb37801a3b204ffa2",
        "0391514857c5ef3d6ebf327e9e5c7b11a3236fe731a72887ecb2d822275a144b",
        "cc22dfa4c3840386f177893275b627303267614a8bc48decf4492b3aea738087",
    ),
}
ANOTHER_MODELS_PAGES = "4ddb21cf57212dbdbbc4c6537f15083eab3591c6b5882e01583f0216b3a10946"


def journal(entries, kinds_of=("dcf",), bound=1000):
    found = page.Journal(kinds_of, bound)
    for entry in entries:
        found.add(entry)
    return found


class Units(unittest.TestCase):
    def test_roundings(self):
        self.assertEqual((units.phi(10**6), units.to_short(65537), units.local_span(1)), (64425, 2, 4294))
        self.assertEqual((units.to_short(0), units.to_short(2**60), units.phi(0)), (0, 2**32 - 1, 0))

    def test_dates(self):
        self.assertEqual((dates.second_of(2026, 1, 1), dates.second_of(1970, 1, 1)), (3976214400, 2208988800))
        self.assertEqual(
            [dates.is_date(year, 2, 29) for year in (2000, 2024, 2026, 2100)], [True, True, False, False]
        )
        self.assertEqual(dates.month_after(NOON), dates.second_of(2026, 2, 1))
        self.assertEqual((dates.midnight_from(NOON), dates.midnight_from(3976300800)), (3976300800, 3976300800))


class Frames(unittest.TestCase):
    def test_each_minute_as_another_maker_spelt_it(self):
        for plan, digest in ANOTHER_MAKERS_MINUTES.items():
            draw, text = random.Random(plan), hashlib.sha256()
            for _ in range(200):
                minute = draw.randrange(dates.second_of(2000, 1, 2), dates.second_of(2099, 12, 31), 60)
                parts = [spelling.parts_of(plan, symbol) for symbol in decode_directed.spelt(plan, minute)]
                text.update(repr(parts).encode())
            self.assertEqual(text.hexdigest(), digest, plan)

    def test_made_logs_as_another_maker_wrote_them(self):
        for plan, digests in ANOTHER_MAKERS_LOGS.items():
            for seed, digest in zip((7, 2**31 - 2, 2**32 - 1), digests, strict=True):
                self.assertEqual(hashlib.sha256(spelling.made_log(plan, seed, 60)).hexdigest(), digest, plan)

    def test_each_edit_breaks_its_rule(self):
        for plan in ("dcf", "msf", "wwvb"):
            for case in decode_directed.broken_rules(plan):
                notes.taken()
                case.due("")
                self.assertIn(case.meant, notes.taken(), case.name)

    def test_a_pair_a_leap_second_and_the_change_to_summer_time(self):
        leap = dates.second_of(2017, 1, 1)
        for minutes, due in (
            ([(NOON, 0, False), (NOON + 60, 0, False)], ["lone 3976257600", "verdict 3976257660 0"]),
            (
                [(NOON, 0, False), (NOON + 120, 0, False)],
                ["lone 3976257600", "differs 3976257600 3976257720 60000000"],
            ),
            ([(leap - 60, leap, False), (leap, leap, False)], ["lone 3692217540", "verdict 3692217600 3692217600"]),
            ([(3983734740, 0, False), (3983734800, 0, True)], ["lone 3983734740", "verdict 3983734800 0"]),
        ):
            tape = Tape("dcf", [decode_directed.spelt("dcf", *minute) for minute in minutes])
            found = commands.decode("dcf", tape.log()).text.splitlines()
            self.assertEqual([line.split(" ", 2)[2] for line in found[:-1]], due)

    def test_a_third_reduction_of_msf_is_a_mark_of_its_own(self):
        four = [Reduction(at, 100000) for at in (3000000, 3200000, 3400000, 4400000)]
        found = [(mark.at, mark.symbol) for mark in receiver.marks("msf", four)]
        self.assertEqual(found, [(3000000, Symbol.ONLY_B), (3400000, Symbol.ZERO)])


class Pages(unittest.TestCase):
    def test_the_pages_that_are_worked_out(self):
        self.assertEqual([line.split(" ")[1] for line in PAGES], ["5", "6"])
        self.assertEqual(journal(FIVE).page.line(), PAGES[0])
        self.assertEqual(journal([*FIVE, SIXTH]).page.line(), PAGES[1])
        self.assertEqual(journal(FIVE, bound=500).page.line(), grammar.page_of_none(5, 302000000))

    def test_four_sources_of_which_one_is_discarded(self):
        """Offsets 0, 0, 0 and 40 have selection jitters of 533, 533, 533 and 1600."""
        for jitter, left in ((0, [0, 1, 2]), (2000, [0, 1, 2, 3])):
            blank = journal([journals.sample(0, 5)] * 8, ["server"]).sources()[0]
            sources = [
                blank._replace(feed=feed, offset=off, jitter2=jitter) for feed, off in enumerate((0, 0, 0, 40))
            ]
            self.assertEqual([one.feed for one in page.selection.clustered(sources, 5)], left)

    def test_a_cut_lasts(self):
        told = [
            Entry(0, 60000000, "verdict", (NOON + 60, NOON + 90)),
            Entry(0, 95000000, "refused", (3,)),
            Entry(0, 120000000, "verdict", (NOON + 120, 0)),
        ]
        self.assertEqual((journal(told).cut, len(journal(told).sources())), (90000000, 1))

    def test_drawn_journals_as_another_model_had_them(self):
        synchronised, text = 0, hashlib.sha256()
        for number in range(120):
            draw = random.Random(number)
            names = drawn.kinds_of(draw)
            found = journal(drawn.entries(draw, names), names).page
            synchronised += found.sync
            text.update(f"{found.line()}\n".encode())
        self.assertEqual(text.hexdigest(), ANOTHER_MODELS_PAGES)
        self.assertGreater(synchronised, 20)


class Packets(unittest.TestCase):
    def test_the_replies_that_are_worked_out(self):
        now = journal(FIVE).page
        early = replies.reply(clients.PASS, journal(FIVE[:4]).page, {}, scripts.QUERY, 243000000, 243000500).hex()
        good = replies.reply(clients.PASS, now, {}, scripts.QUERY, 303000000, 303000500).hex()
        often = replies.reply(clients.RATE, now, {}, scripts.QUERY, 304000000, 304000500).hex()
        due = (
            "e40006ec 00000000 00100000 494e4954 0000000000000000 1122334455667788 000000f300000000 000000f30020c49b",
            "240106ec 00000000 0000f067 44434600 ed00e13000000000 1122334455667788 ed00e13100000000 ed00e1310020c49b",
            "e40006ec 00000000 00100000 52415445 0000000000000000 1122334455667788 ed00e13200000000 ed00e1320020c49b",
        )
        self.assertEqual((early, good, often), tuple(text.replace(" ", "") for text in due))

    def test_the_digests_that_are_worked_out(self):
        keys = {1: b"longwave"}
        query = scripts.QUERY + bytes.fromhex("00000001b408cf70f4de3798e713f31a2a885f12")
        found = replies.reply(clients.PASS, journal(FIVE).page, keys, query, 303000000, 303000500)
        self.assertEqual(found[48:].hex(), "00000001c6347df5e2b59807072bd69b399065c3")
        self.assertIsNone(replies.authentic(keys, query[:-1] + b"\x13"))

    def test_the_exchange_that_is_worked_out(self):
        asked = exchanges.request(10**6)
        self.assertEqual(asked.hex(), "230006ec" + "00" * 36 + "8000000100000000")
        answer = bytes.fromhex(
            "240206ec00000100000002000a000001" + "00" * 8 + "8000000100000000ed00e13100000000ed00e1310020c49b"
        )
        history = [exchanges.Event(10**6, asked, is_request=True)]
        self.assertIsNone(exchanges.refusal(history, answer))
        due = (17077897383243199545, 40802189, 8837, 2, 0x7F000001, 256, 512)
        self.assertEqual(exchanges.sample(10**6, 1010000, answer, 0x7F000001), due)
        history.append(exchanges.Event(1010000, answer, taken=True))
        self.assertEqual(
            (exchanges.refusal(history, answer), exchanges.refusal(history, answer, is_stranger=True)), (3, 1)
        )

    def test_eras(self):
        for word, second in ((0, 4294967296), (3155673600, 3155673600), (3155673599, 7450640895)):
            self.assertEqual(exchanges.unwrapped(word << 32), second << 32)

    def test_a_gate(self):
        gate = clients.Gate(["192.0.2.0/24"], 2000000, 1)
        turns = [(1, 0), (1, 10**6), (2, 1500000), (1, 1600000), (0xC0000201, 0)]
        self.assertEqual([gate.judge(*turn) for turn in turns], ["", "RATE", "", "", "DENY"])


class Files(unittest.TestCase):
    def test_a_leap_second_file(self):
        text = b"# list\n3644697600\t36\t# 1 Jul 2015\n3692217600\t37\t# 1 Jan 2017\n"
        self.assertEqual(leap_list.notices(text), ([3692217600], None))
        self.assertEqual(leap_list.notices(text.replace(b"37", b"38")), ([], 3))

    def test_a_journal_of_either_version(self):
        toml = journals.station(["dcf"])
        first = commands.migrate(toml, journals.text([*FIVE, SIXTH]))
        lines = first.text.splitlines(keepends=True)
        self.assertEqual(lines[5], "j2 6 -53687 0 362003000 verdict 3976257900 0\n")
        self.assertEqual(commands.migrate(toml, "".join(lines[:-2]).encode()), first)

    def test_stations(self):
        self.assertEqual(station.read(b'leap = 1'), "unknown leap")
        self.assertEqual(station.read(b'[[radio]]\nplan = "jjy"\nlog = "x"\n'), "range radio.0.plan")
