"""The state's file: what is written reads back, and what isn't ours is refused by a sentence."""

import dataclasses
import json
import os
import random
import tempfile
import time
import unittest
from unittest import mock

from keeper.errors import Fault
from keeper.reporter import metrics, overview, page
from keeper.reporter.health import judge
from keeper.reporter.state import (LeapFileState, LinkState, Quarter, RadioState, RunState, State,
                                   load, put, read, save)
from keeper.supervisor.host import Host
from keeper.tests.made_station import NOW, made_station

# What a file may have in the place of anything: odd digits, other types, extremes.
ODD: tuple[object, ...] = (
    "²", "１", "", "9" * 400, "\0", "\ud800", None, True, -1, 0, 2**53 - 1, -2**53 + 1, 2**34, 1e-300,
    -2.0**34, 0.1, [], {}, [{}], {"²": 3}, {"1": 2**52}, {"refused ²": 1})


def whole() -> State:
    radio = RadioState(number=0, plan="dcf", name="roof", pulses=7, recent={"refused 2": 1},
                       reception=[Quarter(900.0, 12, 1, 0, {"2": 2})])
    return State(
        written=1000.5, run=RunState(number=3, cause="cycle"),
        links=[LinkState(port=123, leap=0, stratum=1, reference_id="DCF")], radios=[radio],
        leap_file=LeapFileState(number=1, path="/x", notices=27), notes=["the disk is full"])


class Files(unittest.TestCase):
    def setUp(self) -> None:
        folder = tempfile.TemporaryDirectory()
        self.addCleanup(folder.cleanup)
        self.folder = folder.name
        self.path = os.path.join(self.folder, "state.json")

    def test_what_is_written_reads_back(self) -> None:
        save(Host(), whole(), self.path)
        self.assertEqual(load(self.path), whole())
        self.assertEqual(os.listdir(self.folder), ["state.json"])
        self.assertEqual(os.stat(self.path).st_mode & 0o777, 0o644)

    def test_unknown_fields_are_passed_over_and_missing_ones_have_their_default(self) -> None:
        table = dataclasses.asdict(whole())
        table["weather"] = "fine"
        table["radios"][0]["offsets"] = [{"at": 300.0}]
        del table["run"]["cause"], table["leap_file"]
        self.assertEqual(read(json.dumps(table)), dataclasses.replace(
            whole(), run=RunState(number=3), leap_file=None))

    def test_a_whole_number_counts_as_seconds(self) -> None:
        self.assertEqual(read('{"version": 1, "written": 5}').written, 5.0)
        self.assertEqual(read('{"version": 1, "written": 34359738367}').written, 34359738367.0)

    def test_what_is_no_state_is_refused_by_its_field(self) -> None:
        for text, said in (
            ("", "Expecting value"), ("[]", "it isn't of version 1$"),
            ('{"version": 0}', "it isn't of version 1$"),
            ('{"version": 1, "radios": 3}', "state.radios has another type"),
            ('{"version": 1, "run": []}', "state.run is no table"),
            ('{"version": 1, "links": [{"port": "123"}]}', "state.links.0.port has another type"),
            ('{"version": 1, "written": NaN}', "state.written is out of range"),
            ('{"version": 1, "written": 34359738368}', "state.written is out of range"),
            ('{"version": 1, "cycle": Infinity}', "state.cycle is out of range"),
            ('{"version": 1, "written": -1e300}', "state.written is out of range"),
            ('{"version": 1, "written": %s}' % ("9" * 400), "state.written is out of range"),
            ('{"version": 1, "keeper_pid": 9007199254740992}', "state.keeper_pid is out of range"),
            ('{"version": 1, "written": true}', "state.written has another type"),
            ('{"version": 1, "links": [{"port": true}]}', "state.links.0.port has another type"),
            ('{"version": 1, "radios": [{"recent": {"a": "b"}}]}', "state.radios.0.recent.a has"),
            ("[" * 100_000, "is no state of a keeper: "),
        ):
            with self.subTest(text=text[:60]), open(self.path, "w", encoding="utf-8") as file:
                file.write(text)
                file.flush()
                with self.assertRaisesRegex(Fault, said):
                    load(self.path)

    def test_a_fifo_in_its_place_is_not_waited_for(self) -> None:
        os.mkfifo(self.path)
        with self.assertRaisesRegex(Fault, "is no state of a keeper: "):
            load(self.path)

    def test_a_file_that_is_not_there(self) -> None:
        said = f"the state {self.path} can't be read: No such file or directory"
        with self.assertRaisesRegex(Fault, said):
            load(self.path)

    def test_what_cannot_be_written_leaves_nothing(self) -> None:
        os.mkdir(self.path)
        with self.assertRaises(OSError):
            save(Host(), whole(), self.path)
        self.assertEqual(os.listdir(self.folder), ["state.json"])

    def test_a_link_that_somebody_planted_is_not_followed(self) -> None:
        victim = os.path.join(self.folder, "victim")
        with open(victim, "w", encoding="ascii") as file:
            file.write("root:secret")
        os.chmod(victim, 0o600)
        for name in ("state.json.part", "state.json"):
            os.symlink(victim, os.path.join(self.folder, name))
        put(Host(), self.path, "{}\n")
        with open(victim, encoding="ascii") as file:
            self.assertEqual(file.read(), "root:secret")
        self.assertEqual(os.stat(victim).st_mode & 0o777, 0o600)
        about = os.lstat(self.path)
        self.assertEqual((about.st_mode & 0o170777, about.st_size), (0o100644, 3))

    def test_nor_a_hard_link_that_comes_at_the_last_moment(self) -> None:
        victim = os.path.join(self.folder, "victim")
        with open(victim, "w", encoding="ascii") as file:
            file.write("root:secret")
        os.link(victim, f"{self.path}.part")
        with mock.patch("os.unlink", side_effect=FileNotFoundError):
            with self.assertRaises(FileExistsError):
                put(Host(), self.path, "{}\n")
        with open(victim, encoding="ascii") as file:
            self.assertEqual(file.read(), "root:secret")


class Odd(unittest.TestCase):
    def test_whatever_a_file_says_is_drawn(self) -> None:
        """States with one value exchanged: each is refused by a sentence, or shown."""
        chance, shown, end = random.Random(7), 0, time.monotonic() + 20
        text = json.dumps(made_station(NOW), default=vars)
        for _ in range(100):
            table = json.loads(text)
            spoil(table, chance)
            try:
                state = read(json.dumps(table))
            except ValueError as error:
                self.assertRegex(str(error), r"\A(state[.\w²１]* (has another type|is out of "
                                             r"range|is no table)|it isn't of version 1)")
                continue
            shown += 1
            judge(state, NOW)
            for shown_by in (overview, page, metrics):
                shown_by.render(state, NOW)
            if time.monotonic() > end:
                break
        self.assertGreater(shown, 10)

    def test_has_time(self) -> None:
        """RFC 5905: leap indicator 3 is an unsynchronised clock, stratum 0 is unspecified."""
        for leap, stratum, age, due in ((0, 1, 15.0, True), (2, 2, 0.0, True), (3, 1, 0.0, False),
                                        (0, 0, 0.0, False), (0, 1, 15.1, False)):
            link = LinkState(leap=leap, stratum=stratum, answered_at=100.0)
            self.assertEqual(link.has_time(100.0 + age), due)
            self.assertEqual(State(links=[LinkState(), link]).time_link(100.0 + age),
                             link if due else None)


def spoil(table: dict, chance: random.Random) -> None:
    """Puts something odd in one place."""
    part: dict | list = table
    while True:
        keys = list(part) if isinstance(part, dict) else list(range(len(part)))
        key = chance.choice(keys)
        inner = part[key]  # type: ignore[call-overload,index]
        if not isinstance(inner, (dict, list)) or not inner or chance.random() < 0.1:
            part[key] = chance.choice(ODD)  # type: ignore[call-overload,index]
            return
        part = inner


if __name__ == "__main__":
    unittest.main()
