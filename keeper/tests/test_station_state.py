"""What a station's state becomes by what the supervisor says, journals, and a clock that is set."""

import os
import tempfile
import time
import unittest

from keeper.reporter.state import ServerState, State
from keeper.reporter.station_state import Station
from keeper.tests.made_station import a_good_station


def facts(folder: str, **more: object) -> dict:
    """What the supervisor says of a station with one radio and one link."""
    now = time.time()
    radio = {
        "number": 0, "plan": "dcf", "name": "roof", "delay": 0.0, "steady": False, "origin": "o",
        "source": "running", "restarts": 0, "pulses": 5, "bad_lines": 0, "last_bad": "",
        "pulse_at": now, "silent_since": 0.0, "stall": 60.0}
    link = {
        "port": 123, "asked_at": now, "answered_at": now, "requests": 7, "requests_per_second": 1.0,
        "leap": 0, "stratum": 1, "reference_id": "DCF", "root_delay": 0.0,
        "root_dispersion": 0.005, "reference_time": now, "came": now, "offset": 0.0}
    run = {"number": 1, "since": now - 5, "cause": "start", "pid": 9, "last_status": "",
           "last_journal": ""}
    return {
        "at": now, "since": now - 60, "pid": 9, "station": "s", "folder": folder,
        "program": "/nosuch", "bound": 0.5, "cycle": 3600, "days": 30, "room": 10**9,
        "alarms": {"command": "", "unheard": 3600, "limit": 30}, "servers": [], "leap_file": None,
        "run": run, "links": [link], "radios": [radio], "events": [], "notes": [], **more}


class Folder(unittest.TestCase):
    def setUp(self) -> None:
        folder = tempfile.TemporaryDirectory()
        self.addCleanup(folder.cleanup)
        self.folder = folder.name
        self.runtime = os.path.join(self.folder, "run")
        os.mkdir(self.runtime)


class Stations(Folder):
    def test_what_the_supervisor_says(self) -> None:
        station = Station(None)
        said = facts(self.folder, notes=["a note"])
        station.take(said)
        state = station.state
        self.assertEqual((state.keeper_pid, state.run.number, state.links[0].requests), (9, 1, 7))
        self.assertEqual((state.radios[0].name, state.radios[0].pulses), ("roof", 5))
        self.assertEqual((state.station, state.bound, state.notes), ("s", 0.5, ["a note"]))
        # The root dispersion grows by 15 parts in a million up to the bound.
        self.assertAlmostEqual(state.links[0].until, said["at"] + 0.495 / 15e-6, places=3)

    def test_a_link_without_time_has_no_end_of_it(self) -> None:
        for more in ({"leap": 3}, {"stratum": 0}):
            said = facts(self.folder)
            said["links"][0].update(more)
            station = Station(None)
            station.take(said)
            self.assertEqual(station.state.links[0].until, 0.0)
        said["links"] = [{"port": 123, "asked_at": 0.0, "answered_at": 0.0, "requests": 0,
                          "requests_per_second": 0.0}]
        station.take(said)
        self.assertEqual(station.state.links[0].reference_id, "INIT")

    def test_the_past_is_kept_where_the_radio_is_still_there(self) -> None:
        before = a_good_station(time.time())
        station = Station(before)
        station.take(facts(self.folder))
        self.assertEqual(station.state.radios[0].reception, before.radios[0].reception)
        self.assertEqual(station.state.alarms, before.alarms)
        other = facts(self.folder)
        other["radios"][0]["plan"] = "msf"
        station.take(other)
        self.assertEqual(station.state.radios[0].reception, [])

    def test_a_radio_that_was_silent_before_the_keeper_began_is_so_since_its_last_pulse(self) -> None:
        """The keeper of these facts has had no pulse; the one before had its last 500 s ago."""
        before = a_good_station(time.time())
        before.radios[0].pulse_at = last = time.time() - 500
        for said, at, due in ((0.0, 0.0, 0.0), (60.0, 0.0, last), (60.0, 50.0, 50.0)):
            station, given = Station(before), facts(self.folder)
            moments = {"silent_since": said and last + 440, "pulse_at": at and last + 430}
            given["radios"][0].update(moments)
            station.take(given)
            shown = station.state.radios[0]
            self.assertEqual(shown.silent_since, due and (last + 430 if at else due))
            self.assertEqual(shown.pulse_at, last + 430 if at else last)

    def test_servers_at_one_address_are_two(self) -> None:
        station = Station(None)
        for _ in range(3):
            station.take(facts(self.folder, servers=[["192.0.2.1", 123]] * 2))
            first, second = station.state.servers
            self.assertEqual((first.number, second.number), (1, 2))
            self.assertEqual(first.samples, _)
            first.samples += 1

    def test_what_was_known_of_a_server_is_of_one_of_two_at_its_address(self) -> None:
        known = ServerState(1, "192.0.2.1", 123, samples=5)
        station = Station(State(servers=[known]))
        station.take(facts(self.folder, servers=[["192.0.2.1", 123]] * 2))
        self.assertEqual([one.samples for one in station.state.servers], [5, 0])

    def test_an_event_is_news_once(self) -> None:
        station = Station(None)
        event = {"number": 3, "event": "file-refused", "text": "x", "at": time.time()}
        old: dict[str, object] = {**event, "number": 2, "at": time.time() - 700}
        for _ in range(2):
            station.take(facts(self.folder, events=[old, event]))
        self.assertEqual(station.news, [event])

    def test_a_journal_is_read_once_it_is_another_one(self) -> None:
        os.mkdir(os.path.join(self.folder, "journals"))
        path = os.path.join(self.folder, "journals", "a.journal")
        at = int(time.monotonic() * 1e6)
        ahead = int((time.time() + 2208988800 - time.monotonic()) * 2**32)  # of the counter
        with open(path, "w", encoding="ascii") as file:
            file.write(f"j2 1 0 1 {at} sample {ahead} 4294967 1 2\nstatus 0\n")
        station = Station(None)
        said = facts(self.folder, servers=[["192.0.2.1", 123]])
        said["run"]["last_journal"] = "/nosuch/a.journal"  # its name alone counts
        for _ in range(2):
            station.take(said)
            station.read_journal(said)
            os.truncate(path, 0)
            server = station.state.servers[0]
            self.assertEqual((server.samples, server.stratum, server.number), (1, 2, 1))
            self.assertLess(abs(server.offset), 0.1)

    def test_a_leap_second_file(self) -> None:
        path = os.path.join(self.folder, "leap")
        with open(path, "w", encoding="ascii") as file:
            file.write("#@ 3928521600\n")
        station = Station(None)
        station.take(facts(self.folder, leap_file=path, servers=[["192.0.2.1", 123]]))
        leap = station.state.leap_file
        assert leap
        self.assertEqual((leap.number, leap.expires), (2, 1719532800.0))
        station.take(facts(self.folder))
        self.assertIsNone(station.state.leap_file)

    def test_moments_move_with_the_clock(self) -> None:
        station = Station(a_good_station(time.time()))
        station.take(facts(self.folder))
        at = station.state.radios[0].minute_at
        for step in (3 * 86400, -5 * 86400, 2 * 86400):
            station.move(step)
        self.assertEqual(station.state.radios[0].minute_at, at)
        station.move(60.0)
        self.assertEqual(station.state.radios[0].minute_at, at + 60.0)

    def test_what_lies_ahead_is_no_moment(self) -> None:
        now = time.time()
        station = Station(a_good_station(now + 86400))
        station.take(facts(self.folder))
        station.renew(now)
        self.assertLess(station.radios[0].counted, now + 1)
        self.assertTrue(all(one.at <= now for one in station.state.alarms))
        self.assertTrue(all(one.at <= now for one in station.state.radios[0].reception))

    def test_pulses_go_to_their_radio(self) -> None:
        station = Station(None)
        station.take(facts(self.folder))
        pulses = [[one * 1_000_000, 100_000, one * 1_000_000 + 7] for one in range(1, 40)]
        for number in (0, 1, -1):
            station.heard(number, pulses)
        station.renew(time.time())
        radio = station.state.radios[0]
        self.assertEqual((radio.rate, radio.width, radio.spread), (1.0, 0.1, 0.0))


if __name__ == "__main__":
    unittest.main()
