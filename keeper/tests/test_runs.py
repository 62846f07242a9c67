"""What a run is given, and what is counted of runs that ended."""

import unittest
from unittest import mock

from keeper.supervisor.runs import Run
from keeper.supervisor.service import Service
from keeper.supervisor.watchdog import Link, Watch
from keeper.tests.test_service import Case


class Links(Case):
    def test_no_run_has_more_links_than_the_program_takes(self) -> None:
        """It takes eight, as `man radio_ntpd.toml` says: beside seven there is room for one of the
        keeper's own."""
        for count, due in ((1, 2), (7, 8), (8, 8)):
            ports = [self.host.bind("127.0.0.1", 0) for _ in range(count)]
            rows = [{"port": self.host.port_of(one)} for one in ports]
            settings = self.settings(text={"bound": 500, "link": rows})
            for folder in (settings.folder, settings.runtime):
                self.host.make_folder(folder)
            run = Run(self.host, settings, [], ports, count)
            program = self.host.programs()[-1]
            told = program.environment["RADIO_NTPD_SERVICE"].split(" ")
            self.assertEqual(len(program.station["link"]), due)
            self.assertEqual(sum(one.startswith("socket=") for one in told), due)
            self.assertEqual(run.probe != 0, count < 8)
            run.release()
            for one in ports:
                self.host.close(one)


class Polls(Case):
    def test_servers_are_polled_for_as_long_as_a_paced_run_lasts(self) -> None:
        """Without pacing each has as many polls as the station says."""
        text = {"bound": 500, "link": [], "server": [{"address": "192.0.2.1", "polls": 8}]}
        for pace, due in ((16, 100_000), (0, 8)):
            settings = self.settings(text=text, pace=pace)
            for folder in (settings.folder, settings.runtime):
                self.host.make_folder(folder)
            run = Run(self.host, settings, [], [], pace)
            (server,) = self.host.programs()[-1].station["server"]
            self.assertEqual(server["polls"], due)
            run.release()


class Counts(Case):
    def test_clients_datagrams_are_counted_over_all_runs(self) -> None:
        """Those of the keeper are left out; the rate is that of the last run."""
        for heard, total, rate in ((100, 93, 9.3), (27, 113, 2.0)):
            run = mock.Mock(spec=Run, why="cycle", own=[7], settings=self.supervisor.settings,
                            out="", is_crowded=False)
            run.served_for.return_value, run.status.return_value = 10.0, 0
            self.service.archive = mock.Mock()
            self.service.archive.add.return_value = mock.Mock(status="status 0", heard=[heard])
            self.service._note_end(run)
            self.assertEqual(self.service.requests[self.port], (total, rate))
            self.assertEqual(self.service.rate, rate)


class Causes(Case):
    def why(self, served: float, pace: int, servers: list[tuple[str, int]]) -> str:
        settings = self.settings(cycle=86400.0 * 7, pace=pace, servers=servers)
        service = Service(self.host, settings, mock.Mock())
        service.serving = mock.Mock(spec=Run)
        service.serving.outlets = {}
        service.serving.served_for.return_value = served
        return service._why(self.host.now)

    def test_a_paced_run_ends_before_its_polls_do(self) -> None:
        """A server has 100000 polls in a run, of which seven tenths are used."""
        server = [("192.0.2.1", 123)]
        cases: tuple[tuple[float, int, list[tuple[str, int]], str], ...] = (
            (69_999.0, 1, server, ""), (70_001.0, 1, server, "cycle"),
            (70_001.0, 4, server, ""), (280_001.0, 4, server, "cycle"),
            (70_001.0, 1, [], ""), (86400.0 * 7, 1, [], "cycle"))
        for served, pace, servers, due in cases:
            self.assertEqual(self.why(served, pace, servers), due, (served, pace))

    def test_a_run_that_serves_cuts_no_pause_short(self) -> None:
        """One that died soon is followed by a pause, which a run that takes its place leaves."""
        until = self.host.now + 20.0
        self.service.starts.until = until
        run = mock.Mock(spec=Run, cause="died", settings=self.settings(links=[]), note="", number=1)
        self.service._accept(run, Watch(self.host, list[Link](), []), self.host.now)
        self.assertEqual(self.service.starts.until, until)


if __name__ == "__main__":
    unittest.main()
