"""The metrics: their form by the text format of Prometheus, and their values."""

import dataclasses
import re
import unittest

from keeper.reporter import metrics
from keeper.reporter.health import GONE
from keeper.tests.made_station import NOW, a_good_station, made_station

RADIO = '{radio="0",plan="dcf"}'
SERVER = '{feed="1",server="192.0.2.17:123"}'
# Of `a_good_station`, by hand.
VALUES = (
    "status 0", "state_timestamp_seconds 1767269100", "keeper_start_time_seconds 1767179100",
    "bound_seconds 0.5", "runs_total 7", "run_start_time_seconds 1767268500",
    'link_up{port="123"} 1', 'link_synchronized{port="123"} 1', 'link_leap_indicator{port="123"} 0',
    'link_stratum{port="123"} 1', 'link_root_dispersion_seconds{port="123"} 0.0054',
    'link_root_delay_seconds{port="123"} 0', 'link_offset_seconds{port="123"} 0.0007',
    'link_last_answer_timestamp_seconds{port="123"} 1767269099',
    'link_reference_timestamp_seconds{port="123"} 1767269060',
    'link_time_end_timestamp_seconds{port="123"} 1767302000', 'link_requests_total{port="123"} 991',
    f"radio_source_running{RADIO} 1", f"radio_source_restarts_total{RADIO} 0",
    f"radio_pulses_total{RADIO} 9", f"radio_bad_lines_total{RADIO} 0",
    f"radio_last_pulse_timestamp_seconds{RADIO} 1767269099", f"radio_pulse_rate{RADIO} 0.98",
    f"radio_pulse_width_seconds{RADIO} 0.1",
    f"radio_last_verdict_timestamp_seconds{RADIO} 1767269100",
    f"radio_offset_seconds{RADIO} 0.0013", f"radio_hour_verdicts{RADIO} 58",
    f"radio_hour_frames{RADIO} 60", f"radio_mark_spread_seconds{RADIO} 0.0021",
    'radio_recent_frames{radio="0",plan="dcf",kind="verdict"} 9',
    'radio_recent_frames{radio="0",plan="dcf",kind="refused 2"} 1',
    'radio_day_refused_frames{radio="0",plan="dcf",rule="2"} 96',
    f"server_journal_samples{SERVER} 56", f"server_offset_seconds{SERVER} 0.0004",
    f"server_last_sample_timestamp_seconds{SERVER} 1767269040",
    f"server_delay_seconds{SERVER} 0.012", "leap_file_expiry_timestamp_seconds 1775909100",
)


class Metrics(unittest.TestCase):
    def test_its_form(self) -> None:
        """Each family in one block with its HELP and TYPE; counters end in `_total`, units are base
        units."""
        name, kind, seen = "", "", set[str]()
        for line in metrics.render(made_station(NOW), NOW).splitlines():
            if line.startswith("# HELP "):
                name = line.split(" ")[2]
                self.assertNotIn(name, seen)
                seen.add(name)
            elif line.startswith("# TYPE "):
                _, _, same, kind = line.split(" ")
                self.assertEqual(same, name)
                self.assertEqual(name.endswith("_total"), kind == "counter", name)
            else:
                label = r'[a-z]+="[^"\n]*"'
                self.assertRegex(line, rf"\A{name}(\{{{label}(,{label})*\}})? -?[0-9.e-]+\Z")
        self.assertFalse([one for one in seen if re.search(r"_(ms|us|percent)\b", one)])

    def test_each_value(self) -> None:
        """All families but one, which has a value where a radio is steadied."""
        state = a_good_station()
        lines = [one for one in metrics.render(state, NOW).splitlines() if one[0] != "#"]
        self.assertEqual(sorted(lines), sorted(f"radio_ntpd_{one}" for one in VALUES))
        state.radios[0].steady, state.radios[0].spread_given = True, 0.0004
        self.assertIn(f"radio_ntpd_radio_steadied_mark_spread_seconds{RADIO} 0.0004\n",
                      metrics.render(state, NOW))

    def test_a_dead_line(self) -> None:
        state = a_good_station()
        state.radios[0].silent_since, state.radios[0].source = NOW - 300, "stalled"
        said = metrics.render(state, NOW)
        for due in (f"silent_since_timestamp_seconds{RADIO} {NOW - 300:.0f}",
                    f"source_running{RADIO} 0"):
            self.assertIn(f"radio_ntpd_radio_{due}\n", said)

    def test_what_never_came_has_no_moment(self) -> None:
        state = a_good_station()
        state.radios[0].minute_at = state.radios[0].pulse_at = state.links[0].answered_at = 0.0
        state.servers[0].sample_at, state.leap_file = 0.0, None
        said = metrics.render(state, NOW)
        for name in ("last_verdict", "last_pulse", "last_answer", "last_sample", "leap_file",
                     "server_offset", "radio_offset"):
            self.assertNotIn(name, said)
        self.assertIn('radio_ntpd_link_up{port="123"} 0\n', said)

    def test_two_servers_at_one_address(self) -> None:
        """No two series are equal: the exporter passes over a file that has such."""
        state = a_good_station()
        state.servers.append(dataclasses.replace(state.servers[0], number=2))
        lines = metrics.render(state, NOW).splitlines()
        series = [line.rpartition(" ")[0] for line in lines if line[0] != "#"]
        self.assertEqual(len(series), len(set(series)))

    def test_a_keeper_that_has_gone(self) -> None:
        """Nothing is up any more, whether it was stopped, was killed, or left its state there long
        ago."""
        for pid, written in ((0, NOW), (GONE, NOW), (1, NOW - 61)):
            state = a_good_station()
            state.keeper_pid, state.written = pid, written
            said = metrics.render(state, NOW)
            for due in ("status 2", 'link_up{port="123"} 0', 'link_synchronized{port="123"} 0',
                        f"radio_source_running{RADIO} 0"):
                self.assertIn(f"radio_ntpd_{due}\n", said)

    def test_labels_are_escaped(self) -> None:
        state = a_good_station()
        state.radios[0].plan = 'a"b\\c\nd'
        self.assertIn('plan="a\\"b\\\\c\\nd"', metrics.render(state, NOW))
        state.radios[0].reception[-1].refused = {"\ud800": 1}  # as a state.json may have it
        self.assertIn('rule="?"', metrics.render(state, NOW))

    def test_great_and_small_numbers(self) -> None:
        state = a_good_station()
        for value, due in ((1767269100.25, "1767269100.250000"), (1.5e-7, "1.5e-07"), (-2.0, "-2"),
                           (0.000123456789, "0.000123456789")):
            state.bound = value
            self.assertIn(f"radio_ntpd_bound_seconds {due}\n", metrics.render(state, NOW))


if __name__ == "__main__":
    unittest.main()
