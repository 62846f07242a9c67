"""What the units promise that the pages rely on: when systemd starts the keeper again, how it ends
it, and what stays."""

import configparser
import pathlib
import unittest

from keeper.errors import REFUSED, USAGE

FOLDER = pathlib.Path(__file__).parent.parent.parent / "packaging"


class Service(unittest.TestCase):
    def setUp(self) -> None:
        parser = configparser.ConfigParser(strict=False, interpolation=None)
        parser.read(FOLDER / "radio_ntpd.service", encoding="utf-8")
        self.service, self.unit = parser["Service"], parser["Unit"]

    def test_it_is_started_again_but_where_a_file_or_an_argument_is_refused(self) -> None:
        self.assertEqual((self.service["Restart"], self.unit["StartLimitIntervalSec"]),
                         ("always", "0"))
        never = {int(one) for one in self.service["RestartPreventExitStatus"].split()}
        self.assertEqual(never, {USAGE, REFUSED})

    def test_the_keeper_ends_its_run_by_itself(self) -> None:
        """SIGTERM is for the keeper alone: a run that got it would end without its journal."""
        self.assertEqual(self.service["KillMode"], "mixed")

    def test_journals_that_wait_stay(self) -> None:
        self.assertEqual(self.service["RuntimeDirectory"], "radio_ntpd")
        self.assertEqual(self.service["RuntimeDirectoryPreserve"], "yes")

    def test_no_process_of_it_has_a_capability(self) -> None:
        self.assertEqual((self.service["User"], self.service["CapabilityBoundingSet"]),
                         ("radio_ntpd", ""))
        self.assertEqual(self.service["NoNewPrivileges"], "yes")
        self.assertEqual(self.unit["Requires"], "radio_ntpd.socket")


if __name__ == "__main__":
    unittest.main()
