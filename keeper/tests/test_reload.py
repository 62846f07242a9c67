"""What `reload` believes of the file of a keeper that runs."""

import argparse
import json
import os
import pathlib
import signal
import tempfile
import unittest
from typing import Any
from unittest import mock

from keeper import reload
from keeper.errors import Fault
from keeper.reload import told


class Told(unittest.TestCase):
    def setUp(self) -> None:
        folder = tempfile.TemporaryDirectory()
        self.addCleanup(folder.cleanup)
        self.path = pathlib.Path(folder.name) / "service.json"

    def test_its_process_its_reloads_and_a_refusal(self) -> None:
        facts = {"pid": os.getpid(), "reloads": 3, "refused": "x: it is missing"}
        self.path.write_text(json.dumps(facts), encoding="utf-8")
        self.assertEqual(told(str(self.path)), (os.getpid(), 3, "x: it is missing"))

    def test_what_is_none_is_refused_by_a_sentence(self) -> None:
        good = {"pid": os.getpid(), "reloads": 0, "refused": ""}
        texts = ["", "{", "[1]", "[" * 100_000, "3"]
        pids: tuple[object, ...] = ("x", None, -1, 0, 2**40, [], float("inf"), float("nan"))
        texts += [json.dumps({**good, "pid": pid}) for pid in pids]
        for text in texts:
            with self.subTest(text=text[:40]):
                self.path.write_text(text, encoding="utf-8")
                with self.assertRaisesRegex(Fault, "isn't of a keeper that runs: "):
                    told(str(self.path))

    def test_no_process_of_another_user_is_sent_a_signal(self) -> None:
        """Whoever may write the file must not have root end what isn't theirs."""
        self.path.write_text('{"pid": 1, "reloads": 0, "refused": ""}', encoding="utf-8")
        real = os.fstat
        with mock.patch("os.fstat", lambda what: mock.Mock(wraps=real(what), st_uid=4711)):
            with self.assertRaisesRegex(Fault, "names process 1, which is another user's"):
                told(str(self.path))


class Asked(unittest.TestCase):
    """`reload` by what the keeper's file says after each look."""

    def reload(self, *found: tuple[int, int, str]) -> int:
        parts: dict[str, Any] = {"told": mock.Mock(side_effect=found), "chosen": str, "LOOK": 0.0,
                                 "lock": mock.Mock()}  # a keeper has the folder
        settings = mock.Mock(runtime="/run/radio_ntpd")
        with mock.patch.multiple(reload, **parts), mock.patch("os.kill") as kill:
            with mock.patch.object(reload.config, "load", return_value=settings):
                try:
                    return reload.main(argparse.Namespace(config="keeper.toml"))
                finally:
                    kill.assert_called_once_with(77, signal.SIGHUP)

    def test_it_waits_until_the_keeper_has_read_both(self) -> None:
        self.assertEqual(self.reload((77, 3, "x"), (77, 3, "x"), (77, 4, "")), 0)

    def test_a_file_that_is_refused(self) -> None:
        with self.assertRaisesRegex(Fault, "^/k/keeper.toml: no$") as caught:
            self.reload((77, 0, ""), (77, 0, ""), (77, 1, "/k/keeper.toml: no"))
        self.assertEqual(caught.exception.status, 78)

    def test_a_keeper_that_ends_meanwhile(self) -> None:
        with self.assertRaisesRegex(Fault, "^the keeper ended$") as caught:
            self.reload((77, 0, ""), (78, 0, ""))
        self.assertEqual(caught.exception.status, 71)

    def test_a_keeper_that_says_nothing(self) -> None:
        with mock.patch.object(reload, "WAIT", 0.0):
            with self.assertRaisesRegex(Fault, "^the keeper says nothing within 0 s$"):
                self.reload((77, 0, ""))


if __name__ == "__main__":
    unittest.main()
