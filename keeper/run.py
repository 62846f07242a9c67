"""`./radio_keeper run`: keeps the station's server running until SIGTERM or SIGINT."""

import argparse

from keeper import config
from keeper.chosen_file import chosen
from keeper.supervisor.host import Host, say, take_signals
from keeper.supervisor.supervisor import Supervisor


def main(asked: argparse.Namespace) -> int:
    """The exit status."""
    settings = config.load(chosen(asked.config))
    config.judge(settings)
    host = Host()
    take_signals(host)
    say()
    supervisor = Supervisor(host, settings)
    try:
        supervisor.begin()
        while supervisor.turn():
            pass
        return supervisor.status
    finally:
        supervisor.close()
