"""A station of a TOML text (docs/FORMATS.md, "Station file"). Its fault is judged by lab/grammar."""

import ipaddress
import tomllib
from typing import NamedTuple, Sequence

from lab import grammar

from .clients import Gate
from .page import Journal


class Radio(NamedTuple):
    plan: str
    log: str
    delay: int


class Station(NamedTuple):
    """A station without a fault."""

    bound: int
    start: int
    gap: int
    clients: int
    leap_file: str | None
    radios: Sequence[Radio]
    servers: Sequence[int]
    keys: dict[int, bytes]
    nets: Sequence[str]

    @property
    def kinds(self) -> list[str]:
        """What each feed is: a plan, "server" or "leap"."""
        leap = ["leap"] if self.leap_file is not None else []
        return [radio.plan for radio in self.radios] + ["server"] * len(self.servers) + leap

    @property
    def forms(self) -> list[str | None]:
        """The feeds as lab/grammar names them."""
        names = {"server": grammar.SERVER, "leap": grammar.LEAP}
        return [names.get(kind, kind) for kind in self.kinds]

    def journal(self) -> Journal:
        return Journal(self.kinds, self.bound)

    def gate(self) -> Gate:
        return Gate(self.nets, self.gap, self.clients)


def read(text: bytes) -> Station | str:
    """The station, or its fault as the status line names it."""
    try:
        table = tomllib.loads(text.decode())
    except ValueError:
        return "toml"
    fault = grammar.station_fault(table)
    if fault:
        return fault
    top = grammar.filled(table, grammar.TOP)
    arrays = {name: [grammar.filled(one, rows) for one in table.get(name, [])] for name, rows in grammar.TABLES.items()}
    return Station(
        **{key: value for key, value in top.items() if key in Station._fields},
        radios=[Radio(**one) for one in arrays["radio"]],
        servers=[int(ipaddress.ip_address(one["address"])) for one in arrays["server"]],
        keys={one["id"]: one["secret"].encode() for one in arrays["key"]},
        nets=[one["net"] for one in arrays["deny"]],
    )
