"""The keeper's file, `keeper.toml`, and the station file that it names. A key that isn't known, is
missing or out of range is refused by name."""

import hashlib
import os
import re
import subprocess
import tomllib
from dataclasses import dataclass, field
from typing import Any, BinaryIO, NoReturn

from keeper.chosen_file import built_program
from keeper.errors import REFUSED, Fault, reason, sentence

# Without pacing servers are asked at the start of a run alone, so what they said is at most this
# old (s).
UNPACED_CYCLE = 300
KINDS = ("command", "fifo", "file")
JUDGED = 20.0  # how long the program may take to judge a station file (s)
MOST = 65536  # bytes of a station file
LARGEST = 2**53  # no number of a station is greater


@dataclass(frozen=True)
class Radio:
    """A radio's source: `kind` is `command`, `fifo` or `file`, and `value` the command or the name.
    `stall` and `delay` are seconds; `steady` says whether its pulses are steadied."""

    kind: str
    value: str
    name: str
    stall: float
    plan: str
    delay: float
    steady: bool = False

    @property
    def origin(self) -> str:
        """A digest of what names its source: a command may have what isn't for everybody."""
        what = f"{self.kind} {self.value}".encode(errors="surrogateescape")
        return hashlib.sha256(what).hexdigest()[:16]


@dataclass(frozen=True)
class Alarms:
    """`command` is empty for none; `unheard` and `limit` are seconds."""

    command: str = ""
    unheard: float = 3600.0
    limit: float = 30.0


@dataclass(frozen=True)
class Settings:
    """What both files say. `text` is the station's TOML as it was read; `cycle`, `pace`, `bound`
    and `gap` are seconds; `room` is what logs and journals may have each, in bytes."""

    path: str
    station: str
    text: dict
    program: str
    folder: str
    runtime: str
    cycle: float
    days: int
    room: int
    pace: float
    radios: list[Radio]
    links: list[int]
    servers: list[tuple[str, int]]
    denied: list[str]
    gap: float
    bound: float
    leap_file: str | None
    alarms: Alarms = field(default_factory=Alarms)


# Each key: its type and its least and greatest value.
TOP = {
    "station": (str,), "program": (str,), "state": (str,), "runtime": (str,),
    "cycle": (int, 2, 86400 * 7), "days": (int, 1, 3650), "room": (int, 10, 1_000_000),
    "pace": (int, 0, 1024), "alarms": (dict,), "radio": (list,),
}
ALARMS = {"command": (str,), "unheard": (int, 60, 86400 * 30), "limit": (int, 1, 3600)}
RADIO = {"command": (str,), "fifo": (str,), "file": (str,), "name": (str,),
         "stall": (int, 2, 86400), "steady": (bool,)}
TYPES = {str: "a string", int: "a whole number", bool: "true or false", dict: "a table",
         list: "an array of tables"}


def opened(path: str) -> BinaryIO:
    """A file for reading; the writer of a FIFO in its place isn't waited for. Raises OSError."""
    name = os.fspath(path)  # a number would be a descriptor of ours
    return open(name, "rb", opener=lambda name, how: os.open(name, how | os.O_NONBLOCK))


class File:
    """A TOML file: its text and its values. Raises Fault."""

    def __init__(self, path: str) -> None:
        self.path = path
        try:
            with opened(path) as file:
                data = file.read(MOST + 1) or b""
            if len(data) > MOST:
                raise Fault(f"{path}: it has more than {MOST} bytes", REFUSED)
            self.text = data.decode("utf-8-sig")  # without a byte order mark, as the program does
            self.values: dict = tomllib.loads(self.text)
        except OSError as error:
            raise Fault(sentence(error), REFUSED) from error
        except (ValueError, RecursionError) as error:  # also of UTF-8, or a long number
            raise Fault(f"{path}: it is no TOML: {error}", REFUSED) from error

    def beside(self, name: str) -> str:
        """A name that the file has: it begins at the folder of the file."""
        return os.path.join(os.path.dirname(os.path.abspath(self.path)), name)

    def refuse(self, key: str, why: str, table: str = "", place: int | None = None) -> NoReturn:
        """Refuses a key of the top, of a table, or of the table at a place of an array."""
        line = self._line_of(key, table, place or 0)
        where = "".join(f"{one}." for one in (table, place) if one not in ("", None))
        raise Fault(f"{self.path}: {where}{key}: {why}{line}", REFUSED)

    def _line_of(self, key: str, table: str, place: int) -> str:
        """` (line N)`; nothing where it isn't found."""
        now, seen = "", dict[str, int]()
        is_key = re.compile(rf"\s*[\"']?{re.escape(key)}[\"']?\s*[=.]")
        for number, line in enumerate(self.text.splitlines(), 1):
            if head := re.match(r"\s*\[\[?\s*([\w.-]+)\s*\]\]?", line):
                now = head[1]
                seen[now] = seen.get(now, -1) + 1
                if key == now and not table:
                    return f" (line {number})"
            elif now == table and seen.get(now, 0) == place and is_key.match(line):
                return f" (line {number})"
        return ""

    def judge(self, values: dict, known: dict, table: str = "", place: int | None = None) -> None:
        """Refuses the first key of a table that isn't known or hasn't a value that it may have."""
        for key in values:
            if key not in known:
                self.refuse(key, "a key that isn't known", table, place)
        for key, (kind, *limits) in known.items():
            value = values.get(key)
            if value is None:
                continue
            if type(value) is not kind:
                self.refuse(key, f"it isn't {TYPES[kind]}", table, place)
            if limits and not limits[0] <= value <= limits[1]:
                self.refuse(key, f"{value} isn't within {limits[0]} to {limits[1]}", table, place)
            if kind is str and (not value.strip() or "\0" in value):
                self.refuse(key, "it is empty", table, place)


# Of the station, which the program judges later, and which may have anything now.

def _value(values: dict, key: str, default: Any) -> Any:
    """A value of the default's type; the default where it is none, or a number so great that the
    program refuses it anyway."""
    value = values.get(key)
    is_good = type(value) is type(default) and (type(value) is not int or abs(value) < LARGEST)
    return value if is_good else default


def _tables(values: dict, key: str) -> list[dict]:
    return [one for one in _value(values, key, []) if isinstance(one, dict)]


def _port(values: dict) -> int:
    """The port of a link or a server, 1 to 65535; 0 where it has none."""
    port: int = _value(values, "port", 0)
    return port if 0 < port < 65536 else 0


def load(path: str) -> Settings:
    """Both files. Raises Fault for the first thing that isn't right; whether the station itself is
    valid `judge` asks the program."""
    file = File(path)
    values, alarms = file.values, file.values.get("alarms", {})
    file.judge(values, TOP)
    file.judge(alarms, ALARMS, "alarms")
    if "station" not in values:
        file.refuse("station", "it is missing")
    station_path = file.beside(values["station"])
    station = File(station_path).values
    tables = dict(enumerate(_tables(station, "radio")))
    radios = [_radio(file, one, place, tables.get(place, {}))
              for place, one in enumerate(values.get("radio", []))]
    if len(radios) != len(tables):
        file.refuse("radio", f"there are {len(radios)} tables [[radio]] here, and {len(tables)} in "
                    f"{station_path}")
    servers = [(address, port) for one in _tables(station, "server")
               if (address := _value(one, "address", "")) and (port := _port(one))]
    pace, folder = values.get("pace", 16), file.beside(values.get("state", "state"))
    return Settings(
        path=os.path.abspath(path), station=station_path, text=station,
        program=file.beside(values["program"]) if "program" in values else built_program(),
        folder=folder, runtime=file.beside(values.get("runtime", folder)),
        cycle=values.get("cycle", UNPACED_CYCLE if servers and not pace else 3600),
        days=values.get("days", 30), room=values.get("room", 1000) * 1_000_000, pace=pace,
        radios=radios,
        links=[port for one in _tables(station, "link") if (port := _port(one))],
        servers=servers,
        denied=[net for one in _tables(station, "deny") if (net := _value(one, "net", ""))],
        gap=_value(station, "gap", 0) / 1e6, bound=_value(station, "bound", 1000) / 1e3,
        leap_file=_value(station, "leap_file", "") or None, alarms=Alarms(**alarms))


def _radio(file: File, values: object, place: int, table: dict) -> Radio:
    """A radio of the keeper's file, at its place, and its table of the station."""
    if not isinstance(values, dict):
        raise Fault(f"{file.path}: radio.{place}: it is no table", REFUSED)
    file.judge(values, RADIO, "radio", place)
    named = [kind for kind in KINDS if kind in values]
    if len(named) != 1:
        why = "one of command, fifo and file must stand there, and no more than one"
        file.refuse(named[1] if named else "command", why, "radio", place)
    plan, value = _value(table, "plan", ""), values[named[0]]
    name = values.get("name", plan)
    if "name" in values and not name.isprintable():
        file.refuse("name", "it has a character that can't be printed", "radio", place)
    return Radio(named[0], value if named == ["command"] else file.beside(value), name,
                 values.get("stall", 60), plan, _value(table, "delay", 0) / 1e6,
                 values.get("steady", False))


def judge(settings: Settings) -> None:
    """Asks the program itself whether the station is valid. Raises Fault with its sentence and its
    status."""
    program, station = f"the program {settings.program}", settings.station
    words = [settings.program, "replay", "--station", station, "--script", "/dev/null"]
    try:
        done = subprocess.run(words, stdin=subprocess.DEVNULL, capture_output=True, timeout=JUDGED)
    except OSError as error:
        raise Fault(f"{program} can't be run: {error.strerror}") from error
    except subprocess.TimeoutExpired as error:
        raise Fault(f"{program} doesn't judge the station within {JUDGED:.0f} s") from error
    said = done.stdout.decode("ascii", "replace").splitlines()[-1:]
    if done.returncode != 0:
        why = reason(done.stderr).removeprefix(f"the station file ({station}): ")
        last = said[0] if said else f"it ends with {done.returncode}"
        raise Fault(f"{station}: {why or 'the program refuses it'} ({last})", REFUSED)
    if said != ["status 0"]:
        raise Fault(f"{program} isn't radio_ntpd: it judged the station without a status")
