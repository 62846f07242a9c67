"""Command lines: arguments that are a command, and those that aren't; files that aren't there."""

import random
from typing import Iterator, Sequence

from lab.model import words
from lab.model.commands import LIMIT, Ended, decode, drill, ended, migrate, replay, serve
from .case import Case, Files
from .decode_directed import spelt
from .journals import station
from .scripts import request
from lab.model.spelling import Tape

FILES: Files = {
    "log": Tape("dcf", [spelt("dcf")]).log(),
    "station": station(["dcf"]).replace(b'"x"', b'"log"'),
    "script": f"{request()}\n".encode(),
    "journal": b"0 5 lone 7\n",
    "bad": b"x = 1\n",
    "lost": station(["dcf"]),
}
GOOD = (
    "decode --plan dcf --log log", "replay --station station --script script", "serve --station station",
    "migrate --station station --journal journal",
)


def due(arguments: Sequence[str], text: str) -> Ended:
    """What the arguments come to, with these files."""
    asked = words.read(arguments)
    if asked is None:
        return ended([], "status 1 usage")
    files = {name: FILES.get(value) for name, value in asked.options.items()}
    limit = int(asked.options.get("limit", LIMIT))
    match asked.command:
        case "decode":
            return decode(asked.options["plan"], files["log"])
        case "replay":
            return replay(files["station"], files["script"], limit)
        case "migrate":
            return migrate(files["station"], files["journal"])
        case "drill":
            return drill(int(asked.options["seed"]))
    return serve(files["station"], FILES, limit, text)


def of(arguments: list[str], meant: str | None = None) -> Case:
    return Case(f"the arguments {arguments}", arguments, FILES, lambda text: due(arguments, text), meant)


LINES = (
    "", "decode", "nosuch", "help", "--help", "--version", "-h", "-", "--", "decode --", "-- decode",
    "decode --plan dcf", "decode --log log", "decode --plan=dcf --log=log", "--plan=dcf --log log decode",
    "--log log decode --plan dcf", "decode --plan dcf --log log -- x", "--plan dcf --log log -- decode",
    "--plan dcf --log log -- decode decode", "-- decode --plan dcf --log log", "decode decode --plan dcf --log log",
    "decode --plan dcf --log log x", "decode --plan dcf --log log --log log",
    "decode --plan dcf --plan msf --log log",
    "decode --plan DCF --log log", "decode --plan jjy --log log", "decode --plan= --log log",
    "decode --plan dcf --log",
    "decode --plan dcf --log=", "decode --plan dcf --log -log", "decode --plan dcf --log=-log",
    "decode --plan dcf --log -",
    "decode --plan dcf --log --", "decode --plan dcf --log =log", "decode --plan dcf --log==log",
    "decode --pla dcf --log log",
    "decode -plan dcf --log log", "decode --plan dcf --log log --limit 5",
    "decode --plan dcf --log log --station station",
    "decode --plan dcf --log nosuch", "decode --plan msf --log log", "decode --plan dcf --log ./log/",
    "Decode --plan dcf --log log",
    "replay --station station", "replay --script script", "replay --station nosuch --script script",
    "replay --station station --script nosuch", "replay --station bad --script nosuch",
    "replay --station bad --script script",
    "migrate --station station", "migrate --station station --journal nosuch",
    "migrate --station nosuch --journal nosuch",
    "migrate --station station --journal journal --limit 5", "serve", "serve --station nosuch", "serve --station bad",
    "serve --station lost", "serve --station station --seed 5", "drill", "drill --seed 07", "drill --seed -1",
    "drill --seed 4294967296",
    "drill --seed x", "drill --seed 7 --limit 0", "drill --seed=+7", "drill --seed 7 --station station",
)
NUMBERS = (
    "0", "1", "01", "00", "+1", "-1", "1.0", "1e3", "0x1", "", " 1", "1 ", "1_0", "4194304", "4194305", "1000000",
    "1000001", "18446744073709551617",
)


def all_of() -> Iterator[Case]:
    for line in (*LINES, *GOOD):
        yield of(line.split(" ") if line else [])
    for option, line in (("--limit", GOOD[1]), ("--limit", GOOD[2]), ("--during", GOOD[2]), ("--after", GOOD[2])):
        for number in NUMBERS:
            yield of([*line.split(" "), option, number])
            yield of([*line.split(" "), f"{option}={number}"])


def line_case(draw: random.Random) -> Case:
    """A good command with an argument lost, doubled, changed, or put elsewhere."""
    arguments = draw.choice(GOOD).split(" ")
    if draw.random() < 0.4 and arguments[0] in ("replay", "serve"):
        arguments += ["--limit", draw.choice(NUMBERS)]
    for _ in range(draw.choice((0, 1, 1, 2, 3))):
        place = draw.randrange(len(arguments) + 1)
        how = draw.random()
        if how < 0.3:
            arguments[place : place + 1] = []
        elif how < 0.6:
            arguments.insert(
                place,
                draw.choice(
                    (*" ".join(GOOD).split(" "), "--", "-", "", "x", "--limit", "5", "--station=bad", "nosuch")
                ),
            )
        elif how < 0.8:
            arguments[place : place + 2] = ["=".join(arguments[place : place + 2])]
        else:
            draw.shuffle(arguments)
    return of(arguments)
