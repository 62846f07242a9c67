"""The kinds of files that are fuzzed: a log of each plan, a script, a station, and a journal of either form."""

import pathlib
import sys

from checks.limited_runner import Runner
from checks.spoils import Draw, Lines
from lab import grammar
from lab.packets import QUERY
from lab.program import TOP

EXAMPLES = TOP / "examples"
REQUEST = QUERY.hex()
# The station that scripts and journals are played against, and what each of its feeds is.
PLANS = ["dcf", "msf", "wwvb", grammar.SERVER, grammar.LEAP]
STATION = """bound = 1000
leap_file = "leap-seconds.list"

[[radio]]
plan = "dcf"
log = "0.log"
delay = 1400

[[radio]]
plan = "msf"
log = "1.log"
delay = 2600

[[radio]]
plan = "wwvb"
log = "2.log"
delay = 21000

[[server]]
address = "127.0.0.1"
port = 4123
polls = 3

[[link]]
port = 5123
"""


def lines_of(name: str) -> Lines:
    """Returns the lines of an example, each with its line feed."""
    return (EXAMPLES / name).read_bytes().splitlines(keepends=True)


def long_script() -> Lines:
    """Returns the radios' logs as pulses, an exchange with the server, a leap second and requests every minute, in order of time."""
    timed: list[tuple[int, bytes]] = []
    for feed, name in enumerate(("dcf77", "msf", "wwvb")):
        for line in lines_of(f"radios/{name}.log"):
            timed.append((int(line.split()[0]), b"pulse %d " % feed + line))
    for minute in range(10):
        at = 2_000_000 + minute * 60_000_000
        asked, served = 2**63 + (at << 32) // 10**6, (3976257600 << 32) + ((at - 1_992_000) << 32) // 10**6
        answer = "240206ec00000100000002000a000001" + f"{0:016x}{asked:016x}{served:016x}{served:016x}"
        timed.append((at, b"ask 3 %d\n" % at))
        timed.append((at + 1, b"answer 3 %d %s\n" % (at + 8000, answer.encode())))
        timed.append((at + 1, b"leap 4 %d %d\n" % (at, 3976300800 + minute % 2 * 86400)))
        for text in (REQUEST, "2b" + REQUEST[2:], "24" + REQUEST[2:], "2300", REQUEST + "00" * 20):
            timed.append((at + 2, b"request %d %d %d %s\n" % (minute % 8, at, at + 50, text.encode())))
    timed += [(at, b"swap %d\n" % feed) for at, feed in ((200_000_000, 0), (300_000_000, 1), (400_000_000, 2))]
    timed.sort(key=lambda one: one[0])
    return [line for _, line in timed]


class Kind:
    """A kind of file: the good lines that it is made of, and how a run over it is judged."""

    def __init__(self, good: Lines, fewest: int, most: int):
        self.good, self.fewest, self.most = good, fewest, most

    def lines(self, draw: Draw) -> Lines:
        """Returns some lines in a row."""
        count = min(len(self.good), draw.randint(self.fewest, self.most))
        first = draw.randrange(len(self.good) - count + 1)
        return self.good[first : first + count]

    def judge(self, run: Runner, path: str, data: bytes, folder: pathlib.Path, draw: Draw) -> None:
        """Runs the program over the file at a path, which has these bytes, and judges what it writes; Wrong where a page says otherwise."""
        raise NotImplementedError


class Log(Kind):
    """A radio's log, for `decode`."""

    def __init__(self, plan: str, name: str):
        super().__init__(lines_of(f"radios/{name}.log"), 60, 200)
        self.plan = plan

    def judge(self, run: Runner, path: str, data: bytes, folder: pathlib.Path, draw: Draw) -> None:
        output, status = run(["decode", "--plan", self.plan, "--log", path])
        grammar.judge_decode(self.plan, data, output, status)


class Script(Kind):
    """A script, for `replay`."""

    def __init__(self) -> None:
        super().__init__(long_script(), 60, 400)

    def judge(self, run: Runner, path: str, data: bytes, folder: pathlib.Path, draw: Draw) -> None:
        limit = draw.choice((2**20, 2**20, 1, 2, 5))
        words = ["replay", "--station", f"{folder}/station", "--script", path]
        output, status = run(words + (["--limit", str(limit)] if limit != 2**20 else []))
        grammar.judge_replay(PLANS, data, output, status, limit)


class Station(Kind):
    """Small stations: each table by chance, some of them often, with odd values here and there."""

    KEYS = {
        "": ('bound = 500', "bound = 0", "bound = 16000", "start = 604000000", "start = 0x10", "leap = 1", "bound = 1_000", "bound = -5", "gap = 60000000", "gap = 60000001", "clients = 1000", "clients = 65537", "clients = 0", "gap = 2000000\nclients = 1", 'leap_file = "leap"', 'leap_file = ""', "leap_file = 7"),
        "radio": ('plan = "dcf"', 'plan = "msf"', "plan = 'wwvb'", 'plan = "jjy"', 'log = "a.log"', 'log = ""', "delay = 1400", "delay = 100001"),
        "server": ('address = "127.0.0.1"', 'address = "1.2.3.256"', "port = 123", "port = 0", "polls = 3", "polls = true", 'polls = "8"'),
        "link": ("port = 5123", "port = 65535", "port = 65536", "port = 1.5", "ports = 1"),
        "key": ("id = 1", "id = 0", "id = 4294967295", "id = 4294967296", 'secret = "long wave"', 'secret = ""', 'secret = "!~"', "name = 1"),
        "deny": ('net = "127.0.0.1/32"', 'net = "0.0.0.0/0"', 'net = "127.0.0.1/33"', 'net = "010.0.0.0/8"', 'net = "10.0.0.0/08"', "net = 10", "bits = 8"),
    }
    GOOD = {
        "radio": ['plan = "dcf"', 'log = "a.log"'],
        "server": ['address = "127.0.0.1"', "port = 123"],
        "link": ["port = 5123"],
        "key": ["id = 1", 'secret = "longwave"'],
        "deny": ['net = "192.0.2.0/24"'],
    }

    def __init__(self) -> None:
        super().__init__([], 0, 0)

    def lines(self, draw: Draw) -> Lines:
        text = [draw.choice(self.KEYS[""])] if draw.random() < 0.4 else []
        for name, good in self.GOOD.items():
            for place in range(draw.choice((0, 1, 1, 2, 3, 5, 9) if name != "deny" else (0, 0, 1, 2, 17))):
                text.append(f"[[{name}]]")
                lines = [line.replace("id = 1", f"id = {place + 1}") for line in good]
                text += lines if draw.random() < 0.9 else lines[1:]
                if draw.random() < 0.1:
                    text.append(draw.choice(self.KEYS[name]))
        return [f"{line}\n".encode() for line in text]

    def judge(self, run: Runner, path: str, data: bytes, folder: pathlib.Path, draw: Draw) -> None:
        output, status = run(["replay", "--station", path, "--script", f"{folder}/script"])

        def answers(denied: bool) -> list[str]:
            reply = f"reply e40006ec00000000001000{'0044454e59' if denied else '00494e4954'}{0:016x}1122334455667788" + f"{1 << 32:016x}" * 2
            return [reply, grammar.page_of_none(), "status 0"]

        grammar.judge_station(data, output, status, answers)


class Journal(Kind):
    """A journal of either form, for `migrate`."""

    def __init__(self, good: Lines, second: bool):
        super().__init__(good, 5, 60)
        self.second = second

    def lines(self, draw: Draw) -> Lines:
        # A numbered journal is known by its beginning.
        count = draw.randint(self.fewest, self.most)
        return self.good[:count] if self.second else super().lines(draw)

    def judge(self, run: Runner, path: str, data: bytes, folder: pathlib.Path, draw: Draw) -> None:
        words = ["migrate", "--station", f"{folder}/station", "--journal"]
        output, status = run(words + [path])

        def again(entries: list[str]) -> list[str]:
            pathlib.Path(f"{path}.again").write_bytes("".join(f"{entry}\n" for entry in entries).encode("latin-1"))
            return run(words + [f"{path}.again"])[0].decode().split("\n")

        grammar.judge_migrate(len(PLANS), data, output, status, again)


def kinds(folder: pathlib.Path) -> dict[str, Kind]:
    """Returns all kinds; the journals are those of a replay of the whole script. It ends the program where that fails."""
    (folder / "station").write_text(STATION)
    (folder / "script").write_text(f"request 0 1000000 1000000 {REQUEST}\n")
    (folder / "long").write_bytes(b"".join(long_script()))
    run = Runner(folder, "first")
    output, status = run(["replay", "--station", f"{folder}/station", "--script", f"{folder}/long"])
    run.end()
    numbered = [line for line in output.splitlines(keepends=True) if line.startswith(b"j2 ")]
    if status != 0 or len(numbered) <= 30:
        sys.exit(f"torture.py: the program doesn't replay a script: it ends with {status}; is it built?")
    plain = [line.split(b" ", 3)[3] for line in numbered]
    plain += [b"3 5 notice 3976300800\n", b"0 7 differs 5 6 7\n", b"3 9 sample -5 1 1 2 0a000001 3 4\n"]
    return {
        "dcf": Log("dcf", "dcf77"),
        "msf": Log("msf", "msf"),
        "wwvb": Log("wwvb", "wwvb"),
        "script": Script(),
        "station": Station(),
        "journal": Journal(plain, False),
        "numbered": Journal(numbered, True),
    }
