"""Station files for `replay` with a script of one request: each key at its bounds, each fault, and of two faults the
first.
"""

from typing import Iterator

from .case import Case
from .scripts import of, request

RADIO = '[[radio]]\nplan = "dcf"\nlog = "x"\n'
SERVER = '[[server]]\naddress = "127.0.0.1"\nport = 1\n'
LINK = "[[link]]\nport = 1\n"
KEY = '[[key]]\nid = {}\nsecret = "x"\n'
DENY = '[[deny]]\nnet = "192.0.2.0/24"\n'
# Values of each key: at the bounds of its range and past them, and of other types.
WHOLE = ('"1"', "1.0", "true", "[1]", "-1", "0x10", "+5", "1_0", "0o7")
TOP = {
    "bound": ("0", "1", "16000", "16001", *WHOLE),
    "start": ("0", "562949953421312", "562949953421313", "9223372036854775807", *WHOLE),
    "gap": ("0", "1", "60000000", "60000001", *WHOLE),
    "clients": ("0", "1", "65536", "65537", *WHOLE),
    "leap_file": ('"x"', '""', "7", "[]"),
    "radio": ("[]", "1", '"x"', "[1]", "[[]]", "{}", "[{}]"),
    "server": ("[]", "1", "[1, 2]"),
    "link": ("[]", "{port = 1}"),
    "key": ("[]", "{}", "[{id = 1}]"),
    "deny": ("[]", "true"),
    "leap": ("1",), "holdover": ("600",), "Bound": ("5",), '""': ("1",), "radios": ("[]",),
}
ROWS: dict[str, dict[str, tuple[str, ...]]] = {
    "radio": {
        "plan": ('"dcf"', '"msf"', '"wwvb"', '"jjy"', '"DCF"', '""', "1"),
        "log": ('"x"', '""', "1", '" "'),
        "delay": ("0", "100000", "100001", *WHOLE),
        "port": ("1",),
    },
    "server": {
        "address": (
            '"0.0.0.0"', '"255.255.255.255"', '"256.0.0.1"', '"1.2.3"', '"1.2.3.4.5"', '"01.2.3.4"', '"1.2.3.04"',
            '"1.2.3.4 "', '"a"', '""', "1", '"1..3.4"', '"-1.2.3.4"',
        ),
        "port": ("0", "1", "65535", "65536", *WHOLE),
        "polls": ("0", "100000", "100001", *WHOLE),
    },
    "link": {"port": ("0", "1", "65535", "65536", *WHOLE), "address": ('"1.2.3.4"',)},
    "key": {
        "id": ("0", "1", "4294967295", "4294967296", *WHOLE),
        "secret": (
            '"!"', '"~"', '" "', '"\\u007f"', '""', f'"{"x" * 32}"', f'"{"x" * 33}"', "7", '"long wave"', '"\u00e9"',
        ),
    },
    "deny": {
        "net": (
            '"0.0.0.0/0"', '"1.2.3.4/32"', '"1.2.3.4/33"', '"1.2.3.4/00"', '"1.2.3.4/08"', '"1.2.3.4"', '"1.2.3.4/"',
            '"1.2.3/8"', '"1.2.3.4/-1"', '"1.2.3.4/8 "', '"01.2.3.4/8"', "1",
        ),
    },
}
GOOD = {
    "radio": {"plan": '"dcf"', "log": '"x"'},
    "server": {"address": '"127.0.0.1"', "port": "1"},
    "link": {"port": "1"},
    "key": {"id": "1", "secret": '"x"'},
    "deny": {"net": '"192.0.2.0/24"'},
}


def of_text(name: str, text: str, meant: str | None = None) -> Case:
    return of(f"a station of {name}", text.encode(), [request()], meant)


def values() -> Iterator[Case]:
    for key, texts in TOP.items():
        for text in texts:
            yield of_text(f"{key} = {text}", f"{key} = {text}\n")
    for table, keys in ROWS.items():
        for key, texts in keys.items():
            for text in texts:
                row = {**GOOD[table], key: text}
                yield of_text(
                    f"{table}.{key} = {text}",
                    f"[[{table}]]\n" + "".join(f"{name} = {value}\n" for name, value in row.items()),
                )
        for missing in GOOD[table]:
            row = {name: value for name, value in GOOD[table].items() if name != missing}
            yield of_text(
                f"{table} without {missing}",
                f"[[{table}]]\n" + "".join(f"{name} = {value}\n" for name, value in row.items()),
                "station: missing",
            )


def counts() -> Iterator[Case]:
    plans = ("dcf", "msf", "wwvb")
    for plan in plans:
        for count in (4, 5):
            yield of_text(
                f"{count} radios of {plan}",
                RADIO.replace("dcf", plan) * count,
                "station: many" if count > 4 else "status 0",
            )
    twelve = "".join(RADIO.replace("dcf", plan) * 4 for plan in plans)
    for servers in (4, 5):
        yield of_text(
            f"12 radios and {servers} servers",
            twelve + SERVER * servers,
            "station: many" if servers > 4 else "status 0",
        )
        yield of_text(
            f"12 radios, {servers} servers, a leap second file",
            'leap_file = "x"\n' + twelve + SERVER * servers,
            "station: many",
        )
    for count in (16, 17):
        yield of_text(f"{count} servers", SERVER * count, "station: many" if count > 16 else "status 0")
        yield of_text(f"{count} denied nets", DENY * count, "station: many" if count > 16 else "status 0")
    for count in (8, 9):
        yield of_text(f"{count} links", LINK * count, "station: many" if count > 8 else "status 0")
        yield of_text(
            f"{count} keys",
            "".join(KEY.format(i + 1) for i in range(count)),
            "station: many" if count > 8 else "status 0",
        )
    all_ = [
        SERVER * 17,
        RADIO * 5,
        RADIO.replace("dcf", "msf") * 5,
        LINK * 9,
        "".join(KEY.format(i + 1) for i in range(9)),
        DENY * 17,
    ]
    for place in range(len(all_)):
        yield of_text(f"too many of the kinds from {place} on", "".join(all_[place:]), "station: many")


def faults() -> Iterator[Case]:
    """Of two faults the first, by kind, by table, by place, by key."""
    kinds = [
        ('x = 1\n', "unknown"),
        ('[[radio]]\nlog = "x"\n', "missing"),
        ("[[link]]\nport = 0\n", "range"),
        (LINK * 9, "many"),
    ]
    for place in range(len(kinds)):
        text = "".join(text for text, _ in kinds[place:])
        yield of_text(f"the faults from {kinds[place][1]} on", text, f"station: {kinds[place][1]}")
    tables = [
        "x = 1\n",
        RADIO + "x = 1\n",
        SERVER + "x = 1\n",
        LINK + "x = 1\n",
        KEY.format(1) + "x = 1\n",
        DENY + "x = 1\n",
    ]
    missing = ["[[radio]]\n", "[[server]]\n", "[[link]]\n", "[[key]]\n", "[[deny]]\n"]
    ranges = [
        "bound = 0\n",
        RADIO + "delay = -1\n",
        SERVER + "polls = -1\n",
        "[[link]]\nport = 0\n",
        KEY.format(0),
        "[[deny]]\nnet = 1\n",
    ]
    for kind, texts in (("unknown", tables), ("missing", missing), ("range", ranges)):
        for place in range(len(texts)):
            yield of_text(
                f"faults of {kind} in the tables from {place} on", "".join(texts[place:]), f"station: {kind}"
            )
    yield of_text("two keys with one identifier", KEY.format(5) + KEY.format(6) + KEY.format(5), "station: range")
    taken = KEY.format(5) + '[[key]]\nid = 5\nsecret = ""\n'
    yield of_text("a taken identifier before a bad secret of the same key", taken, "station: range")
    yield of_text("keys in order of their bytes", "clients = 0\nbound = 0\n", "station: range")
    yield of_text("the second radio's fault", RADIO * 2 + "delay = -1\n" + RADIO + "delay = -1\n", "station: range")
    for text in (
        "x", "bound = ", "bound = 1\nbound = 1\n", "[radio\n", "bound = 1 2\n", "\x00", "[[radio]]\n[radio]\n",
        "bound = 01\n",
    ):
        yield of_text(f"{text!r}, which is no TOML", text, "station: toml")
    yield of("a station of bytes that are not UTF-8", b'leap_file = "\xe9"\n', [request()], "station: toml")
    yield of_text("nothing", "", "status 0")
    for size in (65535, 65536, 65537, 70000):
        meant = "status 10" if size > 65536 else "status 0"
        yield of_text(f"{size} bytes", "#" * size, meant)
        yield of_text(
            f"{size} bytes, none of them TOML", "x" * size, "status 10" if size > 65536 else "station: toml"
        )


def all_of() -> Iterator[Case]:
    for group in (values, counts, faults):
        yield from group()
