"""The numbers of a journal in words: which rule a minute broke, why a server's answer wasn't taken,
what a reference ID is."""

PLANS = {"dcf": "DCF77", "msf": "MSF", "wwvb": "WWVB"}
_BITS = "bit errors"
_MISSED = "two bit errors that the parity missed"
_TURNED = ", or an output that is the other way round"
_SPACING = ("two neighbouring marks aren't a second apart: interference, a fading carrier, a lost "
            "mark")
_LENGTH = "a minute doesn't have as many marks as it must: a lost mark or a false minute mark"
_COMMON = {
    1: ("Spacing", _SPACING + _TURNED), 3: ("Length", _LENGTH),
    2: ("Width", "a width is in no class: interference, the receiver's threshold"),
}


def _named(names: str, first: int, why: str) -> dict[int, tuple[str, str]]:
    """Rules that follow one another, and have one reason."""
    return {number: (name, why) for number, name in enumerate(names.split(), first)}


_RULES = {
    "dcf": _COMMON | {2: ("Width", _COMMON[2][1] + _TURNED)}
    | _named("StartBit", 10, "bit errors, or a signal that isn't DCF77")
    | _named("ZoneBits TimeBit MinuteParity HourParity DateParity", 11, _BITS)
    | _named("MinuteRange HourRange DayRange WeekdayRange MonthRange YearRange NoSuchDate "
             "WeekdayDiffers", 16, _MISSED)
    | _named("LeapMinute", 24, "a lost or a false mark in the minute of a leap second, or bit "
             "errors in its announcement"),
    "msf": _COMMON | _named("Identifier", 30, "a false minute mark, or bit errors")
    | _named("YearParity DateParity WeekdayParity TimeParity", 31, _BITS)
    | _named("MinuteRange HourRange DayRange WeekdayRange MonthRange YearRange NoSuchDate "
             "WeekdayDiffers", 35, _MISSED),
    "wwvb": _COMMON | {3: ("Length", _LENGTH + _TURNED)}
    | _named("Markers", 50, "a false pair of markers, or bit errors")
    | _named("Reserved DutSign MinuteRange HourRange YearRange DayOfYear", 51, _BITS)
    | _named("LeapMinute", 58, "a minute that ends with a leap second, which isn't read"),
}
_DECLINED = {
    1: ("Stranger", "it came from another address or port than the server's"),
    2: ("Short", "it has fewer than 48 bytes: another service is on that port"),
    3: ("NotAsked", "no request was outstanding: an answer that came twice or late"),
    4: ("Version", "it has a version of NTP that isn't 1 to 4"),
    5: ("Mode", "it hasn't a server's mode"),
    6: ("Bogus", "it isn't the answer to our request: a late one, or a forged one"),
    7: ("Duplicate", "an old answer was sent again"),
    8: ("Unsynchronised", "the server itself has no time, or asks us to leave it alone"),
    9: ("ZeroStamp", "the server leaves its times out"),
    10: ("Distance", "the server is cut off from its own sources"),
}
_REFERENCES = {"DCF": "DCF77 (radio)", "MSF": "MSF (radio)", "WWVB": "WWVB (radio)",
               "INIT": "no time yet", "RATE": "asked too often", "DENY": "not served"}
_CAUSES = {
    "start": "the keeper was started", "cycle": "the last one was over",
    "reload": "the files were read anew", "died": "the last one ended by itself",
    "silent": "the last one didn't answer", "slept": "the host slept",
    "paused": "the host was paused",
    "busy": "the last one had answered almost all that a run answers",
}


def rule(plan: str, number: str) -> tuple[str, str]:
    """The name of a rule and what to suspect where it is broken; empty where there is none."""
    return _RULES.get(plan, _COMMON).get(_number(number), ("", ""))


def declined(number: str) -> tuple[str, str]:
    """The name of a refusal of a server's answer, and what it says; empty where there is none."""
    return _DECLINED.get(_number(number), ("", ""))


def _number(text: str) -> int:
    """A number of a journal, -1 where a text is none."""
    return int(text) if text.isascii() and text.isdigit() and len(text) <= 3 else -1


def reference(name: str) -> str:
    """A reference ID in words; an address is that of a server that is asked."""
    return f"the server {name}" if name.count(".") == 3 else _REFERENCES.get(name, name)


def cause(word: str) -> str:
    """Why a run was started, in words."""
    return _CAUSES.get(word, word)
