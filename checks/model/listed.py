"""What the cases have to meet: each rule, each refusal, each outcome, by the names with which the modules note them.
"""

from lab.model.receiver import PLANS

_PAGE = (
    "a difference above 256 s",
    "a dispersion of 16 s",
    "a distance that is too great",
    "a leap second before the counter began",
    "a notice of a leap second that is over",
    "a notice without a verdict",
    "a rate below 0",
    "a rate from 0",
    "a rate over less than 30 s",
    "a rate that is too great",
    "a rate that is too low",
    "a root dispersion of 5 ms",
    "a sample from before a leap second",
    "a source is discarded",
    "a stratum that is too great",
    "above the bound",
    "intervals that touch",
    "more than eight samples",
    "more than three are left",
    "no falsetickers",
    "no interval",
    "no source is fit",
    "of equal spreads the later is discarded",
    "some falsetickers",
    "the peer is dcf",
    "the peer is msf",
    "the peer is server",
    "the peer is wwvb",
    "too many offsets outside",
    "two leap seconds at one moment",
    "two samples of one delay",
    "until by a leap second",
    "until by the bound",
)
_REPLY = (
    "DENY",
    "RATE",
    "a leap second far",
    "a leap second near",
    "a leap second that is over",
    "no time",
    "not sealed",
    "past the end",
    "sealed",
    "sent before the anchor",
    "the time",
)
_LEAP_LIST = (
    "a difference that is too great",
    "a difference that isn't one more",
    "a second that begins no month",
    "a second that doesn't rise",
    "a second that is too great",
    "bad line",
    "no row",
    "rows",
)


def _pairs(plan: str) -> tuple[str, ...]:
    """What two segments of a plan come to."""
    names = ("lone, the first", "lone, after a refused one", "differs, by its minute", "differs, by the counter")
    leaps = ("verdict, a leap second", "verdict, of two leap seconds") if plan != "msf" else ()
    return (*names, "verdict, no leap second", *leaps)


LISTED = frozenset(
    [
        *(f"{plan}: rule {rule.number} {rule.name}" for plan, module in PLANS.items() for rule in module.RULES),
        *(f"{plan}: {name}" for plan in PLANS for name in _pairs(plan)),
        *(f"page: {name}" for name in _PAGE),
        *(f"reply: {name}" for name in _REPLY),
        *(f"request: dropped, {name}" for name in ("short", "version", "mode")),
        "gate: a client is forgotten",
        "answer: taken",
        *(f"answer: refused by {code}" for code in range(1, 11)),
        *(f"answer: {name}" for name in ("a delay below the precision", "a time of the second era")),
        *(f"answer: a precision {name} the range" for name in ("below", "above")),
        *(f"wire: a round {name}" for name in ("of eight hearings", "that silence ends")),
        *(f"wire: {name}" for name in ("a sealed reply", "a kiss code", "a reply")),
        *(f"script: {name}" for name in ("swap", "an entry is lost", "bad line", "no line feed at the end")),
        *(f"log: {name}" for name in ("bad line", "no line feed at the end")),
        *(f"journal: {name}" for name in ("version 1", "version 2", "bad line", "another rate")),
        *(f"leap list: {name}" for name in _LEAP_LIST),
        *(f"station: {name}" for name in ("toml", "unknown", "missing", "range", "many")),
        *(f"status {number}" for number in (0, 1, 2, 3, 5, 6, 10)),
    ]
)
