"""What the senders send, by the model of their codes."""

import datetime

from lab.model import dates
from lab.model.fields import Coded
from lab.model.receiver import PLANS
from lab.model.spelling import SECOND, parts_of


def minute_of(plan: str, sent: datetime.datetime) -> list[tuple[int, int]]:
    """The reductions of the minute that begins at `sent` (UTC), by winter time: microseconds since then, and widths."""
    after = (sent - dates.EPOCH) // datetime.timedelta(seconds=1) + 60
    return [
        (second * SECOND + begin, width)
        for second, symbol in enumerate(PLANS[plan].spelt(Coded(after)))
        for begin, width in parts_of(plan, symbol)
    ]
