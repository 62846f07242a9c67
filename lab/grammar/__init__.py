"""What the program may write, and where its files are bad: a reader of its own, from docs/FORMATS.md alone. It shares no code with the
program. The checks that spoil files judge by it, and the model reads its lines by it.

`forms` has numbers, entries and page lines; `radio_logs` a radio's log and what `decode` writes of it; `journals` what `migrate` writes;
`scripts` scripts and what `replay` writes; `stations` the first fault of a station.
"""

from .forms import LEAP, SERVER, Entry, Wrong, cut, first_bad, need, numbered, page_of_none
from .journals import judge_migrate
from .radio_logs import bad_line_of_log, judge_decode
from .scripts import Script, judge_replay
from .stations import TABLES, TOP, filled, judge_station, station_fault

__all__ = [
    "LEAP",
    "SERVER",
    "TABLES",
    "TOP",
    "Entry",
    "Script",
    "Wrong",
    "bad_line_of_log",
    "cut",
    "filled",
    "first_bad",
    "judge_decode",
    "judge_migrate",
    "judge_replay",
    "judge_station",
    "need",
    "numbered",
    "page_of_none",
    "station_fault",
]
