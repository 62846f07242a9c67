"""What the checks of the keeper see in its journals and logs, by the program's own commands."""

import pathlib
import subprocess

from lab.kept import PLANS, Kept, Wrong
from lab.program import TOP, program


def due(holds: bool, what: str) -> int:
    if not holds:
        raise Wrong(what)
    return 1


def whole(journal: pathlib.Path) -> int:
    """`migrate` takes a journal whole, by the station that the run had."""
    text = journal.read_text()
    looked = due(text.endswith("\nstatus 0\n"), f"{journal} ends with {text[-60:]!r}")
    lines = [line for line in text.splitlines(True) if line.startswith("j2 ")]
    page = [line for line in text.splitlines(True) if line.startswith("page ")]
    bare = journal.with_suffix(".bare")
    bare.write_text("".join(lines))
    station = journal.parent.parent.parent / "station.toml"
    words = [program(), "migrate", "--station", str(station), "--journal", str(bare)]
    done = subprocess.run(words, stdout=subprocess.PIPE, timeout=20)
    looked += due(done.stdout.decode() == "".join([*lines, *page, "status 0\n"]), f"migrate says something else of {journal}")
    return looked + due(journal.with_suffix(".own").exists(), f"no counts stand beside {journal}")


def as_decoded(kept: Kept) -> int:
    """Minute by minute, the last journal has what `decode` says of the logs that are kept."""
    return sum(minutes(kept, feed, plan, log_of(kept, feed, plan)) for feed, plan in enumerate(PLANS))


def as_steadied(kept: Kept, feed: int, plan: str) -> int:
    """The same of a radio that was steadied since the keeper began: the log has its pulses as they came."""
    log = log_of(kept, feed, plan)
    steadied = kept.folder / "steadied.log"
    with open(log, "rb") as pulses, open(steadied, "wb") as out:
        subprocess.run([TOP / "feeders/steady.py"], stdin=pulses, stdout=out, timeout=60, check=True)
    looked = due(steadied.read_bytes() != log.read_bytes(), f"the log of {plan} doesn't have its pulses as they came")
    return looked + minutes(kept, feed, plan, steadied)


def log_of(kept: Kept, feed: int, plan: str) -> pathlib.Path:
    return next((kept.folder / "state/logs").glob(f"{feed}-{plan}.*.log"))


def minutes(kept: Kept, feed: int, plan: str, log: pathlib.Path) -> int:
    """The minutes of a feed in the last journal, against `decode` of a log."""
    journal = kept.journals()[-1].read_text().splitlines()
    done = subprocess.run([program(), "decode", "--plan", plan, "--log", log], stdout=subprocess.PIPE, timeout=20)
    decoded = [line.split()[1:] for line in done.stdout.decode().splitlines() if line.startswith("0 ")]
    told = [line.split()[4:] for line in journal if line.startswith("j2 ") and line.split()[3] == str(feed)]
    looked = due(len(told) >= 10, f"the last journal has {len(told)} minutes of {plan}")
    # While a run is ended the log goes on: it may have minutes that closed after the run's last.
    later = sum(int(row[0]) > int(told[-1][0]) for row in decoded)
    looked += due(later <= 2, f"the last journal lacks {later} minutes of {plan}")
    # The first minute of a run is alone; the ones before it are those that the run wasn't given.
    same = decoded[len(decoded) - later - len(told) + 1 : len(decoded) - later]
    return looked + due(same == told[1:], f"the minutes of {plan} aren't those that decode writes: {same[:2]} .. {told[1:3]}")
