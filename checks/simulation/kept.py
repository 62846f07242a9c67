"""Whether journals and logs lie on the disk as they must, and whether it was said where not."""

import re
from typing import TYPE_CHECKING

from checks.simulation.air import Mark

if TYPE_CHECKING:
    from checks.simulation.judge import Judge
    from checks.simulation.program import Run

LOST = 70.0  # of a log at most so much is lost at a power cut (s)
ACCEPTED = 1.0  # a run that is ended sooner was looked at and not taken (s)
SOON = 15.0  # so soon it is said that a run was killed (s)
EXCUSES = ("lost", "killed", "signal", "ended", "written", "full", "at once", "answer", "goes on")
LINE = re.compile(rb"\d{1,16} \d{1,7}")
DISK = ("lost", "written", "full", "room", "kept")
TAIL = 8000  # bytes of a log that are looked at


class Kept:
    """Journals and logs."""

    def __init__(self, judge: "Judge") -> None:
        self.judge = judge
        self.world = judge.world
        self.printed: dict[str, float] = {}  # runs whose journals must be kept, by their tokens
        self.killed: dict[str, float] = {}  # runs whose end without a journal must be said
        self.sentences: list[tuple[float, int, str]] = []
        self.marks: dict[int, list[Mark]] = {}
        self.runs: int = 0
        self.cuts: int = 0
        self.calm: set[str] = set()  # runs that ended without a fault near: nothing excuses them

    def ended(self, run: "Run") -> None:
        """A run that served has ended."""
        if not run.served or self.judge.machine.kills is None:
            return
        self.runs += 1
        if run.printed:
            self.printed[run.token] = self.world.now
            if not self.judge.burst():
                self.calm.add(run.token)
        else:
            self.killed[run.token] = self.world.now
            if not self.judge.burst() and self.world.now - run.went_at > ACCEPTED:
                self.judge.found("a run is killed without a fault", str(run))
            frozen = max(0.0, self.judge.trouble_at - self.world.now)
            self.world.at(SOON + frozen, self._was_said, run.token, self.world.now)

    def _was_said(self, token: str, at: float) -> None:
        if self.killed.pop(token, None) is None or self.judge.started_at > at:
            return
        if self.judge.machine.kills is None:
            return
        if not any(at <= when and any(one in text for one in EXCUSES)
                   for when, _, text in self.sentences):
            self.judge.found("nobody says that a run was killed", f"run {token}, at {at:.1f}")

    def said(self, level: int, text: str) -> None:
        self.sentences.append((self.world.now, level, text))
        if len(self.sentences) > 4000:
            del self.sentences[:2000]

    def delivered(self, mark: Mark) -> None:
        marks = self.marks.setdefault(mark.radio, [])
        marks.append(mark)
        if len(marks) > 400:
            del marks[:200]

    def _logged(self) -> dict[int, float]:
        """When the newest pulse was received that the logs have, by radio."""
        newest: dict[int, float] = {}
        for path, inode in self.judge.machine.disk.inodes():
            if "/logs/" not in path or not path.endswith(".log"):
                continue
            for line in bytes(inode.data[-TAIL:]).split(b"\n"):
                width = line.rpartition(b" ")[2]
                mark = self.judge.machine.air.known(int(width)) if width.isdigit() else None
                if mark:
                    newest[mark.radio] = max(newest.get(mark.radio, 0.0), mark.at)
        return newest

    def after_cut(self) -> None:
        """The power was cut: at most 70 s of each log are lost, and journals that were printed in
        the last 70 s."""
        now, judge = self.world.now, self.judge
        self.cuts += 1
        self.printed = {one: at for one, at in self.printed.items() if at < now - LOST}
        self.killed.clear()
        calm_since = max(judge.started_at + LOST, judge.trouble_at + LOST)
        logged = self._logged()
        for radio, marks in self.marks.items():
            must = [one for one in marks if calm_since < one.at < now - LOST]
            if must and logged.get(radio, 0.0) < must[-1].at - 1.0:
                judge.found("a power cut takes more than 70 s of a log",
                            f"radio {radio}: {now - logged.get(radio, 0.0):.0f} s")
        self.marks.clear()
        self.journals("after a power cut")

    def journals(self, when: str) -> None:
        """Each journal that was printed lies on the disk, or a sentence says why not."""
        texts = [bytes(inode.data) for path, inode in self.judge.machine.disk.inodes()
                 if "/journals/" in path and path.endswith(".journal")]
        for token, at in self.printed.items():
            there = f"j2 1 0 0 {token} verdict".encode()
            excused = self.judge.trouble_at > at - LOST \
                or token not in self.calm and self._excused(at)
            if not excused and not any(there in one for one in texts):
                self.judge.found("a journal is missing", f"run {token}, ended at {at:.1f}, {when}")
        for text in texts:
            if not text.endswith(b"status 0\n"):
                self.judge.found("a journal that isn't whole", f"{text[-60:]!r}, {when}")

    def logs(self) -> None:
        """Each log has whole lines alone, but for what a power cut left."""
        for path, inode in self.judge.machine.disk.inodes():
            if "/logs/" in path and path.endswith(".log"):
                self._unmoved(path, bytes(inode.data).split(b"\n"))
            if "/logs/" in path and path.endswith(".log") and not self.cuts:
                *lines, rest = bytes(inode.data).split(b"\n")
                bad = next((one for one in lines if not LINE.fullmatch(one)), rest)
                if bad:
                    self.judge.found("a log has a bad line", f"{bad[:40]!r} in {path}")

    def _unmoved(self, path: str, lines: list[bytes]) -> None:
        """A log has pulses as they were received, whatever is handed on."""
        for line in lines:
            start, _, width = line.partition(b" ")
            mark = self.judge.machine.air.known(int(width)) if width.isdigit() else None
            if mark and LINE.fullmatch(line) and int(start) != mark.start:
                self.judge.found("a log has a pulse that was moved", f"{line!r} in {path}")

    def _excused(self, at: float) -> bool:
        return any(when >= at and level >= 30 and any(one in text for one in DISK)
                   for when, level, text in self.sentences)
