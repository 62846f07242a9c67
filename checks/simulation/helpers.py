"""The reporter."""

from checks.simulation.opened import PipeReader
from checks.simulation.processes import Process


class Reporter(Process):
    """Reads all that it is told. One that hangs reads nothing."""

    def begin(self) -> None:
        self._read(True)

    def _read(self, does: bool) -> None:
        given = self.table.get(0)
        if isinstance(given, PipeReader):
            given.pipe.swallows = does
            if does:
                given.pipe.data.clear()
            given.pipe.listener = self._look

    def _look(self) -> None:
        given = self.table.get(0)
        if isinstance(given, PipeReader) and given.pipe.at_end() and not self.is_held():
            self.end(0)
        if isinstance(given, PipeReader) and not self.is_held():
            given.pipe.data.clear()

    def hang(self) -> None:
        self._read(False)
        self.stopped = True
