"""Two clocks that are read one after the other, by a host that interrupts us between them."""

import unittest

from keeper.supervisor.clocks import Pause, slept
from keeper.supervisor.host import Host


class Interrupted(Host):
    """It has slept for 100 s, and interrupts us in all but one pair of readings."""

    def __init__(self, calm: int) -> None:
        self.calm, self.looks = calm, 0

    def boottime(self) -> float:
        return 600.0

    def monotonic(self) -> float:
        self.looks += 1
        return 500.0 + (0.0 if self.looks - 1 == self.calm else 0.5)


class Clocks(unittest.TestCase):
    def test_a_reading_that_was_not_interrupted_counts(self) -> None:
        for calm in range(5):
            self.assertEqual(slept(Interrupted(calm)), 100.0)

    def test_a_pause_doubles_up_to_its_greatest_and_begins_anew(self) -> None:
        pause = Pause(1.0, 5.0)
        self.assertEqual([pause.begin(100.0) for _ in range(5)], [1.0, 2.0, 4.0, 5.0, 5.0])
        self.assertEqual(pause.until, 105.0)
        pause.reset()
        self.assertEqual((pause.until, pause.begin(200.0)), (0.0, 1.0))


if __name__ == "__main__":
    unittest.main()
