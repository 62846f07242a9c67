"""The lines of a receiver's log: form, unit and clock, from the example's log."""

import unittest

from keeper.log_lines import Look, judge_log, look, unit_of
from keeper.receiver import Level
from keeper.tests.test_receiver import Pairs, log, pieces

UNIX = 1.7e9


def looked_at(marks: Pairs, lines: list[bytes], seconds: float = 10) -> Look:
    """What lines look like, each of which comes at the moment at which its mark ends."""
    given = [(start + width, line) for line, (start, width) in zip(lines, marks)]
    return look(given, seconds, marks[-1][0] / 1e6 + 1, UNIX)


def scaled(marks: Pairs, scale: float = 1.0) -> Look:
    return looked_at(marks, [b"%d %d\n" % (start * scale, width * scale) for start, width in marks])


class Looks(unittest.TestCase):
    def test_units(self) -> None:
        for scale, unit in ((1e-6, "seconds"), (1e-3, "milliseconds"), (1.0, "microseconds"),
                            (1e3, "nanoseconds")):
            for clock, monotonic, unix in (("monotonic", 86400.0, UNIX),
                                           ("real-time", UNIX, 86400.0)):
                self.assertEqual(unit_of(int(86400e6 * scale), monotonic, unix), (unit, clock))
        self.assertEqual(unit_of(3600 * 10**6, 86400.0, UNIX), ("", ""))

    def test_milliseconds_are_scaled_before_they_are_judged(self) -> None:
        for piece in pieces(log("dcf77")):
            found = scaled(piece, 1e-3)
            self.assertEqual((found.unit, found.marks.inverted), ("milliseconds", False))
            self.assertIn("dcf", found.marks.plans)

    def test_edges_and_nothing(self) -> None:
        text = (b"12.5\trising\tgpiochip0 17\nevent:  RISING EDGE offset: 17 timestamp: [ 12.5]\n"
                b"Error: busy\n\nhalf")
        found = look([(0, text[:30]), (5, text[30:])], 10, 20.0, UNIX)
        self.assertEqual((found.lines, found.edges, found.bad), (4, 2, 4))
        self.assertEqual(found.marks.widths, [])
        self.assertEqual(found.last_bad, "'': it isn't a start and a width")
        found = look([(0, b"\0" * 20_000)], 10, 20.0, UNIX)
        self.assertEqual((found.lines, found.bad, found.last_bad),
                         (1, 1, repr("\0" * 32) + ": it is too long"))
        found = look([(0, b"half")], 10, 20.0, UNIX)
        self.assertEqual((found.lines, found.bad, found.last_bad), (1, 1, "'half': it was cut off"))
        self.assertEqual(look([], 10, 20.0, UNIX), Look())

    def test_history_is_left_out(self) -> None:
        self.assertAlmostEqual(scaled(log("dcf77")).marks.rate, 1.0, delta=0.11)


class Sentences(unittest.TestCase):
    def test_where_there_are_no_marks(self) -> None:
        for found, said in (
            (Look(), "nothing was received: no carrier, no power, another line, or no right to it"),
            (Look(lines=4, edges=4),
             "its lines are edges: put `| feeders/edges_to_log.py` after the command"),
            (Look(lines=2, bad=2, last_bad="'x': y"),
             "2 lines were no start and width; the last: 'x': y"),
        ):
            self.assertEqual(judge_log(found, "dcf"), [(Level.BAD, said)])

    def test_lines(self) -> None:
        """Of each one what is meant, as a person would have to know it."""
        marks = log("dcf77")[20:31]
        start, width = marks[-1]
        cases: tuple[tuple, ...] = (
            (b"%d %d\r\n", 0, 1,
             "11 of 11 lines are bad, and the keeper leaves them out; the last: "
             f"'{start} {width}\\r': it isn't a start and a width"),
            (b"%d\t%d\n", 0, 1, f"11 lines were no start and width; the last: '{start}\\t{width}': "),
            (b"\xef\xbb\xbf%d %d\n", 0, 1, f"; the last: '\\\\xef\\\\xbb\\\\xbf{start} {width}': it isn't"),
            (b"0%d %d\n", 0, 1, "11 of 11 lines are bad, and the keeper leaves them out; the last: "
             f"'0{start} {width}': it isn't a start and a width"),
            (b"%d %d\n", 0, 0, "its widths are 0: a mark has 1 to 2000000 microseconds"),
            (b"%d %d\n", 0, 1e-3, "too short by some 100 ms for DCF77"),
            (b"%d %d\n", "ms", 1, "its starts are milliseconds: a log has microseconds"),
            (b"%d %d\n", UNIX, 1, "its starts are microseconds of the real-time clock: a log has "
             "microseconds of the monotonic clock"),
            (b"%d %d\n", 5e9, 1, "its starts are of no clock of this host: a log has microseconds"),
        )
        for form, ahead, times, words in cases:
            with self.subTest(words=words):
                lines = [form % (start // 1000 if ahead == "ms" else start + int(ahead * 1e6),
                                 width * times) for start, width in marks]
                found = judge_log(looked_at(marks, lines), "dcf")
                self.assertIn(Level.BAD, [level for level, _ in found])
                self.assertIn(words, " ".join(text for _, text in found))

    def test_marks_of_lines_that_are_good(self) -> None:
        for marks, level, words in (
                (log("dcf77")[20:30], Level.WELL, "marks of DCF77"),
                (log("dcf77")[20:23], Level.NOTE, "too few to say more")):
            (found,) = judge_log(scaled(marks), "dcf")
            self.assertEqual(found[0], level)
            self.assertIn(words, found[1])

    def test_a_line_that_is_cut_off(self) -> None:
        """A FIFO is opened in the middle of a line; where each third line is bad something is
        wrong."""
        marks = [(one * 1_000_000, 200_000 if one % 3 else 100_000) for one in range(20, 30)]
        for bad, count, level in ((1, 10, Level.NOTE), (3, 10, Level.BAD), (1, 5, Level.NOTE)):
            lines = [b"%d 0\n" % start if place < bad else b"%d %d\n" % (start, width)
                     for place, (start, width) in enumerate(marks[:count])]
            found = judge_log(looked_at(marks[:count], lines), "dcf")
            self.assertEqual(found[0], (level, f"{bad} of {count} lines are bad, and the keeper "
                                        f"leaves them out; the last: '{20 + bad - 1}000000 0': it "
                                        "isn't a start and a width"))


if __name__ == "__main__":
    unittest.main()
