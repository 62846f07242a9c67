"""Tests of the simulated host and of its judge, over a supervisor that is as small as can be.

    python3 -m unittest checks.test_simulation
"""

import os
import random
import unittest

from checks.simulation import shorten as short
from checks.simulation.disk import Disk, OpenFile
from checks.simulation.history import History, made, parse
from checks.simulation.host import SimHost
from checks.simulation.machine import STATE, Kind, Machine
from checks.simulation.opened import Fifo, FifoReader, Pipe, pair
from checks.simulation.play import play
from checks.simulation.sockets import COST, ROOM, Server
from checks.simulation.world import World
from keeper.config import Settings
from keeper.supervisor.host import Child, Host

PLAIN = "command 5123 600 60 socket 5"


class Tiny:
    """One receiver, one run, no disk: begun anew where it dies, and not fed with what was."""

    run: Child
    receiver: Child
    source: int
    outlet: int

    def __init__(self, host: SimHost, settings: Settings) -> None:
        self.host, self.settings, self.status = host, settings, 0
        self.ended: list[int] = []

    def begin(self) -> None:
        self.links = self.host.handed_over()
        self.source, theirs = self.host.inlet()
        words = ["/bin/sh", "-c", self.settings.radios[0].value]
        self.receiver = self.host.spawn(words, standard=(-1, theirs, 2))
        self.host.close(theirs)
        self._start()

    def _start(self) -> None:
        host = self.host
        self.outlet, log = host.outlet()
        station, theirs = host.outlet()
        self.end, end = host.pair()
        host.write(station, (
            f"start = 0\n[[radio]]\nlog = \"/dev/fd/{log}\"\n"
            f"delay = {round(self.settings.radios[0].delay * 1e6)}\n"
            f"[[link]]\nport = {self.settings.links[0]}\n").encode())
        host.close(station)
        out = host.open("/run/out", os.O_WRONLY | os.O_CREAT)
        words = [self.settings.program, "serve", "--station", f"/dev/fd/{theirs}"]
        service = f"socket={self.links[0]} end={end}"
        self.run = host.spawn(words, standard=(-1, out, -1), handed=(log, theirs, end, *self.links),
                              environment={"RADIO_NTPD_SERVICE": service}, gentle=True)
        for one in (log, theirs, end, out):
            host.close(one)

    def turn(self) -> bool:
        self.host.wait({self.source} - set(self.ended), 0.025)
        self.host.notify("WATCHDOG=1")
        if 15 in self.host.signals():
            self.host.close(self.end)
            self.host.close(self.outlet)
            for _ in range(20):
                self.host.wait([], 0.025)
            self.host.release(self.run)
            self.host.release(self.receiver)
            self.host.remove("/run/out")
            return False
        if self.host.status(self.run) is not None:
            self.host.release(self.run)
            self.host.close(self.outlet)
            self.host.close(self.end)
            self._start()
        try:
            lines = self.host.read(self.source, 4096) if self.source not in self.ended else b""
            self.host.write(self.outlet, lines)
            self.ended += [] if lines else [self.source]
        except OSError:
            pass
        return True


def rules(text: str, maker=Tiny) -> list[str]:
    """The rules that a supervisor breaks in a history."""
    return sorted({one.rule for one in play(parse(text), maker).findings})


def history(events: str = "", kind: str = PLAIN, ends: int = 500) -> str:
    return f"seed 1 ends {ends} {kind}\n{events}\n"


class Judged(unittest.TestCase):
    """What is wrong with a supervisor that does too little."""

    def broken(self, rule: str, events: str, maker=Tiny, ends: int = 500) -> None:
        self.assertIn(rule, rules(history(events, ends=ends), maker))

    def test_without_a_fault_only_its_journal_is_missing(self) -> None:
        self.assertEqual(rules(history()), ["a journal is missing"])

    def test_a_run_that_dies(self) -> None:
        self.broken("clients aren't told the time", "430 kill-run")

    def test_a_run_that_hangs(self) -> None:
        self.broken("clients aren't answered", "430 stop-run")

    def test_a_sleep(self) -> None:
        self.broken("clients are told a wrong time", "430 sleep 40")

    def test_a_sleep_with_unread_pulses(self) -> None:
        self.broken("a pulse of another counter reaches a run",
                    "430 late 3\n431.5 kill-run\n431.6 sleep 40")

    def test_a_power_cut_without_logs(self) -> None:
        self.broken("a power cut takes more than 70 s of a log", "430 cut")

    def test_a_receiver_that_dies(self) -> None:
        self.broken("a radio isn't received any more", "430 kill-receiver 0", ends=700)

    def test_noise(self) -> None:
        self.broken("a bad line reaches a run", "430 noise-receiver 0")

    def test_a_death_without_a_word(self) -> None:
        self.broken("nobody says that a run was killed", "430 kill-run")

    def test_an_exception(self) -> None:
        class Raises(Tiny):
            def turn(self) -> bool:
                if self.host.monotonic() > 100:
                    raise KeyError("x")
                return super().turn()
        self.broken("an exception leaves the loop", "", Raises)

    def test_a_long_wait_and_a_loop_that_spins(self) -> None:
        class Waits(Tiny):
            def turn(self) -> bool:
                self.host.wait([], 0.3 if self.host.monotonic() < 50 else 0.0)
                return self.host.monotonic() < 50 or bool(super().turn)
        self.assertLessEqual({"the loop waits too long", "the loop spins"},
                             set(rules(history(ends=100), Waits)))

    def test_the_disk_in_the_loop(self) -> None:
        class Writes(Tiny):
            def turn(self) -> bool:
                self.host.make_folder(STATE + "/logs")
                return super().turn()
        self.broken("the loop waits for the disk", "", Writes)

    def test_descriptors(self) -> None:
        class Leaks(Tiny):
            def turn(self) -> bool:
                if self.host.monotonic() < 45:
                    self.host.pair()
                return super().turn()
        self.broken("descriptors are left", "", Leaks)

    def test_starts_without_end(self) -> None:
        class Starts(Tiny):
            def turn(self) -> bool:
                if self.host.monotonic() < 45:
                    self.host.release(self.host.spawn(["x", "reporter"], standard=(-1, -1, 2)))
                return super().turn()
        self.broken("processes are started without end", "", Starts)

    def test_a_descriptor_that_is_not_open(self) -> None:
        class Closes(Tiny):
            def turn(self) -> bool:
                self.host.close(77)
                return super().turn()
        self.broken("what isn't open is closed", "", Closes)

    def test_no_end(self) -> None:
        class Stays(Tiny):
            def turn(self) -> bool:
                self.host.wait([], 0.025)
                self.host.signals()
                return True
        self.broken("it doesn't end", "", Stays)

    def test_an_end_of_its_own(self) -> None:
        class Ends(Tiny):
            def turn(self) -> bool:
                super().turn()
                return self.host.monotonic() < 100
        self.broken("it ended by itself", "", Ends)


class Parts(unittest.TestCase):
    def setUp(self) -> None:
        self.world = World(1)

    def test_a_disk_after_a_power_cut(self) -> None:
        seen = set()
        for seed in range(200):
            disk = Disk(self.world, ("/run",))
            disk.make_folder("/a")
            disk.make_folder("/run")
            inode = disk.create("/a/x")
            file = OpenFile(disk, inode, os.O_WRONLY, "/a/x", True)
            file.write(b"kept")
            inode.sync()
            disk.folders["/a"].sync()
            file.write(b"lost")
            disk.create("/a/y")
            disk.create("/run/z")
            disk.cut(random.Random(seed))
            self.assertIsNone(disk.find("/run/z"))
            seen.add((bytes(inode.data), disk.find("/a/y") is None))
        texts = {text for text, _ in seen}
        self.assertTrue(all(text.startswith(b"kept") for text in texts))
        self.assertIn(b"kept", texts)
        self.assertIn(b"keptlost", texts)
        self.assertIn(b"kept" + bytes(4), texts)
        self.assertEqual({gone for _, gone in seen}, {True, False})

    def test_a_file_that_was_put_in_another_ones_place(self) -> None:
        found = set()
        for seed in range(100):
            disk = Disk(self.world, ())
            disk.make_folder("/a")
            old, new = disk.create("/a/x"), disk.create("/a/x.part")
            disk.folders["/a"].sync()
            disk.folders["/a"].put(0.0, {"x.part": None, "x": new})
            disk.cut(random.Random(seed))
            found.add((disk.find("/a/x") is old, disk.find("/a/x.part") is new))
        self.assertEqual(found, {(True, True), (False, False)})

    def test_a_pipe(self) -> None:
        pipe = Pipe(self.world, 8192)
        with self.assertRaises(BrokenPipeError):
            pipe.writer.write(b"x")
        pipe.reader.take()
        pipe.writer.take()
        self.assertFalse(pipe.reader.readable())
        with self.assertRaises(BlockingIOError):
            pipe.reader.read(9)
        self.assertEqual(pipe.writer.write(bytes(6000)), 6000)
        with self.assertRaises(BlockingIOError):
            pipe.writer.write(bytes(4096))  # up to PIPE_BUF whole or not at all
        self.assertEqual(pipe.writer.write(bytes(5000)), 2192)
        self.assertEqual(len(pipe.reader.read(10000)), 8192)
        pipe.writer.drop()
        self.assertEqual((pipe.reader.readable(), pipe.reader.read(9)), (True, b""))

    def test_a_fifo(self) -> None:
        fifo = Fifo(self.world)
        reader = FifoReader(fifo)
        reader.take()
        self.assertEqual((reader.readable(), reader.read(9)), (False, b""))
        fifo.pipe.writer.take()
        with self.assertRaises(BlockingIOError):
            reader.read(9)
        fifo.pipe.writer.write(b"a")
        fifo.pipe.writer.drop()
        self.assertEqual((reader.readable(), reader.read(9), reader.read(9)), (True, b"a", b""))
        self.assertTrue(reader.readable())

    def test_a_pair(self) -> None:
        ours, theirs = pair(self.world)
        ours.take()
        theirs.take()
        theirs.take()
        self.assertFalse(theirs.readable())
        ours.drop()
        self.assertTrue(theirs.readable())
        theirs.drop()
        self.assertFalse(theirs.is_shut)

    def test_a_sockets_queue(self) -> None:
        server = Server(self.world, 123, 10.0)
        self.world.run_to(10.0)
        server.settle()
        self.assertEqual((server.unread, server.dropped), (100.0, 0.0))
        self.world.run_to(1000.0)
        server.settle()
        self.assertAlmostEqual(server.unread, ROOM / COST)
        self.assertAlmostEqual(server.dropped, 10000 - ROOM / COST)

    def test_clocks(self) -> None:
        world = self.world
        world.run_to(5.0)
        before = world.monotonic(), world.boottime(), world.realtime(), world.epoch
        world.sleep(7.0, True)
        world.sleep(2.0, False)
        after = world.monotonic(), world.boottime(), world.realtime(), world.epoch
        self.assertEqual([b - a for a, b in zip(before, after)], [0.0, 7.0, 9.0, 1])
        self.assertAlmostEqual(world.true() - world.monotonic(), world.offset())
        world.reboot(30.0)
        self.assertEqual((world.monotonic(), world.boottime()), (40.0, 40.0))

    def test_a_refused_call_and_a_fuse(self) -> None:
        machine = Machine(1, Kind())
        host = SimHost(machine)
        machine.refusals.begin("inlet", 24, 1.0, 5.0)
        with self.assertRaises(OSError) as raised:
            host.inlet()
        self.assertEqual(raised.exception.errno, 24)
        self.assertEqual(host.table, {})
        host.fuse, host.blow = 2, host.die
        host.outlet()
        with self.assertRaises(BaseException):
            host.outlet()
        self.assertTrue(host.gone)


class OfTheHost(unittest.TestCase):
    def test_each_public_method_of_the_host_is_simulated(self) -> None:
        names = {name for name, one in vars(Host).items() if callable(one) and name[0] != "_"}
        simulated = {name for one in SimHost.__mro__ if one not in (Host, object)
                     for name in vars(one)}
        self.assertGreater(len(names), 25)
        self.assertEqual(names - simulated, set())


class Histories(unittest.TestCase):
    def test_text(self) -> None:
        for seed in range(20):
            one = made(seed, 1800.0)
            self.assertEqual(parse(one.text()).text(), one.text())
            self.assertEqual(made(seed, 1800.0).text(), one.text())
        with self.assertRaises(ValueError):
            parse("seed x")

    def test_the_same_history_twice(self) -> None:
        one = history("430 kill-run\n431 noise-receiver 0\n440 kill")
        first, second = play(parse(one), Tiny), play(parse(one), Tiny)
        self.assertEqual(first.findings, second.findings)
        self.assertEqual(first.turns, second.turns)

    def test_shorter(self) -> None:
        one = made(3, 1800.0)
        needed = {one.events[2], one.events[-1]}
        found = short.shorten(one, lambda tried: needed <= set(tried.events))
        self.assertEqual(set(found.events), needed)

    def test_events_are_of_the_history(self) -> None:
        one: History = made(5, 1800.0)
        self.assertGreater(len(one.events), 5)
        self.assertTrue(all(a.at <= b.at for a, b in zip(one.events, one.events[1:])))


if __name__ == "__main__":
    unittest.main()
