"""All that the supervisor asks of the outside goes through `Host`. checks/simulation has one that
overrides each public method, and drives `Supervisor.turn` in virtual time. Both keep these rules:

- Only `wait` lets time pass on purpose. All else answers at once, but for the files' calls, which a
  slow disk may hold up: the supervisor's loop makes none of them but on the runtime folder (RAM),
  on sources, and before it serves. Jobs that are given to `aside` make those on the state folder.
- A call that the host refuses raises OSError with its `errno`. BlockingIOError says that there is
  nothing to read or no room now. EINTR is never seen. Nothing else is raised.
- Our descriptors never wait, and no child has them but those that it is handed.
- Spans and moments are seconds; a pulse's start is in microseconds of `monotonic`.
"""

import array
import contextlib
import fcntl
import logging
import os
import queue
import select
import signal
import socket
import struct
import subprocess
import sys
import termios
import threading
import time
from collections.abc import Callable, Iterable, Iterator, Mapping, Sequence
from concurrent.futures import Future
from typing import TypeVar

from keeper import config
from keeper.errors import Fault

Result = TypeVar("Result")
ROOM = 1 << 20  # bytes that a pipe to a child holds where the host lets it
RTC = "/sys/class/rtc/rtc0/since_epoch"
SO_MEMINFO = 55  # nine numbers: the first is what waits, the last what was dropped
FIRST_HANDED = 3  # sd_listen_fds(3)
PREFIXES = {logging.ERROR: "<3>", logging.WARNING: "<4>", logging.INFO: "<6>"}
# A shell that ends its group once the pipe at $1 has an end, since we have died; beside it the
# program goes on in its place. $2 is what it is sent at first (0: nothing), $3 for how many seconds
# it may then end by itself.
LAUNCH = """life=$1 first=$2 rest=$3; shift 3
(trap "" TERM; read -r x; kill -"$first" 0; sleep "$rest"; kill -9 0) \\
    < "/dev/fd/$life" > /dev/null 2>&1 &
exec "$@\""""

Task = Future[None]  # a job that was given to `aside`
Child = int  # a process that was started: the leader of a session and group of its own


class Host:
    """The host itself, one for a process. `watchdog` is how often systemd wants to receive
    WATCHDOG=1 (s), half of its limit; None where it doesn't."""

    watchdog: float | None = None

    def __init__(self) -> None:
        self.children: dict[int, subprocess.Popen[bytes]] = {}
        self.released: list[subprocess.Popen[bytes]] = []
        self.came: list[int] = []  # signals
        self.has_terminal = os.isatty(2)
        self.life, self.alive = os.pipe2(os.O_CLOEXEC)  # `life` has an end once we have died
        signal.signal(signal.SIGCHLD, signal.SIG_DFL)  # else nobody knows how a child ended
        self.jobs: queue.SimpleQueue[tuple[Task, Callable[[], None]]] = queue.SimpleQueue()
        threading.Thread(target=self._work, daemon=True).start()
        name = os.environ.pop("NOTIFY_SOCKET", "")  # no child speaks for us
        self.notified = "\0" + name[1:] if name.startswith("@") else name
        limit, owner = os.environ.pop("WATCHDOG_USEC", ""), os.environ.pop("WATCHDOG_PID", "")
        if limit.isdecimal() and int(limit) > 0 and owner in ("", str(os.getpid())):
            self.watchdog = int(limit) / 2e6

    # Clocks

    def monotonic(self) -> float:
        """CLOCK_MONOTONIC: stands still while the host sleeps, and no setting moves it. Programs
        and pulse logs count by it."""
        return time.monotonic()

    def boottime(self) -> float:
        """CLOCK_BOOTTIME: the same, but it goes on in a sleep."""
        return time.clock_gettime(time.CLOCK_BOOTTIME)

    def realtime(self) -> float:
        """CLOCK_REALTIME: Unix seconds. It may be set, to and fro."""
        return time.time()

    def rtc(self) -> int | None:
        """The whole seconds of the real-time clock, which goes on while the host stands still. None
        where there is none that can be read."""
        try:
            with open(RTC, encoding="ascii") as file:
                return int(file.read())
        except (OSError, ValueError):
            return None

    def boot(self) -> str:
        with open("/proc/sys/kernel/random/boot_id", encoding="ascii") as file:
            return file.read().strip()

    # Waiting

    def wait(self, readers: Iterable[int], seconds: float) -> set[int]:
        """Those that can be read, once one can or the seconds have passed."""
        poll = select.poll()
        for one in readers:
            poll.register(one, select.POLLIN)
        return {one for one, _ in poll.poll(max(0.0, seconds) * 1000)}

    def signals(self) -> list[int]:
        """The signals of `take_signals` that came since the last call, in their order. A terminal
        that closes asks for the end."""
        came, self.came = self.came, []
        is_closed = self.has_terminal and not os.isatty(2)
        return [signal.SIGTERM if is_closed and one == signal.SIGHUP else one for one in came]

    def aside(self, job: Callable[[], None]) -> Task:
        """Has another thread do a job, after those that were given before. It shares nothing with
        the loop that changes."""
        task: Task = Future()
        self.jobs.put((task, job))
        return task

    def _work(self) -> None:
        while True:
            do(*self.jobs.get())

    def settings(self, path: str) -> Future[config.Settings]:
        """Has a thread of its own read both files, and ask the program about them. The task has a
        Fault where they are refused, or can't be judged."""
        task: Future[config.Settings] = Future()
        try:
            threading.Thread(target=do, args=(task, lambda: judged(path)), daemon=True).start()
        except RuntimeError as error:
            task.set_exception(Fault(f"the files can't be judged: {error}"))
        return task

    # Processes. None outlives us: where we die, whatever the way, each is sent SIGTERM (one that is
    # `gentle` nothing: it ends by itself) and a second later SIGKILL, with all of its group.

    def spawn(self, words: Sequence[str], *, standard: tuple[int, int, int],
              handed: Sequence[int] = (), environment: Mapping[str, str] | None = None,
              gentle: bool = False) -> Child:
        """Starts a program. `standard` are its standard input, output and error: descriptors of
        ours, -1 for none (/dev/null), 2 for our own standard error. It has those of `handed` under
        the same numbers. `environment` is added to ours."""
        if "/" in words[0] and not os.access(words[0], os.X_OK):
            os.stat(words[0])  # or it isn't there
            raise PermissionError(13, "Permission denied", words[0])
        first, rest = ("0", "2") if gentle else ("TERM", "1")
        given, out, errors = (subprocess.DEVNULL if one < 0 else one for one in standard)
        process = subprocess.Popen(
            ["/bin/sh", "-c", LAUNCH, "sh", str(self.life), first, rest, *words],
            stdin=given, stdout=out, stderr=errors, pass_fds=(*handed, self.life),
            env={**os.environ, **(environment or {})}, start_new_session=True)
        self.children[process.pid] = process
        return process.pid

    def status(self, child: Child) -> int | None:
        """Its exit status, the signal's number with a minus sign, or None while it lives."""
        # It isn't taken from the host yet, so that its number stays its own for `kill`.
        how = os.WEXITED | os.WNOHANG | os.WNOWAIT
        found: os.waitid_result | None = os.waitid(os.P_PID, child, how)
        if found is None:
            return None
        return found.si_status if found.si_code == os.CLD_EXITED else -found.si_status

    def kill(self, child: Child, number: int) -> None:
        """Sends a signal to the whole group of a child that wasn't released. Nothing is refused."""
        with contextlib.suppress(ProcessLookupError, PermissionError):
            os.killpg(child, number)

    def release(self, child: Child) -> None:
        """The last call: kills what is left of its group, and takes its status from the host."""
        self.kill(child, signal.SIGKILL)
        # One that isn't gone yet, as where it waits for a disk, is collected at a later call.
        self.released = [one for one in (*self.released, self.children.pop(child))
                         if one.poll() is None]

    # Descriptors and pipes

    def outlet(self) -> tuple[int, int]:
        """A pipe to a child: our end for writing, its end for reading."""
        theirs, ours = os.pipe2(os.O_CLOEXEC)
        with contextlib.suppress(OSError):  # the host's own bound is lower
            fcntl.fcntl(ours, fcntl.F_SETPIPE_SZ, ROOM)
        os.set_blocking(ours, False)
        return ours, theirs

    def inlet(self) -> tuple[int, int]:
        """A pipe from a child: our end for reading, its end for writing."""
        ours, theirs = os.pipe2(os.O_CLOEXEC)
        os.set_blocking(ours, False)
        return ours, theirs

    def pair(self) -> tuple[int, int]:
        """A stream socket's ends: ours, and a child's, which has an end once ours is closed."""
        ours, theirs = socket.socketpair()
        return ours.detach(), theirs.detach()

    def read(self, descriptor: int, most: int) -> bytes:
        """What there is, b"" for the end. Of a `client` one datagram; ECONNREFUSED where nobody has
        the port."""
        return os.read(descriptor, most)

    def write(self, descriptor: int, data: bytes) -> int:
        """How many bytes were taken. A pipe takes up to 4096 bytes whole or not at all; a file may
        take less than all."""
        return os.write(descriptor, data)

    def unread(self, descriptor: int) -> int:
        """How many bytes of an `outlet` its reader hasn't read yet."""
        return int(struct.unpack("i", fcntl.ioctl(descriptor, termios.FIONREAD, bytes(4)))[0])

    def close(self, descriptor: int) -> None:
        """Gives it back; -1 is none. Nothing is refused."""
        if descriptor >= 0:
            with contextlib.suppress(OSError):
                os.close(descriptor)

    # UDP over IPv4

    def handed_over(self) -> list[int]:
        """The sockets that systemd hands over (LISTEN_FDS), once; none that isn't UDP over IPv4."""
        names = ("LISTEN_PID", "LISTEN_FDS", "LISTEN_FDNAMES")
        owner, count, _ = (os.environ.pop(name, "") for name in names)
        if owner != str(os.getpid()) or not count.isdecimal():
            return []
        numbers = range(FIRST_HANDED, FIRST_HANDED + int(count))
        for one in numbers:
            os.set_inheritable(one, False)
        return [one for one in numbers if _is_udp(one)]

    def bind(self, address: str, port: int) -> int:
        """A socket bound to an address and a port, 0 for any that is free."""
        with socket.socket(socket.AF_INET, socket.SOCK_DGRAM) as link:
            link.bind((address, port))
            return link.detach()

    def port_of(self, descriptor: int) -> int:
        with borrowed(descriptor) as link:
            return int(link.getsockname()[1])

    def client(self, own: str, port: int) -> int:
        """A socket that asks a port of this host from an address of the loopback: `write` sends,
        `read` receives."""
        with socket.socket(socket.AF_INET, socket.SOCK_DGRAM | socket.SOCK_NONBLOCK) as link:
            link.bind((own, 0))
            link.connect(("127.0.0.1", port))
            return link.detach()

    def queue(self, descriptor: int) -> tuple[int, int]:
        """What waits in a socket (bytes, with the host's own overhead), and how many datagrams
        found no room since it was made."""
        with borrowed(descriptor) as link:
            numbers = array.array("I", link.getsockopt(socket.SOL_SOCKET, SO_MEMINFO, 36))
        # QEMU's user emulation gives fewer numbers, and then none is known to be dropped.
        return numbers[0], numbers[8] if len(numbers) > 8 else 0

    # Files, as `os` has them. What was written is on the disk after `sync` of its descriptor, and
    # its name after `sync` of its folder.

    def open(self, path: str, flags: int, mode: int = 0o640) -> int:
        """Never waits for a FIFO's other end."""
        return os.open(path, flags | os.O_CLOEXEC | os.O_NONBLOCK, mode)

    def read_at(self, descriptor: int, most: int, place: int) -> bytes:
        return os.pread(descriptor, most, place)

    def truncate(self, descriptor: int, size: int) -> None:
        os.ftruncate(descriptor, size)

    def sync(self, what: int | str) -> None:
        """Returns when a file's content, or the names in a folder, are on the disk."""
        descriptor = what if isinstance(what, int) else os.open(what, os.O_DIRECTORY | os.O_CLOEXEC)
        try:
            os.fsync(descriptor)
        finally:
            if descriptor != what:
                os.close(descriptor)

    def lock(self, descriptor: int) -> None:
        """Takes a file's lock for as long as this descriptor is open. BlockingIOError where another
        process has it."""
        fcntl.flock(descriptor, fcntl.LOCK_EX | fcntl.LOCK_NB)

    def stat(self, what: int | str) -> os.stat_result:
        return os.stat(what)

    def names(self, folder: str) -> list[str]:
        return sorted(os.listdir(folder))

    def rename(self, old: str, new: str) -> None:
        os.replace(old, new)

    def remove(self, path: str) -> None:
        os.unlink(path)

    def make_folder(self, path: str) -> None:
        os.makedirs(path, exist_ok=True)

    # systemd

    def notify(self, text: str) -> None:
        """A message of sd_notify(3) for systemd; nothing where systemd didn't start us."""
        if self.notified:
            with contextlib.suppress(OSError):  # systemd ends us if it receives nothing for long
                with socket.socket(socket.AF_UNIX, socket.SOCK_DGRAM) as out:
                    out.setblocking(False)
                    out.sendto(text.encode(), self.notified)


@contextlib.contextmanager
def borrowed(descriptor: int) -> Iterator[socket.socket]:
    """A socket that stays open afterwards. Raises OSError where it is none."""
    link = socket.socket(fileno=descriptor)
    try:
        yield link
    finally:
        link.detach()


def _is_udp(descriptor: int) -> bool:
    try:
        with borrowed(descriptor) as link:
            return link.family == socket.AF_INET and link.type == socket.SOCK_DGRAM
    except OSError:
        return False


def judged(path: str) -> config.Settings:
    """The settings of both files. Raises Fault where they are refused."""
    settings = config.load(path)
    config.judge(settings)
    return settings


def do(task: Future[Result], job: Callable[[], Result]) -> None:
    """Does a job for the loop, which is told whatever it raises."""
    try:
        task.set_result(job())
    except BaseException as fault:
        task.set_exception(fault)


def take_signals(host: Host) -> None:
    """From now on SIGTERM, SIGINT and SIGHUP are for `signals`."""
    for number in (signal.SIGTERM, signal.SIGINT, signal.SIGHUP):
        signal.signal(number, lambda came, _: host.came.append(came))


class Sentences(logging.Handler):
    """Each record is a sentence for the operator, on standard error: with its level where systemd
    takes it, else with the time of day. It is left out where standard error takes nothing now: a
    pipe whose reader stands still would hold the loop up."""

    def emit(self, record: logging.LogRecord) -> None:
        begin = time.strftime("%H:%M:%S ", time.gmtime())
        if "JOURNAL_STREAM" in os.environ:
            begin = PREFIXES.get(record.levelno, "")
        with contextlib.suppress(OSError, ValueError):  # nobody reads it
            if select.select([], [sys.stderr], [], 0)[1]:
                sys.stderr.write(f"{begin}{self.format(record)}\n")
                sys.stderr.flush()


def say() -> None:
    logging.basicConfig(level=logging.INFO, format="%(message)s", handlers=[Sentences()])
