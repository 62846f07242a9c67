"""A machine in QEMU: begun, paused, woken, cut off, given commands. Its files are in a folder. It has no network."""

import json
import os
import socket
import subprocess
import time
from collections.abc import Sequence
from pathlib import Path
from typing import Any, Protocol

from checks.machine.image import Image
from lab.held import Wrong

PORTS = ("line", "ntp", "shell")
BOOT = 600.0  # a machine that takes no command after so long isn't coming up, in seconds
MEMORY = "1024"
EMULATED = "1"  # processors; threads of one real-time priority on one of the host's take turns of 100 ms, which no edge outlives
KERNEL = "root=/dev/vda rw console=ttyS0 quiet mitigations=off tsc=reliable clocksource=tsc"


def accelerated() -> bool:
    """Whether KVM runs unmodified kernels here."""
    own = any(Path("/sys/module", name).exists() for name in ("kvm_intel", "kvm_amd"))
    return own and os.access("/dev/kvm", os.R_OK | os.W_OK)


class Fitting(Protocol):
    """What a machine has beside what all have."""

    def words(self) -> list[str]:
        """QEMU's arguments."""

    def environment(self) -> dict[str, str]:
        """What QEMU has in its environment."""


def words(image: Image, folder: Path, drives: Sequence[Path] = (), fittings: Sequence[Fitting] = ()) -> list[str]:
    """QEMU's arguments: one disk, files that the machine reads as /dev/vdb and on, three ports, a console, a monitor, fittings. It has the
    processor before all that has no such priority: an edge that comes late costs a minute.
    """
    found = ["setpriv", "--pdeathsig", "KILL", "chrt", "-r", "1", "qemu-system-x86_64", "-nodefaults", "-no-user-config", "-machine", "pc"]
    found += ["-m", MEMORY, "-smp", "2" if accelerated() else EMULATED, "-rtc", "base=utc,clock=host", "-global", "PIIX4_PM.disable_s3=0"]
    found += ["-display", "none", "-nic", "none"]
    found += ["-accel", "kvm", "-cpu", "host"] if accelerated() else ["-accel", "tcg,thread=multi,tb-size=512", "-cpu", "max"]
    found += ["-kernel", str(image.kernel), "-initrd", str(image.initrd), "-append", KERNEL]
    found += ["-drive", f"file={image.disk},if=virtio,format=qcow2", "-device", "virtio-rng-pci"]
    for drive in drives:
        found += ["-drive", f"file={drive},if=virtio,format=raw,readonly=on"]
    found += ["-serial", f"file:{folder}/console", "-device", "virtio-serial", "-qmp", f"unix:{folder}/qmp,server=on,wait=off"]
    for port in PORTS:
        found += ["-chardev", f"socket,id={port},path={folder}/{port},server=on,wait=off"]
        found += ["-device", f"virtserialport,chardev={port},name={port}"]
    return found + [word for one in fittings for word in one.words()]


def connected(path: Path, within: float) -> socket.socket:
    """A stream to one of QEMU's sockets. Raises Wrong where there is none in this time (s)."""
    end = time.monotonic() + within
    while True:
        one = socket.socket(socket.AF_UNIX)
        try:
            one.connect(str(path))
            return one
        except OSError as error:
            one.close()
            if time.monotonic() > end:
                raise Wrong(f"QEMU has no {path.name}: {error}") from error
            time.sleep(0.1)


class Stream:
    """Lines of JSON to and from QEMU or the machine."""

    def __init__(self, path: Path) -> None:
        self.socket, self.held = connected(path, 20), b""

    def send(self, told: dict[str, object]) -> None:
        """Sends a line."""
        self.socket.settimeout(20)
        self.socket.sendall(json.dumps(told).encode() + b"\n")

    def next(self, end: float) -> dict[str, Any] | None:
        """The next line until this moment (monotonic s); None where there is none. Raises Wrong where QEMU has ended."""
        while b"\n" not in self.held:
            left = end - time.monotonic()
            if left <= 0:
                return None
            self.socket.settimeout(left)
            try:
                got = self.socket.recv(65536)
            except TimeoutError:
                return None
            if not got:
                raise Wrong("QEMU has ended")
            self.held += got
        line, self.held = self.held.split(b"\n", 1)
        try:
            told = json.loads(line)
        except ValueError:
            return {}  # the rest of what was meant for a listener before
        return told if isinstance(told, dict) else {}


class Machine:
    """One machine. `start` boots it, `cut` takes its power away. `booted` is when it was started last (monotonic s)."""

    def __init__(self, image: Image, folder: Path, drives: Sequence[Path] = (), fittings: Sequence[Fitting] = ()) -> None:
        self.image, self.folder, self.drives, self.number, self.booted = image, folder, drives, 0, 0.0
        self.fittings = fittings
        self.process: subprocess.Popen[bytes] | None = None
        self.qmp: Stream | None = None
        self.agent: Stream | None = None

    def start(self) -> float:
        """Boots it. Returns how long it took until it takes commands (s). Raises Wrong."""
        self.booted = time.monotonic()
        for name in (*PORTS, "qmp"):
            (self.folder / name).unlink(missing_ok=True)
        with open(self.folder / "qemu", "ab") as said:
            line, env = words(self.image, self.folder, self.drives, self.fittings), dict(os.environ)
            for one in self.fittings:
                env |= one.environment()
            self.process = subprocess.Popen(line, env=env, stdout=said, stderr=said, stdin=subprocess.DEVNULL)
        self.qmp = Stream(self.folder / "qmp")
        self.qmp.next(time.monotonic() + 20)
        self.agent = Stream(self.folder / "shell")
        self.tell("qmp_capabilities")
        self.answers(BOOT)
        return time.monotonic() - self.booted

    def answers(self, within: float) -> None:
        """Waits until it takes commands, at most so long (s). Raises Wrong."""
        end = time.monotonic() + within
        while self.ask("", 10) is None:
            if time.monotonic() > end:
                raise Wrong(f"the machine takes no command after {within:.0f} s. {self.starving()} {self.console()}")

    def starving(self) -> str:
        """How much of the time in which it wanted a processor it had none, as a sentence."""
        ran = waited = 0
        for path in Path(f"/proc/{self.process.pid if self.process else 0}/task").glob("*/schedstat"):
            one = path.read_text().split()
            ran, waited = ran + int(one[0]), waited + int(one[1])
        share = waited / (ran + waited) if ran + waited else 0.0
        return f"It had no processor for {share:.1%} of the time that it wanted one."

    def console(self) -> str:
        """The last lines of its console."""
        path = self.folder / "console"
        text = path.read_bytes().decode(errors="replace") if path.exists() else ""
        return " / ".join(text.splitlines()[-3:])

    def tell(self, command: str, **arguments: object) -> Any:
        """A command of QEMU's monitor, and what it returns. Raises Wrong."""
        if self.qmp is None:
            raise Wrong("the machine doesn't run")
        self.qmp.send({"execute": command, "arguments": arguments})
        end = time.monotonic() + 20
        while (told := self.qmp.next(end)) is not None:
            if "return" in told:
                return told["return"]
            if "error" in told:
                raise Wrong(f"{command}: {told['error'].get('desc')}")
        raise Wrong(f"QEMU doesn't answer {command}")

    def ask(self, command: str, limit: float) -> dict[str, Any] | None:
        """What the agent answers to a shell's command; None where no answer came in its limit (s)."""
        if self.agent is None:
            raise Wrong("the machine doesn't run")
        self.number += 1
        self.agent.send({"number": self.number, "command": command, "limit": limit})
        end = time.monotonic() + limit
        while (told := self.agent.next(end)) is not None:
            if told.get("number") == self.number:
                return told
        return None

    def shell(self, command: str, limit: float = 60) -> tuple[int, str]:
        """Status and text of a shell's command. Raises Wrong where no answer came."""
        told = self.ask(command, limit)
        if told is None:
            raise Wrong(f"no answer in {limit:.0f} s to: {command[:80]}")
        return told["status"], told["text"]

    def must(self, command: str, limit: float = 60) -> str:
        """What a command writes. Raises Wrong where it fails."""
        status, text = self.shell(command, limit)
        if status:
            raise Wrong(f"'{command[:80]}' ended with {status}: {text[-300:]}")
        return text

    def ahead(self) -> float:
        """What its monotonic clock is ahead of the one outside (s), by the quickest of ten questions. Raises Wrong."""
        best = (9.0, 0.0)
        for _ in range(10):
            before = time.monotonic()
            told = self.ask("", 10)
            after = time.monotonic()
            if told is not None:
                best = min(best, (after - before, told["monotonic"] - (before + after) / 2))
        if best[0] > 1:
            raise Wrong(f"the machine takes {best[0]:.1f} s to say its clock")
        return best[1]

    def put(self, path: str, text: str) -> None:
        """Writes a file there."""
        self.must(f"cat > {path} <<'END_OF_FILE'\n{text}\nEND_OF_FILE")

    def cut(self) -> None:
        """Takes its power away: what its kernel hasn't written is lost."""
        if self.process is not None:
            self.process.kill()
            self.process.wait()
        for stream in (self.qmp, self.agent):
            if stream is not None:
                stream.socket.close()
        self.process = self.qmp = self.agent = None
