"""Makes the machines' disk of Debian's packages: kernel, systemd, gpiod, and gpio-sim built out of tree. What takes minutes is kept in
STORE, by the kernel's version.
"""

import os
import shutil
import subprocess
from dataclasses import dataclass
from pathlib import Path

from lab.held import Wrong

GUEST = Path(__file__).resolve().parent / "guest"
STORE = Path(os.environ.get("MACHINE_STORE") or "/var/tmp/radio_machine")
SUITE = "bookworm"
NEEDS = "mmdebstrap qemu-system-x86 qemu-utils linux-headers-amd64 linux-source-6.1 gcc make e2fsprogs"
SOURCE = Path("/usr/src/linux-source-6.1.tar.xz")
PACKAGES = "systemd-sysv udev dbus kmod gpiod python3 chrony sudo procps iproute2 e2fsprogs util-linux-extra initramfs-tools".split()
TAKEN = ("drivers/gpio/gpio-sim.c", "drivers/gpio/gpiolib.h", "kernel/irq/irq_sim.c")
# The module is made of two files. A module can't call the first of these functions.
CALL, INSTEAD = "handle_simple_irq(irq_to_desc(irqnum))", "generic_handle_irq(irqnum)"
MAKEFILE = """obj-m += machine-gpio.o
machine-gpio-y := gpio_sim_main.o irq_sim.o
ccflags-y += -DCONFIG_IRQ_SIM=1 -DCONFIG_GPIO_SIM=1
"""
# What would set the clock, or only costs time.
TIMERS = "apt-daily apt-daily-upgrade e2scrub_all fstrim dpkg-db-backup logrotate".split()
UNITS = ["chrony.service", "systemd-timesyncd.service", *(f"{name}.timer" for name in TIMERS)]
RULE = 'SUBSYSTEM=="gpio", KERNEL=="gpiochip*", GROUP="gpio", MODE="0660"'
FILES = {
    "etc/fstab": "/dev/vda / ext4 defaults 0 1\n",
    "etc/hostname": "radio\n",
    "etc/hosts": "127.0.0.1 localhost radio\n",
    "etc/sudoers.d/op": "op ALL=(ALL) NOPASSWD: ALL\n",
    "etc/udev/rules.d/60-gpio.rules": RULE + "\n",
    "etc/initramfs-tools/conf.d/machine": "MODULES=list\nFSTYPE=ext4\n",
    "etc/initramfs-tools/modules": "virtio_blk\nvirtio_pci\next4\n",
}
DISK = "3G"


@dataclass(frozen=True)
class Image:
    """A disk without a boot loader, and what QEMU boots it with."""

    kernel: Path
    initrd: Path
    disk: Path


def run(*words: str | Path) -> str:
    """What a program writes. Raises Wrong with its last lines where it fails, or with what to install."""
    try:
        done = subprocess.run(words, stdin=subprocess.DEVNULL, stdout=subprocess.PIPE, stderr=subprocess.STDOUT, text=True)
    except FileNotFoundError as none:
        raise Wrong(f"there is no {words[0]}: apt-get install {NEEDS}") from none
    if done.returncode:
        last = " / ".join(done.stdout.splitlines()[-3:])
        raise Wrong(f"{Path(words[0]).name} ended with {done.returncode}: {last}")
    return done.stdout


def version() -> str:
    """The version of the newest kernel whose headers are here. Raises Wrong."""
    names = [path.name.removeprefix("linux-headers-") for path in Path("/usr/src").glob("linux-headers-6.1.0-*-amd64")]
    if not names:
        raise Wrong(f"the kernel's headers aren't here: apt-get install {NEEDS}")
    return max(names, key=lambda name: int(name.split("-")[1]))


def module(kernel: str) -> Path:
    """gpio-sim with its simulator of interrupts, built for this kernel. Raises Wrong."""
    folder = STORE / f"module-{kernel}"
    built = folder / "machine-gpio.ko"
    if built.exists():
        return built
    folder.mkdir(parents=True, exist_ok=True)
    top = SOURCE.name.removesuffix(".tar.xz")
    # With `--occurrence` it ends at the last of these files: the whole archive takes minutes.
    run("tar", "-xJf", SOURCE, "-C", folder, "--strip-components=1", "--occurrence=1", *(f"{top}/{name}" for name in TAKEN))
    shutil.copy(folder / TAKEN[0], folder / "gpio_sim_main.c")
    shutil.copy(folder / TAKEN[1], folder / "gpiolib.h")
    text = (folder / TAKEN[2]).read_text()
    if text.count(CALL) != 1:
        raise Wrong(f"{TAKEN[2]} isn't the file that this harness knows")
    (folder / "irq_sim.c").write_text(text.replace(CALL, INSTEAD))
    (folder / "Makefile").write_text(MAKEFILE)
    run("make", "-C", f"/usr/src/linux-headers-{kernel}", f"M={folder}", "modules")
    return built


def root(kernel: str) -> Path:
    """A folder with Debian as its packages leave it. Raises Wrong."""
    folder, made = STORE / f"root-{kernel}", STORE / "root-unfinished"
    if not folder.exists():
        shutil.rmtree(made, ignore_errors=True)
        names = ",".join([f"linux-image-{kernel}", *PACKAGES])
        run("mmdebstrap", "--mode=root", "--variant=apt", '--aptopt=APT::Install-Recommends "false"', f"--include={names}", SUITE, made)
        made.rename(folder)
    return folder


def settle(made: Path, kernel: str) -> None:
    """What a machine has beside its packages: names, an operator, a small initrd, the module, the helpers and their units."""
    for name, text in FILES.items():
        (made / name).write_text(text)
    place = made / "opt" / "machine"
    place.mkdir(exist_ok=True)
    shutil.copy(module(kernel), place)
    run("gcc", "-O2", "-Wall", "-static", "-o", place / "relay", GUEST / "relay.c")
    for name in ("agent.py", "line.sh", "radio.sh"):
        shutil.copy(GUEST / name, place)
    shutil.copy(GUEST / "machine@.service", made / "etc" / "systemd" / "system")
    if "\nop:" not in (made / "etc" / "passwd").read_text():
        run("chroot", made, "groupadd", "--system", "gpio")
        run("chroot", made, "useradd", "--create-home", "--shell", "/bin/bash", "--groups", "gpio", "op")
    run("chroot", made, "systemctl", "mask", *UNITS)
    run("chroot", made, "systemctl", "enable", "machine@agent.py", "machine@line.sh")
    run("chroot", made, "update-initramfs", "-u", "-k", "all")


def is_newer(disk: Path) -> bool:
    """Whether a disk is newer than all that it is made of here."""
    return disk.exists() and all(path.stat().st_mtime < disk.stat().st_mtime for path in (*GUEST.iterdir(), Path(__file__)))


def base(kernel: str) -> Path:
    """The disk that all machines begin with."""
    disk, made = STORE / f"disk-{kernel}", STORE / "disk-unfinished"
    if not is_newer(disk):
        folder = root(kernel)
        settle(folder, kernel)
        made.unlink(missing_ok=True)
        run("truncate", "-s", DISK, made)
        run("mkfs.ext4", "-q", "-d", folder, made)
        made.rename(disk)
    return disk


def image(work: Path) -> Image:
    """The disk of a new machine, in the folder `work`. Raises Wrong."""
    if os.geteuid():
        raise Wrong("a machine's disk is made by root")
    STORE.mkdir(parents=True, exist_ok=True)
    kernel = version()
    disk, beneath = work / "disk", work / "beneath"
    # Another one may be made of changed sources while this machine runs.
    os.link(base(kernel), beneath)
    run("qemu-img", "create", "-q", "-f", "qcow2", "-F", "raw", "-b", beneath, disk)
    boot = root(kernel) / "boot"
    return Image(boot / f"vmlinuz-{kernel}", boot / f"initrd.img-{kernel}", disk)
