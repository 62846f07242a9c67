#!/bin/sh
# Follows each command of README, FIRST_EVENING, RECORDING, COMMANDS, OPERATING, CLIENTS, KEEPER and CONTRIBUTING in a Debian of its own with
# systemd, and compares exit status and output with what the page says: checks/pages/followed.py has the table, and why some are not run here. The
# Debian has what an installation has by default, and what the pages have installed. A receiver in software stands in the place of gpiomon. It takes
# fifteen minutes and 900 MB of disk, and isn't in the gate. checks/booted.sh says what it needs; besides, the network of Debian's packages.
#
#     checks/followed.sh [arm64] [PAGE]
#
# With arm64 the Debian is one for arm64, whose programs this host emulates (needs qemu-user-static). It has the package, and so what is of the folder
# that builds is not followed. It takes an hour more.
set -u
cd "$(dirname "$0")/.." || exit 1
name=followed
. checks/booted.sh
has="$has,iproute2,libcap2-bin,nftables,openssl,man-db"
home=/root/radio_ntpd
packaged=
if [ "${1:-}" = arm64 ]; then
    shift
    architecture=arm64
    packaged=--packaged
    . checks/emulation.sh
    trap 'kill "$nspawn" 2> "$work/none"; power_off; leave_arm64; rm -rf --one-file-system "$work"' EXIT
    take_arm64
fi

mkdir "$work/deb"
packaging/build_deb.sh "$work/deb" "$architecture" > "$work/built" || exit 1
make_debian
# What the pages don't install: root is there already, and apt is to ask nothing.
printf '#!/bin/sh\nexec "$@"\n' > "$host/usr/local/bin/sudo"
chmod +x "$host/usr/local/bin/sudo"
echo 'APT::Get::Assume-Yes "true";' > "$host/etc/apt/apt.conf.d/90yes"
# Packages come before the boot, since then there is no network. ntpsec's ntpdig is one of the clients on the pages, which don't install it.
mount -t proc proc "$host/proc" || exit 1
chroot "$host" apt-get update > "$work/updated" 2>&1 || fails "no lists of packages: $(tail -n 2 "$work/updated")"
{
    python3 -B -m checks.pages.follow packages $packaged
    echo 'apt-get install ntpsec-ntpdig'
    [ -z "$packaged" ] || echo 'apt-get install qemu-user'
} > "$work/packages"
while read -r command; do
    chroot "$host" sh -c "$command" > "$work/installed" 2>&1 < "$work/packages" || wrong "'$command' fails: $(tail -n 3 "$work/installed")"
done < "$work/packages"
umount "$host/proc"

# The folder as it is unpacked, with the built program in it.
mkdir -p "$host$home"
git archive HEAD | tar -x -C "$host$home"
[ -n "$packaged" ] || install -D -m 755 "$program" "$host$home/crates/radio_ntpd/out/radio_ntpd"
cp -r lab "$work/deb" "$host/opt"
cat > "$host/usr/local/bin/gpiomon" <<'SH'
#!/bin/sh
[ "$*" = 'gpiochip0 17' ] || { echo "gpiomon: what is $*?" >&2; exit 1; }
heard=/var/lib/radio_ntpd/heard
[ "$(id -u)" != 0 ] || heard=/root/radio_ntpd/heard
history=12
[ ! -e "$heard" ] || history=0
touch "$heard" 2> /dev/null  # the folder is made by the unit as it starts
HISTORY=$history exec python3 -u -c '
import os, subprocess, sys
words = [sys.executable, "-B", "-m", "lab.receiver", "--plan", "dcf", "--live", "86400", "--form", "edges", "--jitter", "3", "--lag", "20"]
with subprocess.Popen([*words, "--history", os.environ["HISTORY"]], stdout=subprocess.PIPE, text=True, cwd="/opt") as receiver:
    for line in receiver.stdout:
        at, edge, *_ = line.split()
        print(f"event: {edge.upper():>7} EDGE offset: 17 timestamp: [{at:>16}]", flush=True)
'
SH
chmod +x "$host/usr/local/bin/gpiomon"
boot
# The number of the boot that systemd-nspawn puts over the host's isn't seen by units that have a /proc of their own, as on no other host.
inside umount /proc/sys/kernel/random/boot_id || wrong 'the Debian keeps its own number of the boot'
python3 -B -m checks.pages.follow "$leader" $packaged ${1:+--only "$1"} || bad=1
[ "$bad" = 0 ] && echo "$name: each command did what its page says"
exit "$bad"
