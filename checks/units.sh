#!/bin/sh
# The keeper's unit under systemd, in a Debian of its own with the package of packaging/build_deb.sh and a receiver in software in the place of one on
# a pin. Clients on port 123 have to get the time. Then ten kills in turn (all of it, the keeper, the server, the receiver), and each time the *time*
# has to come back, within 50 ms of the host's clock; the files are read anew without a gap; a keeper that hangs is ended by systemd's watchdog; a
# stop leaves a whole journal and no process. It takes five minutes and 400 MB of disk, and isn't in the gate. checks/booted.sh says what it needs.
#
#     checks/units.sh
set -u
cd "$(dirname "$0")/.." || exit 1
name=units
. checks/booted.sh

make_package
make_debian
boot
install_package
use_soft_receiver
inside systemctl enable --now radio_ntpd > "$work/enabled" 2>&1 || fails "it can't be started: $(cat "$work/enabled")"

# How far the time on port 123 is off, in milliseconds, by the quickest of eight exchanges; or why there is none. It waits $1 seconds for one.
cat > "$work/time.py" <<'PY'
import socket, struct, sys, time


def exchange(client):
    """How long an exchange took (s), how far the time is off by it (s), and its leap indicator; None where no answer comes."""
    left = time.time()
    try:
        client.send(bytes([0x23, 0, 6, 0xEC]) + bytes(36) + struct.pack(">d", left))
        reply = client.recv(1024)
        while reply[24:32] != struct.pack(">d", left):
            reply = client.recv(1024)
    except OSError:
        return None
    came = time.time()
    received, sent = (one / 2**32 - 2208988800 for one in struct.unpack(">QQ", reply[32:48]))
    return came - left, ((received + sent) - (left + came)) / 2, reply[0] >> 6


end = time.monotonic() + float(sys.argv[1])
said = "nobody answers"
with socket.socket(socket.AF_INET, socket.SOCK_DGRAM) as client:
    client.connect(("127.0.0.1", 123))
    client.settimeout(1)
    while time.monotonic() < end:
        first = exchange(client)
        if first and first[2] != 3:
            took, off, _ = min(filter(None, [first, *(exchange(client) for _ in range(7))]))
            print(f"{off * 1e3:.1f} ms off, within {took * 5e2:.1f} ms")
            sys.exit(0 if abs(off) < 0.05 else 1)
        said = "there is no time" if first else said
        time.sleep(0.05)
print(said)
sys.exit(1)
PY

has_time() {
    told=$(in_network python3 -B "$work/time.py" "$2") || wrong "$1: $told; $(inside journalctl --no-pager -n 8 -u radio_ntpd 2>&1)"
}
# The children of the keeper's own process that have these words.
child() {
    inside pgrep -o -u radio_ntpd -f "$1"
}

has_time 'at the start' 90
[ "$(property ActiveState)" = active ] || wrong "the unit is $(property ActiveState)"
# The state is renewed every ten seconds, and the root dispersion is great until eight minutes were read.
until_well 'at the start' 30
sleep 2  # a log is written once a second, and this one has the eight minutes that are read back

killed=0
longest=0
while [ $killed -lt 10 ]; do
    case $((killed % 4)) in
        0) what='all of it' && inside systemctl kill --kill-whom=all --signal=KILL radio_ntpd ;;
        1) what='the keeper' && inside kill -KILL "$(property MainPID)" ;;
        2) what='the server' && inside kill -KILL "$(child 'radio_ntpd serve')" ;;
        3) what='the receiver' && inside kill -KILL "$(child 'lab.receiver --plan dcf')" ;;
    esac || wrong "$what couldn't be killed"
    began=$(date +%s%N)
    sleep 0.2
    has_time "$what was killed" 30
    took=$((($(date +%s%N) - began) / 1000000))
    [ $took -le $longest ] || longest=$took
    killed=$((killed + 1))
    sleep 8
    has_time "eight seconds after $what was killed" 5
done
[ "$(property NRestarts)" -ge 5 ] || wrong "systemd started it again $(property NRestarts) times"

before=$(property MainPID)
inside systemctl reload radio_ntpd || wrong "it can't be reloaded"
has_time 'after a reload' 5
cp "$host/etc/radio_ntpd/keeper.toml" "$work/keeper.toml"
echo 'nosuch = 1' > "$host/etc/radio_ntpd/keeper.toml"
inside systemctl reload radio_ntpd 2> "$work/reloaded" && wrong 'a reload of a refused file succeeds'
cp "$work/keeper.toml" "$host/etc/radio_ntpd/keeper.toml"
has_time 'after a reload that was refused' 5
[ -z "$(inside cat "/proc/$before/status" | sed -n 's/^Cap[A-Za-z]*:\t0*\([1-9a-f]\)/\1/p')" ] || wrong 'the keeper has a capability'
[ "$(property MainPID)" = "$before" ] || wrong 'a reload started another keeper'

inside kill -STOP "$before"
turns=0
until [ "$(property MainPID)" != "$before" ]; do
    turns=$((turns + 1))
    [ $turns -lt 100 ] || { wrong 'a keeper that hangs goes on'; break; }
    sleep 1
done
has_time 'a keeper that hung was ended' 30

inside systemctl stop radio_ntpd.socket radio_ntpd || wrong "it can't be stopped"
[ -z "$(inside pgrep -u radio_ntpd)" ] || wrong "after the stop there is $(inside pgrep -a -u radio_ntpd)"
last=$(find "$host/var/lib/radio_ntpd/journals" -name '*.journal' | LC_ALL=C sort | tail -n 1)
[ "$(tail -n 1 "$last")" = 'status 0' ] || wrong "the last journal ends with $(tail -n 1 "$last")"
[ "$(property Result)" = success ] || wrong "the unit's result is $(property Result): $(inside journalctl --no-pager -n 12 -u radio_ntpd 2>&1)"
[ "$bad" = 0 ] && echo "$name: ten kills, a reload, a keeper that hung: the time came back each time, within ${longest} ms at most"
exit "$bad"
