#!/bin/sh
# The Debian package for arm64, as of a Raspberry Pi, which has the x86-64 program and runs it by QEMU.
#
#     checks/arm64.sh [MINUTES]
#
# First in the files of an arm64 Debian that QEMU runs too, so that the program is emulated twice: `drill`, and `decode` of a log that comes by a pipe,
# give the bytes that they give without emulation, and the keeper and a feeder say their help. Then on this host, where only the program is
# emulated, as on a Raspberry Pi: `check` finds nothing to mend; for MINUTES (30) a client gets each reply from a port that was handed over, through
# a change of run every two minutes; SIGTERM ends it with whole journals.
#
# It isn't in the gate. Needs root, qemu-user, qemu-user-static, mmdebstrap and the network of Debian's packages; DEBIAN names a folder that has the files
# of an arm64 Debian already, with python3 and qemu-user. While it runs the kernel runs arm64 programs by QEMU. It doesn't install the package
# by dpkg, which checks/evening.sh arm64 does, nor boot that Debian.
set -u
cd "$(dirname "$0")/.." || exit 1
name=arm64
export LC_ALL=C
minutes=${1:-30}
program=${RADIO_NTPD:-crates/radio_ntpd/out/radio_ntpd}
work=$(mktemp -d) || exit 1
bad=0
keeper=
finish() {
    [ -z "$keeper" ] || kill "$keeper" 2> "$work/none"
    wait
    leave_arm64
    rm -rf --one-file-system "$work"
}
. checks/emulation.sh
trap finish EXIT
trap 'exit 1' INT TERM
wrong() {
    echo "$name: $*" >&2
    bad=1
}
fails() {
    wrong "$@"
    exit 1
}

deb=$(packaging/build_deb.sh "$work" arm64) || exit 1
if command -v lintian > "$work/none"; then
    lintian --allow-root --no-cfg "$deb" > "$work/lintian" 2>&1
    grep -v '^W: radio-ntpd: copyright-without-copyright-notice' "$work/lintian" && wrong 'lintian has something to say'
fi

take_arm64
host="$work/host"
if [ -n "${DEBIAN:-}" ]; then
    cp -a "$DEBIAN" "$host"
else
    mmdebstrap --mode=root --architectures=arm64 --variant=extract --hook-dir=/usr/share/mmdebstrap/hooks/merged-usr --include=base-files,dash,coreutils,sed,libc-bin,python3,qemu-user bookworm "$host"
fi > "$work/made" 2>&1 || fails "no Debian: $(tail -n 3 "$work/made")"
dpkg-deb --extract "$deb" "$host"
cmp -s "$host/usr/lib/radio_ntpd/x86_64/radio_ntpd" "$program" || wrong 'the program is not the one that was built'
inside() {
    chroot "$host" "$@"
}
"$program" drill --seed 7 > "$work/drill"
inside radio_ntpd drill --seed 7 > "$work/emulated" || wrong 'emulated, drill fails'
cmp "$work/drill" "$work/emulated" || wrong 'emulated, drill says other things'
python3 -B -m lab.receiver --plan dcf --minutes 20 --jitter 3 > "$work/log"
"$program" decode --plan dcf --log /dev/stdin < "$work/log" > "$work/decoded"
mkfifo "$host/tmp/pipe"
cat "$work/log" > "$host/tmp/pipe" &
inside radio_ntpd decode --plan dcf --log /tmp/pipe > "$work/emulated" || wrong 'emulated, decode fails'
cmp "$work/decoded" "$work/emulated" || wrong 'emulated, decode says other things'
grep -q verdict "$work/decoded" || wrong 'decode gives no verdict'
[ "$(inside radio_keeper --version)" = "$(./radio_keeper --version)" ] || wrong 'the keeper does not run there'
inside /usr/lib/radio_ntpd/feeders/edges_to_log.py --help > "$work/help" || wrong 'a feeder does not run there'

# From here on with this host's Python, and its QEMU for x86-64.
dpkg-deb --extract "$deb" "$work/tree"
tree="$work/tree/usr/lib/radio_ntpd"
port=$(python3 -B -m checks.ask port)
mkdir "$work/station"
printf 'bound = 1000\n[[radio]]\nplan = "dcf"\nlog = "x"\n[[link]]\nport = %s\n' "$port" > "$work/station/station.toml"
cat > "$work/station/keeper.toml" <<TOML
station = "station.toml"
cycle = 120
[[radio]]
command = "env PYTHONPATH=$PWD python3 -B -m lab.receiver --plan dcf --live 86400 --form edges --history 8 | $tree/feeders/edges_to_log.py"
TOML
settings="--config $work/station/keeper.toml"
"$tree/radio_keeper" check $settings --seconds 10 > "$work/checked" 2>&1 || wrong "the check finds something: $(grep BAD "$work/checked")"
grep -q 'nothing to mend' "$work/checked" || wrong "the check says: $(tail -n 1 "$work/checked")"
python3 -B checks/handed_over.py "$port" "$tree/radio_keeper" run $settings > "$work/kept" 2>&1 &
keeper=$!
turns=0
until "$tree/radio_keeper" status $settings > "$work/status" 2>&1; do
    turns=$((turns + 1))
    [ $turns -lt 120 ] || fails "no time within two minutes: $(head -n 3 "$work/status" "$work/kept")"
    sleep 1
done
base=$(python3 -c 'import time; print(time.time() - time.monotonic())')
python3 -B -m lab.kept_client "$port" $((minutes * 60)) 10 "$base" > "$work/met"
echo "$name: a client met $(cat "$work/met")"
[ "$(python3 -c 'import json, sys; met = json.load(sys.stdin); print(met["asked"] - met["answered"], met["wrong"])' < "$work/met")" = '0 0' ] || wrong 'a reply is lost, or wrong'
kill -TERM "$keeper"
wait "$keeper"
told=$?
keeper=
[ $told = 0 ] || wrong "the keeper ends with $told: $(tail -n 3 "$work/kept")"
runs=$(find "$work/station/state/journals" -name '*.journal' | wc -l)
[ "$runs" -ge $((minutes / 2)) ] || wrong "$minutes minutes have $runs journals: $(cat "$work/kept")"
[ "$(tail -qn 1 "$work"/station/state/journals/*.journal | sort -u)" = 'status 0' ] || wrong "journals end with $(tail -qn 1 "$work"/station/state/journals/*.journal | sort | uniq -c)"
[ "$bad" = 0 ] && echo "$name: drill and decode as without emulation; $minutes minutes of service in $runs runs, no reply lost"
exit "$bad"
