#!/bin/sh
# Follows docs/FIRST_EVENING.md from its first line on, in a bare Debian of its own: its commands, as they stand in the page, one after the other.
# A receiver in software stands in the place of gpiomon, which has no pin here, and writes as libgpiod 1 does. It takes twenty minutes, most of it
# waiting for minutes, and 500 MB of disk, and isn't in the gate. Needs root, mmdebstrap and the network of Debian's packages; DEBIAN names a folder
# with a bare Debian, which is copied. RADIO_NTPD names the program where it isn't the one of this folder.
#
#     checks/evening.sh [arm64]
#
# With arm64 the Debian is one for arm64, whose programs this host emulates (needs qemu-user-static). It gets the package that the page names, and so the
# program is emulated twice: what the client sees is less exact. It takes half an hour more.
set -u
cd "$(dirname "$0")/.." || exit 1
name=evening
export LC_ALL=C
PATH="$PATH:/usr/sbin:/sbin"
program=${RADIO_NTPD:-crates/radio_ntpd/out/radio_ntpd}
[ -x "$program" ] || { echo "$name: there is no built program $program" >&2; exit 1; }
work=$(mktemp -d) || exit 1
host="$work/host"
home=/root/radio_ntpd
architecture=${1:-amd64}
near=0.02
keeper=
network=
bad=0
finish() {
    for process in $keeper $network; do
        kill "$process" 2> "$work/none"
        wait "$process" 2> "$work/none"
    done
    umount "$host/proc" 2> "$work/none"
    [ "$architecture" = amd64 ] || leave_arm64
    rm -rf --one-file-system "$work"
}
trap finish EXIT
trap 'exit 1' INT TERM
wrong() {
    echo "$name: $*" >&2
    bad=1
}
fails() {
    wrong "$@"
    exit 1
}
if [ "$architecture" = arm64 ]; then
    . checks/emulation.sh
    take_arm64
    near=0.5
fi

if [ -n "${DEBIAN:-}" ]; then
    cp -a "$DEBIAN" "$host"
else
    mmdebstrap --mode=root --architectures="$architecture" --variant=minbase --include=systemd bookworm "$host" > "$work/made" 2>&1 || fails "no Debian: $(tail -n 3 "$work/made")"
fi
mount -t proc proc "$host/proc" || exit 1

mkdir -p "$host$home"
if [ "$architecture" = amd64 ]; then
    # The folder as it is unpacked, with the built program in it.
    git archive HEAD -- radio_ntpd radio_keeper keeper feeders tools build lab/model packaging docs crates.txt | tar -x -C "$host$home"
    install -D -m 755 "$program" "$host$home/crates/radio_ntpd/out/radio_ntpd"
else
    packaging/build_deb.sh "$host$home" "$architecture" > "$work/built" || exit 1
fi
# What the page doesn't install: root is there already, and apt is to ask nothing.
printf '#!/bin/sh\nexec "$@"\n' > "$host/usr/local/bin/sudo"
echo 'APT::Get::Assume-Yes "true";' > "$host/etc/apt/apt.conf.d/90yes"
cp -r lab "$host/opt/lab"
cat > "$host/usr/local/bin/gpiomon" <<'SH'
#!/bin/sh
[ "$*" = 'gpiochip0 17' ] || { echo "gpiomon: what is $*?" >&2; exit 1; }
exec python3 -u -c '
import subprocess, sys
with subprocess.Popen([sys.executable, "-B", "-m", "lab.receiver", "--plan", "dcf", "--live", "86400", "--form", "edges", "--jitter", "3"], stdout=subprocess.PIPE, text=True, cwd="/opt") as receiver:
    for line in receiver.stdout:
        at, edge, *_ = line.split()
        print(f"event: {edge.upper():>7} EDGE offset: 17 timestamp: [{at:>16}]", flush=True)
'
SH
chmod +x "$host/usr/local/bin/sudo" "$host/usr/local/bin/gpiomon"

# The indented command of a step of the page, by its number. With the package the page has other names of the programs.
step() {
    awk -v step="**$1." 'index($0, step) == 1 { found = 1 } /^\*\*[0-9]/ && index($0, step) != 1 { found = 0 } /^## / { found = 0 } found && /^    / { sub(/^    /, ""); print }' docs/FIRST_EVENING.md |
        if [ "$architecture" = amd64 ]; then
            cat
        else
            sed 's:\./radio_ntpd :/usr/sbin/radio_ntpd :; s:\./radio_keeper :radio_keeper :; s:feeders/:/usr/lib/radio_ntpd/feeders/:'
        fi
}
# Runs words in the folder there; once there is a network of its own, in that.
inside() {
    ${network:+nsenter --net="/proc/$network/ns/net"} chroot "$host" sh -c "cd $home && $1"
}
# Runs a step there. `told` is its exit status, and what it writes is in "$work/step.N".
run() {
    said=$(step "$1")
    [ -n "$said" ] || wrong "step $1 has no command"
    inside "$said" > "$work/step.$1" 2>&1
    told=$?
    echo "$name: step $1 ends with $told: $(tail -n 1 "$work/step.$1")"
}
has() {
    grep -q -e "$2" "$work/step.$1" || wrong "step $1 doesn't say '$2': $(tail -n 3 "$work/step.$1")"
}

chroot "$host" apt-get update > "$work/updated" 2>&1
if [ "$architecture" = arm64 ]; then
    package=$(awk '/^    sudo apt install \.\/radio/ { sub(/^    /, ""); print }' docs/FIRST_EVENING.md)
    inside "$package" > "$work/packed" 2>&1 || fails "'$package': $(tail -n 3 "$work/packed")"
fi
run 1
[ $told = 0 ] || wrong "packages: $(tail -n 2 "$work/step.1")"
# An emulated Python that isn't in memory yet takes more than the ten seconds.
inside 'timeout 100 gpiomon gpiochip0 17 | head -n 1' > "$work/warm" 2>&1
run 2
has 2 'RISING EDGE offset: 17'
run 3
[ "$(grep -c . "$host$home/first.log")" -gt 250 ] || wrong 'five minutes have too few marks'
run 4
has 4 ' verdict '
has 4 '^status 0$'
run 5
run 6
# From here on nothing comes from elsewhere, and port 12300 of this host may be another's.
chroot "$host" apt-get install chrony > "$work/chrony" 2>&1 || wrong "chrony: $(tail -n 2 "$work/chrony")"
unshare --net sh -c 'ip link set lo up && exec sleep 3600' &
network=$!
until [ "$(readlink "/proc/$network/exe")" = "$(readlink -f "$(command -v sleep)")" ]; do
    sleep 0.1
done
run 7
has 7 '^nothing to mend$'
[ $told = 0 ] || wrong "the check ends with $told"
nsenter --net="/proc/$network/ns/net" chroot "$host" sh -c "cd $home && exec $(step 8)" > "$work/step.8" 2>&1 &
keeper=$!
# Eight minutes after the first minute mark there is a time.
turns=0
until inside "timeout --signal=INT 5 $(step 9)" > "$work/step.9" 2>&1; grep -q 'OK: time ' "$work/step.9"; do
    turns=$((turns + 1))
    [ $turns -lt 240 ] || { wrong "no time after twenty minutes: $(tail -n 9 "$work/step.9"; tail -n 3 "$work/step.8")"; break; }
done
has 9 'OK: time from DCF, stratum 1'
run 10
has 10 'System clock wrong by'
wrong_by=$(sed -n 's/.*System clock wrong by \(-\{0,1\}[0-9.]*\) seconds.*/\1/p' "$work/step.10")
python3 -c "import sys; sys.exit(abs(float(sys.argv[1])) > float(sys.argv[2]))" "${wrong_by:-9}" "$near" || wrong "the client sees the host's clock off by $wrong_by s"
kill -INT "$keeper"
wait "$keeper"
told=$?
keeper=
[ $told = 0 ] || wrong "^C ends the keeper with $told: $(tail -n 2 "$work/step.8")"
if [ "$architecture" = amd64 ]; then
    inside './radio_keeper install && ./radio_keeper install --do' > "$work/installed" 2>&1 || wrong "it can't be installed: $(tail -n 2 "$work/installed")"
fi
[ "$(chroot "$host" radio_keeper --version)" = "$(./radio_keeper --version)" ] || wrong 'what was installed is another version'
[ "$bad" = 0 ] && echo "$name: on $architecture the ten commands lead to a client that sees the host's clock off by $wrong_by s"
exit "$bad"
