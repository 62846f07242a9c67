# What checks of the package in a Debian that systemd-nspawn boots share: they set `name`, source this, and find `work`, `host`
# and `bad`. The Debian has a network of its own, so its port 123 is nobody else's. Needs root, systemd-container, mmdebstrap and the network of
# Debian's packages; DEBIAN names a folder that has such a Debian already, with the packages of `has`, which is copied. RADIO_NTPD names the program
# where it isn't the one of this folder.
export LC_ALL=C
PATH="$PATH:/usr/sbin:/sbin"
has=systemd,systemd-sysv,dbus,python3,procps
architecture=amd64
program=${RADIO_NTPD:-crates/radio_ntpd/out/radio_ntpd}
work=$(mktemp -d) || exit 1
host="$work/host"
bad=0
nspawn=
leader=
# Ends the Debian, if it still runs: its own first process takes this signal as a power-off.
power_off() {
    if [ -n "$nspawn" ]; then
        kill "$nspawn" 2> "$work/none"
        wait "$nspawn"
        nspawn=
    fi
}
trap 'power_off; rm -rf --one-file-system "$work"' EXIT
trap 'exit 1' INT TERM
wrong() {
    echo "$name: $*" >&2
    bad=1
}
fails() {
    wrong "$@"
    exit 1
}
# The package of this checkout in `deb`, as lintian judges it. Its sources name no licence, so it can have no notice of one.
make_package() {
    deb=$(packaging/build_deb.sh "$work") || exit 1
    if command -v lintian > "$work/none"; then
        lintian --allow-root --no-cfg "$deb" > "$work/lintian" 2>&1
        grep -v '^W: radio-ntpd: copyright-without-copyright-notice' "$work/lintian" && wrong 'lintian has something to say'
    else
        echo "$name: lintian is not installed, so it judges nothing"
    fi
}
install_package() {
    cp "$deb" "$host/opt/radio-ntpd.deb"
    inside dpkg --install /opt/radio-ntpd.deb > "$work/installed" 2>&1 || fails "it can't be installed: $(tail -n 5 "$work/installed")"
}
make_debian() {
    if [ -n "${DEBIAN:-}" ]; then
        cp -a "$DEBIAN" "$host"
    else
        mmdebstrap --mode=root --architectures="$architecture" --variant=apt --include="$has" bookworm "$host"
    fi > "$work/made" 2>&1 || fails "no Debian: $(tail -n 3 "$work/made")"
}
# Words that run in the Debian, once it is booted.
inside() {
    nsenter --all --root --wd --target="$leader" "$@"
}
boot() {
    systemd-nspawn --quiet --directory="$host" --register=no --keep-unit --private-network --boot > "$work/booted" 2>&1 < /dev/null &
    nspawn=$!
    turns=0
    while [ $turns -lt 60 ] && kill -0 "$nspawn" 2> "$work/none"; do
        turns=$((turns + 1))
        sleep 2
        leader=$(pgrep -P "$nspawn") && inside systemctl is-system-running --wait > "$work/running" 2>&1
        grep -qxs -e running -e degraded "$work/running" && return
    done
    fails "nothing was booted: $(tail -n 3 "$work/booted")"
}
# Words of this host, in the Debian's network.
in_network() {
    nsenter --net --target="$leader" "$@"
}
property() {
    inside systemctl show --property="$1" --value radio_ntpd
}
# Settings of a station on port 123 with a receiver in software. A receiver has no history. This one has eight minutes of it at its first start, so that
# a check needn't wait for them.
use_soft_receiver() {
    cp -r lab "$host/opt/lab"
    printf 'bound = 1000\n[[radio]]\nplan = "dcf"\nlog = "x"\n[[link]]\nport = 123\n' > "$host/etc/radio_ntpd/station.toml"
    cat > "$host/usr/local/bin/receiver" <<'SH'
#!/bin/sh
history=8
[ ! -e /var/lib/radio_ntpd/heard ] || history=0
: > /var/lib/radio_ntpd/heard
exec env PYTHONPATH=/opt python3 -B -m lab.receiver --plan dcf --live 86400 --form edges --history $history
SH
    chmod +x "$host/usr/local/bin/receiver"
    cat > "$host/etc/radio_ntpd/keeper.toml" <<'TOML'
station = "station.toml"
state = "/var/lib/radio_ntpd"
runtime = "/run/radio_ntpd"
[[radio]]
command = "receiver | /usr/lib/radio_ntpd/feeders/edges_to_log.py"
TOML
}
# Waits $2 seconds, $1 says for what, until the status is well.
until_well() {
    turns=0
    until inside radio_keeper status > "$work/status" 2>&1; do
        turns=$((turns + 1))
        [ $turns -lt "$2" ] || { wrong "$1 the status says: $(head -n 3 "$work/status"); $(inside journalctl --no-pager -n 8 -u radio_ntpd 2>&1)"; return; }
        sleep 1
    done
}
