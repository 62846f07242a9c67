#!/bin/sh
# What the keeper shows, by programs of others, each where it is installed: the page in headless Chromium, as wide as a phone and as a wall; the
# metrics by Prometheus' promtool; the man pages by mandoc; the unit by systemd-analyze. It takes some seconds and isn't in the gate.
#
#     checks/faces.sh
set -u
cd "$(dirname "$0")/.." || exit 1
export LC_ALL=C
work=$(mktemp -d) || exit 1
trap 'rm -rf "$work"' EXIT
bad=0 seen= missing=
wrong() {
    echo "faces: $*" >&2
    bad=1
}
has() {
    if command -v "$1" > "$work/none"; then
        seen="$seen $1"
    else
        missing="$missing $1"
        return 1
    fi
}

if has chromium; then
    python3 -B -m keeper.tests.browser || wrong 'the page is not as it should be'
fi
if has promtool; then
    python3 -B -c 'from keeper.reporter import metrics; from keeper.tests.made_station import NOW, a_good_station; print(metrics.render(a_good_station(), NOW), end="")' > "$work/metrics" || wrong 'there are no metrics'
    promtool check metrics < "$work/metrics" > "$work/told" 2>&1 || wrong 'promtool refuses the metrics'
    [ ! -s "$work/told" ] || wrong "promtool says: $(head -n 5 "$work/told")"
fi
# A page may name the others, which need not be installed here.
if has mandoc; then
    for page in docs/radio_keeper.1 docs/radio_ntpd.toml.5 docs/radio_ntpd.8; do
        mandoc -T lint "$page" 2> "$work/db" | grep -v 'referenced manual not found' > "$work/told"
        [ ! -s "$work/told" ] || wrong "$(head -n 3 "$work/told")"
    done
fi
if has systemd-analyze; then
    sed "s:@PREFIX@/lib/radio_ntpd/radio_keeper:/bin/true:" packaging/radio_ntpd.service > "$work/radio_ntpd.service"
    cp packaging/radio_ntpd.socket "$work"
    systemd-analyze verify --man=no "$work/radio_ntpd.service" > "$work/told" 2>&1 || wrong "systemd-analyze says: $(head -n 3 "$work/told")"
    level=$(systemd-analyze security --offline=yes "$work/radio_ntpd.service" 2> "$work/none" | sed -n 's/.*Overall exposure level.*: \([0-9.]*\) .*/\1/p')
    echo "faces: systemd-analyze security: $level of 10, 0 being best"
fi
[ "$bad" = 0 ] && echo "faces: as it should be by${seen:- nothing}${missing:+; not installed:$missing}"
exit "$bad"
