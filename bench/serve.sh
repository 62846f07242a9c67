#!/bin/sh
# What serving costs, on the loopback in one run: processor time a reply, and replies a second, of the built program. Beside it run plain C
# that makes the same system calls and echoes what came, and chronyd where it is installed. The load is one client that keeps 16 requests
# outstanding. It is repeated for a station with a table of 65536 clients, and then with 65536 clients by turns, with that table and without.
# It also counts user instructions a reply, by callgrind, and has the peak memory of a run whose journal is full at its default limit.
# It builds nothing of ours: run ./radio_ntpd once before. Needs gcc and python3; valgrind for the instructions.
#
#     bench/serve.sh [REPLIES [RUNS]]
#
# It fails where a reply's processor time is above BOUND times the echo's.
set -eu
replies=${1:-50000}
runs=${2:-7}
BOUND=1.5
# What the server receives in one phase at the most, but for some that get it going.
[ $((2 * replies * runs)) -le 990000 ] || { echo "more than 990000 replies in all" >&2; exit 1; }
. "$(dirname "$0")/built.sh"
PATH="$PATH:/usr/sbin:/sbin"
servers=
finish() {
    for one in $servers; do kill "$one" 2> /dev/null || true; done
    wait
    rm -rf "$work"
}
trap finish EXIT
trap 'exit 1' INT TERM
gcc -O2 -o "$work/echo" bench/plain_echo.c
gcc -O2 -o "$work/ask" bench/ask_many.c
gcc -O2 -o "$work/measure" bench/measure.c

# A free port below those that the host gives out by itself.
port() {
    python3 -B -c "from lab.client import free_port; print(free_port())"
}

# A station of the example's radios with this port.
station() {
    sed "s/^port = .*/port = $1/" examples/serve.toml
}

# Processor time of a process and its threads so far, in ns.
spent() {
    cat /proc/"$1"/task/*/schedstat | awk '{ sum += $1 } END { printf "%.0f\n", sum }'
}

# Asks the server $1 of the process $2 at the port $3, as $4 clients where they are many: a line of ns a reply and replies a second.
load() {
    before=$(spent "$2")
    rate=$("$work/ask" "$3" 16 "$replies" ${4:-})
    echo "$(($(spent "$2") - before)) $replies $rate" >> "$work/$1.runs"
}

ours=$(port)
station "$ours" > "$work/station"
"$program" serve --station "$work/station" --during 0 --after 1000000 > "$work/served" &
ours_process=$!
servers=$ours_process
# No two requests come within its gap.
gated=$(port)
{
    printf 'gap = 1\nclients = 65536\n'
    station "$gated"
} > "$work/gated_station"
"$program" serve --station "$work/gated_station" --during 0 --after 1000000 > "$work/gated_served" &
gated_process=$!
servers="$servers $gated_process"
echo_port=$(port)
"$work/echo" "$echo_port" > "$work/echoed" &
echo_process=$!
servers="$servers $echo_process"
"$work/ask" "$ours" 1 1 > "$work/rate"
"$work/ask" "$gated" 1 1 > "$work/rate"
"$work/ask" "$echo_port" 1 1 > "$work/rate"
chrony_port=
if command -v chronyd > /dev/null; then
    chrony_port=$(port)
    printf '%s\n' "port $chrony_port" 'bindaddress 127.0.0.1' 'allow 127.0.0.1' 'local stratum 1' 'cmdport 0' 'bindcmdaddress /' \
        "pidfile $work/pid" > "$work/conf"
    chronyd -x -d -U -u "$(id -un)" -f "$work/conf" > "$work/chronyd" 2>&1 &
    chrony_process=$!
    servers="$servers $chrony_process"
    "$work/ask" "$chrony_port" 1 1 > "$work/rate" || { echo "chronyd doesn't answer: $(cat "$work/chronyd")" >&2; chrony_port=; }
fi

# By turns, so that what else the machine does falls on all of them.
turn=0
while [ "$turn" -lt "$runs" ]; do
    load ours "$ours_process" "$ours"
    load ours-65536 "$ours_process" "$ours" 65536
    load gated-1 "$gated_process" "$gated"
    load gated-65536 "$gated_process" "$gated" 65536
    load echo "$echo_process" "$echo_port"
    [ -z "$chrony_port" ] || load chronyd "$chrony_process" "$chrony_port"
    turn=$((turn + 1))
done
echo "the least of $runs runs of $replies replies, 16 outstanding; $(uptime | sed 's/.*load/load/')"
least() {
    awk -v name="$1" '{ ns = $1 / $2; if (NR == 1 || ns < least) least = ns; if ($3 > most) most = $3 }
        END { printf "%-11s %8.0f ns of processor a reply %9.0f replies a second\n", name, least, most }' "$work/$1.runs"
}
for name in ours ours-65536 gated-1 gated-65536 echo chronyd; do
    [ ! -e "$work/$name.runs" ] || least "$name" | tee "$work/$name.least"
done
share=$(cat "$work/ours.least" "$work/echo.least" | awk '{ ns[NR] = $2 }
    END { printf "%.2f %.0f\n", ns[1] / ns[2], 100 * (ns[1] - ns[2]) / ns[1] }')
echo "ours to the echo: ${share% *} (aim: 1.2); the share that is ours: ${share#* } of a hundred"

cat "$work/ours.least" "$work/gated-1.least" "$work/ours-65536.least" "$work/gated-65536.least" | awk '{ ns[NR] = $2 }
    END { printf "with a table of clients: %.2f times with one client, %.2f times with 65536 (aim: 1.1)\n", ns[2] / ns[1], ns[4] / ns[3] }'

# The user instructions of a program's command that serves $1 turns at the port $2.
instructions() {
    turns=$1 at=$2
    shift 2
    python3 -B -m bench.ask_on "$at" &
    client=$!
    servers="$servers $client"
    valgrind --tool=callgrind --callgrind-out-file="$work/callgrind" "$@" > "$work/counted" 2> "$work/valgrind"
    kill "$client"
    grep -q "\(^\| answered \)$turns\( \|$\)" "$work/counted" || { echo "not $turns turns: $(tail -n 3 "$work/counted")" >&2; exit 1; }
    sed -n 's/^summary: //p; s/^totals: //p' "$work/callgrind" | head -n 1
}
if command -v valgrind > /dev/null; then
    count=2000
    at=$(port)
    station "$at" > "$work/counted.toml"
    serve() { instructions "$1" "$at" "$program" serve --station "$work/counted.toml" --during 0 --after "$1"; }
    reflect() { instructions "$1" "$at" "$work/echo" "$at" "$1"; }
    of_ours=$(serve "$count")
    of_ours=$((($(serve $((2 * count))) - of_ours) / count))
    of_echo=$(reflect "$count")
    of_echo=$((($(reflect $((2 * count))) - of_echo) / count))
    echo "ours: $of_ours user instructions a reply (aim: 1000); echo: $of_echo"
fi

# A journal that is full to its last entry: each mark of an MSF log that is Long closes a segment, of one mark, which is refused. The
# last mark of such a log is never given, and the first one closes nothing.
limit=1048576
python3 -B - "$limit" > "$work/long.log" <<'PY'
import sys
for at in range(int(sys.argv[1]) + 2):
    print(at * 1_000_000, 500_000)
PY
printf '[[radio]]\nplan = "msf"\nlog = "%s"\n' "$work/long.log" > "$work/long.toml"
: > "$work/none.toml"
full=$("$work/measure" 1 "$program" serve --station "$work/long.toml" --limit "$limit")
none=$("$work/measure" 1 "$program" serve --station "$work/none.toml" --limit 1)
"$program" serve --station "$work/long.toml" --limit "$limit" | tail -n 2 | head -n 1 | grep -q "^page $limit " || { echo "the journal isn't full" >&2; exit 1; }
echo "memory at most: ${full#* } KiB with $limit entries kept, $((${full#* } * 1024 / limit)) bytes an entry (aim: 160); ${none#* } KiB with none"

awk -v ratio="${share% *}" -v bound="$BOUND" 'BEGIN { exit !(ratio <= bound) }' || { echo "above $BOUND times the echo" >&2; exit 1; }
