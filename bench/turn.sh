#!/bin/sh
# What an answered turn costs: user instructions a turn over a real loopback socket, counted by callgrind, of a small program that serves
# a number of datagrams, beside plain C that makes the same system calls and echoes what came. A client of Python asks. Twice as many
# turns less as many are counted, so that what comes before and after them falls out. The program is built in a temporary folder
# over copies of the crates, which proves them first (some minutes where nothing is kept). Needs rt, valgrind, gcc, python3.
#
#     bench/turn.sh [TURNS]
set -eu
turns=${1:-2000}
. "$(dirname "$0")/small_program.sh"
bring "$work" tick_units outside_traits host_links journal_entry clock_filter select_core cluster_core clock_page system_fold ntp_packet packet_auth \
    reply_core kiss_gate sealed_reply page_cell responder
mkdir -p "$work/crates/turn_loop/src" "$work/crates/turn_loop/proofs/settings_of_none"
echo "turn_loop: tick_units outside_traits host_links journal_entry system_fold packet_auth kiss_gate page_cell responder" >> "$work/crates.txt"
cp "$top/bench/programs/turn_loop.rt.in" "$work/crates/turn_loop/src/main.rt"
cat > "$work/crates/turn_loop/proofs/settings_of_none/Answers.antt" <<'ANTT'
use Rattle.std.proofs.Common.{rules, arith}
use Rattle.turn_loop.proofs.settings_of_none.Goals as goal

pub returns : goal.returns
returns c = record { milliseconds = 500; least = omega arith; most = omega arith; bound = search rules }
ANTT
gcc -O2 -o "$work/echo" "$top/bench/plain_echo.c"
build "$work/crates/turn_loop" 0 0
port=$(python3 -B -c 'from lab.client import free_port; print(free_port())')
python3 -B -m bench.ask_on "$port" &
client=$!
trap 'kill "$client"; rm -rf "$work"' EXIT

# The user instructions of a program that serves that many datagrams.
instructions() {
    valgrind --tool=callgrind --callgrind-out-file="$work/cg" "$1" "$port" "$2" > "$work/out" 2> "$work/err"
    [ "$(cat "$work/out")" = "$2" ] || { echo "answered $(cat "$work/out") of $2" >&2; exit 1; }
    sed -n 's/^summary: //p; s/^totals: //p' "$work/cg" | head -1
}
for program in "$work/crates/turn_loop/out/turn_loop" "$work/echo"; do
    once=$(instructions "$program" "$turns")
    twice=$(instructions "$program" "$((2 * turns))")
    echo "$(basename "$program"): $(((twice - once) / turns)) user instructions a turn"
done
