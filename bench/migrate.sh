#!/bin/sh
# How long moving a journal over takes: ns a line of the built program, over journals of 100 thousand and of a million lines of four
# servers' samples, beside `wc -l` of the same files and beside the bare fold of the same entries with the page after each, in one
# run; and the peak memory of each. A line costs the same however long the journal is, and memory doesn't grow with it. The fold is a
# small program that is built in a temporary folder over copies of the crates, which proves what isn't kept. Needs rt, gcc, python3; it
# doesn't build the program: run ./radio_ntpd once before.
#
#     bench/migrate.sh [SHORT LONG [RUNS]]
set -eu
short=${1:-100000}
long=${2:-1000000}
runs=${3:-3}
. "$(dirname "$0")/built.sh"
. "$(dirname "$0")/small_program.sh"

bring "$work" tick_units outside_traits journal_entry clock_filter select_core cluster_core clock_page system_fold
echo "fold_loop: tick_units outside_traits journal_entry clock_page system_fold" >> "$work/crates.txt"
. "$top/bench/fold_program.sh"
mv "$work/loop" "$work/crates/fold_loop"
build "$work/crates/fold_loop" 1 0 1

# The entries of that program, as lines.
python3 -B - "$long" > "$work/long" <<'PY'
import sys
for i in range(int(sys.argv[1])):
    noise = i * 7919 % 40009
    print(f"{i % 4} {i * 1000000} sample {17077896086183477248 + noise} {21474836 + noise} 4294968 1 {i % 4:08x} 10 10")
PY
head -n "$short" "$work/long" > "$work/short"
printf '[[server]]\naddress = "0.0.0.%d"\nport = 123\n' 0 1 2 3 > "$work/station"
gcc -O2 -o "$work/measure" "$top/bench/measure.c"

# Measures a command over that many lines; $1 names it.
measure() {
    label=$1 count=$2
    shift 2
    "$work/measure" "$runs" "$@" > "$work/measured"
    awk -v label="$label" -v lines="$count" '{ printf "%-8s %9d lines %9.1f ns a line %8d KiB at most\n", label, lines, $1 / lines, $2 }' "$work/measured"
}

echo "the least of $runs runs"
for name in short long; do
    lines=$(wc -l < "$work/$name")
    measure migrate "$lines" "$program" migrate --station "$work/station" --journal "$work/$name"
    measure fold "$lines" "$work/crates/fold_loop/out/fold_loop" 4 0 "$lines"
    measure wc "$lines" "$(command -v wc)" -l "$work/$name"
done

# What was moved is itself.
"$program" migrate --station "$work/station" --journal "$work/short" > "$work/moved"
head -n -2 "$work/moved" > "$work/numbered"
"$program" migrate --station "$work/station" --journal "$work/numbered" | cmp - "$work/moved"
tail -n 1 "$work/moved"
