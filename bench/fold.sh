#!/bin/sh
# What an entry costs in a fold, with the page after it: instructions an entry, counted by callgrind, of a small program that folds
# the answers of some servers, none or some of them ten seconds off. It is built in a temporary folder over copies of the crates, which
# proves them first (some minutes where nothing is kept). Needs rt, valgrind.
#
#     bench/fold.sh [ENTRIES]
set -eu
entries=${1:-200}
. "$(dirname "$0")/small_program.sh"
bring "$work" tick_units outside_traits journal_entry clock_filter select_core cluster_core clock_page system_fold
. "$top/bench/fold_program.sh"
echo "fold_loop: tick_units outside_traits journal_entry clock_page system_fold" >> "$work/crates.txt"
mv "$work/loop" "$work/crates/fold_loop"
build "$work/crates/fold_loop" 1 0 1

# The instructions of a run with a number of servers, of them off, and of entries.
count() {
    # A block that is filled counts by its stores, and not, as `rep stosb` does from 2048 bytes on, by its bytes.
    GLIBC_TUNABLES=glibc.cpu.x86_rep_stosb_threshold=1000000 valgrind --tool=callgrind --callgrind-out-file=/dev/null "$work/crates/fold_loop/out/fold_loop" "$@" 2>&1 > "$work/sum" |
        sed -n 's/.*Collected : //p'
}
for case in "16 0" "16 4" "16 7" "8 0" "8 3" "4 0" "4 1"; do
    # Once all servers are fit.
    less=$(count $case "$entries")
    more=$(count $case $((2 * entries)))
    echo "${case% *} servers, ${case#* } off: $(((more - less) / entries)) instructions an entry"
done
