#!/bin/sh
# What a reply costs: instructions a reply, counted by callgrind over the loop alone, of a small program that reads a page
# from its ten words and answers a request from it, beside plain C that does the same. The program is built in a temporary
# folder over copies of the crates, which proves them first (some minutes where nothing is kept). Needs rt, valgrind, gcc.
#
#     bench/reply.sh [REPLIES]
set -eu
replies=${1:-10000}
. "$(dirname "$0")/small_program.sh"
bring "$work" tick_units ntp_packet clock_page reply_core
mkdir -p "$work/crates/reply_loop/src"
echo 'reply_loop: tick_units clock_page reply_core' >> "$work/crates.txt"
cp "$top/bench/programs/reply_loop.rt.in" "$work/crates/reply_loop/src/main.rt"
gcc -O2 -o "$work/plain" "$top/bench/plain_reply.c"
build "$work/crates/reply_loop" 1
ours="$work/crates/reply_loop/out/reply_loop"

# The instructions of a run with that many replies.
count() {
    valgrind --tool=callgrind --callgrind-out-file=/dev/null "$@" 2>&1 > "$work/sum" | sed -n 's/.*Collected : //p'
}
for name in ours plain; do
    if [ $name = ours ]; then program=$ours; else program="$work/plain"; fi
    none=$(count "$program" 0)
    all=$(count "$program" "$replies")
    cp "$work/sum" "$work/sum.$name"
    echo "$name: $(((all - none) / replies)) instructions a reply"
done
cmp "$work/sum.ours" "$work/sum.plain" && echo "both wrote the same replies, by their sum"
