#!/bin/sh
# What a key costs: the instructions that a sealed reply takes more than one that isn't, counted by callgrind over the loop alone, beside
# OpenSSL's MD5 of the same bytes, once for the request and once for the reply. The program is built in a temporary folder over copies of
# the crates, which proves them first (some minutes where nothing is kept). Needs rt, valgrind, gcc, OpenSSL's headers.
#
#     bench/seal.sh [REPLIES]
set -eu
replies=${1:-10000}
. "$(dirname "$0")/small_program.sh"
bring "$work" tick_units ntp_packet packet_auth clock_page reply_core sealed_reply
mkdir -p "$work/crates/seal_loop/src"
echo 'seal_loop: tick_units clock_page packet_auth reply_core sealed_reply' >> "$work/crates.txt"
cp "$top/bench/programs/seal_loop.rt.in" "$work/crates/seal_loop/src/main.rt"
gcc -O2 -w -o "$work/plain" "$top/bench/plain_seal.c" -lcrypto
build "$work/crates/seal_loop" 1
ours="$work/crates/seal_loop/out/seal_loop"

# The instructions of a run.
count() {
    valgrind --tool=callgrind --callgrind-out-file=/dev/null "$@" 2>&1 > /dev/null | sed -n 's/.*Collected : //p'
}
sealed=$(($(count "$ours" "$replies") - $(count "$ours" 0)))
plain=$(($(count "$ours" "$replies" plain) - $(count "$ours" 0 plain)))
theirs=$(($(count "$work/plain" "$replies") - $(count "$work/plain" 0)))
echo "ours: $((sealed / replies)) instructions a sealed reply, $((plain / replies)) a reply that isn't"
echo "what the key costs: $(((sealed - plain) / replies)); OpenSSL's MD5 twice: $((theirs / replies))"
