#!/bin/sh
# What a judgement of the gate of clients costs: instructions, counted by callgrind, of a small program. It judges a request of each sender
# of a list, with a table of a number of clients. The senders are spread, no two alike; or made to fall into one place of the table; or ask
# by turns, so that each is known, and passes or comes too soon. A run of fewer judgements is taken off, so that what comes before does not
# count. With a full table of the most clients those that fall into one place take too long for callgrind. They are timed, which takes a
# minute and a half of processor time. The
# program is built in a temporary folder over copies of the crates, which proves them first (some minutes where nothing is kept). Needs
# rt, valgrind, gcc, python3.
#
#     bench/client_gate.sh
set -eu
. "$(dirname "$0")/small_program.sh"
bring "$work" tick_units ntp_packet clock_page reply_core kiss_gate
mkdir -p "$work/crates/gate_loop/src"
echo "gate_loop: tick_units reply_core kiss_gate" >> "$work/crates.txt"
cp "$top/bench/programs/gate_loop.rt.in" "$work/crates/gate_loop/src/main.rt"
gcc -O2 -o "$work/find" "$top/bench/find_senders.c"
loop=$work/crates/gate_loop
: > "$loop/senders"
build "$loop" 0 0 0
program=$loop/out/gate_loop
mkdir "$work/spread" "$work/place" "$work/most" "$work/known" "$work/soon"
python3 -c '
import random, struct, sys
random.seed(1)
sys.stdout.buffer.write(struct.pack("<110000I", *random.sample(range(1, 2 ** 32), 110000)))' > "$work/spread/senders"
python3 -c '
import random, struct, sys
random.seed(2)
sys.stdout.buffer.write(struct.pack("<1024I", *random.sample(range(1, 2 ** 32), 1024)) * 12)' > "$work/known/senders"
cp "$work/known/senders" "$work/soon/senders"
"$work/find" 128 1 8000 > "$work/place/senders"
"$work/find" 8192 64 80000 > "$work/most/senders"

# The instructions of a run over that many senders of a list with a gap. Each of them is new and passes, or is known and asks a thousand
# microseconds later: with a gap of one microsecond it passes, with one of a minute only the first 1024 do.
instructions() {
    gap=60000000
    passes=$3
    if [ "$1" = known ]; then gap=1; elif [ "$1" = soon ]; then passes=1024; fi
    (cd "$work/$1" && valgrind --tool=callgrind --callgrind-out-file=/dev/null "$program" "$2" "$3" "$gap" 2> "$work/err" > "$work/passed")
    [ "$(cat "$work/passed")" = "$passes" ] || { echo "passed $(cat "$work/passed") of $3" >&2; exit 1; }
    sed -n 's/.*Collected : //p' "$work/err"
}

# How many a judgement takes, with a full table of that many clients.
judgement() {
    few=$(instructions "$1" "$2" "$3")
    more=$(instructions "$1" "$2" "$4")
    echo "$1, $2 clients: $(((more - few) / ($4 - $3))) instructions a judgement"
}
judgement spread 1 5000 15000
judgement spread 1024 5000 15000
judgement spread 65536 80000 100000
judgement known 1024 2000 12000
judgement soon 1024 2000 12000
judgement place 256 3000 5000
judgement place 1024 3000 5000
(cd "$work/most" && python3 - "$program" <<'PYTHON'
import os, subprocess, sys
def seconds(count):
    before = os.times()
    subprocess.run([sys.argv[1], '65536', str(count), '60000000'], check=True, stdout=subprocess.DEVNULL)
    return os.times().children_user - before.children_user
few, more = seconds(66000), seconds(72000)
print(f'most, 65536 clients: {(more - few) / 6000 * 1e3:.2f} ms of processor time a judgement')
# The 8192nd sender after a full table finds no lane that is free, and all is put in anew.
few, more = seconds(73700), seconds(73760)
print(f'most, 65536 clients: {more - few:.1f} s of processor time for 60 judgements, in one of which the table is made anew')
PYTHON
)
