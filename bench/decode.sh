#!/bin/sh
# How long decoding takes: processor time a pulse of the built program, beside a plain C decoder and a plain C line reader of the same
# log in the same run, by turns, so that what else the machine does falls on all of them. It builds nothing of ours: run ./radio_ntpd
# once before.
#
#     bench/decode.sh [MINUTES [RUNS]]
#
# 90000 minutes are 5.3 million pulses.
set -eu
minutes=${1:-90000}
runs=${2:-9}
. "$(dirname "$0")/built.sh"
python3 -B -m lab.receiver --plan dcf --minutes "$minutes" --jitter 2.5 > "$work/log"
gcc -O2 -o "$work/plain" "$top/bench/plain_decoder.c"
python3 -B - "$runs" "$program" "$work/plain" "$work/log" <<'PY'
import os, resource, subprocess, sys
runs, program, plain, log = int(sys.argv[1]), *sys.argv[2:]
commands = {
    "radio_ntpd decode": [program, "decode", "--plan", "dcf", "--log", log],
    "plain C decoder": [plain, "decode", log],
    "plain C reader of lines": [plain, "read", log],
}
with open(log) as lines:
    pulses = sum(1 for _ in lines)
def spent():
    used = resource.getrusage(resource.RUSAGE_CHILDREN)
    return used.ru_utime + used.ru_stime
least = {}
for _ in range(runs):
    for name, command in commands.items():
        begin = spent()
        subprocess.run(command, stdout=subprocess.DEVNULL, check=True)
        least[name] = min(spent() - begin, least.get(name, 1e9))
print(f"{pulses} pulses, the least of {runs} runs, at a load of {os.getloadavg()[0]:.0f}")
for name, took in least.items():
    print(f"{name:28} {took * 1e9 / pulses:8.1f} ns of processor a pulse, {took / least['plain C decoder']:.2f} times plain C's decoder")
PY

"$program" decode --plan dcf --log "$work/log" > "$work/ours"
"$work/plain" decode "$work/log" > "$work/plain.text"
if cmp -s "$work/ours" "$work/plain.text"; then echo "both decoders wrote the same text"; else
    echo "the two texts differ:"; diff "$work/ours" "$work/plain.text" | head -n 4; exit 1
fi
