#!/bin/sh
# How long replaying takes: ns a line of the built program, over scripts of 100 thousand and of a million lines. They are of one station with
# twelve radios and four servers, and have an exchange with each server and a client's request in each minute. Beside it `decode` runs over
# the pulses of that station's first DCF77 radio. It prints the peak memory of each, too. A line costs the same however long the script
# is, and memory doesn't grow with it. It builds nothing: run ./radio_ntpd once before.
#
#     bench/replay.sh [SHORT LONG [RUNS]]
set -eu
short=${1:-100000}
long=${2:-1000000}
runs=${3:-5}
. "$(dirname "$0")/built.sh"
python3 -B -m bench.make_script --station > "$work/station"
python3 -B -m bench.make_script --lines "$long" > "$work/long"
head -n "$short" "$work/long" > "$work/short"
sed -n 's/^pulse 0 //p' "$work/long" > "$work/log"

gcc -O2 -o "$work/measure" "$top/bench/measure.c"

# Measures a command over a file; $1 names it.
measure() {
    name=$1 file=$2 result=$3
    shift 3
    "$work/measure" "$runs" "$@" > "$result"
    wc -l < "$file" >> "$result"
    awk -v name="$name" 'NR == 1 { ns = $1; peak = $2 } NR == 2 { lines = $1 }
        END { printf "%-8s %9d lines %9.1f ns a line %8d KiB at most\n", name, lines, ns / lines, peak }' "$result"
}

echo "the least of $runs runs"
measure replay "$work/short" "$work/of_short" "$program" replay --station "$work/station" --script "$work/short"
measure replay "$work/long" "$work/of_long" "$program" replay --station "$work/station" --script "$work/long"
measure decode "$work/log" "$work/of_log" "$program" decode --plan dcf --log "$work/log"

# The cost of a line after the short script, without what starting costs.
python3 -B - "$work/of_short" "$work/of_long" "$work/of_log" <<'PY'
import sys
(short_time, short_peak, short), (long_time, long_peak, long), (decode_time, _, pulses) = (
    tuple(map(float, open(name).read().split())) for name in sys.argv[1:]
)
line, pulse = (long_time - short_time) / (long - short), decode_time / pulses
print(f"a line after the first {short:.0f}: {line:.1f} ns, {line / pulse:.2f} times a pulse of decode")
print(f"memory of the long script less that of the short one: {long_peak - short_peak:.0f} KiB")
PY

# Every minute is received whole: each radio's first is alone and the others agree, each answer of a server is a sample, each request
# is answered, and all is kept.
"$program" replay --station "$work/station" --script "$work/long" > "$work/text"
python3 -B - "$work/long" "$work/text" <<'PY'
import collections, sys
words = collections.Counter(line.split()[0] for line in open(sys.argv[1]))
text = open(sys.argv[2]).read().splitlines()
fields = [line.split() for line in text]
told = collections.Counter(line[5] if line[0] == "j2" else line[0] for line in fields)
numbers = [int(line[1]) for line in fields if line[0] == "j2"]
entries = told["lone"] + told["verdict"] + told["sample"]
due = {"lone": 12, "verdict": told["verdict"], "asked": words["ask"], "sample": words["answer"], "reply": words["request"], "page": 1, "status": 1}
if dict(told) != due or text[-1] != "status 0" or not text[-2].startswith(f"page {entries} 1 ") or told["verdict"] < 12 * (words["request"] - 2) or numbers != list(range(1, entries + 1)):
    sys.exit(f"the text isn't that of the script: {dict(told)}, {text[-2]}, {text[-1]}")
print(f"{entries} entries, {words['request']} replies, status 0")
PY
