#!/bin/sh
# How long a drill takes, and its memory: beside `decode` of the same three logs one after the other, in the same run. It builds nothing of
# ours: run ./radio_ntpd once before.
#
#     bench/drill.sh [RUNS]
#
# With four processors the drill is to take at most 1.3 times the longest of the three, and at most 16 MB beside the room of a journal of a
# million entries.
set -eu
runs=${1:-20}
. "$(dirname "$0")/built.sh"
gcc -O2 -o "$work/measure" "$top/bench/measure.c"
for plan in dcf msf wwvb; do
    python3 -B -c "from lab.model.spelling import made_log; print(made_log('$plan', 7).decode(), end='')" > "$work/$plan"
done
echo "three logs of $(cat "$work/dcf" "$work/msf" "$work/wwvb" | wc -c) bytes, the least of $runs runs on $(nproc) processors"
for plan in dcf msf wwvb; do
    printf '%-28s' "decode $plan"
    "$work/measure" "$runs" "$program" decode --plan "$plan" --log "$work/$plan"
done
printf '%-28s' 'drill'
"$work/measure" "$runs" "$program" drill --seed 7
printf '%-28s' 'drill of 4320 entries'
"$work/measure" "$runs" "$program" drill --seed 7 --limit 4320
