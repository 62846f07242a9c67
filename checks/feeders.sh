#!/bin/sh
# The whole way of a radio: edges of the examples' logs, with noise on the line, go through the feeder
# and a FIFO into `serve`, whose journal has to be what `decode` says of those logs. No hardware is needed. It takes a minute.
#
#     checks/feeders.sh
set -u
cd "$(dirname "$0")/.." || exit 1
name=feeders
. checks/serving.sh

# The edges of a log, on a line that is low while the carrier is reduced, with a spike of 2 ms after each reduction.
edges() {
    awk '{
        split($1 " " $1 + $2 " " $1 + $2 + 20000 " " $1 + $2 + 22000, at, " ")
        for (i = 1; i <= 4; i++) printf "%d.%06d000\t%s\tgpiochip0 17\n", int(at[i] / 1000000), at[i] % 1000000, i % 2 ? "falling" : "rising"
    }' "$1"
}

for plan in dcf:dcf77 msf:msf wwvb:wwvb; do
    mkfifo "$work/${plan%:*}"
    printf '[[radio]]\nplan = "%s"\nlog = "%s"\n\n' "${plan%:*}" "$work/${plan%:*}" >> "$work/station.toml"
    edges "examples/radios/${plan#*:}.log" | feeders/edges_to_log.py --low > "$work/${plan%:*}" &
done
timeout 60 "$program" serve --station "$work/station.toml" --during 0 > "$work/served" || wrong "serve ends with $?: $(tail -n 1 "$work/served")"
wait
feed=0
for plan in dcf:dcf77 msf:msf wwvb:wwvb; do
    "$program" decode --plan "${plan%:*}" --log "examples/radios/${plan#*:}.log" | sed '$d; s/^0 //' > "$work/due"
    sed -n "s/^j2 [0-9]* [-0-9]* $feed //p" "$work/served" > "$work/told"
    [ -s "$work/due" ] || wrong "the log of $plan says nothing"
    cmp -s "$work/due" "$work/told" || wrong "feed $feed reports something else than its log: $(diff "$work/due" "$work/told" | head -n 3)"
    feed=$((feed + 1))
done

# Steady starts change no word of what is said, and no moment by more than 80 ms.
for plan in dcf:dcf77 msf:msf wwvb:wwvb; do
    "$program" decode --plan "${plan%:*}" --log "examples/radios/${plan#*:}.log" > "$work/due"
    feeders/steady.py < "examples/radios/${plan#*:}.log" | "$program" decode --plan "${plan%:*}" --log /dev/stdin > "$work/steady"
    paste -d ' ' "$work/due" "$work/steady" | awk '
        $1 == "status" { if ($0 != "status 0 status 0") bad = 1; next }
        { half = NF / 2; if (NF % 2 || $2 - $(half + 2) > 80000 || $(half + 2) - $2 > 80000) bad = 1 }
        { for (i = 3; i <= half; i++) if ($i != $(half + i)) bad = 1 }
        END { exit bad }' || wrong "steady starts change what the log of $plan says"
done

[ "$bad" = 0 ] && echo "$name: $feed radios through FIFOs"
exit "$bad"
