#!/bin/sh
# Instructions of the built program, by callgrind: a pulse of `decode` beside plain C, a line of `replay` and of `migrate`, each the
# difference of two lengths, and a whole `drill`. What the machine does besides changes none of them, but for some of `drill`, whose
# threads wait for one another. It builds nothing: run ./radio_ntpd once before. It needs gcc, python3 and valgrind, and takes minutes.
#
#     bench/program_count.sh
set -eu
. "$(dirname "$0")/built.sh"
for plan in dcf msf wwvb; do
    python3 -B -m lab.receiver --plan "$plan" --minutes 600 --jitter 2.5 > "$work/$plan.long"
    head -n "$(($(wc -l < "$work/$plan.long") / 2))" "$work/$plan.long" > "$work/$plan.short"
done
python3 -B -m bench.make_script --station > "$work/station"
python3 -B -m bench.make_script --lines 40000 > "$work/script.long"
head -n 20000 "$work/script.long" > "$work/script.short"
# Journals of four servers' samples, as bench/migrate.sh has them.
python3 -B - > "$work/journal.long" <<'PY'
for i in range(4000):
    noise = i * 7919 % 40009
    print(f"{i % 4} {i * 1000000} sample {17077896086183477248 + noise} {21474836 + noise} 4294968 1 {i % 4:08x} 10 10")
PY
head -n 2000 "$work/journal.long" > "$work/journal.short"
printf '[[server]]\naddress = "0.0.0.%d"\nport = 123\n' 0 1 2 3 > "$work/servers"
gcc -O2 -o "$work/plain" "$top/bench/plain_decoder.c"

# The instructions of a command.
count() {
    valgrind --tool=callgrind --callgrind-out-file=/dev/null "$@" 2>&1 > "$work/text" | sed -n 's/.*Collected *: *\([0-9]*\).*/\1/p'
}

# Prints what a line of the file $2 costs; $1 names the command that follows, with FILE in the place of the file.
line() {
    name=$1 file=$2
    shift 2
    for length in short long; do
        words=
        for word; do [ "$word" = FILE ] && word="$work/$file.$length"; words="$words $word"; done
        count $words >> "$work/counts"
        wc -l < "$work/$file.$length" >> "$work/counts"
    done
    awk -v name="$name" '{ n[NR] = $1 } END { printf "%-24s %8.1f instructions a line\n", name, (n[3] - n[1]) / (n[4] - n[2]) }' "$work/counts"
    rm "$work/counts"
}

for plan in dcf msf wwvb; do
    line "decode, $plan" "$plan" "$program" decode --plan "$plan" --log FILE
done
line 'plain C decoder, dcf' dcf "$work/plain" decode FILE
line replay script "$program" replay --station "$work/station" --script FILE
line migrate journal "$program" migrate --station "$work/servers" --journal FILE
printf '%-24s %8.1f million instructions\n' drill "$(count "$program" drill --seed 7 | awk '{ print $1 / 1e6 }')"
