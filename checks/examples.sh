#!/bin/sh
# Runs the examples of README.md, docs/OPERATING.md and docs/COMMANDS.md, and compares their texts and statuses with what these pages say. The gate
# runs it after `rt ci`, on the program that it has built.
#
#     checks/examples.sh
set -u
cd "$(dirname "$0")/.." || exit 1
work=$(mktemp -d) || exit 1
trap 'rm -rf "$work"' EXIT
bad=0
checked=0

# The arguments end with the status $1 and the last line $2, which is empty where nothing is written.
ends() {
    status=$1 last=$2
    shift 2
    ./radio_ntpd "$@" > "$work/out"
    told=$?
    checked=$((checked + 1))
    if [ "$told" != "$status" ] || [ "$(tail -n 1 "$work/out")" != "$last" ]; then
        echo "examples: '$*' ends with $told and '$(tail -n 1 "$work/out")', not with $status and '$last'" >&2
        bad=1
    fi
}

# The last run wrote a line that begins so.
wrote() {
    checked=$((checked + 1))
    if ! grep -q "^$1" "$work/out"; then
        echo "examples: no line begins with '$1'" >&2
        bad=1
    fi
}

# A script that is replayed with the example's station.
script() {
    printf "$1" > "$work/script"
    shift
    ends "$@" replay --station examples/station.toml --script "$work/script"
}

# A station file that is refused so.
station() {
    printf "$1" > "$work/station"
    ends 3 "status 3 station $2" replay --station "$work/station" --script examples/exchange.script
}

# A text a number of times, one after the other.
repeated() {
    count=$1
    while [ "$count" -gt 0 ]; do
        printf '%s' "$2"
        count=$((count - 1))
    done
}

# docs/OPERATING.md ("Leap seconds")
ends 0 'status 0' replay --station examples/leap-second.toml --script examples/leap-second.script
wrote 'j2 1 0 1 0 notice 3692217600$'
wrote 'reply 640106ec.*dc12c4a680000000'
wrote 'j2 11 0 0 603000000 refused 3$'
wrote 'reply e40006ec'
wrote 'reply 240106ec.*dc12c68680000000'
wrote 'page 17 1 1 4d534600 15857951251850330112 963000000 '

# README.md, docs/COMMANDS.md ("Without a receiver") and docs/FORMATS.md
ends 0 'status 0' drill --seed 7
for feed in 0 1 2; do wrote "feed $feed verdict 1381 lone 30 differs 0 refused 29\$"; done
wrote 'page 4320 1 1 4d534600 17099604805104220025 86407001877 152740009690 0 328 ed4f51800047ba4e 0 -2987$'
ends 6 'status 6 full 3' drill --limit=3 --seed=7
ends 1 'status 1 usage' drill --seed 07

# README.md
ends 0 'status 0' decode --plan dcf --log examples/dcf77-hour.log
wrote '0 67000606 lone 4004773200$'
wrote '0 127001445 verdict 4004773260 0$'
wrote '0 487002471 refused 2$'
ends 0 'status 0' replay --station examples/station.toml --script examples/exchange.script
wrote 'asked 230006ec0000000000000000000000000000000000000000000000000000000000000000000000008000003200000000$'
wrote 'j2 5 20132 1 50009130 sample 17200369634135639483 37151467 8781 2 7f000001 256 512$'
wrote 'reply 240306ec000003060000f2407f000001eeb3fd3f0253111e1122334455667788eeb3fd4a00001977eeb3fd4a00036054$'
wrote 'page 5 1 3 7f000001 17200369634134243619 50009130 3641928076 774 62005 eeb3fd3f0253111e 0 20132$'

# A log, an exchange and both of them give a page with time.
sed 's/^/pulse 0 /' examples/dcf77-hour.log > "$work/radio.script"
grep -e ask -e answer examples/exchange.script | sort -s -n -k 3,3 - "$work/radio.script" > "$work/both.script"
for name in radio both; do
    ends 0 'status 0' replay --station examples/station.toml --script "$work/$name.script"
    wrote 'page [0-9]* 1 '
done

# What replay wrote is a journal: moving it over writes the same lines, whether they are numbered or not, and what was moved is itself.
ends 0 'status 0' replay --station examples/station.toml --script "$work/both.script"
cp "$work/out" "$work/replayed"
grep '^j2 ' "$work/replayed" > "$work/numbered"
sed 's/^j2 [0-9]* -\{0,1\}[0-9]* //' "$work/numbered" > "$work/bare"
for name in numbered bare; do
    ends 0 'status 0' migrate --station examples/station.toml --journal "$work/$name"
    grep -v '^asked \|^reply ' "$work/replayed" > "$work/wanted"
    checked=$((checked + 1))
    cmp -s "$work/out" "$work/wanted" || { echo "examples: a $name journal is moved to other lines" >&2; bad=1; }
done
ends 2 'status 2 open journal' migrate --station examples/station.toml --journal nosuch
ends 4 'status 4 read journal' migrate --station examples/station.toml --journal /
wrote 'page 0 0 0 494e4954 '
ends 5 "status 5 journal $(($(wc -l < "$work/numbered") + 1))" migrate --station examples/station.toml --journal "$work/wanted"
printf 'j2 2 0 0 62000000 lone 3976257600\n' > "$work/journal"
ends 5 'status 5 journal 1' migrate --station examples/station.toml --journal "$work/journal"
printf '2 62000000 lone 3976257600\n' > "$work/journal"
ends 5 'status 5 journal 1' migrate --station examples/station.toml --journal "$work/journal"

# The arguments.
ends 0 'status 0' --plan=dcf --log=examples/dcf77-hour.log -- decode
ends 1 'status 1 usage'
ends 1 'status 1 usage' replay --station examples/station.toml --script examples/exchange.script --limit 0

ends 1 'status 1 usage' decode --plan dcf --log "$(printf 'no\377utf8')"
# Nine arguments: the last of them is read too.
ends 6 'status 6 full 2' --limit 2 --station examples/station.toml --script examples/exchange.script -- replay
ends 1 'status 1 usage' --limit 2 --station examples/station.toml --script examples/exchange.script -- replay decode

# How it ends.
ends 2 'status 2 open feed 0' decode --plan dcf --log nosuch
ends 4 'status 4 read feed 0' decode --plan dcf --log /
ends 2 'status 2 open station' replay --station nosuch --script examples/exchange.script
ends 4 'status 4 read station' replay --station / --script examples/exchange.script
ends 4 'status 4 read script' replay --station examples/station.toml --script /
wrote 'page 0 0 0 494e4954 '
script 'ask 1 2000000\npulse 1 3000000 100000\n' 5 'status 5 script 2'
wrote 'asked '
wrote 'page 0 '
script 'swap 0\nswap 0\nswap 0\nswap 0\n' 5 'status 5 script 4'
wrote 'page 0 '
ends 6 'status 6 full 2' replay --station examples/station.toml --script examples/exchange.script --limit 2
wrote 'page 2 '
printf '1000000 100000\n2000000 10' > "$work/log"
ends 5 'status 5 line 0 2' decode --plan dcf --log "$work/log"
# A station file of one byte more than 65536, all of it a comment.
{ printf '#'; head -c 65536 /dev/zero | tr '\0' ' '; } > "$work/station"
ends 10 'status 10 long station' replay --station "$work/station" --script examples/exchange.script
# A journal that `migrate` takes has up to 4194304 lines, here of 20 bytes each; a line more is reported as a full journal.
yes '0 5 lone 3976257600' | head -n 4194304 > "$work/journal"
ends 0 'status 0' migrate --station examples/station.toml --journal "$work/journal"
wrote 'j2 4194304 0 0 5 lone 3976257600$'
wrote 'page 4194304 0 0 494e4954 0 5 0 '
echo '0 5 lone 3976257600' >> "$work/journal"
ends 6 'status 6 full 4194304' migrate --station examples/station.toml --journal "$work/journal"
rm "$work/journal"
# Standard streams that are closed: nothing is written to the file that is opened next, and the text can't be taken.
checked=$((checked + 1))
./radio_ntpd decode --plan dcf --log examples/dcf77-hour.log >&-
[ $? = 8 ] || { echo 'examples: a closed standard output does not end with 8' >&2; bad=1; }
./radio_ntpd decode --plan dcf --log examples/dcf77-hour.log > "$work/out" <&- 2>&-
if [ $? != 0 ] || [ "$(tail -n 1 "$work/out")" != 'status 0' ]; then
    echo 'examples: with a closed standard input and error a log is not decoded' >&2
    bad=1
fi
# Memory that runs out, at the least limit at which the program can begin at all.
checked=$((checked + 1))
limit=48
while [ "$limit" -lt 1000 ]; do
    (ulimit -d "$limit" && exec crates/radio_ntpd/out/radio_ntpd replay --station examples/station.toml \
        --script examples/exchange.script) > "$work/out" 2> /dev/null
    told=$?
    [ "$told" = 127 ] || [ "$told" = 139 ] || break
    limit=$((limit + 4))
done
if [ "$told" != 9 ] || [ "$(cat "$work/out")" != 'status 9 memory' ]; then
    echo "examples: want of memory ends with $told and '$(tail -n 1 "$work/out")'" >&2
    bad=1
fi
if [ -e /dev/full ]; then
    ./radio_ntpd decode --plan dcf --log examples/dcf77-hour.log > /dev/full
    [ $? = 8 ] || { echo 'examples: a full disk does not end with 8' >&2; bad=1; }
fi

# A station file that is refused.
station 'bound =' 'toml'
station 'holdover = 600\n' 'unknown holdover'
station 'leap = 1\n' 'unknown leap'
station '[[radio]]\nplan = "dcf"\n' 'missing radio.0.log'
station '[[radio]]\nplan = "jjy"\nlog = "a.log"\n' 'range radio.0.plan'
station 'radio = 3\n' 'range radio'
station "$(repeated 5 '[[radio]]\nplan = "dcf"\nlog = "a.log"\n')" 'many radio 5'
station "$(repeated 17 '[[server]]\naddress = "127.0.0.1"\nport = 123\n')" 'many radio 17'
station "$(repeated 9 '[[link]]\nport = 123\n')" 'many link 9'
station '[[key]]\nid = 1\nsecret = "a"\n[[key]]\nid = 1\nsecret = "b"\n' 'range key.1.id'
station '[[key]]\nid = 1\nsecret = "long wave"\n' 'range key.0.secret'
station "$(for id in 1 2 3 4 5 6 7 8 9; do printf '[[key]]\\nid = %s\\nsecret = "a"\\n' "$id"; done)" 'many key 9'

[ "$bad" = 0 ] && echo "examples: $checked as the pages say"
exit "$bad"
