#!/bin/sh
# Looks at what the program says on standard error, a row for each message of docs/STANDARD_ERROR.md, and that standard output and the
# exit status stay what they are. The program has to be built; RADIO_NTPD names it where it isn't the one of this folder.
#
#     checks/messages.sh
set -u
cd "$(dirname "$0")/.." || exit 1
program=${RADIO_NTPD:-$PWD/crates/radio_ntpd/out/radio_ntpd}
work=$(mktemp -d) || exit 1
trap 'rm -rf "$work"' EXIT
bad=0
messages=0

wrong() {
    echo "messages: $1" >&2
    bad=1
}

# The arguments end with the status $1 and the last line $2, and standard error has the text $3; with an empty $3 it is empty.
says() {
    status=$1 last=$2 text=$3
    shift 3
    timeout 20 "$program" "$@" > "$work/out" 2> "$work/said" < /dev/null
    told=$?
    messages=$((messages + 1))
    [ "$told:$(tail -n 1 "$work/out")" = "$status:$last" ] ||
        wrong "'$*' ends with $told and '$(tail -n 1 "$work/out")', not with $status and '$last'"
    if [ -z "$text" ]; then
        [ ! -s "$work/said" ] || wrong "'$*' says '$(head -n 1 "$work/said")'"
    else
        grep -qF -- "$text" "$work/said" || wrong "'$*' says '$(head -n 1 "$work/said")', not '$text'"
    fi
}

# Arguments that ask for no command: what is wrong, and the five command lines.
usage() {
    says 1 'status 1 usage' "$@"
    [ "$(grep -c '^radio_ntpd [a-z]* --' "$work/said")" = 5 ] || wrong 'there are not five command lines'
}

# A station file that is refused.
station() {
    printf "$1" > "$work/station"
    says 3 "status 3 station $2" "radio_ntpd: the station file ($work/station): $3" \
        replay --station "$work/station" --script examples/exchange.script
}

# The page and the source have the same sentences.
python3 -B -m checks.pages.texts || bad=1

# Nothing is said where nothing is wrong.
says 0 'status 0' '' decode --plan dcf --log examples/dcf77-hour.log
says 0 'status 0' '' drill --seed 7
# A log whose one whole minute is alone gave a minute too.
awk '$1 < 68000000' examples/dcf77-hour.log > "$work/log"
says 0 'status 0' '' decode --plan dcf --log "$work/log"
grep -q ' lone ' "$work/out" || wrong 'there is no lone minute'

# The help is one screen, and the version names the kit.
for word in --help -h help; do
    usage 'SEED      0 to 4294967295' "$word"
    [ "$(wc -l < "$work/said")" -le 24 ] || wrong 'the help has more than 24 lines'
    [ "$(awk 'length > 80' "$work/said" | wc -l)" = 0 ] || wrong 'the help has lines of more than 80 characters'
done
usage 'SEED      0 to 4294967295'
says 1 'status 1 usage' 'radio_ntpd 0.3.0' --version
says 1 'status 1 usage' 'rattle-kit-' --version

# The pages, the keeper and the program say the same version, and README the kit's line.
for page in "README.md:Version 0.3.0" "CHANGELOG.md:## 0.3.0" "docs/radio_ntpd.8:version 0.3.0" 'keeper/__init__.py:VERSION = "0.3.0"'; do
    grep -qF "${page#*:}" "${page%%:*}" || wrong "${page%%:*} does not have '${page#*:}'"
done
kit=$("$program" --version 2>&1 > /dev/null | sed -n 's/^to be proved and built with //p')
grep -qF "$kit" README.md || wrong "README.md does not have '$kit'"

# The arguments.
usage 'radio_ntpd: unknown option --staton' serve --staton examples/station.toml
usage 'radio_ntpd: --station has no value' serve --station
usage 'radio_ntpd: --log has no value' decode --plan dcf --log ''
usage 'radio_ntpd: --station has no value' serve --station --during 5
usage 'radio_ntpd: --log wants a file' decode --plan dcf --log -
usage 'radio_ntpd: --log has no value: -x begins with a hyphen' decode --plan dcf --log -x
usage 'radio_ntpd: --seed wants a whole number from 0 to 4294967295' drill --seed -1
usage 'radio_ntpd: --during wants a whole number from 0 to 1000000' serve --station a --during -1
usage 'radio_ntpd: a.log stands alone: a file goes after --log' decode a.log
usage 'radio_ntpd: b.log stands alone: a file goes after --log' decode --plan dcf --log a.log b.log
usage 'radio_ntpd: a.toml stands alone: a file goes after --station' serve a.toml
usage 'radio_ntpd: 7 stands alone: a number goes after --seed' drill 7
# Of several faults the first row of the page counts.
usage 'radio_ntpd: --log is given twice' drill --log a --log b
usage 'radio_ntpd: --plan wants dcf, msf or wwvb' decode --plan x
usage 'radio_ntpd: unknown option --staton' decode --staton a --log
usage 'radio_ntpd: unknown option --bad' --bad --help
usage 'radio_ntpd: no command' --seed 7
usage 'radio_ntpd: unknown command server' server
usage 'radio_ntpd: two commands, serve and decode' serve decode
usage 'radio_ntpd: two commands, serve and --station' serve -- --station a
usage 'radio_ntpd: --seed is given twice' drill --seed 7 --seed=8
usage 'radio_ntpd: drill has no option --log' drill --seed 7 --log a
usage 'radio_ntpd: decode needs --log' decode --plan dcf
usage 'radio_ntpd: --plan wants dcf, msf or wwvb' decode --plan DCF77 --log a
usage 'radio_ntpd: --seed wants a whole number from 0 to 4294967295' drill --seed 07
usage 'radio_ntpd: --limit wants a whole number from 1 to 4194304' drill --seed 7 --limit 0
usage 'radio_ntpd: --during wants a whole number from 0 to 1000000' serve --station a --during 1000001
usage 'radio_ntpd: --after wants a whole number from 0 to 1000000' serve --station a --after +1
# A value after `=` is one like any other; each number has its bounds and each command its options (docs/STANDARD_ERROR.md, docs/radio_ntpd.8).
usage 'radio_ntpd: --log has no value' decode --plan dcf --log=
usage 'radio_ntpd: --seed wants a whole number from 0 to 4294967295' drill --seed=-1
usage 'radio_ntpd: --seed wants a whole number from 0 to 4294967295' drill --seed 4294967296
usage 'radio_ntpd: --limit wants a whole number from 1 to 4194304' drill --seed 4294967295 --limit 4194305
usage 'radio_ntpd: --after wants a whole number from 0 to 1000000' serve --station a --after 1000001
usage 'radio_ntpd: serve needs --station' serve --during 1000000 --after 0 --limit 1
usage 'radio_ntpd: drill needs --seed' drill --limit 4194304
usage 'radio_ntpd: replay needs --script' replay --station a --limit 5
usage 'radio_ntpd: migrate has no option --limit' migrate --station a --journal b --limit 5
usage 'radio_ntpd: unknown option -station' serve -station a
usage 'radio_ntpd: an argument is not UTF-8' decode --plan dcf --log "$(printf 'no\377utf8')"

# Openings.
says 2 'status 2 open feed 0' 'radio_ntpd: cannot open the log (nosuch): there is no such file' decode --plan dcf --log nosuch
says 2 'status 2 open station' 'radio_ntpd: cannot open the station file (nosuch): there is no such file' serve --station nosuch
says 2 'status 2 open script' 'radio_ntpd: cannot open the script (nosuch): there is no such file' replay --station examples/station.toml --script nosuch
says 2 'status 2 open journal' 'radio_ntpd: cannot open the journal (nosuch): there is no such file' migrate --station examples/station.toml --journal nosuch
long=$(printf '%0300d' 0)
says 2 'status 2 open feed 0' "radio_ntpd: cannot open the log ($long): the host refuses it" decode --plan dcf --log "$long"
printf 'leap_file = "nosuch.list"\n[[radio]]\nplan = "dcf"\nlog = "examples/dcf77-hour.log"\n' > "$work/station"
says 2 'status 2 open feed 1' 'radio_ntpd: cannot open feed 1 (nosuch.list): there is no such file' serve --station "$work/station"
# Feeds are the radios, the servers and then the leap second file; each is named, also of a station of many bytes.
radio='[[radio]]\nplan = "dcf"\nlog = "examples/dcf77-hour.log"\n'
server='[[server]]\naddress = "192.0.2.9"\nport = 4123\npolls = 0\n'
{ printf "leap_file = \"nosuch.list\"\n$radio$server$server"; printf '#%9000s\n' ''; } > "$work/station"
says 2 'status 2 open feed 3' 'radio_ntpd: cannot open feed 3 (nosuch.list): there is no such file' serve --station "$work/station"
printf '#%9000s\n' '' > "$work/station"
printf "$radio[[radio]]\nplan = \"msf\"\nlog = \"nosuch\"\n" >> "$work/station"
says 2 'status 2 open feed 1' 'radio_ntpd: cannot open feed 1 (nosuch): there is no such file' serve --station "$work/station"
# A station of exactly 65536 bytes, the last of which is the closing quote of the name.
end='[[radio]]
plan = "msf"
log = "nosuch"'
{ printf '#%*s\n' $((65536 - ${#end} - 2)) ''; printf '%s' "$end"; } > "$work/station"
[ "$(wc -c < "$work/station")" = 65536 ] || wrong 'the station does not have 65536 bytes'
says 2 'status 2 open feed 0' 'radio_ntpd: cannot open feed 0 (nosuch): there is no such file' serve --station "$work/station"
# A process that may have four files open has its second server's link refused.
printf "$server$(echo "$server" | sed 's/4123/4124/')" > "$work/station"
messages=$((messages + 1))
(ulimit -n 4 && exec "$program" serve --station "$work/station") > "$work/out" 2> "$work/said" < /dev/null 3>&-
told=$?
[ "$told:$(cat "$work/said")" = '2:radio_ntpd: cannot open feed 1 (192.0.2.9 port 4124): the host refuses it' ] ||
    wrong "a server's link that can't be opened ends with $told and says '$(cat "$work/said")'"
# A station that comes by a pipe is named too.
messages=$((messages + 1))
printf '[[radio]]\nplan = "dcf"\nlog = "nosuch"\n' | "$program" serve --station /dev/stdin > "$work/out" 2> "$work/said"
[ "$?:$(cat "$work/said")" = '2:radio_ntpd: cannot open feed 0 (nosuch): there is no such file' ] || wrong "a station by a pipe says '$(cat "$work/said")'"
port=$(python3 -B -m checks.ask port)
printf '[[link]]\nport = %s\n[[link]]\nport = %s\n' "$port" "$port" > "$work/station"
says 2 'status 2 open link 1' "radio_ntpd: cannot open link 1 (port $port): another program or link has the port" serve --station "$work/station"
other=$(python3 -B -m checks.ask port)
printf '[[link]]\nport = %s\n' "$port" "$other" "$other" > "$work/station"
says 2 'status 2 open link 2' "radio_ntpd: cannot open link 2 (port $other): another program or link has the port" serve --station "$work/station"
# Root may read every file, so it becomes nobody for this.
mkdir "$work/open"
: > "$work/open/secret"
chmod 711 "$work"
chmod 000 "$work/open/secret"
as_nobody=
[ "$(id -u)" != 0 ] || as_nobody='setpriv --reuid 65534 --regid 65534 --clear-groups'
if [ -z "$as_nobody" ] || $as_nobody "$program" drill --seed 7 > /dev/null 2>&1; then
    messages=$((messages + 1))
    $as_nobody "$program" decode --plan dcf --log "$work/open/secret" > "$work/out" 2> "$work/said"
    told=$?
    [ "$told:$(cat "$work/said")" = "2:radio_ntpd: cannot open the log ($work/open/secret): there is no right to read it" ] ||
        wrong "a file that may not be read ends with $told and says '$(cat "$work/said")'"
fi
# The rights that a process lacks are seen in a name space of its own, where there is one.
printf '[[link]]\nport = 123\n' > "$work/station"
if [ "$(cat /proc/sys/net/ipv4/ip_unprivileged_port_start)" -gt 123 ] && unshare -r true 2> /dev/null; then
    unshare -r "$program" serve --station "$work/station" > "$work/out" 2> "$work/said"
    messages=$((messages + 1))
    grep -qF 'cannot open link 0 (port 123): a port below 1024 needs a right' "$work/said" || wrong 'port 123 is not named'
fi

# Station files.
station 'bound =' toml 'line 1 is not TOML: invalid value'
station 'bound = [\n' toml 'line 1 is not TOML: '
station 'bound = 1\nbound = 2\n' toml 'line 2 is not TOML: duplicate key'
station 'bound = 1\r\nstart = 0\r\n# K\303\266ln\r\ngap =' toml 'line 4 is not TOML'
printf 'bound =' > "$work/station"
messages=$((messages + 1))
cat "$work/station" | "$program" serve --station /dev/stdin > "$work/out" 2> "$work/said"
grep -qF 'the station file (/dev/stdin): line 1 is not TOML: invalid value' "$work/said" || wrong "a station of a pipe says '$(cat "$work/said")'"
station 'boundd = 1\n' 'unknown boundd' 'there is no key boundd'
station '[[link]]\nport = 123\nbound = 1\n' 'unknown link.0.bound' 'there is no key link.0.bound; bound stands above the first [[..]]'
station '[[radio]]\nplan = "dcf"\n' 'missing radio.0.log' 'the key radio.0.log is missing'
# What each key wants, and how many there may be of each array.
while IFS='|' read -r text key wants; do
    station "$text" "range $key" "$key wants $wants"
done <<'ROWS'
bound = 0\n|bound|whole milliseconds, 1 to 16000
start = -1\n|start|whole microseconds, 0 to 562949953421312
gap = 60000001\n|gap|whole microseconds, 0 to 60000000
clients = 0\n|clients|a whole number, 1 to 65536
leap_file = ""\n|leap_file|the name of a file, in quotes
radio = 3\n|radio|a table [[radio]] for each radio
server = 3\n|server|a table [[server]] for each server
link = 3\n|link|a table [[link]] for each port
key = 3\n|key|a table [[key]] for each key
deny = 3\n|deny|a table [[deny]] for each net
[[radio]]\nplan = "jjy"\nlog = "a"\n|radio.0.plan|"dcf", "msf" or "wwvb", in quotes
[[radio]]\nplan = "dcf"\nlog = ""\n|radio.0.log|the name of a file, in quotes
[[radio]]\nplan = "dcf"\nlog = "a"\ndelay = 100001\n|radio.0.delay|whole microseconds, 0 to 100000
[[server]]\naddress = "ntp"\nport = 123\n|server.0.address|an IPv4 address as "192.0.2.1", in quotes; names and IPv6 are not served
[[server]]\naddress = "127.0.0.1"\nport = 0\n|server.0.port|a whole number, 1 to 65535
[[server]]\naddress = "127.0.0.1"\nport = 123\npolls = 100001\n|server.0.polls|a whole number, 0 to 100000
[[link]]\nport = "123"\n|link.0.port|a whole number, 1 to 65535
[[key]]\nid = 0\nsecret = "a"\n|key.0.id|a whole number, 1 to 4294967295, that no key before it has
[[key]]\nid = 1\nsecret = "a b"\n|key.0.secret|1 to 32 visible characters of ASCII, in quotes
[[deny]]\nnet = "192.0.2.0/33"\n|deny.0.net|a net of IPv4 as "198.51.100.0/24", in quotes
ROWS
many() {
    station "$(count=$1; while [ "$count" -gt 0 ]; do printf '%s' "$2" | sed "s/@/$count/"; count=$((count - 1)); done)" "many $3 $1" "$3 counts $1, and there may be $4"
}
many 5 '[[radio]]\nplan = "dcf"\nlog = "a"\n' radio '16 radios, servers and leap second files together, and 4 radios of a plan'
many 9 '[[link]]\nport = 123\n' link 8
many 9 '[[key]]\nid = @\nsecret = "a"\n' key 8
many 17 '[[deny]]\nnet = "192.0.2.0/24"\n' deny 16

# Reads, lines, a full journal, an output that takes no more, files that are too long.
says 4 'status 4 read feed 0' 'radio_ntpd: cannot read the log (/): it is a folder' decode --plan dcf --log /
says 4 'status 4 read station' 'radio_ntpd: cannot read the station file (/): it is a folder' serve --station /
says 4 'status 4 read script' 'radio_ntpd: cannot read the script (/): it is a folder' replay --station examples/station.toml --script /
says 4 'status 4 read journal' 'radio_ntpd: cannot read the journal (/): it is a folder' migrate --station examples/station.toml --journal /
# A bad line of a log, after one that starts at 1000000: the condition that it does not meet, and what is printable of it.
bad_log() {
    printf "1000000 100000\n$1" > "$work/log"
    says 5 'status 5 line 0 2' "radio_ntpd: line 2 of the log ($work/log) is bad: $2: '$3'" decode --plan dcf --log "$work/log"
}
while IFS='|' read -r line condition shown; do
    bad_log "$line" "$condition" "$shown"
done <<'ROWS'
2.5 100000\n|a number is not whole; both are whole microseconds|2.5 100000
\n|it is empty|
2000000 100000\r\n|a carriage return stands at its end|2000000 100000\r
2000000 100000\r3000000 100000\n|a carriage return stands in it; a line ends with a line feed|2000000 100000\r3000000 100000
12.345678901 rising gpiochip0 17\n|it is an edge of a receiver; edges_to_log.py makes a log of edges|12.345678901 rising gpiochip0 17
2000000\t100000\n|a tab stands in it; one space stands between START and WIDTH|2000000\t100000
# start width\n|a log has no remarks|# start width
-1 100000\n|a number is negative|-1 100000
2000000,100000\n|a comma or a semicolon stands in it; one space stands between START and WIDTH|2000000,100000
0x1e8480 100000\n|it has a byte that is no digit and no space|0x1e8480 100000
\357\273\2772000000 100000\n|a byte order mark stands before it|???2000000 100000
 2000000 100000\n|a space stands at its beginning| 2000000 100000
2000000 100000 \n|a space stands at its end|2000000 100000 
2000000  100000\n|two spaces stand in it|2000000  100000
2000000\n|it has one number; a line is START WIDTH|2000000
2000000 100000 1\n|it has more than two numbers; a line is START WIDTH|2000000 100000 1
02000000 100000\n|a number has a leading zero|02000000 100000
3000000 3100000\n|it looks like START END; a line is START WIDTH|3000000 3100000
100000 3000000\n|it looks like WIDTH START; a line is START WIDTH|100000 3000000
3000000000 100000000\n|its width looks like nanoseconds; the log wants microseconds|3000000000 100000000
1767261605000000 100000\n|its start is 2^50 (1125899906842624) or more, as a Unix time in microseconds is|1767261605000000 100000
2000000 0\n|its width is 0|2000000 0
5000000 2000001\n|its width is above 2000000 (2 s); a longer one is given as 2000000|5000000 2000001
1000000 100000\n|its start is not above that of the line before|1000000 100000
2000000 100000|the file ends before its line feed|2000000 100000
ROWS
# Of a line of 32 digits and spaces or more 40 bytes are shown.
bad_log '2000000 1000001234567890123456789012345678\n' 'it has 32 bytes or more' '2000000 10000012345678901234567890123456..'
# The line of a pipe is not read again.
messages=$((messages + 1))
printf '2.5 100000\n' | "$program" decode --plan dcf --log /dev/stdin > "$work/out" 2> "$work/said"
[ "$?:$(cat "$work/said")" = '5:radio_ntpd: line 1 of the log (/dev/stdin) is bad: a line is START WIDTH in whole microseconds, one space between them, and starts rise' ] ||
    wrong "a bad line of a pipe says '$(cat "$work/said")'"
# The radio log of a station has the same sentences, and its leap second file has its own.
printf '1000000 100000\n2.5 100000\n' > "$work/log"
printf '[[radio]]\nplan = "dcf"\nlog = "%s"\n' "$work/log" > "$work/station"
says 5 'status 5 line 0 2' "radio_ntpd: line 2 of feed 0 ($work/log) is bad: a number is not whole; both are whole microseconds: '2.5 100000'" \
    serve --station "$work/station"
bad_list() {
    printf "# a list\n3644697600 36\n$1" > "$work/list"
    printf 'leap_file = "%s"\n' "$work/list" > "$work/station"
    says 5 'status 5 line 0 3' "radio_ntpd: line 3 of feed 0 ($work/list) is bad: $2" serve --station "$work/station"
}
bad_list 'odd\n' "a row has two numbers, the second since 1900 at which a month begins and TAI less UTC from then on: 'odd'"
bad_list '3692217600 37 x\n' 'after its two numbers only a remark may stand, which begins with #'
bad_list '6311606400 37\n' 'its second is 6311606400 (2100-01-03) or more'
bad_list '3692217600 256\n' 'its difference is above 255'
bad_list '3644697600 37\n' 'its second is not above that of the row before'
bad_list '3692217600 38\n' 'its difference is not one more than that of the row before'
bad_list '3692217601 37\n' "its second begins no month of UTC: '3692217601 37'"
printf 'odd\n' > "$work/script"
says 5 'status 5 script 1' "radio_ntpd: line 1 of the script ($work/script) is bad: man radio_ntpd has the lines of a script, and docs/FORMATS.md which feed may have which: 'odd'" replay --station examples/station.toml --script "$work/script"
says 5 'status 5 journal 1' "radio_ntpd: line 1 of the journal ($work/script) is bad: man radio_ntpd has the lines of a journal; it may be of another station, or cut off: 'odd'" migrate --station examples/station.toml --journal "$work/script"
printf '0 1 lone 4004773200\r\n' > "$work/script"
says 5 'status 5 journal 1' "radio_ntpd: line 1 of the journal ($work/script) is bad: a carriage return stands at its end: '0 1 lone 4004773200\r'" migrate --station examples/station.toml --journal "$work/script"
says 6 'status 6 full 3' 'radio_ntpd: there were more entries than a journal may have: 3' drill --seed 7 --limit 3
if [ -e /dev/full ]; then
    "$program" decode --plan dcf --log examples/dcf77-hour.log > /dev/full 2> "$work/said"
    told=$?
    messages=$((messages + 1))
    [ "$told:$(cat "$work/said")" = '8:radio_ntpd: standard output took no more: it is closed, or its disk is full' ] ||
        wrong "a full disk says '$(cat "$work/said")'"
fi
"$program" decode --plan dcf --log examples/dcf77-hour.log 2> "$work/said" >&-
[ $? = 8 ] || wrong 'a closed output does not end with 8'
messages=$((messages + 1))
grep -q '^radio_ntpd: standard output took no more' "$work/said" || wrong "a closed output says '$(cat "$work/said")'"
head -c 65537 /dev/zero | tr '\0' '\n' > "$work/long"
says 10 'status 10 long station' "radio_ntpd: the station file ($work/long) has more than 65536 bytes" serve --station "$work/long"
{ printf '#'; head -c 65536 /dev/zero | tr '\0' ' '; } > "$work/long"
printf 'leap_file = "%s"\n' "$work/long" > "$work/station"
says 10 'status 10 long feed 0' "radio_ntpd: feed 0 ($work/long) has more than 65536 bytes" serve --station "$work/station"

# Memory that runs out: for the room of a large journal, and at the least limit at which the program can begin at all. The sentence of
# status 7 is in message_tests of crates/text_tests: no host fails a call of a link when it is asked to.
(ulimit -d 100000 && exec "$program" drill --seed 7 --limit 4194304) > "$work/out" 2> "$work/said"
told=$?
messages=$((messages + 1))
[ "$told:$(cat "$work/said")" = '9:radio_ntpd: no memory was found, and nothing was done' ] ||
    wrong "a journal without room ends with $told and says '$(cat "$work/said")'"
limit=48
while [ "$limit" -lt 1000 ]; do
    (ulimit -d "$limit" && exec "$program" replay --station examples/station.toml --script examples/exchange.script) \
        > "$work/out" 2> "$work/said"
    told=$?
    [ "$told" = 127 ] || [ "$told" = 139 ] || break
    limit=$((limit + 4))
done
messages=$((messages + 1))
[ "$told:$(cat "$work/said")" = '9:radio_ntpd: no memory was found, and nothing was done' ] ||
    wrong "want of memory ends with $told and says '$(cat "$work/said")'"

# A log that gives no minute: its hint. A log has COUNT lines, one a second; its first width and each sixtieth is FIRST, and the
# others are those after it in turn.
hint() {
    plan=$1 text=$2 count=$3 first=$4
    shift 4
    mark=0
    while [ "$mark" -lt "$count" ]; do
        width=$first
        if [ $((mark % 60)) != 0 ]; then
            width=$1
            shift
            set -- "$@" "$width"
        fi
        echo "$((mark * 1000000 + 1000000)) $width"
        mark=$((mark + 1))
    done > "$work/log"
    says 0 'status 0' "radio_ntpd: the log gave no minute: $text" decode --plan "$plan" --log "$work/log"
}
hint dcf 'widths look like milliseconds; the log wants microseconds' 120 100 100 200
hint msf 'it has fewer marks than a minute has' 58 500000 100000 200000
hint dcf 'its marks look like those of --plan wwvb' 120 800000 200000 500000 200000 800000
hint dcf 'its marks look like those of --plan msf' 120 500000 100000 200000 300000
says 0 'status 0' 'radio_ntpd: the log gave no minute: its marks look like those of --plan dcf' decode --plan msf --log examples/dcf77-hour.log
hint dcf 'its marks look like those of this plan, but no minute has them all' 120 100000 100000 200000
# The same of a counter that has counted for 31 years, whose lines are long.
awk '{ printf "1000%012d %s\n", $1, $2 }' "$work/log" > "$work/late"
says 0 'status 0' 'radio_ntpd: the log gave no minute: its marks look like those of this plan, but no minute has them all' \
    decode --plan dcf --log "$work/late"
hint dcf 'its marks are high where they should be low; give edges_to_log.py --low' 120 900000 900000 800000
hint wwvb 'its marks are high where they should be low; give edges_to_log.py --low' 120 200000 800000 500000 800000
hint dcf 'its marks look like those of this plan, each some 30 to 100 ms too long; set the receiver' 120 165000 165000 265000
hint dcf 'its marks look like those of this plan, each some 30 to 100 ms too short; set the receiver' 120 35000 35000 135000
hint dcf 'widths are below those of any mark; the log wants microseconds' 120 1000 1000 2000
hint dcf 'its widths are those of no plan; it is noise' 120 610000 610000 680000
awk '{ printf "%d %s\n", $1 / 1000, $2 }' examples/dcf77-hour.log > "$work/log"
says 0 'status 0' 'radio_ntpd: the log gave no minute: starts look like milliseconds, and widths like microseconds; the log wants microseconds for both' \
    decode --plan dcf --log "$work/log"
# A counter that is 0.3 % too fast: each minute is read, and no two agree.
awk '{ printf "%.0f %s\n", $1 * 1.003, $2 }' examples/dcf77-hour.log > "$work/log"
says 0 'status 0' 'radio_ntpd: no two minutes of the log agree, as where its counter is 0.2 % or more too fast or too slow' \
    decode --plan dcf --log "$work/log"
says 0 'status 0' 'radio_ntpd: the log gave no minute: it has no marks of this plan, or its widths are not in microseconds' \
    decode --plan dcf --log /dev/null

# A FIFO is not opened once more: no writer would come.
mkfifo "$work/pipe"
printf '1000000 100000\n' > "$work/pipe" &
says 0 'status 0' 'radio_ntpd: the log gave no minute: it has no marks of this plan, or its widths are not in microseconds' \
    decode --plan dcf --log "$work/pipe"
wait

# Where standard error is a terminal, a server names its ports and the FIFOs that it waits for; else it says nothing.
printf '[[radio]]\nplan = "dcf"\nlog = "%s"\n[[link]]\nport = %s\n' "$work/pipe" "$port" > "$work/station"
(sleep 1; : > "$work/pipe") &
said=$(python3 -B -c '
import os, pty, subprocess, sys
master, slave = pty.openpty()
subprocess.run(sys.argv[1:], stdin=subprocess.DEVNULL, stdout=subprocess.DEVNULL, stderr=slave, timeout=20)
print(os.read(master, 4096).decode().replace("\r\n", "\n"), end="")
' "$program" serve --station "$work/station" --during 0)
messages=$((messages + 1))
[ "$said" = "radio_ntpd: $work/pipe is a FIFO: its opening waits for a writer
radio_ntpd: serves port $port once all files are open; standard output follows at the end" ] || wrong "on a terminal a server says '$said'"
wait
printf '[[link]]\nport = %s\n' "$port" > "$work/station"
says 0 'status 0' '' serve --station "$work/station" --during 0

# The borders of docs/STANDARD_ERROR.md: 50 ms, 35 ms of widths 65 ms less, one of a hundred, and nine of ten of the first 256 reductions. Each COUNTxWIDTH is COUNT
# marks of a width in milliseconds. Of 255 in the last row too few are of 500 ms, and of 257 too few are marks of MSF.
borders() {
    text=$1
    shift
    echo "$*" | tr ' x' '\n ' | awk '{ for (i = 0; i < $1; i++) print ++mark * 1000000, $2 * 1000 }' > "$work/log"
    says 0 'status 0' "radio_ntpd: the log gave no minute: $text" decode --plan dcf --log "$work/log"
}
borders 'its marks look like those of this plan' 120x250
borders 'its marks look like those of this plan, each some 30 to 100 ms too long' 120x251
borders 'its marks look like those of this plan, each some 30 to 100 ms too long' 120x300
borders 'its widths are those of no plan' 120x301
borders 'its marks look like those of --plan msf' 99x100 1x500
borders 'its marks look like those of this plan, each some 30 to 100 ms too short' 149x100 1x500
borders 'its marks look like those of --plan msf' 228x100 25x900 3x500 100x900
# The same with lines of 24 bytes and a line feed: 256 of them are looked at too.
echo '228x100 25x900 3x500 100x900' | tr ' x' '\n ' | awk '{ for (i = 0; i < $1; i++) printf "1000%012d %d\n", ++mark * 1000000, $2 * 1000 }' > "$work/log"
says 0 'status 0' 'radio_ntpd: the log gave no minute: its marks look like those of --plan msf' decode --plan dcf --log "$work/log"

# A closed standard error changes nothing, nor does one that takes nothing.
for to in '&-' /dev/full; do
    eval "\"\$program\" decode --plan dcf > \"\$work/out\" 2>$to"
    told=$?
    messages=$((messages + 1))
    [ "$told:$(cat "$work/out")" = '1:status 1 usage' ] || wrong "with standard error $to it ends with $told: $(cat "$work/out")"
done

# A key of 300 characters is named whole.
long=$(printf '%0300d' 0 | tr 0 k)
station "$long = 1\n" "unknown $long" "there is no key $long"

# The standard streams stay held: where all of them are closed, their numbers in a server are the root folder, which can't be written to.
printf '[[link]]\nport = %s\n' "$port" > "$work/station"
"$program" serve --station "$work/station" --during 2 <&- >&- 2>&- &
server=$!
waited=0
# Its link has number 3, or one that wasn't held.
until [ -e "/proc/$server/fd/3" ] || readlink "/proc/$server/fd/"[012] | grep -q socket || [ "$waited" -ge 50 ]; do
    sleep 0.1
    waited=$((waited + 1))
done
for number in 0 1 2; do
    messages=$((messages + 1))
    held=$(readlink "/proc/$server/fd/$number")
    [ "$held" = / ] || wrong "number $number of a server whose streams are closed is '$held'"
done
wait "$server"
told=$?
[ "$told" = 8 ] || wrong "a server with a closed output ends with $told"

echo "messages: $messages"
exit "$bad"
