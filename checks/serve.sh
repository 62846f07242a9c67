#!/bin/sh
# Runs `serve` as it shouldn't go: logs, links and words that are wrong, an output that is closed, servers that are dead. Looks at how
# each run ends and at what it has written, as docs/COMMANDS.md says. What is due comes from the logs, the calendar, the other
# commands, and a model of the page in Python. Servers have free ports of 127.0.0.1. It takes a quarter of a minute.
#
#     checks/serve.sh
set -u
cd "$(dirname "$0")/.." || exit 1
name=serve
. checks/serving.sh
checked=0
page_of_none=$(python3 -B -c 'from lab.grammar import page_of_none; print(page_of_none())')

# Serving with these arguments ends within 20 s with the status $1 and the last line $2. `lines` is how many it wrote.
ends() {
    status=$1 last=$2
    shift 2
    timeout 20 ./radio_ntpd serve "$@" > "$work/served"
    told=$?
    checked=$((checked + 1))
    lines=$(wc -l < "$work/served")
    if [ "$told" != "$status" ] || [ "$(tail -n 1 "$work/served")" != "$last" ]; then
        wrong "'$*' ends with $told and '$(tail -n 1 "$work/served")', not with $status and '$last'"
    fi
}

# The same, and nothing but the status line is written.
refused() {
    ends "$@"
    [ "$lines" = 1 ] || wrong "$lines lines are written where the run is refused with '$2'"
}

radio() {
    printf '[[radio]]\nplan = "%s"\nlog = "%s"\n' "$1" "$2"
}

link() {
    printf '[[link]]\nport = %s\n' "$1"
}

server() {
    printf '[[server]]\naddress = "127.0.0.1"\nport = %s\npolls = %s\n' "$1" "$2"
}

# The entries of a feed, without what its journal adds.
entries() {
    sed -n "s/^j2 [0-9]* -\{0,1\}[0-9]* $1 //p" "$work/served"
}

# The words.
refused 1 'status 1 usage'
refused 1 'status 1 usage' --station examples/serve.toml --during 1000001
refused 1 'status 1 usage' --station examples/serve.toml --after 07
refused 1 'status 1 usage' --station examples/serve.toml --limit 0
refused 1 'status 1 usage' --station examples/serve.toml --log examples/radios/msf.log

# The station file, and a station with nothing in it.
refused 2 'status 2 open station' --station nosuch
refused 4 'status 4 read station' --station /
link 0 > "$work/station"
refused 3 'status 3 station range link.0.port' --station "$work/station"
: > "$work/station"
ends 0 'status 0' --station "$work/station"
wrote "$page_of_none"
[ "$lines" = 2 ] || wrong "a station with nothing in it gives $lines lines"

# Three radios: the journal has of each what `decode` says of its log, `migrate` says the same of it, and so does the model.
port=$(ask port)
{ radio dcf examples/radios/dcf77.log; radio msf examples/radios/msf.log; radio wwvb examples/radios/wwvb.log; link "$port"; } > "$work/station"
ends 0 'status 0' --station "$work/station" --during 0
wrote 'link 0 answered 0 dropped 0 again 0 kissed 0 unkept 0 end count'
for row in 0:dcf:dcf77 1:msf:msf 2:wwvb:wwvb; do
    plan=${row#*:}
    checked=$((checked + 1))
    ./radio_ntpd decode --plan "${plan%:*}" --log "examples/radios/${plan#*:}.log" | sed -n 's/^0 //p' > "$work/decoded"
    entries "${row%%:*}" | cmp -s - "$work/decoded" || wrong "the entries of ${plan%:*} aren't those that decode writes"
    # Ten minutes are received whole, the first of which is alone.
    [ "$(grep -c ' verdict ' "$work/decoded")" = 9 ] || wrong "${plan%:*} hasn't nine verdicts"
done
grep '^j2 ' "$work/served" > "$work/journal"
./radio_ntpd migrate --station "$work/station" --journal "$work/journal" > "$work/moved"
grep -v '^link ' "$work/served" | cmp -s - "$work/moved" || wrong "migrate says something else of the journal"
python3 -B -c '
import pathlib, sys
from lab.model.commands import migrate
station, journal = (pathlib.Path(name).read_bytes() for name in sys.argv[1:])
print(migrate(station, journal).text, end="")' "$work/station" "$work/journal" | cmp -s - "$work/moved" || wrong "the model says something else of the journal"
checked=$((checked + 2))

# Four radios of one plan, the most that a station may have.
for feed in 0 1 2 3; do radio dcf examples/radios/dcf77.log; done > "$work/station"
ends 0 'status 0' --station "$work/station"
for feed in 0 1 2 3; do
    checked=$((checked + 1))
    [ "$(entries $feed | grep -c ' verdict ')" = 9 ] || wrong "radio $feed of four of a plan hasn't nine verdicts"
done

# A journal that is full.
ends 6 'status 6 full 3' --station "$work/station" --during 0 --limit 3
wrote 'page 3 0 0 494e4954 .*'
[ "$(grep -c '^j2 ' "$work/served")" = 3 ] || wrong "a limit of 3 doesn't leave three entries"

# Logs that aren't there, that are a folder, or have a bad line; the other radio is read whole.
{ radio dcf nosuch; link "$port"; } > "$work/station"
refused 2 'status 2 open feed 0' --station "$work/station"
{ radio dcf examples/radios/dcf77.log; radio msf nosuch; } > "$work/station"
refused 2 'status 2 open feed 1' --station "$work/station"
{ radio dcf /; radio msf examples/radios/msf.log; } > "$work/station"
ends 4 'status 4 read feed 0' --station "$work/station"
[ "$(entries 1 | grep -c ' verdict ')" = 9 ] || wrong "a radio isn't read beside one that can't be read"
{ head -n 200 examples/radios/dcf77.log; echo '206000000'; sed 1,200d examples/radios/dcf77.log; } > "$work/log"
{ radio msf examples/radios/msf.log; radio dcf "$work/log"; } > "$work/station"
ends 5 'status 5 line 1 201' --station "$work/station"
[ "$(entries 0 | grep -c ' verdict ')" = 9 ] || wrong "a radio isn't read beside one with a bad line"
[ "$(entries 1 | wc -l)" = 3 ] || wrong "the minutes before a bad line aren't kept"

# A port that is taken: by another server, and by the station's own first link; and one that takes a right that isn't there.
link "$port" > "$work/station"
serve --station "$work/station" --during 1000
ask wait "$port" || wrong 'the server that takes the port is not there'
refused 2 'status 2 open link 0' --station "$work/station"
# Ended from outside, it says nothing.
kill "$server"
{ wait "$server"; } 2> /dev/null
told=$?
checked=$((checked + 1))
[ "$told" = 143 ] || wrong "a server that is killed ends with $told"
[ -s "$work/serving" ] && wrong "a server that is killed says $(cat "$work/serving")"
{ link "$port"; link "$port"; } > "$work/station"
refused 2 'status 2 open link 1' --station "$work/station"
if [ "$(cat /proc/sys/net/ipv4/ip_unprivileged_port_start)" -gt 123 ] && unshare -r true 2> /dev/null; then
    link 123 > "$work/station"
    unshare -r ./radio_ntpd serve --station "$work/station" > "$work/served"
    told=$?
    checked=$((checked + 1))
    [ "$told:$(cat "$work/served")" = '2:status 2 open link 0' ] || wrong "port 123 without the right ends with $told: $(cat "$work/served")"
fi

# Two radios that read the same pipe: each byte is read by one of them. Which one is chance; it ends, and what was taken stands.
mkfifo "$work/pipe"
{ radio dcf "$work/pipe"; radio dcf "$work/pipe"; } > "$work/station"
{ cat examples/dcf77-hour.log; sleep 1; } > "$work/pipe" &
timeout 20 ./radio_ntpd serve --station "$work/station" > "$work/served"
told=$?
checked=$((checked + 1))
case "$told:$(tail -n 1 "$work/served")" in
    '0:status 0' | '5:status 5 line 0 '* | '5:status 5 line 1 '*) ;;
    *) wrong "two radios on one pipe end with $told and '$(tail -n 1 "$work/served")'" ;;
esac
grep -q '^page ' "$work/served" || wrong 'two radios on one pipe leave no page'

# A log that is still being written: before it has a time clients get none, and then they get the radio's.
mkfifo "$work/live"
{ echo 'start = 604000000'; radio msf "$work/live"; link "$port"; } > "$work/station"
# Taken before it starts, so that it is off by the start of one program alone.
unheard=$(ask local 604000000)
serve --station "$work/station" --during 32 --after 1
exec 3> "$work/live"
ask wait "$port" && ask look "$port" 10 "$unheard" 3 0 INIT || wrong 'before its radio is received a server has a time'
cat examples/radios/msf.log >&3
ask soon "$port" && ask look "$port" 10 "$ahead" 0 1 MSF || wrong 'a server has no time of a log that goes on'
exec 3>&-
ask drain "$port" || wrong 'a server of a log that was written does not end'
ended 0 'status 0'
wrote 'link 0 answered 33 dropped 0 again 0 kissed 0 unkept 0 end count'
checked=$((checked + 3))

# A server that is dead: two seconds of silence a poll, and no entry.
dead=$(ask port)
server "$dead" 1 > "$work/station"
began=$(date +%s)
ends 0 'status 0' --station "$work/station"
took=$(($(date +%s) - began))
wrote "$page_of_none"
[ "$lines" = 2 ] || wrong "a server that is dead gives $lines lines"
[ "$took" -ge 2 ] && [ "$took" -le 6 ] || wrong "a server that is dead takes $took s"

# A server that is ours: eight polls are eight samples of stratum 1, and the time of its radios.
station "$port" > "$work/station"
serve --station "$work/station" --during 0 --after 17
ask wait "$port" || wrong 'the server that is asked is not there'
first=$ahead
{ server "$port" 8; link "$dead"; } > "$work/second"
began=$(ask local 0)
timeout 20 ./radio_ntpd serve --station "$work/second" --during 0 > "$work/second.out"
checked=$((checked + 1))
[ "$(grep -c '^j2 [1-8] 0 0 [0-9]* sample [0-9]* [0-9]* [0-9]* 1 7f000001 0 [0-9]*$' "$work/second.out")" = 8 ] ||
    wrong "a server of ours isn't asked eight times: $(head -n 1 "$work/second.out")"
grep -q '^page 8 1 2 7f000001 ' "$work/second.out" || wrong "a server of ours gives no time: $(tail -n 2 "$work/second.out")"
# An offset is what is to be added to the second one's counter, which has counted from its start.
told=$(sed -n 's/^j2 8 0 0 [0-9]* sample \([0-9]*\) .*/\1/p' "$work/second.out")
python3 -B - "${told:-0}" "$first" "$began" <<'PY' || wrong "the offset $told isn't that of the radios"
import sys
told, ahead, began = map(float, sys.argv[1:])
sys.exit(abs(told / 2**32 - (ahead - began)) >= 1)
PY
ask drain "$port" || wrong 'the server that is asked goes on'
ended 0 'status 0'
wrote 'link 0 answered 17 dropped 0 again 0 kissed 0 unkept 0 end count'

# A leap second file: the rows of the list that the host has, but for the first, as `awk` finds them; else those of two years.
listed() {
    printf 'start = 5000000\nleap_file = "%s"\n' "$1" > "$work/station"
    shift
    for one; do radio dcf "$one"; done >> "$work/station"
}
list=/usr/share/zoneinfo/leap-seconds.list
if [ ! -r "$list" ]; then
    list=$work/list
    printf '#NTP Time DTAI\n3644697600\t36\t# 1 Jul 2015\n3692217600\t37\t# 1 Jan 2017\n' > "$list"
fi
listed "$list"
ends 0 'status 0' --station "$work/station"
awk '/^[0-9]/ { if (row++) print "5000000 notice " $1 }' "$list" > "$work/rows"
entries 0 | cmp -s - "$work/rows" || wrong "the notices aren't the rows of $list"
listed "$list" examples/radios/dcf77.log
ends 0 'status 0' --station "$work/station"
entries 1 | cmp -s - "$work/rows" || wrong "the notices after a radio aren't the rows of $list"
[ "$(entries 0 | grep -c ' verdict ')" = 9 ] || wrong 'a radio before a leap second file has not nine verdicts'
listed "$work/nosuch" examples/radios/dcf77.log
refused 2 'status 2 open feed 1' --station "$work/station"
listed / examples/radios/dcf77.log
ends 4 'status 4 read feed 1' --station "$work/station"
printf '3644697600 36\n3692217600 37\n3692217600 38\n' > "$work/falling"
listed "$work/falling"
ends 5 'status 5 line 0 3' --station "$work/station"
wrote 'j2 1 0 0 5000000 notice 3692217600'
head -c 65537 /dev/zero | tr '\0' '\n' > "$work/lines"
listed "$work/lines"
ends 10 'status 10 long feed 0' --station "$work/station"
head -c 65536 "$work/lines" > "$work/list65536"
listed "$work/list65536"
ends 0 'status 0' --station "$work/station"
checked=$((checked + 3))

# An output that takes no more: closed from the start, full, and closed after 100 bytes of a pipe of a page. Four radios' hours are
# longer than that. Nothing is written anywhere else.
{ for one in 1 2 3 4; do radio dcf examples/dcf77-hour.log; done; } > "$work/station"
timeout 20 ./radio_ntpd serve --station "$work/station" >&-
told=$?
[ "$told" = 8 ] || wrong "a closed output ends with $told"
if [ -e /dev/full ]; then
    timeout 20 ./radio_ntpd serve --station "$work/station" > /dev/full
    told=$?
    [ "$told" = 8 ] || wrong "a full disk ends with $told"
fi
python3 -B - "$work/station" <<'PY' || wrong 'an output that is closed in the middle does not end the run with 8'
import fcntl, os, subprocess, sys
ours, its = os.pipe()
if hasattr(fcntl, "F_SETPIPE_SZ"):
    fcntl.fcntl(its, fcntl.F_SETPIPE_SZ, 4096)
run = subprocess.Popen(["./radio_ntpd", "serve", "--station", sys.argv[1]], stdout=its, restore_signals=True)
os.close(its)
text = os.read(ours, 100)
os.close(ours)
told = run.wait(timeout=20)
sys.exit(f"it ends with {told} after {text!r}" if told != 8 or not text.startswith(b"j2 1 ") else 0)
PY
checked=$((checked + 3))

[ "$bad" = 0 ] && echo "$name: $checked as the pages say"
exit "$bad"
