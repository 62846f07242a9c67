#!/bin/sh
# Asks a server at port 123 with ntpdig, which has no other. It's run in a network of its own, where anyone may serve on that port and
# nothing gets out: its words go into the file $1, those of an asking with the server's key into $1.keyed, and how far the server is ahead of the host into $1.ahead.
#
#     unshare -rn checks/port_123.sh FILE
set -u
cd "$(dirname "$0")/.." || exit 1
name='clients: port 123'
. checks/serving.sh
ip link set lo up || exit 1
{
    station 123
    printf '\n[[key]]\nid = 1\nsecret = "longwave"\n'
} > "$work/station.toml"
printf '1 MD5 longwave\n' > "$work/keys"
printf '1 MD5 longwavf\n' > "$work/wrong_keys"
serve --station "$work/station.toml" --during 0 --after 100
echo "$ahead" > "$1.ahead"
ask wait 123 || exit 1
timeout 20 ntpdig -j 127.0.0.1 > "$1" 2>&1 || wrong "ntpdig ends with $?: $(cat "$1")"
timeout 20 ntpdig -j -a 1 -k "$work/keys" 127.0.0.1 > "$1.keyed" 2>&1 || wrong "ntpdig with a key ends with $?: $(cat "$1.keyed")"
timeout 20 ntpdig -j -a 1 -k "$work/wrong_keys" 127.0.0.1 > "$work/wrong" 2>&1 && wrong "ntpdig takes a reply that another key would have sealed: $(cat "$work/wrong")"
ask drain 123 || exit 1
ended 0 'status 0'
exit "$bad"
