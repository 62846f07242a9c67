#!/bin/sh
# Sends 100 thousand malformed datagrams among more than a thousand good requests to a server on a free port of 127.0.0.1: short and
# long ones, empty ones, other versions, other modes and noise, from twelve sockets. Exactly the good ones are answered, each by 48
# bytes to whoever has asked, and the server counts what it has received as was sent. It takes some seconds.
#
#     checks/hostile.sh [COUNT]
set -u
cd "$(dirname "$0")/.." || exit 1
name=hostile
. checks/serving.sh
count=${1:-100000}

port=$(ask port)
station "$port" > "$work/station.toml"
# The first half comes beside the radios, the rest after them.
serve --station "$work/station.toml" --during $((count / 2)) --after $((count / 2 + count / 40 + 1000))
ask wait "$port" || wrong 'there is no server'
counts=$(python3 -B -m checks.hostile "$port" "$count") || exit 1
read -r good bad_ones unheard <<COUNTS
$counts
COUNTS
ended 0 'status 0'
# The first request is that which waits for the server.
wrote "link 0 answered $((good + 1)) dropped $bad_ones again 0 kissed 0 unkept 0 end count"

[ "$bad" = 0 ] && echo "$name: $bad_ones dropped, $((good + 1)) answered, $unheard of port 0 not received"
exit "$bad"
