#!/bin/sh
# Starts servers on free ports of 127.0.0.1, from the example's radios, and asks them with the clients that are installed: what each
# one prints has to be what the radios' logs say. Our own client in Python is always there; it looks at each field of a reply. Debian's
# packages chrony, rdate, ntpsec-ntpdig, libnet-ntp-perl and tshark have the others; busybox has a client where it was built with
# NTPD. Nothing is installed here, no clock is set, and nothing is sent to another host. It takes half a minute.
#
#     checks/clients.sh
set -u
cd "$(dirname "$0")/.." || exit 1
name=clients
. checks/serving.sh
asked=0
skipped=0

# Whether something can be done here. $1 says why not, the rest is what has to work for it.
can() {
    why=$1
    shift
    "$@" > /dev/null 2>&1 && return 0
    echo "$name: $why: skipped"
    skipped=$((skipped + 1))
    return 1
}

is_there() {
    can "$1 is not installed" command -v "$1"
}

# The first word that the pattern $1 has in the file $2.
found() {
    sed -n "s/.*$1.*/\1/p" "$2" | head -n 1
}

# A client says that the server's time is a number of seconds ahead of the host's.
says_ahead() {
    asked=$((asked + 1))
    ask near "${2:-nothing}" "$ahead" || wrong "$1: $(cat "$work/$1")"
}

# A client says this, in a line of its own or as a part of one.
says() {
    grep -q -e "$2" "$work/$1" || wrong "$1 doesn't say '$2': $(cat "$work/$1")"
}

# Our own client looks at 40 replies from each radio alone and from all of them. The server serves from the page of all that its
# radios received, since it makes no hearing beside them; and each request is one of its hearings.
asked=$((asked + 1))
for row in dcf:DCF msf:MSF wwvb:WWVB; do
    port=$(ask port)
    station "$port" "${row%:*}" > "$work/one.toml"
    serve --station "$work/one.toml" --during 0 --after 41
    ask wait "$port" && ask look "$port" 40 "$ahead" 0 1 "${row#*:}" "$work/${row%:*}.dump" || wrong "a plain client fails of ${row%:*}"
    ended 0 'status 0'
    wrote 'link 0 answered 41 dropped 0 again 0 kissed 0 unkept 0 end count'
done

# A server that has no time says so, and no client takes it.
port=$(ask port)
printf '[[link]]\nport = %s\n' "$port" > "$work/none.toml"
serve --station "$work/none.toml" --during 3000
ahead=$(ask local 0)
ask wait "$port" && ask look "$port" 40 "$ahead" 3 0 INIT "$work/none.dump" || wrong 'a plain client fails without radios'
if command -v rdate > /dev/null; then
    timeout 10 rdate -n -p -v -o "$port" 127.0.0.1 > "$work/rdate" 2>&1 && wrong 'rdate takes the time of a server that has none'
    says rdate alarm
fi
if command -v chronyd > /dev/null; then
    timeout 20 chronyd -Q -x -t 4 -U -u "$(id -un)" -f /dev/null "server 127.0.0.1 port $port iburst maxsamples 1" \
        "pidfile $work/pid" 'cmdport 0' 'bindcmdaddress /' > "$work/chronyd" 2>&1 && wrong 'chronyd takes the time of a server that has none'
    says chronyd 'Timeout reached'
fi
ask drain "$port" || wrong 'the server goes on'
ended 0 'status 0'
wrote "$(python3 -B -c 'from lab.grammar import page_of_none; print(page_of_none())')"

# The others ask one server, which shares a key with some of them.
port=$(ask port)
{
    station "$port"
    printf '\n[[key]]\nid = 1\nsecret = "longwave"\n'
} > "$work/station.toml"
(
    umask 077
    printf '1 MD5 longwave\n' > "$work/keys"
    printf '1 MD5 longwavf\n' > "$work/wrong_keys"
)
serve --station "$work/station.toml" --during 0 --after 3000
ask wait "$port" && ask look "$port" 40 "$ahead" 0 1 DCF "$work/all.dump" || wrong 'a plain client fails'

if is_there chronyd; then
    timeout 20 chronyd -Q -x -t 10 -U -u "$(id -un)" -f /dev/null "server 127.0.0.1 port $port iburst maxsamples 1" \
        "pidfile $work/pid" 'cmdport 0' 'bindcmdaddress /' > "$work/chronyd" 2>&1 || wrong "chronyd ends with $?"
    says_ahead chronyd "$(found 'System clock wrong by \(-\{0,1\}[0-9.]*\) seconds' "$work/chronyd")"
fi

# With the server's key it takes what is sealed by it; with another secret, of the same identifier, it takes nothing.
if command -v chronyd > /dev/null; then
    asked=$((asked + 1))
    timeout 20 chronyd -Q -x -t 10 -U -u "$(id -un)" -f /dev/null "server 127.0.0.1 port $port iburst maxsamples 1 key 1" \
        "keyfile $work/keys" "pidfile $work/pid" 'cmdport 0' 'bindcmdaddress /' > "$work/keyed" 2>&1 || wrong "chronyd with a key ends with $?: $(cat "$work/keyed")"
    timeout 20 chronyd -Q -x -t 4 -U -u "$(id -un)" -f /dev/null "server 127.0.0.1 port $port iburst maxsamples 1 key 1" \
        "keyfile $work/wrong_keys" "pidfile $work/pid" 'cmdport 0' 'bindcmdaddress /' > "$work/chronyd" 2>&1 && wrong 'chronyd takes a reply that another key would have sealed'
    says chronyd 'Timeout reached'
fi

# The same as a client that goes on asking, which prints all fields of an answer and its ten tests of it. The last four speak of the
# delay, and a busy machine may miss one of them.
if is_there chronyc; then
    asked=$((asked + 1))
    mkdir -m 700 "$work/chrony"
    printf '%s\n' "server 127.0.0.1 port $port minpoll -6 maxpoll -6 iburst" 'cmdport 0' "bindcmdaddress $work/chrony/sock" \
        "pidfile $work/chrony/pid" > "$work/chrony/conf"
    timeout 20 chronyd -x -U -u "$(id -un)" -d -f "$work/chrony/conf" > "$work/chrony/log" 2>&1 &
    daemon=$!
    servers="$servers $daemon"
    for try in 1 2 3 4 5 6 7 8; do
        sleep 1
        chronyc -n -h "$work/chrony/sock" ntpdata > "$work/chronyc" 2>&1
        grep -q 'NTP tests *: 111 111' "$work/chronyc" && break
    done
    kill "$daemon"
    says chronyc 'Leap status *: Normal$'
    says chronyc 'Version *: 4$'
    says chronyc 'Mode *: Server$'
    says chronyc 'Stratum *: 1$'
    says chronyc 'Precision *: -20 '
    says chronyc 'Reference ID *: 44434600 (DCF)$'
    says chronyc 'NTP tests *: 111 111 '
fi

if is_there rdate; then
    timeout 10 rdate -n -p -v -o "$port" 127.0.0.1 > "$work/rdate" 2>&1 || wrong "rdate ends with $?"
    says_ahead rdate "$(found 'adjust local clock by \(-\{0,1\}[0-9.]*\) seconds' "$work/rdate")"
fi

# It asks with version 3.
if can "Perl's Net::NTP is not installed" perl -MNet::NTP -e 1; then
    timeout 10 perl -MNet::NTP -e 'my %r = get_ntp_response("127.0.0.1", shift); print "$_ = $r{$_}\n" for sort keys %r' "$port" \
        > "$work/perl" 2>&1 || wrong "perl ends with $?"
    says perl '^Leap Indicator = 0$'
    says perl '^Version Number = 3$'
    says perl '^Mode = 4$'
    says perl '^Stratum = 1$'
    says perl '^Reference Clock Identifier = DCF'
    says_ahead perl "$(found 'Offset = \([-0-9.e+]*\)' "$work/perl")"
fi

if can 'busybox has no ntpd' sh -c 'busybox --list | grep -qx ntpd'; then
    timeout 3 busybox ntpd -n -w -d -p "127.0.0.1:$port" > "$work/busybox" 2>&1
    says busybox 'status:0x24 strat:1 refid:0x\(00464344\|44434600\) '
    says_ahead busybox "$(found 'offset:\([-+0-9.]*\)' "$work/busybox")"
fi
ask drain "$port" || wrong 'the server goes on'
ended 0 'status 0'
wrote 'link 0 answered [0-9]* dropped 0 again 0 kissed 0 unkept 0 end count'

# Who may ask: a client that asks again within a second gets RATE, and the time when the second is over, whoever else asks; one of
# a denied net gets DENY, but what is no request of its is dropped as anyone's.
asked=$((asked + 1))
port=$(ask port)
{
    printf 'gap = 1000000\n'
    station "$port"
    printf '\n[[deny]]\nnet = "127.0.2.0/24"\n'
} > "$work/gap.toml"
serve --station "$work/gap.toml" --during 0 --after 3000
ask wait "$port" || wrong 'the server with a gap does not listen'
sleep 1.1
ask gets "$port" 127.0.0.1 time RATE RATE || wrong 'a client that asks at once again'
ask gets "$port" 127.0.1.1 time RATE || wrong 'another client beside it'
ask gets "$port" 127.0.2.1 DENY nothing DENY || wrong 'a client of a denied net'
sleep 1.1
ask gets "$port" 127.0.0.1 time || wrong 'a client that has waited'

# chronyd takes a RATE for what it is: it says so, and asks less often than the 64 times a second that it was set to.
if is_there chronyc; then
    asked=$((asked + 1))
    rm -rf "$work/chrony"
    mkdir -m 700 "$work/chrony"
    printf '%s\n' "server 127.0.0.1 port $port minpoll -6 maxpoll -6" 'cmdport 0' "bindcmdaddress $work/chrony/sock" \
        "pidfile $work/chrony/pid" > "$work/chrony/conf"
    timeout 20 chronyd -x -U -u "$(id -un)" -d -f "$work/chrony/conf" > "$work/chrony/log" 2>&1 &
    daemon=$!
    servers="$servers $daemon"
    sleep 6
    chronyc -n -h "$work/chrony/sock" ntpdata > "$work/chronyc" 2>&1
    kill "$daemon"
    cp "$work/chrony/log" "$work/chronyd"
    says chronyd 'Received KoD RATE from 127.0.0.1'
    sent=$(found 'Total TX *: \([0-9]*\)' "$work/chronyc")
    { [ "${sent:-0}" -ge 2 ] && [ "$sent" -le 200 ]; } || wrong "chronyd asked '$sent' times in six seconds: $(cat "$work/chronyc")"
fi
ask drain "$port" || wrong 'the server goes on'
ended 0 'status 0'
wrote 'link 0 answered [0-9]* dropped 1 again 0 kissed [0-9]* unkept 0 end count'

# ntpdig asks at port 123 alone: in a network of its own, where anyone may serve on it.
if is_there ntpdig; then
    if can 'no network of its own can be made for ntpdig' unshare -rn ip link set lo up; then
        unshare -rn checks/port_123.sh "$work/ntpdig" || wrong "ntpdig's server or ntpdig fails"
        ahead=$(cat "$work/ntpdig.ahead")
        says ntpdig '"stratum":1[,}]'
        says ntpdig '"leap":"no-leap"'
        says_ahead ntpdig "$(found '"offset":\([-0-9.]*\)' "$work/ntpdig")"
        # And with the server's key.
        cp "$work/ntpdig.keyed" "$work/keyed"
        says keyed '"stratum":1[,}]'
        says_ahead keyed "$(found '"offset":\([-0-9.]*\)' "$work/keyed")"
    fi
fi

# What was sent to our own client is read from a made capture, so nobody has to listen: 40 replies of each radio alone, of all and of
# none.
shows() {
    count=$(grep -c -e "$2" "$work/tshark")
    [ "$count" = "$1" ] || wrong "tshark reads '$2' $count times and not $1"
}
if is_there tshark; then
    cat "$work"/*.dump | text2pcap -q -4 127.0.0.1,127.0.0.1 -u 123,40000 - "$work/pcap" > "$work/said" 2>&1 || wrong "text2pcap: $(cat "$work/said")"
    tshark -r "$work/pcap" -V > "$work/tshark" 2> "$work/said" || wrong "tshark: $(cat "$work/said")"
    shows 200 'Network Time Protocol (NTP Version [1-4], server)'
    shows 80 'Reference ID: LF Radio DCF77'
    shows 40 'Reference ID: LF Radio MSF'
    shows 40 'Reference ID: LF Radio WWVB'
    shows 40 'Reference ID: (Initialization)'
    shows 160 'Leap Indicator: no warning (0)'
    shows 40 'Leap Indicator: unknown (clock unsynchronized) (3)'
    shows 160 'Peer Clock Stratum: primary reference (1)'
    shows 40 'Peer Clock Stratum: unspecified or invalid (0)'
    tshark -r "$work/pcap" -Y '_ws.expert || _ws.malformed' > "$work/complaints" 2> "$work/said"
    [ -s "$work/complaints" ] && wrong "tshark complains: $(head -n 1 "$work/complaints")"
fi

[ "$bad" = 0 ] && echo "$name: $asked asked, all answered; $skipped skipped"
exit "$bad"
