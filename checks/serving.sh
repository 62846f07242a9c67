# What the checks of `serve` share: a folder to work in, stations whose link has a free port, and servers that have ended when the
# check ends. A check sets `name` and reads this from the top of the repository.
export LC_ALL=C
PATH="$PATH:/usr/sbin:/sbin"
work=$(mktemp -d) || exit 1
bad=0
servers=
# It's built here where that hasn't been done; without arguments it only ends with a usage error. RADIO_NTPD names another program.
program=${RADIO_NTPD:-./radio_ntpd}
"$program" > "$work/built"

# Ends what still runs: each server that was started, by its number.
finish() {
    for one in $servers; do
        kill "$one" 2> /dev/null
    done
    wait
    rm -rf "$work"
}
trap finish EXIT
trap 'exit 1' INT TERM

# Something isn't as it should be: it is said, and the check fails at its end.
wrong() {
    echo "$name: $*" >&2
    bad=1
}

# Our own client, by its command.
ask() {
    python3 -B -m checks.ask "$@"
}

# The example's station with a port of its own, $1; the radios whose plans follow, or all three, receive.
station() {
    sed "s/^port = .*/port = $1/" examples/serve.toml > "$work/all.toml"
    shift
    if [ $# = 0 ]; then
        cat "$work/all.toml"
    else
        # A table is a paragraph: that of a radio stands where its plan is asked for.
        awk -v plans=" $* " 'BEGIN { RS = ""; ORS = "\n\n" }
            /plan = / { split($0, word, "\""); if (!index(plans, " " word[2] " ")) next }
            { print }' "$work/all.toml"
    fi
}

# Starts a server with these arguments after `serve`, the first two of which name its station. It writes to "$work/serving", and is
# killed after a minute. `ahead` is how far the time of the example's logs is ahead of the host's, in seconds.
serve() {
    start=$(sed -n 's/^start = //p' "$2")
    ahead=$(ask ahead "${start:-0}")
    timeout 60 "$program" serve "$@" > "$work/serving" &
    server=$!
    servers="$servers $server"
}

# The server ends with the status $1 and the last line $2; what it wrote is in "$work/served".
ended() {
    wait "$server"
    told=$?
    cp "$work/serving" "$work/served"
    if [ "$told" != "$1" ] || [ "$(tail -n 1 "$work/served")" != "$2" ]; then
        wrong "it ends with $told and '$(tail -n 1 "$work/served")', not with $1 and '$2'"
    fi
}

# The server wrote a line that this pattern is the whole of.
wrote() {
    grep -qx "$1" "$work/served" || wrong "no line is '$1': $(tail -n 4 "$work/served")"
}
