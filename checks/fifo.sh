#!/bin/sh
# Radios whose logs are pipes while `serve` runs: writers that die between two lines and in the middle of one, that stop in a line and go on,
# that are slow, that write a bad line, and one that goes on where another died. What stands is what `decode` says of the bytes that were
# written. Then signals while it serves, and while it writes its journal: what docs/COMMANDS.md says of them. It takes some seconds.
#
#     checks/fifo.sh
set -u
cd "$(dirname "$0")/.." || exit 1
name=fifo
. checks/serving.sh
checked=0
dcf=examples/radios/dcf77.log msf=examples/radios/msf.log wwvb=examples/radios/wwvb.log

# A radio of plan $1 whose log is a new pipe named $2.
radio() {
    rm -f "$work/$2"
    mkfifo "$work/$2"
    printf '[[radio]]\nplan = "%s"\nlog = "%s"\n' "$1" "$work/$2"
}

# Writes the file $1 into the pipe $2, and then holds that open until it is killed. `writer` is its number.
holds() {
    rm -f "$work/wrote.$2"
    { cat "$1"; : > "$work/wrote.$2"; exec sleep 60; } > "$work/$2" &
    writer=$!
    servers="$servers $writer"
}

# Waits for what a holder of the pipe $1 has written.
written() {
    turns=0
    until [ -e "$work/wrote.$1" ]; do
        turns=$((turns + 1))
        [ "$turns" -lt 200 ] || { wrong "nothing takes what is written into $1"; return; }
        sleep 0.05
    done
}

# The holder of number $1 of the pipe $2 is killed, once it has written.
dies() {
    written "$2"
    kill -9 "$1"
    wait "$1" 2> /dev/null
}

# Writes the file $1, but $2 bytes of it at a time, each piece a millisecond after the one before.
slowly() {
    python3 -B - "$1" "$2" <<'PY'
import sys, time
text, size = open(sys.argv[1], "rb").read(), int(sys.argv[2])
out = open(1, "wb", buffering=0)
for place in range(0, len(text), size):
    out.write(text[place : place + size])
    time.sleep(0.001)
PY
}

# Feed $1 of the run is a radio of plan $2 whose pipe got the bytes of $3: it has the entries that `decode` gives for them. `bad` lines are
# those that it reports, `line` the number or nothing.
stands() {
    ./radio_ntpd decode --plan "$2" --log "$3" > "$work/decoded"
    line=$(sed -n 's/^status 5 line 0 //p' "$work/decoded")
    sed -n "s/^j2 [0-9]* -\{0,1\}[0-9]* $1 //p" "$work/served" > "$work/entries"
    sed -n 's/^0 //p' "$work/decoded" | cmp -s - "$work/entries" || wrong "feed $1 hasn't the entries of what was written"
    [ -s "$work/entries" ] || wrong "feed $1 has no entries"
    checked=$((checked + 1))
}

# Whole lines, and half of one more.
head -n 200 "$dcf" > "$work/lines"
head -c 4005 "$msf" > "$work/half"
[ -n "$(tail -c 1 "$work/half" | tr -d '\n')" ] || wrong 'no line is cut in two'

# Three radios at once: one's writer dies between two lines, one's in the middle of a line, and one is slow. Clients are answered meanwhile.
port=$(ask port)
{
    radio dcf a
    radio msf b
    radio wwvb c
    printf '[[link]]\nport = %s\n' "$port"
} > "$work/station"
serve --station "$work/station" --during 12
holds "$work/lines" a
first=$writer
holds "$work/half" b
second=$writer
slowly "$wwvb" 37 > "$work/c" &
servers="$servers $!"
ask wait "$port" || wrong 'nobody is answered beside writers that die'
dies "$first" a
dies "$second" b
ask drain "$port" || wrong 'a server whose writers have died does not end'
wait "$server"
told=$?
cp "$work/serving" "$work/served"
stands 0 dcf "$work/lines"
[ -z "$line" ] || wrong 'a log cut between two lines has a bad one'
stands 2 wwvb "$wwvb"
[ "$(grep -c ' verdict ' "$work/entries")" = 9 ] || wrong 'a slow radio is not read whole'
stands 1 msf "$work/half"
[ "$told:$(tail -n 1 "$work/served")" = "5:status 5 line 1 $line" ] ||
    wrong "a writer that dies in line $line ends the run with $told and '$(tail -n 1 "$work/served")'"
wrote 'link 0 answered [0-9]* dropped 0 again 0 kissed 0 unkept 0 end count'

# Serves one radio of DCF77 whose pipe is "$work/a"; the arguments are those after the station.
serve_one() {
    radio dcf a > "$work/station"
    serve --station "$work/station" "$@"
}

# A writer that dies between two lines ends its log there.
serve_one
holds "$work/lines" a
dies "$writer" a
ended 0 'status 0'
stands 0 dcf "$work/lines"

# A writer that stops in the middle of a line, and goes on.
serve_one
{ head -c 4005 "$dcf"; sleep 0.5; tail -c +4006 "$dcf"; } > "$work/a"
ended 0 'status 0'
stands 0 dcf "$dcf"

# A byte at a time.
head -n 130 "$dcf" > "$work/minutes"
serve_one
slowly "$work/minutes" 1 > "$work/a"
ended 0 'status 0'
stands 0 dcf "$work/minutes"

# A writer that dies in the middle of a line, where someone else holds the pipe and another writer goes on: the halves are one line.
head -c 2005 "$dcf" > "$work/cut"
sed -n '150,400p' "$dcf" > "$work/on"
cat "$work/cut" "$work/on" > "$work/both"
serve_one
exec 3> "$work/a"
holds "$work/cut" a
dies "$writer" a
cat "$work/on" >&3
exec 3>&-
stood=$work/both
wait "$server"
told=$?
cp "$work/serving" "$work/served"
stands 0 dcf "$stood"
want="status 0"
[ -z "$line" ] || want="status 5 line 0 $line"
[ "$(tail -n 1 "$work/served")" = "$want" ] || wrong "a log that another goes on with ends with '$(tail -n 1 "$work/served")', not '$want'"

# A bad line in the middle: nothing after it is read, while the run goes on. What its writer still has is held up where a pipe is full, and
# the writer meets a broken pipe once the run has ended.
{ head -n 200 "$dcf"; echo 'no line'; } > "$work/bad"
{
    radio dcf a
    printf '[[link]]\nport = %s\n' "$port"
} > "$work/station"
serve --station "$work/station" --during 4
python3 -B - "$work/bad" "$work/a" > "$work/told" <<'PY' &
import signal, sys
signal.signal(signal.SIGPIPE, signal.SIG_IGN)
pipe = open(sys.argv[2], "wb", buffering=0)
pipe.write(open(sys.argv[1], "rb").read())
try:
    for number in range(1 << 20):
        pipe.write(b"%d 100000\n" % (700_000_000 + number))
except BrokenPipeError:
    print("broken")
PY
writer=$!
servers="$servers $writer"
ask wait "$port" || wrong 'a bad line ends the run'
sleep 0.3
kill -0 "$writer" 2> /dev/null || wrong 'the writer after a bad line is not held up'
ask drain "$port" || wrong 'a server with a bad line does not end'
ended 5 'status 5 line 0 201'
stands 0 dcf "$work/bad"
wait "$writer"
[ "$(cat "$work/told")" = broken ] || wrong 'the writer after a bad line is not told'
checked=$((checked + 2))

# Signals while it serves: those that end a program end it at once, with nothing written, its port free and its pipe broken. A broken
# pipe's signal does nothing.
radio dcf a > "$work/station"
printf '[[link]]\nport = %s\n' "$port" >> "$work/station"
python3 -B - "$work/station" "$work/a" "$dcf" "$port" <<'PY' || wrong 'a signal does something else'
import signal, subprocess, sys, time
from lab.client import ask, is_free
station, pipe, log, port = sys.argv[1:]

def asked():
    """Whether the link is served."""
    for _ in range(50):
        if ask(int(port), 0.2):
            return True
        time.sleep(0.05)

for number in (signal.SIGTERM, signal.SIGINT, signal.SIGHUP, signal.SIGQUIT, signal.SIGPIPE):
    # A shell that runs this with `&` leaves signals ignored, which a program would take over.
    if number != signal.SIGPIPE:
        signal.signal(number, signal.SIG_DFL)
    run = subprocess.Popen(["./radio_ntpd", "serve", "--station", station, "--during", "2"], stdout=subprocess.PIPE)
    with open(pipe, "wb", buffering=0) as writer:
        writer.write(open(log, "rb").read())
        if not asked():
            sys.exit("the link is not served")
        run.send_signal(number)
        if number == signal.SIGPIPE:
            time.sleep(0.2)
            if run.poll() is not None:
                sys.exit(f"SIGPIPE ends it with {run.poll()}")
            asked()
        else:
            told = run.wait(timeout=10)
            text = run.stdout.read()
            if told != -number or text:
                sys.exit(f"{number!r} ends it with {told} and {text!r}")
            try:
                writer.write(b"700000000 100000\n")
                sys.exit(f"its pipe is not broken after {number!r}")
            except BrokenPipeError:
                pass
            if not is_free(int(port)):
                sys.exit(f"its port isn't free after {number!r}")
    if number == signal.SIGPIPE:
        text, _ = run.communicate(timeout=20)
        if run.returncode or not text.endswith(b"\nstatus 0\n"):
            sys.exit(f"after SIGPIPE it ends with {run.returncode} and {text!r}")
PY
checked=$((checked + 5))

# A signal while the journal is written to a reader that is slow: the reader has the beginning of it. An output whose reader went away while it
# served ends with 8, not with a signal.
for one in 1 2 3 4; do
    printf '[[radio]]\nplan = "dcf"\nlog = "examples/dcf77-hour.log"\ndelay = %s\n' "$one"
done > "$work/station"
python3 -B - "$work/station" "$work/front" <<'PY' || wrong 'a journal that is cut off is not the beginning of it'
import fcntl, os, re, signal, subprocess, sys, time
words = ["./radio_ntpd", "serve", "--station", sys.argv[1]]
ours, its = os.pipe()
fcntl.fcntl(its, fcntl.F_SETPIPE_SZ, 4096)
run = subprocess.Popen(words, stdout=its)
os.close(its)
text = os.read(ours, 100)
run.send_signal(signal.SIGTERM)
told = run.wait(timeout=10)
while piece := os.read(ours, 4096):
    text += piece
# Numbers go up by one, up to a line that is cut off; and what was printed is a journal up to there.
*lines, cut = text.split(b"\n")
numbers = [int(line.split()[1]) for line in lines]
if told != -signal.SIGTERM or not numbers or numbers != list(range(1, len(numbers) + 1)) or b"status" in text:
    sys.exit(f"it ends with {told} and .. {text[-200:]!r}")
open(sys.argv[2], "wb").write(text)
moved = subprocess.run(["./radio_ntpd", "migrate", "--station", sys.argv[1], "--journal", sys.argv[2]], stdout=subprocess.PIPE)
last = b"status 5 journal %d" % (len(lines) + 1) if cut else b"status 0"
if moved.stdout.split(b"\n")[: len(lines)] != lines or not moved.stdout.endswith(b"\n" + last + b"\n"):
    sys.exit(f"migrate of it says .. {moved.stdout[-200:]!r}")
ours, its = os.pipe()
run = subprocess.Popen(words, stdout=its)
os.close(its)
os.close(ours)
told = run.wait(timeout=20)
sys.exit(f"an output without a reader ends it with {told}" if told != 8 else 0)
PY
checked=$((checked + 2))

[ "$bad" = 0 ] && echo "$name: $checked as the pages say"
exit "$bad"
