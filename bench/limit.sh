#!/bin/sh
# The limits of a log, for `decode` and for `serve`, and of a script, met on real files: 2^30 and 2^26 bytes are whole, and a line
# more is too long. Needs 1 GiB of disk for a minute, and the built program (run ./radio_ntpd once before).
set -eu
. "$(dirname "$0")/built.sh"
# 2^26 lines of 16 bytes, each a microsecond after the one before it: marks that close no segment.
python3 - > "$work/log" <<'PY'
import sys
for block in range(10_000_000, 10_000_000 + 2**26, 2**16):
    sys.stdout.write("".join(f"{at} 100000\n" for at in range(block, block + 2**16)))
PY
# The program writes this text; $1 is the text, $2 the file, the rest are the words.
expect() {
    want=$1 file=$2
    shift 2
    got=$("$program" "$@" || true)
    if [ "$got" = "$want" ]; then echo "$(wc -c < "$file") bytes: $(echo "$got" | tail -n 1)"; else
        echo "$(wc -c < "$file") bytes: '$got' where '$want' was due" >&2; exit 1
    fi
}
# No entry, so a page without time.
page="$(python3 -B -c 'from lab.grammar import page_of_none; print(page_of_none())')
"
log() { expect "$1" "$work/log" decode --plan dcf --log "$work/log"; }
log 'status 0'
echo '90000000 100000' >> "$work/log"
log 'status 10 long feed 0'
# The same log as `serve` reads it.
printf '[[radio]]\nplan = "dcf"\nlog = "%s"\n' "$work/log" > "$work/served"
serve() { expect "$page$1" "$work/log" serve --station "$work/served"; }
serve 'status 10 long feed 0'
truncate -s $((1 << 30)) "$work/log"
serve 'status 0'
rm "$work/log"

# 2^21 lines of 32 bytes.
printf '[[radio]]\nplan = "dcf"\nlog = "log"\n' > "$work/station"
python3 - > "$work/script" <<'PY'
import sys
for block in range(10**15, 10**15 + 2**21, 2**16):
    sys.stdout.write("".join(f"pulse 0 {at} 100000\n" for at in range(block, block + 2**16)))
PY
script() { expect "$page$1" "$work/script" replay --station "$work/station" --script "$work/script"; }
script 'status 0'
echo 'pulse 0 1100000000000000 100000' >> "$work/script"
script 'status 10 long script'
