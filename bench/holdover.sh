#!/bin/sh
# Whether the time holds what it promises: fifteen minutes of reception by receivers in software with jitter and outliers, then none. It counts in how
# many runs a reply an hour or six hours on is farther off than the root dispersion that it reports, with the starts as they come and with
# feeders/steady.py, for each plan. It takes some minutes. No receiver is needed. With `refused` an hour of refused minutes takes the
# place of silence, and it says for counters that are off by some parts in a million when the error first passes what is reported.
#
#     bench/holdover.sh [--seeds N] [--ppm N]
#     bench/holdover.sh refused [--seeds N] [--ppm N ..] [--jitter MS ..]
set -eu
. "$(dirname "$0")/built.sh"
rm -rf "$work"
if [ "${1:-}" = refused ]; then
    shift
    exec python3 -B -m bench.holdover_refused "$@"
fi
exec python3 -B -m bench.steadied holdover "$@"
