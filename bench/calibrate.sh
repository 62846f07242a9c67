#!/bin/sh
# What `radio_keeper calibrate` says of receivers in software whose lag is known, 23 ms: against the host's clock, and against a server that is
# 40 ms ahead of it (and the receiver with it), asked every 16 s. All cases run side by side; it takes as long as --minutes says, and a bit.
# With `spread` many receivers are worked out at once by the keeper's code, and it says whether the error that is printed is right.
#
#     bench/calibrate.sh [--minutes N] [--jitter MS ..]
#     bench/calibrate.sh spread [--seeds N] [--jitter MS] [--minutes N ..]
set -eu
. "$(dirname "$0")/built.sh"
rm -rf "$work"
if [ "${1:-}" = spread ]; then
    shift
    exec python3 -B -m bench.calibrate_spread "$@"
fi
exec python3 -B -m bench.calibrate "$@"
