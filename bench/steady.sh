#!/bin/sh
# How far off the moments are that `decode` reports of receivers in software with jitter and outliers, with the starts as they come and with
# feeders/steady.py, over a day of each plan; and how many minutes it takes until they are better. No receiver is needed.
#
#     bench/steady.sh [--minutes N] [--seeds N]
set -eu
. "$(dirname "$0")/built.sh"
rm -rf "$work"
exec python3 -B -m bench.steadied spread "$@"
