#!/bin/sh
# Whether feeders/steady.py makes any minute say something else: a year of DCF77 by a receiver in software with jitter, outliers, lost marks
# and bits that are received wrong. It ends with 1 where a verdict is wrong that isn't wrong without it. A year takes about ten minutes of
# four processors, and 40 MB of disk for each.
#
#     bench/steady_year.sh [--days N] [--bits SHARE ..] [--jitter MS]
set -eu
. "$(dirname "$0")/built.sh"
rm -rf "$work"
exec python3 -B -m bench.steadied year "$@"
