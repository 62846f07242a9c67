#!/bin/sh
# Spoils logs of each plan, scripts, stations and journals by chance, COUNT of each kind (100 thousand), but stops after SECONDS (600):
# cut off, bytes changed, lines lost, doubled and put out of order. The program runs over each. It may not crash, hang, or hold more than a
# megabyte of data, and what it writes and how it ends is judged by a reader of its own from docs/FORMATS.md, lab/grammar. The files
# depend only on a fixed seed; one that went wrong is written by
#
#     python3 -B -m checks.torture --one KIND NUMBER
#
# The gate runs a short one. RADIO_NTPD names another program.
#
#     checks/torture.sh [COUNT [SECONDS [SEED]]]
set -u
cd "$(dirname "$0")/.." || exit 1
# It's built here where that hasn't been done; without arguments it only ends with a usage error.
[ -n "${RADIO_NTPD:-}" ] || ./radio_ntpd > /dev/null
exec python3 -B -m checks.torture "${1:-100000}" "${2:-600}" ${3:+"$3"}
