#!/bin/sh
# Runs the program as a supervisor holds it: sockets handed over, beginning, end, counter, pace, words that are wrong, a supervisor that is
# killed, and runs that follow each other on one socket (checks/service.py). It takes half a minute.
#
#     checks/service.sh [--changes N] [--rate N]
set -u
cd "$(dirname "$0")/.." || exit 1
# It's built here where that hasn't been done; without arguments it only ends with a usage error.
[ -n "${RADIO_NTPD:-}" ] || ./radio_ntpd > /dev/null 2>&1
exec python3 -B -m checks.service "$@"
