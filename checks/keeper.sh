#!/bin/sh
# Runs the keeper on the built program against receivers in software on the host's clock, under a client that asks 200 times a second:
# cold and warm starts, ten changes of run, SIGTERM under load, a server that is killed, a flood of two million datagrams, sources that
# die in a line, write noise and stall, a disk for journals that is full, and a keeper that is killed and started again. It looks at every
# answer's time, at silences, at journals, and at what is left. It takes less than two minutes where nothing is run again. RADIO_NTPD
# names another program.
#
#     checks/keeper.sh [CASE...]
set -u
cd "$(dirname "$0")/.." || exit 1
# It's built here where that hasn't been done; without arguments it only ends with a usage error.
[ -n "${RADIO_NTPD:-}" ] || ./radio_ntpd > /dev/null
exec python3 -B -m checks.keeper_cases "$@"
