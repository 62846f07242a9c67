#!/bin/sh
# Keeps a station for HOURS (2): three radios in software whose carriers fade, one of them steadied, two servers, a client
# that asks a hundred times a second, and an echo server beside it. Every KILLED seconds (420) something is killed in turn: the server, a receiver,
# the reporter. A run lasts CYCLE seconds (300). Every ten minutes it prints a line: what the client met so far, and how the radios were received.
#
# At the end it says what each kind of event cost: changes of run, each kind of kill, and what none of them explains. The last line is `soak passed`
# or `soak failed: why`. It fails, with status 1, where
#   - an answer was wrong: its error is above the root distance that it reports;
#   - an answer or the time was missing at a change of run or a kill for longer than checks/kept_bounds.py allows, where the echo about that moment
#     says what the machine itself stalled;
#   - one was missing at any other time;
#   - a run began for which nothing had been killed, a radio was not received, or the keeper did not end with 0.
# It is not in the gate. RADIO_NTPD names another program, SOAK_SAID a file for what the keeper says, SOAK_MET one for each span, run and
# kill. On a machine with other work give it priority:
#
#     chrt -r 1 checks/soak.sh
#
#     checks/soak.sh [HOURS [CYCLE [KILLED]]]
set -u
cd "$(dirname "$0")/.." || exit 1
# It's built here where that hasn't been done; without arguments it only ends with a usage error.
[ -n "${RADIO_NTPD:-}" ] || ./radio_ntpd > /dev/null
exec python3 -B -m checks.soak "$@"
