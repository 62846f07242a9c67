#!/bin/sh
# The keeper on the built program: the error of the served time against a receiver in software over 30 starts, how long clients are without
# an answer and without time at a change of run, and its processor time. It takes four minutes on a quiet machine. RADIO_NTPD names
# another program.
#
#     bench/keeper.sh [starts|changes|costs ...]
set -eu
. "$(dirname "$0")/built.sh"
rm -rf "$work"
exec python3 -B -m bench.keeper "$@"
