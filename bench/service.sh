#!/bin/sh
# Runs that a supervisor holds: how far the served time is from that of the log by CLOCK_MONOTONIC, at 30 starts on a quiet host and at 30
# at a load of 16; and the instructions of a reply, beside those of a run that opens its own socket (valgrind). It takes some four minutes.
#
#     bench/service.sh
. "$(dirname "$0")/built.sh"
rm -rf "$work"
python3 -B -m bench.service_time || exit
python3 -B -m bench.service_instructions
