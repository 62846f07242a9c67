#!/bin/sh
# How far off the time is that clients get of a radio, and how often by no more than is reported: receivers in software with jitter and
# outliers, on the host's clock, through the feeders and a server, with the starts as they come and with steady.py, at 0 and 50 parts in a
# million, through a fade of ten minutes and a change of run. chronyd with -x judges, where it is installed. It takes half an hour.
#
#     bench/accuracy.sh [the arguments of accuracy.py]
#
# "within" is the share of answers, of a hundred, whose error is at most the root distance that they report; "answered" is the share of seconds
# with an answer that has time. The figures are of the exchanges that took less than a millisecond; "quick" is their share. "sock" is a
# chronyd that has the same pulses by feeders/chrony_sock.py.
set -eu
. "$(dirname "$0")/built.sh"
rm -rf "$work"
exec python3 -B -m bench.accuracy "$@"
