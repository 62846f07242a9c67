#!/bin/sh
# Runs the merge gate (or another command) and prints the processor time that it took, by crate and by kind: see gate_time.py.
exec python3 -B "$(dirname "$0")/gate_time.py" "$@"
