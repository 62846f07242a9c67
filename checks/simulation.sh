#!/bin/sh
# The supervisor through simulated histories of faults, within a minute on four processors without
# other work: the simulation's own tests, the histories that found something once, 200 seeds, and a
# hundred changes of run.
#
#     checks/simulation.sh [SEEDS [FIRST]]
set -eu
cd "$(dirname "$0")/.."
trap 'exit 1' INT TERM
python3 -B -m unittest checks.test_simulation
python3 -B -m checks.simulate --history checks/simulation/found/*.txt
python3 -B -m checks.simulate "${1:-200}" --first "${2:-0}" --span 600 --jobs "$(nproc)"
python3 -B -m checks.simulate --changes 100
