#!/bin/sh
# Draws the pictures of docs/COMMANDS.md and docs/ACCURACY.md anew, with tools/plot_journal.py. Receivers in software give the logs, and
# `replay` the journals. It takes about a minute.
#
#     bench/pictures.sh [FOLDER]        the folder that they are written to (docs/pictures)
set -eu
pictures=$(realpath -m "${1:-$(dirname "$0")/../docs/pictures}")
. "$(dirname "$0")/built.sh"
python3 -B -m bench.pictures "$work" "$pictures"
