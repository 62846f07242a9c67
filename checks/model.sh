#!/bin/sh
# Compares the program with a second reading of its definitions, the model in Python of lab/model: whole texts and exit statuses of
# `decode`, `replay`, `migrate`, `serve` and `drill`, over files that are each meant for a rule, a bound or an outcome, and over CASES more
# that a seed makes (1000; the gate's). It fails where a line differs, and where a rule, a refusal or an outcome was met by no case.
# RADIO_NTPD names another program.
#
#     checks/model.sh [CASES [SEED]]
set -u
cd "$(dirname "$0")/.." || exit 1
# It's built here where that hasn't been done; without arguments it only ends with a usage error.
[ -n "${RADIO_NTPD:-}" ] || ./radio_ntpd > /dev/null
exec python3 -B -m checks.model "$@"
