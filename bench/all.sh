#!/bin/sh
# Runs every bench of this folder that ends within minutes, one after the other, so that all ratios come from one run on one machine. Each
# one's figures stand under its name; a bench that fails is named at the end, and the others run all the same. `limit.sh` needs a gigabyte of
# disk and is run by itself. Needs what those need: the built program (run ./radio_ntpd once before), rt, gcc, python3, valgrind, OpenSSL's headers.
#
#     bench/all.sh [BENCH...]
set -u
cd "$(dirname "$0")" || exit 1
[ $# -gt 0 ] || set -- decode reply seal turn client_gate page fold serve drill replay migrate
failed=
for bench do
    echo "== $bench"
    "$PWD/$bench.sh" || failed="$failed $bench"
done
[ -z "$failed" ] || { echo "failed:$failed" >&2; exit 1; }
