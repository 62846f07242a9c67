#!/bin/sh
# Tries the wrong bodies of attacks/, which the gate leaves out for its time. The prover must refuse each.
#
#     checks/attacks.sh [CRATE...]
#
# It runs `rt ci` for these crates in a copy that has no other wrong bodies. So it begins with what the gate kept on this machine; where nothing is
# kept, all that these crates stand on is proved first. After the gate it takes 12 to 22 minutes on four processors. It prints what became of each
# edit, and ends with 1 where one is not refused. Needs rt.
set -eu
cd "$(dirname "$0")/.."
[ $# -gt 0 ] || set -- $(ls attacks)
work=$(mktemp -d)
trap 'rm -rf "$work"' EXIT
tar cf - --exclude=out --exclude=must-fail crates crates.txt HANDLES | tar xf - -C "$work"
for crate do
    cp -r "attacks/$crate" "$work/crates/$crate/must-fail"
done
cd "$work"
rt ci "$@"
