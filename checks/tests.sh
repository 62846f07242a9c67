#!/bin/sh
# Runs the tests of Python in some folders, or in all: each file in a process of its own, as many at once as there are processors, the
# largest first. A file test_NAME.py tests what NAME stands beside it. No built program is needed. The last line says how many tests ran.
#
#     checks/tests.sh [FOLDER...]
set -u
cd "$(dirname "$0")/.." || exit 1
[ $# -gt 0 ] || set -- bench build checks dev feeders keeper lab tools
work=$(mktemp -d) || exit 1
trap 'rm -rf "$work"' EXIT
trap 'exit 1' INT TERM
unset RADIO_NTPD

# Where a file's tests don't all pass, its name stands in `failed`. A folder of users' scripts is no package: its tests are run there.
find "$@" -name "test_*.py" ! -name test_simulation.py > "$work/files"
ls -S $(cat "$work/files") | xargs -P "$(nproc)" -I{} sh -c '
    folder=$(dirname "$1") name=$(basename "$1" .py) out=$2/$(echo "$1" | tr / .)
    if [ -e "$folder/__init__.py" ]; then name=$(echo "${1%.py}" | tr / .); else cd "$folder" || exit 1; fi
    python3 -B -m unittest "$name" > "$out" 2>&1 || echo "$1" >> "$2/failed"
' run {} "$work" || exit 1
if [ -e "$work/failed" ]; then
    while read -r file; do
        echo "tests: $file" >&2
        # Where no test failed, the run itself ended before its time.
        out=$work/$(echo "$file" | tr / .)
        grep -E -A 20 '^(FAIL|ERROR)' "$out" >&2 || tail -n 20 "$out" >&2
    done < "$work/failed"
    exit 1
fi
# Each file said how many tests it ran.
count=0
while read -r file; do
    ran=$(sed -n 's/^Ran \([0-9]*\) tests\{0,1\} in .*/\1/p' "$work/$(echo "$file" | tr / .)")
    [ "${ran:-0}" -gt 0 ] || { echo "tests: $file ran no test" >&2; exit 1; }
    count=$((count + ran))
done < "$work/files"
echo "tests: $count of $*"
