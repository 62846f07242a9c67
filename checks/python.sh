#!/bin/sh
# What mypy and pyflakes find in all Python of this repository, each where it is installed. Types are read as checks/mypy.ini says. It takes
# half a minute.
#
#     checks/python.sh
set -u
cd "$(dirname "$0")/.." || exit 1
work=$(mktemp -d) || exit 1
trap 'rm -rf "$work"' EXIT
trap 'exit 1' INT TERM
bad=0
files=$(find . -name '*.py' ! -path './.git/*' ! -path '*/out/*' | LC_ALL=C sort)
# Scripts that import one another by their bare names: each of these folders is read by itself.
scripts='^\./\(build\|feeders\|tools\)/'

# Reads the types of the files that match, whose imports begin at the folder $1.
types() {
    set -- "$1" $(cat)
    [ $# -gt 1 ] || return
    first=$1
    shift
    MYPYPATH=$first mypy --config-file checks/mypy.ini --cache-dir "$work/cache" "$@" >> "$work/mypy" 2>&1 || bad=1
}

if command -v mypy > /dev/null; then
    echo "$files" | grep -v "$scripts" > "$work/packages"
    types . < "$work/packages"
    for folder in build feeders tools; do
        echo "$files" | grep "^\./$folder/" > "$work/scripts"
        types "$folder" < "$work/scripts"
    done
    grep -v ': note: ' "$work/mypy" >&2
    read_by=" mypy"
else
    echo "python: mypy is not installed, so types are not looked at"
fi
if command -v pyflakes3 > /dev/null; then
    pyflakes3 $files >&2 || bad=1
    read_by="${read_by:-} pyflakes3"
else
    echo "python: pyflakes3 is not installed, so unused and unknown names are not looked at"
fi
[ "$bad" = 0 ] && echo "python: $(echo "$files" | wc -l) files, read by:${read_by:- nothing}"
exit "$bad"
