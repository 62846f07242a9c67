#!/bin/sh
# Refuses each allocation of a run in turn, the first, the second and so on past the last, and looks at how the run ends.
#
# A run may only end so:
#   whole      the same text and status as without a refusal
#   memory     `status 9 memory` alone, and 9
#   unkept     the whole text, and the one line `unkept` after the reply to a client that couldn't be remembered
# With the fakes a refusal may also be one of the test's own (it then judges nothing) or of the output in memory, which is a
# failed write. Anything else is printed as BAD, and the script ends with 1.
#
#     checks/refuse-allocations.sh
#
# Each line has the number, whether there was such an allocation, and how the run ended; the last says how many there were. It builds
# nothing: run `rt ci` before, or `rt run` in crates/radio_ntpd and `rt test` in crates/engine_tests. It takes a few seconds, wants a C
# compiler and glibc, and is no part of the gate.
set -u
cd "$(dirname "$0")/.." || exit 1
program=crates/radio_ntpd/out/radio_ntpd
tests=crates/engine_tests/out/engine_tests_tests
for built in "$program" "$tests"; do
    [ -x "$built" ] || { echo "$built isn't built yet" >&2; exit 1; }
done
work=$(mktemp -d) || exit 1
trap 'rm -rf "$work"' EXIT
bad=0
refusals=0

# Counts the calls of malloc and realloc, and refuses the one that REFUSE names. It then writes to descriptor 9.
cat > "$work/refuse.c" <<'C'
#include <stdlib.h>
#include <unistd.h>
void *__libc_malloc(size_t size);
void *__libc_realloc(void *old, size_t size);
static long calls, at = -1;
static int refused(void) {
    if (at < 0) { const char *word = getenv("REFUSE"); at = word ? atol(word) : 0; }
    return ++calls == at && write(9, "refused\n", 8) == 8;
}
void *malloc(size_t size) { return refused() ? NULL : __libc_malloc(size); }
void *realloc(void *old, size_t size) { return refused() ? NULL : __libc_realloc(old, size); }
C
cc -O1 -shared -fPIC -o "$work/refuse.so" "$work/refuse.c" || exit 1
printf 'status 9 memory\n' > "$work/memory"
printf 'leap = 1\n' > "$work/fault.toml"
printf 'bound =\n' > "$work/bad.toml"
# One radio, so that the order of the journal's lines doesn't depend on threads.
printf '[[radio]]\nplan = "dcf"\nlog = "examples/radios/dcf77.log"\n[[link]]\nport = 12301\n' > "$work/serve.toml"

# A station with a gap, and a request of each of three clients.
printf 'gap = 2000000\n' > "$work/gap.toml"
for client in 0 1 2; do
    printf 'request %s 1000000 1000000 23%078d1122334455667788\n' "$client" 0
done > "$work/requests"

# Journals of both forms, and one whose third line is bad.
"$program" replay --station examples/station.toml --script examples/exchange.script | grep '^j2 ' > "$work/numbered"
sed 's/^j2 [0-9]* -\{0,1\}[0-9]* //' "$work/numbered" > "$work/journal"
sed '3s/ /  /' "$work/numbered" > "$work/spoilt"

# Runs a command with its allocation of number $1 refused. `made` says whether there was one.
refuse() {
    number=$1
    shift
    REFUSE=$number LD_PRELOAD=$work/refuse.so "$@" > "$work/out" 2> "$work/err" 9> "$work/mark"
    status=$?
    made=no
    if [ -s "$work/mark" ]; then
        made=yes
        refusals=$((refusals + 1))
    fi
}

# How a run of the program ended, which ends whole with the text `whole` and the status $1.
ended() {
    if [ "$status" = "$1" ] && cmp -s "$work/out" "$work/whole"; then echo whole
    elif [ "$status" = 9 ] && cmp -s "$work/out" "$work/memory"; then echo memory
    elif [ "$status" = "$1" ] && [ "$(grep -c '^unkept$' "$work/out")" = 1 ] && grep -B 1 '^unkept$' "$work/out" | grep -q '^reply ' \
        && grep -v '^unkept$' "$work/out" | cmp -s - "$work/whole"; then echo unkept
    else echo "BAD: status $status"
    fi
}

# Refuses each allocation of the program with these words.
program() {
    echo "radio_ntpd $*"
    "$program" "$@" > "$work/whole" 2> "$work/err"
    wanted=$?
    next=1
    made=yes
    while [ "$made" = yes ]; do
        refuse "$next" "$program" "$@"
        how=$(ended "$wanted")
        case $how in BAD*) bad=1 ;; esac
        echo "  $next $made $how"
        next=$((next + 1))
    done
}

# Refuses each allocation of a test over the fakes, which judges by itself.
fakes() {
    echo "$1"
    next=1
    made=yes
    while [ "$made" = yes ]; do
        refuse "$next" "$tests" "$1"
        how=passed
        if [ "$status" != 0 ]; then how="BAD: status $status"; bad=1; fi
        echo "  $next $made $how"
        next=$((next + 1))
    done
}

program replay --station examples/station.toml --script examples/exchange.script
program replay --station "$work/gap.toml" --script "$work/requests" > "$work/gap"
cat "$work/gap"
[ "$(grep -c ' unkept$' "$work/gap")" = 3 ] || { echo 'not each of three clients was once unkept: BAD'; bad=1; }
program replay --station "$work/fault.toml" --script examples/exchange.script
program replay --station "$work/bad.toml" --script examples/exchange.script
program serve --station "$work/serve.toml" --during 0
program serve --station "$work/fault.toml"
program decode --plan dcf --log examples/dcf77-hour.log
program drill --seed 7 --limit 4320
program decode --plan dcf
program migrate --station examples/station.toml --journal "$work/journal"
program migrate --station examples/station.toml --journal "$work/numbered"
program migrate --station examples/station.toml --journal "$work/spoilt"
program migrate --station "$work/fault.toml" --journal "$work/journal"
fakes fault_tests::want_of_memory_in_a_replay
fakes fault_tests::want_of_memory_in_a_log
fakes fault_tests::want_of_memory_in_a_refusal
fakes broken_tests::want_of_memory_in_a_serving
fakes broken_tests::want_of_memory_in_a_journal
[ "$bad" = 0 ] && echo "refuse-allocations: $refusals refused, each run whole, for want of memory, or with one client unkept"
exit "$bad"
