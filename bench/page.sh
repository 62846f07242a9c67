#!/bin/sh
# What the shared page costs. Instructions of a publishing and of a reading, counted by callgrind; and with real threads nanoseconds a
# reading beside one writer at full speed, for one reader and for three, and how many readings are answered Again, beside a plain C
# sequence lock of ten words in the same run. A small program is built in a temporary folder over copies of the crates, which
# proves them first (some minutes where nothing is kept). Needs rt, a C compiler, valgrind.
#
#     bench/page.sh [COUNT]
set -eu
count=${1:-200000}
. "$(dirname "$0")/small_program.sh"
crates="tick_units outside_traits journal_entry clock_filter select_core cluster_core clock_page system_fold page_cell"
loop="$work/crates/page_loop"
bring "$work" $crates
mkdir -p "$loop/src" "$loop/proofs/Writer/publish" "$loop/proofs/write_all" "$loop/proofs/read_all" "$loop/proofs/fold_often" \
    "$loop/proofs/of_one_feed"
echo "page_loop: tick_units outside_traits journal_entry clock_page system_fold page_cell atomic_table" >> "$work/crates.txt"
cp "$top/bench/programs/page_loop.rt.in" "$loop/src/main.rt"
cat > "$loop/proofs/Writer/publish/Answers.antt" <<'ANTT'
use Rattle.std.proofs.Common.{◌≡◌, ◌<◌, ℕ, length, rules, sym, ap, ◌∙◌, subst, arith}
use Rattle.std.specs.Prelude.{List}
use Rattle.system_fold.proofs.StandingLaws.{feeds-length}
use Rattle.system_fold.specs.declared.feed.Feed.{Feed}
use Rattle.page_loop.proofs.Writer.publish.Goals as goal

pub step-requires-clause-valid : goal.step-requires-clause-valid
step-requires-clause-valid c =
    let w = c.self.inside in
    let stands = c.self.invariant.1 in
    let feeds = ap (λ (fs : List Feed). length fs) stands.feeds ∙ feeds-length w.baton.view.settings w.baton.view.list in
    let below : c.number-feed.result < w.feeds = search rules in
    let known = c.self.invariant.2 in
    record { feed = omega (arith, feeds, below, known); what = search rules }
ANTT
cat > "$loop/proofs/write_all/Invariants.antt" <<'ANTT'
use Rattle.std.proofs.Common.{◌≡◌}
use Rattle.page_loop.proofs.write_all.Given as goal

abbrev pub invariant-loop : goal.invariant-loop
invariant-loop l = l.writer.table ≡ l.cell.table
ANTT
cat > "$loop/proofs/read_all/Invariants.antt" <<'ANTT'
use Rattle.std.proofs.Common.{◌≡◌}
use Rattle.page_loop.proofs.read_all.Given as goal

abbrev pub invariant-loop : goal.invariant-loop
invariant-loop l = l.pass.table ≡ l.cell.table
ANTT
cat > "$loop/proofs/of_one_feed/Answers.antt" <<'ANTT'
use Rattle.std.proofs.Common.{rules, arith}
use Rattle.page_loop.proofs.of_one_feed.Goals as goal

pub returns-clause-valid : goal.returns-clause-valid
returns-clause-valid c = record { milliseconds = 1000; least = omega arith; most = omega arith; bound = search rules }
ANTT
cat > "$loop/proofs/fold_often/Invariants.antt" <<'ANTT'
use Rattle.std.proofs.Common.{◌≤◌, List, length}
use Rattle.journal_entry.specs.declared.entry.Entry.{Entry}
use Rattle.system_fold.specs.KeptFold.{StandsForJournal}
use Rattle.page_loop.proofs.fold_often.Given as goal

abbrev pub invariant-loop-i : goal.invariant-loop-i
invariant-loop-i l = record {
  journal : List Entry;
  stands : StandsForJournal l.fold l.settings journal;
  few : length journal ≤ l.i;
}
ANTT
cat > "$loop/proofs/fold_often/Answers.antt" <<'ANTT'
use Rattle.std.proofs.Common.{◌≡◌, ◌++◌, ◌∷◌, [], ℕ, ◌∙◌, ◌+◌, ◌≤◌, List, ap, sym, subst, length, arith, rules}
use Rattle.std.proofs.lemmas.List.{length-append}
use Rattle.journal_entry.specs.declared.entry.Entry.{Entry}
use Rattle.journal_entry.specs.declared.entry.What.TheVariants.{Notice}
use Rattle.system_fold.specs.declared.feed.Feed.{Feed}
use Rattle.system_fold.proofs.StandingLaws.{feeds-length}
use Rattle.page_loop.proofs.fold_often.Goals as goal

pub step-requires-clause-valid : goal.step-requires-clause-valid
step-requires-clause-valid c =
    let i = c.loop-i.invariant in
    let feeds = ap (λ (fs : List Feed). length fs) i.stands.feeds ∙ feeds-length c.args.settings.now i.journal in
    let some = c.requires.some in
    record { feed = omega (arith, feeds, some); what = search rules }

pub loop-i-preserved : goal.loop-i-preserved
loop-i-preserved c =
    let i = c.loop-i.invariant in
    let few = i.few in
    let e : Entry = record { feed = 0; at = c.beginning.result; what = Notice 0 } in
    record { journal = i.journal ++ e ∷ []; stands = c.step.ensures c.args.settings.now i.journal i.stands; few = omega (arith, few, length-append i.journal (e ∷ [])) }
ANTT
build "$loop" 1 1
${CC:-cc} -O2 -pthread -o "$work/plain" "$top/bench/plain_seqlock.c"
program="$loop/out/page_loop"

instructions() {
    valgrind --tool=callgrind --callgrind-out-file=/dev/null "$program" "$@" 2>&1 > /dev/null | sed -n 's/.*Collected : //p'
}
# The instructions of one more turn.
each() {
    less=$(instructions "$1" 10000)
    more=$(instructions "$1" 20000)
    echo $(((more - less) / 10000))
}
fold=$(each 2)
echo "a reading: $(each 1) instructions; a publishing: $(($(each 0) - fold)) besides the $fold of the fold"
for readers in 1 3; do
    mode=$([ "$readers" = 1 ] && echo 3 || echo 4)
    "$program" "$mode" 1000000000 "$count" | while read -r time agains readings; do
        echo "readers: $readers; one of them $time ns a reading, $agains of $readings answered Again"
    done
    # Plain C, whose writer does nothing between two writings, and then about as much as the fold; a turn is five instructions.
    for turns in 0 $((fold / 5)); do
        "$work/plain" "$readers" "$count" "$turns" | while read -r time torn sum; do
            echo "readers: $readers; plain C, $turns turns between writings: $time ns a reading, $torn of a hundred tries torn"
        done
    done
done
