# A small program that folds the answers of some servers, some of them ten seconds off, and makes the page after each: its source,
# which is programs/fold_loop.rt.in, and its proofs are put into "$work/loop". The scripts that build it over copies of the crates
# read this.
mkdir -p "$work/loop/src" "$work/loop/proofs/fold_often" "$work/loop/proofs/are_valid"
cp "$top/bench/programs/fold_loop.rt.in" "$work/loop/src/main.rt"
cat > "$work/loop/proofs/fold_often/Invariants.antt" <<'ANTT'
use Rattle.std.proofs.Common.{◌≤◌, List, length}
use Rattle.journal_entry.specs.declared.entry.Entry.{Entry}
use Rattle.system_fold.specs.KeptFold.{StandsForJournal}
use Rattle.fold_loop.proofs.fold_often.Given as goal

abbrev pub invariant-loop-i : goal.invariant-loop-i
invariant-loop-i l = record {
  journal : List Entry;
  stands : StandsForJournal l.fold l.settings journal;
  few : length journal ≤ l.i;
}
ANTT
cat > "$work/loop/proofs/fold_often/Answers.antt" <<'ANTT'
use Rattle.std.proofs.Common.{◌≡◌, ◌++◌, ◌∷◌, [], ℕ, ◌∙◌, ◌+◌, ◌≤◌, List, ap, sym, subst, length, arith}
use Rattle.std.proofs.lemmas.List.{length-append}
use Rattle.journal_entry.specs.Valid.{IsValid}
use Rattle.journal_entry.specs.declared.entry.Entry.{Entry}
use Rattle.system_fold.specs.declared.feed.Feed.{Feed}
use Rattle.system_fold.proofs.StandingLaws.{feeds-length}
use Rattle.fold_loop.proofs.fold_often.Goals as goal

pub step-requires-clause-valid : goal.step-requires-clause-valid
step-requires-clause-valid c =
    let stands = c.loop-i.invariant.stands in
    subst (λ (n : ℕ). IsValid n c.answer.result) (c.count.ensures.value ∙ sym (ap (λ (fs : List Feed). length fs) stands.feeds ∙ feeds-length c.args.settings.now c.loop-i.invariant.journal)) c.answer.ensures

pub loop-i-preserved : goal.loop-i-preserved
loop-i-preserved c = record {
  journal = c.loop-i.invariant.journal ++ c.answer.result ∷ [];
  stands = c.step.ensures c.args.settings.now c.loop-i.invariant.journal c.loop-i.invariant.stands;
  few = let few = c.loop-i.invariant.few in omega (arith, length-append c.loop-i.invariant.journal (c.answer.result ∷ []));
}
ANTT
cat > "$work/loop/proofs/are_valid/Answers.antt" <<'ANTT'
use Rattle.std.proofs.Common.{arith}
use Rattle.std.proofs.lemmas.Bool.Decides.{nat_tests}
use Rattle.fold_loop.proofs.are_valid.Goals as goal

pub returns : goal.returns
returns c h = record { milliseconds = 1000; least = omega arith; most = omega arith; bound = grind (arith, nat_tests) }
ANTT
