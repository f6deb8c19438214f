//! A8's claim by running it: further calls on a ledger as it was and on a compacted one have the same answers and frames, and name the same lines.
use crate::case::{Case, Step};
use crate::compare::Outcome;

/// Makes the further calls behind the compaction that was made, and hands back what they give without it.
pub fn make(case: &Case, with: &mut Outcome, call: impl Fn(&Step, &mut Outcome) -> u64) -> Outcome {
    with.make(&case.steps, &call);
    let mut without = Outcome::new(case);
    without.make(&case.steps, &call);
    without
}

/// Whether the calls behind a compaction gave what they give without it, up to where a ledger without it is full.
pub fn agree(without: &Outcome, with: &Outcome) -> bool {
    let calls = without.met.iter().take_while(|(_, refusal)| *refusal != 21);
    let until = calls.count();
    let frames = |out: &Outcome| -> Vec<u64> {
        let digests = out.digests.iter().take(until);
        digests.map(|(frame, _)| *frame).collect()
    };
    let same = without.met[..until] == with.met[1..=until];
    let same_lines = without.named[..until] == with.named[1..=until];
    same && same_lines && frames(without) == frames(with)
}
