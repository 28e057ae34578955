//! See `comparisons::redone`.

use compare::random::one_seed_is_picked;
use compare::tally::Outcome::{self, Edit};

#[test]
fn redone() {
    let tally = compare::report::full("redone", compare::comparisons::redone::compare);
    tally.assert_seen(1_000, Outcome::REDONE);
    if !one_seed_is_picked() {
        // A refused edit reports 0: among these, of slots with lines.
        tally.assert_seen(100, [0, 7, 9, 10].map(Edit));
    }
}
