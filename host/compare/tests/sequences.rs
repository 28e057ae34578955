//! See `comparisons::sequences`.

use compare::random::one_seed_is_picked;
use compare::tally::Outcome::{self, Edit, GiveBack, Import, SetUp, Take};

#[test]
fn sequences() {
    let tally = compare::report::full("sequences", compare::comparisons::sequences::compare);
    if !one_seed_is_picked() {
        tally.assert_seen(20, [0, 1, 11].map(SetUp));
        tally.assert_seen(20, [0, 1, 3, 13].map(Take));
        tally.assert_seen(20, [0, 1, 2, 3, 4, 14].map(GiveBack));
        tally.assert_seen(20, (0..=10).chain([12, 14]).map(Edit));
        tally.assert_seen(20, [0, 1, 2, 3, 4, 7, 8, 9, 10, 14, 17].map(Import));
        tally.assert_seen(20, Outcome::REDONE);
        tally.assert_seen(20, Outcome::READS);
    }
}
