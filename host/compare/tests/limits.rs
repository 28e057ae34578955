//! See `comparisons::limits`.

use compare::tally::Outcome::{self, Edit, GiveBack, Import, SetUp, Take};

#[test]
fn limits() {
    let tally = compare::report::full("limits", compare::comparisons::limits::compare);
    tally.assert_seen(1, [0, 1, 11].map(SetUp));
    tally.assert_seen(1, [0, 1, 3, 13].map(Take));
    tally.assert_seen(1, [0, 1, 2, 3, 4, 14].map(GiveBack));
    tally.assert_seen(1, (0..=10).chain([12, 14]).map(Edit));
    tally.assert_seen(1, [0, 1, 2, 3, 4, 8, 14, 17].map(Import));
    tally.assert_seen(1, Outcome::READS);
}
