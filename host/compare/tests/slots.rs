//! See `comparisons::slots`.

use compare::tally::Outcome::{Edit, GiveBack, Import, ReadLines, ReadRefused, Take};

#[test]
fn slots() {
    let tally = compare::report::full("slots", compare::comparisons::slots::compare);
    tally.assert_seen(1_000, [0, 3, 13].map(Take));
    tally.assert_seen(1_000, [0, 2, 3, 4, 14].map(GiveBack));
    tally.assert_seen(1_000, [0, 2, 3, 4, 14].map(Edit));
    tally.assert_seen(1_000, [0, 2, 3, 4, 14].map(Import));
    tally.assert_seen(1_000, [ReadLines].into_iter().chain([2, 3, 4, 14].map(ReadRefused)));
}
