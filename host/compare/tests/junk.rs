//! See `comparisons::junk`.

use compare::random::one_seed_is_picked;
use compare::tally::Outcome::{Edit, GiveBack, Import, ReadLines, ReadNoLines, ReadRefused, Take};

#[test]
fn junk() {
    let tally = compare::report::full("junk", compare::comparisons::junk::compare);
    if !one_seed_is_picked() {
        // Every sheet has a length that is one.
        tally.assert_seen(100, [0, 3, 13].map(Take));
        tally.assert_seen(100, [0, 2, 3, 4, 14].map(GiveBack));
        tally.assert_seen(100, [0, 2, 3, 4, 5, 8, 12, 14].map(Edit));
        tally.assert_seen(100, [0, 2, 3, 4, 7, 8, 9, 10, 14, 17].map(Import));
        tally.assert_seen(100, [ReadLines, ReadNoLines].into_iter().chain([2, 3, 4, 14].map(ReadRefused)));
    }
}
