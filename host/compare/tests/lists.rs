//! See `comparisons::lists`.

use compare::comparisons::lists;
use compare::layout::CLASSES;
use compare::tally::Outcome::{ClassOf, Edit, InList};

#[test]
fn lookups() {
    let tally = compare::report::full("lists, looked up", lists::lookups);
    // Annex A's characters, and the unified ideographs but the one that it has.
    tally.assert_seen(1_524 + 97_679, [InList(1)]);
    tally.assert_seen(1, CLASSES.map(ClassOf));
    tally.assert_seen(1_000_000, [InList(0), ClassOf(0)]);
}

#[test]
fn edits() {
    let tally = compare::report::full("lists, edited", lists::edits);
    tally.assert_seen(20_000, [Edit(12)]);
    tally.assert_seen(50, [0, 4, 8, 9, 10].map(Edit));
}
