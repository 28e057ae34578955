//! See `comparisons::digits`.

use compare::tally::Outcome::{Edit, ReadLines};

#[test]
fn digits() {
    let tally = compare::report::full("digits", compare::comparisons::digits::compare);
    tally.assert_seen(100, [0, 10].map(Edit));
    // Each digit, where it was stored before the postfix was held to it.
    tally.assert_seen(10, [Edit(4), ReadLines]);
}
