//! See `comparisons::short`.

use compare::tally::Outcome::Edit;

#[test]
fn short() {
    let tally = compare::report::full("short", compare::comparisons::short::compare);
    tally.assert_seen(100, [0, 9, 10].map(Edit));
}
