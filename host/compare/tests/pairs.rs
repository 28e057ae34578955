//! See `comparisons::pairs`.

use compare::tally::Outcome::Edit;

#[test]
fn pairs() {
    let tally = compare::report::full("pairs", compare::comparisons::pairs::compare);
    tally.assert_seen(100, [0, 10].map(Edit));
}
