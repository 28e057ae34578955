//! See `comparisons::paragraphs`.

use compare::random::one_seed_is_picked;
use compare::tally::Outcome::Edit;

#[test]
fn paragraphs() {
    let tally = compare::report::full("paragraphs", compare::comparisons::paragraphs::compare);
    if !one_seed_is_picked() {
        tally.assert_seen(100, [0, 8, 9, 10, 12].map(Edit));
    }
}
