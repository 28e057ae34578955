//! See `comparisons::leaflet`.

use compare::random::one_seed_is_picked;
use compare::tally::Outcome::Import;

#[test]
fn leaflet() {
    let tally = compare::report::full("leaflet", compare::comparisons::leaflet::compare);
    tally.assert_seen(1_000_000, [Import(17)]);
    tally.assert_seen(100_000, [Import(0)]);
    tally.assert_seen(100, [7, 8, 9].map(Import));
    if !one_seed_is_picked() {
        tally.assert_seen(100, [Import(10)]);
    }
}
