//! See `comparisons::gaps`.

use compare::tally::Outcome::{Edit, FinalLine, Line};
use compare::tally::Way::{Natural, Short, Shrunk, Stretched};

#[test]
fn gaps() {
    let tally = compare::report::full("gaps", compare::comparisons::gaps::compare);
    // Every pair of the eighteen classes and two groups, in every pair of five sizes.
    let pairs = 20 * 20 * 5 * 5;
    tally.assert_seen(pairs, [Line(Natural), FinalLine(Natural)]);
    // Each stage in part and in full.
    tally.assert_seen(2 * pairs, [Shrunk(1), Shrunk(2), Stretched(1), Stretched(2)].map(Line));
    tally.assert_seen(2 * pairs, [Shrunk(1), Shrunk(2)].map(FinalLine));
    // Among the long lines.
    tally.assert_seen(100, [Line(Short), Edit(10)]);
}
