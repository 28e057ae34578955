//! See `comparisons::ruby`.

use compare::comparisons::ruby;
use compare::tally::Outcome::{Edit, FinalLine, Line, ReadLines, RubyPlace};
use compare::tally::Way::{Natural, Stretched};

/// How many groups stand on the sheet: every record count with every ruby count, in every size.
const GROUPS: u64 = 16 * 64 * ruby::GROUP_SIZES.len() as u64;

#[test]
fn ruby_place() {
    let tally = compare::report::full("ruby place", ruby::places);
    tally.assert_seen(1_000_000, [0, 8].map(RubyPlace));
}

#[test]
fn groups() {
    let tally = compare::report::full("groups", ruby::groups);
    // On a line of their own, on a final line that they just fit, and on one that is not final.
    tally.assert_seen(GROUPS, [Edit(0), FinalLine(Natural), Line(Natural), Line(Stretched(2))]);
    // Where the measure is too narrow by 1; that of a group of advance 8 is no measure.
    tally.assert_seen(GROUPS - 2, [Edit(10)]);
}

/// Of n records, those with more than 2n ruby characters; a single record stands where it stood.
#[test]
fn stored_groups() {
    let tally = compare::report::full("stored groups", ruby::stored);
    let moved: u64 = (2..=16).map(|n| 64 - 2 * n).sum();
    tally.assert_seen(moved * ruby::GROUP_SIZES.len() as u64, [Edit(0), ReadLines]);
}
