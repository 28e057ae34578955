//! An outcome that never came up is told, and fails the test that asks for it.

use compare::comparisons::cases;
use compare::program::Second;
use compare::scope::Scope;
use compare::tally::Outcome::{self, Edit, FinalLine, Line, ReadLines, ReadNoLines, ReadRefused};
use compare::tally::{Redone, Tally, Way};

/// A tally of each outcome of a read but this one.
fn without(missing: Outcome) -> Tally {
    let mut tally = Tally::default();
    Outcome::READS.into_iter().filter(|&read| read != missing).for_each(|read| tally.count(read));
    tally
}

#[test]
fn each_read_that_never_came_up_is_told() {
    for missing in Outcome::READS {
        assert_eq!(without(missing).rare(1, Outcome::READS), [missing]);
    }
}

#[test]
#[should_panic(expected = "seen fewer than 1 times: [ReadRefused(4)]")]
fn a_read_that_never_came_up_fails_the_test() {
    without(ReadRefused(4)).assert_seen(1, Outcome::READS);
}

/// Of the papers' cases only request 07's have reads that are refused, none of them with 1. C1, and those whose edit
/// is refused, C10, C11, two of request 01 and nine of request 04, leave a slot without lines.
#[test]
fn reads_are_told_apart_by_their_lines() {
    let tally = cases::compare(&Second, Scope::Full).unwrap();
    assert_eq!(tally.rare(1, Outcome::READS), [ReadRefused(1)]);
    assert_eq!(tally.rare(15, [ReadLines, ReadNoLines]), [ReadNoLines]);
    assert_eq!(tally.rare(14, [ReadLines, ReadNoLines]), []);
}

#[test]
fn lines_are_not_counted_as_calls() {
    let mut tally = Tally::default();
    let lines = [Line(Way::Natural), FinalLine(Way::Shrunk(1)), Outcome::Redone(Redone::All)];
    [Edit(0)].into_iter().chain(lines).for_each(|seen| tally.count(seen));
    assert_eq!(tally.calls(), 1);
}

/// Lines f up to r, of so many.
#[test]
fn edits_are_told_apart_by_what_they_redo() {
    let edits = [(0..0, 0), (0..3, 3), (0..2, 3), (1..2, 3), (1..3, 3)];
    assert_eq!(edits.map(|(lines, count)| Outcome::of_redone(&lines, count)), Outcome::REDONE);
}
