//! See `comparisons::cases`.

use compare::tally::Outcome::{
    self, Edit, GiveBack, Import, ReadLines, ReadNoLines, ReadRefused, SetUp, Take,
};
use second::leaflet::by_hand::{all_refused, ACCEPTED};

#[test]
fn cases() {
    let tally = compare::report::full("cases", compare::comparisons::cases::compare);
    tally.assert_seen(1, [SetUp(0), Edit(0), Edit(8), Edit(10), Edit(12), ReadLines, ReadNoLines]);
    tally.assert_seen(1, Outcome::REDONE);
    tally.assert_seen(ACCEPTED.len() as u64, [Import(0)]);
    tally.assert_seen(all_refused().count() as u64, [Import(17)]);
    // Every sheet of request 07's cases has a length that is one.
    tally.assert_seen(1, [0, 3, 13].map(Take));
    let up_to_4 = [2, 3, 14, 4];
    tally.assert_seen(1, up_to_4.map(Edit).into_iter().chain(up_to_4.map(ReadRefused)));
    tally.assert_seen(1, up_to_4.map(GiveBack).into_iter().chain([GiveBack(0)]));
}
