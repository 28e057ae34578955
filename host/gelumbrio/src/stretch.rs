//! A range of records, as the place and the count of an edit.

use std::ops::{Bound, RangeBounds};

/// More records than any slot has, so that a deletion of them passes its end.
const PAST_EVERY_END: u32 = u32::MAX;

/// The place and how many records to delete, of a range in a slot that says that it has so many.
pub(crate) fn place_and_deleted(range: impl RangeBounds<u32>, count: u32) -> (u32, u32) {
    // What does not fit into a word is past every end, and so is the largest word.
    let place = match range.start_bound() {
        Bound::Included(&start) => start,
        Bound::Excluded(&before) => before.saturating_add(1),
        Bound::Unbounded => 0,
    };
    let end = match range.end_bound() {
        Bound::Included(&last) => last.saturating_add(1),
        Bound::Excluded(&end) => end,
        // Where the place is past the end, it is refused itself.
        Bound::Unbounded => count.max(place),
    };
    (place, end.checked_sub(place).unwrap_or(PAST_EVERY_END))
}

#[cfg(test)]
mod tests {
    use super::*;

    #[test]
    fn a_range_is_a_place_and_a_count() {
        assert_eq!(place_and_deleted(2..5, 9), (2, 3));
        assert_eq!(place_and_deleted(2..=5, 9), (2, 4));
        assert_eq!(place_and_deleted(3..3, 9), (3, 0));
        assert_eq!(place_and_deleted(..4, 9), (0, 4));
        assert_eq!(place_and_deleted((Bound::Excluded(2), Bound::Excluded(5)), 9), (3, 2));
    }

    #[test]
    fn an_open_end_is_the_record_count() {
        assert_eq!(place_and_deleted(.., 9), (0, 9));
        assert_eq!(place_and_deleted(6.., 9), (6, 3));
        assert_eq!(place_and_deleted(9.., 9), (9, 0));
        assert_eq!(place_and_deleted(10.., 9), (10, 0));
    }

    #[test]
    fn an_end_before_its_start_passes_every_end() {
        let (place, end) = (5, 3);
        assert_eq!(place_and_deleted(place..end, 9), (5, u32::MAX));
        assert_eq!(place_and_deleted(0..=u32::MAX, 9), (0, u32::MAX));
        assert_eq!(place_and_deleted((Bound::Excluded(u32::MAX), Bound::Unbounded), 9), (u32::MAX, 0));
    }
}
