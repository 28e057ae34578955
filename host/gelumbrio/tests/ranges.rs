//! Edits by a range of records, which answer as the call by place and count does.

mod common;

use std::ops::Bound::{self, Excluded, Included, Unbounded};

use common::{damaged, refused, sheet, two_lines, CLINIC, K, SLOT};
use gelumbrio::layout::{IN_USE_AT, RECORD_COUNT_AT};
use gelumbrio::{Clinic, Refusal, Sheet, SlotNumber};

/// Numbers about the six records that the slots hold, about the most, and about the largest.
const NUMBERS: [u32; 12] = [0, 1, 2, 5, 6, 7, 255, 256, 257, 0x8000_0000, u32::MAX - 1, u32::MAX];

fn bounds() -> impl Iterator<Item = Bound<u32>> + Clone {
    [Unbounded].into_iter().chain(NUMBERS.into_iter().flat_map(|number| [Included(number), Excluded(number)]))
}

/// The first and the end of a range in a slot of so many records, in numbers that do not wrap.
fn first_and_end((start, end): (Bound<u32>, Bound<u32>), count: u64) -> (u64, u64) {
    let first = match start {
        Included(start) => start.into(),
        Excluded(before) => u64::from(before) + 1,
        Unbounded => 0,
    };
    let end = match end {
        Included(last) => u64::from(last) + 1,
        Excluded(end) => end.into(),
        Unbounded => count,
    };
    (first, end)
}

#[test]
fn a_range_inside_the_slot_is_a_place_and_a_count() {
    let mut accepted = 0;
    for range in bounds().flat_map(|start| bounds().map(move |end| (start, end))) {
        let (mut by_range, mut by_numbers) = (two_lines(), two_lines());
        let edited = by_range.edit(CLINIC, SLOT, range, &[K; 2]);
        let (first, end) = first_and_end(range, 6);
        let expected = match first <= end && end <= 6 {
            true => {
                accepted += 1;
                let words = [K.words(); 2].concat();
                by_numbers.edit_words(CLINIC, SLOT, first as u32, (end - first) as u32, &words)
            }
            false => Err(Refusal::PastEnd { count: 6 }),
        };
        assert_eq!(edited, expected, "{range:?}");
        assert_eq!(by_range, by_numbers, "{range:?}");
    }
    assert!(accepted > 50, "{accepted}");
}

/// What comes before 5 is answered whatever the range is.
#[test]
fn refusals_by_sheet_caller_and_slot_come_before_that_of_a_range() {
    let sound = two_lines();
    let with_count = |count| damaged(&sound, RECORD_COUNT_AT, count);
    let cases: [(Sheet, Clinic, SlotNumber, Refusal); 7] = [
        (sound.clone(), CLINIC, SlotNumber(2), Refusal::Slot),
        (sound.clone(), CLINIC, SlotNumber(u32::MAX), Refusal::Slot),
        (sound.clone(), Clinic(9), SLOT, Refusal::Caller),
        (with_count(257), Clinic(9), SLOT, Refusal::Caller),
        (damaged(&with_count(257), IN_USE_AT, 0), CLINIC, SLOT, Refusal::NotInUse),
        (with_count(257), CLINIC, SLOT, Refusal::Damaged),
        (with_count(u32::MAX), CLINIC, SLOT, Refusal::Damaged),
    ];
    for (sheet, caller, slot, refusal) in cases {
        for range in bounds().flat_map(|start| bounds().map(move |end| (start, end))) {
            let mut edited = sheet.clone();
            assert_eq!(edited.edit(caller, slot, range, &[K]), Err(refusal), "{range:?}");
            assert_eq!(edited, sheet, "{range:?}");
        }
    }
}

#[test]
fn an_open_end_goes_by_the_stored_count() {
    // Four of six records are left, by the count; the words of the others are what they were.
    let mut sheet = damaged(&two_lines(), RECORD_COUNT_AT, 4);
    assert!(sheet.edit(CLINIC, SLOT, 4.., &[K]).is_ok());
    assert_eq!(sheet.slot(SLOT).unwrap().record_count(), 5);
    assert!(sheet.edit(CLINIC, SLOT, .., &[]).is_ok());
    assert_eq!(sheet.slot(SLOT).unwrap().record_count(), 0);
}

#[test]
fn an_end_before_its_start_is_refused_in_an_empty_slot_too() {
    let (start, end) = (1, 0);
    refused(sheet(400).edit(CLINIC, SLOT, start..end, &[K]), 5, Refusal::PastEnd { count: 0 });
    let (start, last) = (6, 4);
    refused(two_lines().edit(CLINIC, SLOT, start..=last, &[K]), 5, Refusal::PastEnd { count: 6 });
}
