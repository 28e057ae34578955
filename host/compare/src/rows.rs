//! The rows of a group set by any rule: by that of document 01, or by a planted fault's.

use second::records::decode_all;
use second::units::units;

use crate::layout::{record_words, PLACES, RECORDS};

/// A row of a group beside the other.
#[derive(Debug, Clone, Copy)]
pub struct Row {
    /// How many items it has.
    pub n: u32,
    /// How wide all of them are.
    pub width: u32,
    /// How wide the other row is.
    pub other: u32,
}

impl Row {
    /// D of the shorter row, and 0 of the longer one.
    pub fn shortfall(&self) -> u32 {
        self.other.saturating_sub(self.width)
    }

    /// How far item k is moved from its solid offset by document 01's rule, as it was before request 06: half a gap
    /// opens at either end of the row.
    pub fn moved_by_document_01(&self, k: u32) -> u32 {
        let halves = u64::from(self.shortfall()) * u64::from(2 * k + 1);
        (halves / u64::from(2 * self.n)) as u32
    }
}

/// Sets the base row of every group of a composed slot once more, record k so far from its solid offset. Each group
/// stays where it is.
pub fn set_base_rows(slot: &mut [u32], moved: impl Fn(Row, u32) -> u32) {
    let (words, _) = record_words(slot).as_chunks::<6>();
    let records = decode_all(words).unwrap_or_default();
    for unit in units(&records) {
        let offsets: Vec<u32> = unit.record_offsets().collect();
        let record = RECORDS + 6 * unit.first;
        let (group, ruby_count) = (slot[record + 4], slot[record + 5]);
        if group == 0 {
            continue;
        }
        let n = offsets.len() as u32;
        let row = Row { n, width: n * unit.size, other: ruby_count * unit.size / 2 };
        for (k, offset) in (0..).zip(offsets) {
            let x = &mut slot[PLACES + 2 * (unit.first + k as usize)];
            *x = *x - offset + k * unit.size + moved(row, k);
        }
    }
}
