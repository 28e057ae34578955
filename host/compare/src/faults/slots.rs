//! The words of slots, to be taken out and put in by faults.

use crate::calls::Words;
use crate::layout::{record_words, slot_words, PLACES, RECORDS, SLOT};

/// The sheet without the words past its last whole slot.
pub fn whole_slots(sheet: &mut [u32]) -> &mut [u32] {
    let whole = sheet.len() - sheet.len() % SLOT;
    &mut sheet[..whole]
}

pub fn slot_words_mut(sheet: &mut [u32], slot: u32) -> Option<&mut [u32]> {
    sheet.chunks_exact_mut(SLOT).nth(slot as usize)
}

/// The records that a slot says it holds.
pub fn stored_records(sheet: &[u32], slot: u32) -> Vec<Words> {
    let (records, _) = slot_words(sheet, slot).map_or(&[][..], record_words).as_chunks::<6>();
    records.to_vec()
}

pub fn store_records(sheet: &mut [u32], slot: u32, records: &[Words]) {
    if let Some(words) = slot_words_mut(sheet, slot) {
        let (stored, _) = words[RECORDS..PLACES].as_chunks_mut::<6>();
        stored.iter_mut().zip(records).for_each(|(stored, record)| *stored = *record);
    }
}

/// Leaves the text of each slot whose clinic, measure and indent stay.
pub fn keep_texts(sheet: &mut [u32], before: &[u32]) {
    for (slot, old) in sheet.chunks_exact_mut(SLOT).zip(before.chunks_exact(SLOT)) {
        if slot[..3] == old[..3] {
            slot.copy_from_slice(old);
        }
    }
}

/// Leaves every word after the heads.
pub fn keep_all_but_heads(sheet: &mut [u32], before: &[u32]) {
    for (slot, old) in sheet.chunks_exact_mut(SLOT).zip(before.chunks_exact(SLOT)) {
        slot[RECORDS..].copy_from_slice(&old[RECORDS..]);
    }
}

pub fn spoil_next_slot(sheet: &mut [u32], slot: u32) {
    if let Some(next) = slot_words_mut(sheet, slot + 1) {
        next[SLOT - 1] ^= 1;
    }
}
