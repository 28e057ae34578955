//! Edits of a slot whose words are others while the edit is made.

use second::{Edit, EditAnswer};

use super::slots::{slot_words_mut, store_records, stored_records};
use crate::calls::Words;
use crate::program::{Program, Second};

/// The edit of a slot in which a word of the head is another.
pub fn with_head_word(sheet: &mut [u32], edit: Edit<'_>, at: usize, word: u32) -> EditAnswer {
    let Some(slot) = slot_words_mut(sheet, edit.slot) else {
        return Second.edit(sheet, edit);
    };
    let kept = std::mem::replace(&mut slot[at], word);
    let answer = Second.edit(sheet, edit);
    if let Some(slot) = slot_words_mut(sheet, edit.slot) {
        slot[at] = kept;
    }
    answer
}

/// The edit in which the stored records and the inserted ones are taken as if they were others.
pub fn with_texts_as(
    sheet: &mut [u32],
    edit: Edit<'_>,
    stored_as: impl Fn(Words) -> Words,
    inserted_as: impl Fn(Words) -> Words,
) -> EditAnswer {
    let mut records = stored_records(sheet, edit.slot);
    let (inserted, cut_short) = edit.inserted.as_chunks::<6>();
    let mut changed_words: Vec<u32> = inserted.iter().flat_map(|&record| inserted_as(record)).collect();
    changed_words.extend_from_slice(cut_short);

    let stored: Vec<Words> = records.iter().map(|&record| stored_as(record)).collect();
    store_records(sheet, edit.slot, &stored);
    let answer = Second.edit(sheet, Edit { inserted: &changed_words, ..edit });
    if answer.number == 0 {
        let place = edit.place as usize;
        records.splice(place..place + edit.deleted as usize, inserted.iter().copied());
    }
    store_records(sheet, edit.slot, &records);
    answer
}
