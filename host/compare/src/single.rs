//! The single edit of demand 3 (document 01, "The book of demand 3", and document 02, request 07).

use second::book::Book;
use second::{Edit, EditAnswer};

use crate::layout::{record_words, IN_USE, SLOT};
use crate::program::Program;
use crate::same::{same_answer, same_words};

/// Whether each slot of the sheet holds what the program leaves by a single edit of a fresh slot, equally in use, that
/// inserts all of the book's records. Where there are none, the slot stays fresh.
pub fn single_edits(program: &dyn Program, sheet: &[u32], book: &Book) -> Result<(), String> {
    let in_book = book.encode();
    for (number, (slot, due)) in sheet.chunks(SLOT).zip(in_book.chunks(SLOT)).enumerate() {
        let mut single = vec![0; SLOT];
        single[..3].copy_from_slice(&due[..3]);
        single[IN_USE] = due[IN_USE];
        let inserted = record_words(due);
        let mut answer = EditAnswer { number: 0, place: 0, redone: 0 };
        if !inserted.is_empty() {
            let edit = Edit { caller: due[0], slot: 0, place: 0, deleted: 0, inserted };
            answer = program.edit(&mut single, edit);
        }
        let lines = slot[4];
        same_answer(answer, EditAnswer { number: 0, place: lines, redone: lines }, "the sheet")
            .and_then(|()| same_words(slot, &single, "the single edit"))
            .map_err(|difference| format!("slot {number} by a single edit: {difference}"))?;
    }
    Ok(())
}
