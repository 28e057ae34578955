//! The single edit of a fresh slot is held against the sheet: what it does not leave is told.

use compare::faults::{Fault, Misuse};
use compare::generate::plain;
use compare::layout::{IN_USE, RECORDS, SLOT};
use compare::program::{Program, Second};
use compare::single::single_edits;
use second::book::Book;
use second::Edit;

/// A book of three slots, and the sheet that it speaks for: a text composed by two edits, a slot without records that
/// is in use, and one that is not.
fn book_and_sheet() -> (Book, Vec<u32>) {
    let mut book = Book::new();
    assert_eq!(book.set_up(3 * SLOT, &[7; 3], &[440; 3], &[80; 3]).number, 0);
    assert_eq!([(); 2].map(|()| book.take(3 * SLOT, 7).place), [0, 1]);
    let inserted = &plain(19, 80).repeat(9);
    for place in [0, 4] {
        let edit = Edit { caller: 7, slot: 0, place, deleted: 0, inserted };
        assert_eq!(book.edit(3 * SLOT, edit).number, 0);
    }
    let sheet = book.encode();
    (book, sheet)
}

/// What is told of a sheet of which one word is another.
fn told(at: usize, word: u32) -> String {
    let (book, mut sheet) = book_and_sheet();
    sheet[at] = word;
    single_edits(&Second, &sheet, &book).expect_err("a sheet that no single edits leave")
}

#[test]
fn the_sheet_of_the_book_passes() {
    let (book, sheet) = book_and_sheet();
    assert_eq!(single_edits(&Second, &sheet, &book), Ok(()));
}

#[test]
fn another_word_is_told() {
    let in_use_of = |slot: usize| slot * SLOT + IN_USE;
    assert_eq!(
        told(in_use_of(0), 0),
        "slot 0 by a single edit: word 5 (slot 0, in use) is 0; the single edit: 1"
    );
    assert!(told(in_use_of(1), 0).starts_with("slot 1 by a single edit: "));
    assert!(told(in_use_of(2), 1).starts_with("slot 2 by a single edit: "));
    // A record and a zero past the counts.
    assert!(told(RECORDS, 0x4E00).starts_with("slot 0 by a single edit: "));
    assert!(told(SLOT - 1, 1).starts_with("slot 0 by a single edit: "));
}

/// Here the sheet is as it should be, and the single edit is not.
#[test]
fn another_edit_is_told() {
    let (book, sheet) = book_and_sheet();
    for fault in
        [Fault::Used(Misuse::EditClears), Fault::OldLineCount, Fault::RefuseAll, Fault::IndentForgotten]
    {
        assert!(single_edits(&fault, &sheet, &book).is_err(), "{}", fault.name());
    }
}
