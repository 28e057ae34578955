//! The calls that take a slot, give one back, or find that one is not in use (document 02, request 07).

use std::hint::black_box;

use crate::programs::Program;
use crate::texts::{record, text, SIZE};
use crate::timing::Cell;
use crate::work::{composed_sheet, fresh_sheet, refused_on, CLINIC, SLOT};

const IN_USE: usize = 5;

/// Takes the only free one of so many slots, which is the last. Its in-use word is written over each time before, so
/// that it is free.
pub fn take_last(program: Program, row: &'static str, slots: u32) -> Cell {
    let mut sheet = fresh_sheet(program, slots);
    let in_use = sheet.len() - SLOT + IN_USE;
    Cell::new(row, program.name, move || {
        black_box(&mut sheet)[in_use] = 0;
        let number = (program.take)(black_box(&mut sheet), CLINIC);
        assert_eq!(number, 0);
    })
}

/// A taking where all of 64 slots are in use already.
pub fn take_refused(program: Program, row: &'static str) -> Cell {
    let mut sheet = fresh_sheet(program, 64);
    Cell::new(row, program.name, move || {
        let number = (program.take)(black_box(&mut sheet), CLINIC);
        assert_eq!(number, 13);
    })
}

/// Gives back a slot of 256 records, whose words are copied there each time before.
pub fn copy_and_give_back(program: Program, row: &'static str) -> Cell {
    let composed = composed_sheet(program, &text(256), 1);
    let mut sheet = composed.clone();
    Cell::new(row, program.name, move || {
        black_box(&mut sheet).copy_from_slice(black_box(&composed));
        let number = (program.give_back)(black_box(&mut sheet), CLINIC, 0);
        assert_eq!(number, 0);
    })
}

/// An edit of a slot of 256 records that is not in use.
pub fn refused_with_14(program: Program, row: &'static str) -> Cell {
    let mut sheet = composed_sheet(program, &text(256), 1);
    sheet[IN_USE] = 0;
    refused_on(program, row, sheet, CLINIC, record(19, SIZE), 14)
}
