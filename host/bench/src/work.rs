//! The calls that are timed.

use std::hint::black_box;

use crate::pool::{copy_and_give_back, refused_with_14, take_last, take_refused};
use crate::programs::{self, Program};
use crate::texts::{
    imported, latin, leaflets, opened, prose, rare, record, text, with_last_unlisted, Words, LEAFLETS,
    LEAFLET_RECORDS, SIZE,
};
use crate::timing::Cell;

pub const SLOT: usize = 2_824;
pub const CLINIC: u32 = 7;
/// Twenty characters.
const MEASURE: u32 = 20 * SIZE;

/// The rows of the yardsticks, and their column.
pub const MEMSET: &str = "memset of a slot";
pub const MEMCPY: &str = "memcpy of a slot";
pub const FROM_UTF8: &str = "from_utf8 of a leaflet";
pub const PLAIN: &str = "plain";

/// The rows that the report holds against each other.
pub const ONE_OF_256: &str = "replace 1 of 256";
pub const ONE_OF_128: &str = "replace 1 of 128";
pub const ONE_OF_256_ON_64_SLOTS: &str = "replace 1 of 256, 64 slots";
pub const IMPORT: &str = "import of 256";
pub const EDIT_OF_IMPORT: &str = "the edit that it is";
pub const IMPORT_OF_1_MB: &str = "import of 1 MB, refused";
pub const IMPORT_OF_500_KB: &str = "import of 500 KB, refused";
pub const TAKE_LAST_OF_64: &str = "take the last of 64 slots";
pub const TAKE_LAST_OF_32: &str = "take the last of 32 slots";
/// One text edited again and again is soon learnt by branch prediction: this row has too many for that.
const ONE_OF_256_OVER_64_TEXTS: &str = "replace 1 of 256, 64 texts";

/// Makes a row's cell for a program.
type Row = fn(Program) -> Cell;

const ROWS: [Row; 24] = [
    |program| replace_all(program, "replace all 256"),
    |program| replace_one(program, ONE_OF_256, &text(256), [15, 19], 1),
    |program| replace_one(program, ONE_OF_128, &text(128), [15, 19], 1),
    |program| replace_one(program, "replace 1 of 64", &text(64), [15, 19], 1),
    |program| replace_one(program, ONE_OF_256_ON_64_SLOTS, &text(256), [15, 19], 64),
    // The list of class 27 is the longest, and of the ideographs the blocks are asked.
    |program| replace_one(program, "replace 1 of 256, Latin", &latin(256), [14, 27], 1),
    |program| replace_one(program, "replace 1 of 256, rare kanji", &rare(256), [15, 19], 1),
    |program| replace_one(program, "replace 1 of 256, opened groups", &opened(256), [15, 19], 1),
    |program| replace_one_of_each(program, ONE_OF_256_OVER_64_TEXTS),
    |program| refused(program, "refused with 3", CLINIC + 1, record(19, SIZE), 3),
    |program| refused(program, "refused with 10", CLINIC, record(19, 4_000), 10),
    |program| refused_with_14(program, "refused with 14"),
    |program| read(program, "read"),
    |program| ruby_place(program, "ruby place"),
    |program| set_up(program, "set-up of 64 slots"),
    |program| take_last(program, TAKE_LAST_OF_64, 64),
    |program| take_last(program, TAKE_LAST_OF_32, 32),
    |program| take_refused(program, "take of 64, refused with 13"),
    // Beside the copying alone, which is a yardstick.
    |program| copy_and_give_back(program, "copy of 256 and give back"),
    |program| import(program, IMPORT),
    |program| edit_of_import(program, EDIT_OF_IMPORT),
    |program| import_refused(program, "import refused with 17", &with_last_unlisted(), 17),
    |program| import_refused(program, IMPORT_OF_500_KB, &prose(500_000), 7),
    |program| import_refused(program, IMPORT_OF_1_MB, &prose(1_000_000), 7),
];

/// The yardsticks, then each row with the programs side by side.
pub fn cells() -> Vec<Cell> {
    let mut cells = vec![memset(), memcpy(), from_utf8()];
    for row in ROWS {
        cells.extend(programs::all().into_iter().map(row));
    }
    cells
}

fn memset() -> Cell {
    let mut slot = vec![1_u32; SLOT];
    Cell::new(MEMSET, PLAIN, move || black_box(&mut slot).fill(0))
}

fn memcpy() -> Cell {
    let from = vec![1_u32; SLOT];
    let mut to = vec![0_u32; SLOT];
    Cell::new(MEMCPY, PLAIN, move || black_box(&mut to).copy_from_slice(black_box(&from)))
}

/// Whether the text that is imported is UTF-8, which is the least that can be asked of it.
fn from_utf8() -> Cell {
    let texts = imported_texts();
    let mut turn = 0;
    Cell::new(FROM_UTF8, PLAIN, move || {
        turn ^= 1;
        assert!(std::str::from_utf8(black_box(&texts[turn])).is_ok());
    })
}

/// Replaces all 256 records by others.
fn replace_all(program: Program, row: &'static str) -> Cell {
    let mut sheet = composed_sheet(program, &text(256), 1);
    let texts = [text(256), text(257)[6..].to_vec()];
    let mut turn = 0;
    Cell::new(row, program.name, move || {
        turn ^= 1;
        let number = (program.edit)(black_box(&mut sheet), CLINIC, 0, 0, 256, black_box(&texts[turn]));
        assert_eq!(number, 0);
    })
}

/// Replaces one record in the middle of a text by another, of each class in turn, in the last slot of a sheet.
fn replace_one(program: Program, row: &'static str, text: &[u32], classes: [u32; 2], slots: u32) -> Cell {
    let mut sheet = composed_sheet(program, text, slots);
    let others = classes.map(|class| record(class, SIZE));
    let middle = text.len() as u32 / 6 / 2;
    let mut turn = 0;
    Cell::new(row, program.name, move || {
        turn ^= 1;
        let inserted = black_box(&others[turn]);
        let number = (program.edit)(black_box(&mut sheet), CLINIC, slots - 1, middle, 1, inserted);
        assert_eq!(number, 0);
    })
}

/// Replaces one record in the middle by another, in each slot of a sheet of leaflets in turn. The other changes with
/// every time round, so that each edit changes its slot.
fn replace_one_of_each(program: Program, row: &'static str) -> Cell {
    let mut sheet = fresh_sheet(program, LEAFLETS);
    for (slot, leaflet) in (0..).zip(leaflets()) {
        fill(program, &mut sheet, slot, &leaflet);
    }
    let others = [record(15, SIZE), record(19, SIZE)];
    let mut turn = 0;
    Cell::new(row, program.name, move || {
        let (round, slot) = (turn / LEAFLETS, turn % LEAFLETS);
        turn = (turn + 1) % (2 * LEAFLETS);
        let inserted = black_box(&others[round as usize]);
        let number = (program.edit)(black_box(&mut sheet), CLINIC, slot, LEAFLET_RECORDS / 2, 1, inserted);
        assert_eq!(number, 0);
    })
}

/// An edit of 256 records that is refused.
fn refused(program: Program, row: &'static str, caller: u32, inserted: Words, expected: u32) -> Cell {
    let sheet = composed_sheet(program, &text(256), 1);
    refused_on(program, row, sheet, caller, inserted, expected)
}

/// An edit of a sheet of one slot that is refused.
pub fn refused_on(
    program: Program,
    row: &'static str,
    mut sheet: Vec<u32>,
    caller: u32,
    inserted: Words,
    expected: u32,
) -> Cell {
    Cell::new(row, program.name, move || {
        let number = (program.edit)(black_box(&mut sheet), caller, 0, 128, 1, black_box(&inserted));
        assert_eq!(number, expected);
    })
}

/// A read with its companion.
fn read(program: Program, row: &'static str) -> Cell {
    let sheet = composed_sheet(program, &text(256), 1);
    Cell::new(row, program.name, move || {
        let sheet = black_box(&sheet);
        let number = (program.read_number)(sheet, CLINIC, 0);
        let part = (program.read)(sheet, CLINIC, 0);
        assert!(number == 0 && !black_box(part).is_empty());
    })
}

/// Where ruby stands over two records that are longer, of each of three characters in turn.
fn ruby_place(program: Program, row: &'static str) -> Cell {
    let mut k = 0;
    Cell::new(row, program.name, move || {
        k = (k + 1) % 3;
        let number = (program.ruby_place)(black_box(2 * SIZE), black_box(3), black_box(SIZE), black_box(k));
        assert_eq!(number, 0);
    })
}

fn set_up(program: Program, row: &'static str) -> Cell {
    let mut sheet = vec![0; 64 * SLOT];
    let lists = [vec![CLINIC; 64], vec![MEASURE; 64], vec![0; 64]];
    Cell::new(row, program.name, move || {
        let [clinics, measures, indents] = black_box(&lists);
        let number = (program.set_up)(black_box(&mut sheet), clinics, measures, indents);
        assert_eq!(number, 0);
    })
}

/// Imports a text of 256 records in place of another.
fn import(program: Program, row: &'static str) -> Cell {
    let mut sheet = composed_sheet(program, &text(256), 1);
    let texts = imported_texts();
    let mut turn = 0;
    Cell::new(row, program.name, move || {
        turn ^= 1;
        let number = (program.import)(black_box(&mut sheet), CLINIC, 0, SIZE, black_box(&texts[turn]));
        assert_eq!(number, 0);
    })
}

/// The edit that the import is, of records that are made already.
fn edit_of_import(program: Program, row: &'static str) -> Cell {
    let mut sheet = composed_sheet(program, &text(256), 1);
    let texts = imported_texts().map(|text| second::leaflet::records(&text, SIZE).expect("a leaflet"));
    let mut turn = 0;
    Cell::new(row, program.name, move || {
        turn ^= 1;
        let inserted = black_box(&texts[turn]);
        let number = (program.edit)(black_box(&mut sheet), CLINIC, 0, 0, LEAFLET_RECORDS, inserted);
        assert_eq!(number, 0);
    })
}

fn imported_texts() -> [Vec<u8>; 2] {
    [0, 1].map(|from| imported(from).into_bytes())
}

/// An import over 256 records that is refused.
fn import_refused(program: Program, row: &'static str, imported: &str, expected: u32) -> Cell {
    let mut sheet = composed_sheet(program, &text(256), 1);
    let imported = imported.as_bytes().to_vec();
    Cell::new(row, program.name, move || {
        let number = (program.import)(black_box(&mut sheet), CLINIC, 0, SIZE, black_box(&imported));
        assert_eq!(number, expected);
    })
}

/// A sheet whose last slot holds this text.
pub fn composed_sheet(program: Program, text: &[u32], slots: u32) -> Vec<u32> {
    let mut sheet = fresh_sheet(program, slots);
    fill(program, &mut sheet, slots - 1, text);
    sheet
}

/// A sheet whose slots are all in use.
pub fn fresh_sheet(program: Program, slots: u32) -> Vec<u32> {
    let mut sheet = vec![0; slots as usize * SLOT];
    let of_all = |word| vec![word; slots as usize];
    let number = (program.set_up)(&mut sheet, &of_all(CLINIC), &of_all(MEASURE), &of_all(0));
    assert_eq!(number, 0);
    (0..slots).for_each(|_| assert_eq!((program.take)(&mut sheet, CLINIC), 0));
    sheet
}

/// Puts a text into a fresh slot.
fn fill(program: Program, sheet: &mut [u32], slot: u32, text: &[u32]) {
    let number = (program.edit)(sheet, CLINIC, slot, 0, 0, text);
    assert_eq!(number, 0);
}

#[cfg(test)]
mod tests {
    use super::*;

    /// Two rounds of the leaflets. A call that is not answered as its row expects panics.
    #[test]
    fn calls_are_answered_as_their_rows_expect() {
        for mut cell in cells() {
            let is_long = [IMPORT_OF_500_KB, IMPORT_OF_1_MB].contains(&cell.row);
            (0..if is_long { 2 } else { 2 * LEAFLETS }).for_each(|_| (cell.call)());
        }
    }

    #[test]
    fn each_edit_of_a_leaflet_changes_it() {
        let watched = Program {
            name: "watched",
            edit: |sheet, caller, slot, place, deleted, inserted| {
                let before = sheet.to_vec();
                let edit = second::Edit { caller, slot, place, deleted, inserted };
                let number = second::edit(sheet, edit).number;
                assert!(*sheet != *before, "slot {slot} holds that record already");
                number
            },
            ..programs::all()[0]
        };
        let mut cell = replace_one_of_each(watched, ONE_OF_256_OVER_64_TEXTS);
        (0..3 * LEAFLETS).for_each(|_| (cell.call)());
    }
}
