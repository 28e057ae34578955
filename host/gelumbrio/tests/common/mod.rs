//! Sheets and refusals for the tests.

// Each test file uses a part of these.
#![allow(dead_code)]

use gelumbrio::{Class, Clinic, Edited, Record, Refusal, Sheet, SlotNumber, SlotSettings};

pub const CLINIC: Clinic = Clinic(7);
pub const SLOT: SlotNumber = SlotNumber(0);
/// An ideograph of size 80.
pub const K: Record = Record {
    code_point: 0x6F22,
    class: Class::Ideographic.number(),
    size: 80,
    advance: 80,
    group: 0,
    ruby_count: 0,
};

/// A slot of this clinic and measure, without an indent.
pub fn settings(clinic: Clinic, measure: u32) -> SlotSettings {
    SlotSettings { clinic, measure, indent: 0 }
}

/// A sheet of two slots, both taken.
pub fn sheet(measure: u32) -> Sheet {
    let mut sheet = Sheet::new(2).unwrap();
    sheet.set_up(&[settings(CLINIC, measure), settings(Clinic(9), 800)]).unwrap();
    assert_eq!(sheet.take(CLINIC), Ok(SLOT));
    assert_eq!(sheet.take(Clinic(9)), Ok(SlotNumber(1)));
    sheet
}

/// What an edit says that is accepted.
pub fn edited(lines: u32, redone: u32) -> Result<Edited, Refusal> {
    Ok(Edited { lines, redone })
}

/// Six ideographs on two lines: line words 0, 440, 1 and 5, 80, 3.
pub fn two_lines() -> Sheet {
    let mut sheet = sheet(440);
    assert_eq!(sheet.edit(CLINIC, SLOT, .., &[K; 6]), edited(2, 2));
    sheet
}

/// The sheet, one word of it another.
pub fn damaged(sheet: &Sheet, at: usize, word: u32) -> Sheet {
    let mut words = sheet.words().to_vec();
    words[at] = word;
    Sheet::from_words(words).unwrap()
}

/// Checks that a call is refused so.
pub fn refused<T: std::fmt::Debug + PartialEq>(outcome: Result<T, Refusal>, number: u32, refusal: Refusal) {
    assert_eq!(outcome, Err(refusal));
    assert_eq!(refusal.number(), number, "{refusal:?}");
}
