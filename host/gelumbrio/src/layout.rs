//! Where the words of a slot are (document 01, "The sheet", and document 02, request 07).
//!
//! [`Slot`](crate::Slot) reads most of them. These are for programs that go through a sheet's words themselves:
//!
//! ```
//! use gelumbrio::layout::{LINES_AT, LINE_COUNT_AT, LINE_WORDS, SLOT_WORDS};
//! use gelumbrio::{Clinic, Sheet, SlotSettings};
//!
//! let mut sheet = Sheet::new(1)?;
//! sheet.set_up(&[SlotSettings { clinic: Clinic(7), measure: 440, indent: 0 }])?;
//! let slot = sheet.take(Clinic(7))?;
//! sheet.import(Clinic(7), slot, 80, "食後に飲む。")?;
//!
//! let words = &sheet.words()[slot.0 as usize * SLOT_WORDS..][..SLOT_WORDS];
//! let lines = &words[LINES_AT..][..words[LINE_COUNT_AT] as usize * LINE_WORDS];
//! assert_eq!(lines, sheet.read(Clinic(7), slot)?);
//! # Ok::<(), gelumbrio::Refusal>(())
//! ```

use crate::limits::{MAX_LINES, MAX_RECORDS};

/// Where in a slot its clinic is.
pub const CLINIC_AT: usize = 0;
/// Where in a slot its measure is.
pub const MEASURE_AT: usize = 1;
/// Where in a slot its indent is.
pub const INDENT_AT: usize = 2;
/// Where in a slot its record count is.
pub const RECORD_COUNT_AT: usize = 3;
/// Where in a slot its line count is.
pub const LINE_COUNT_AT: usize = 4;
/// Where in a slot its in-use word is. The two words after it are zeros.
pub const IN_USE_AT: usize = 5;
/// The words of a slot's head.
pub const HEAD_WORDS: usize = 8;

/// The words of a record: code point, class, size, advance, group, ruby count.
pub const RECORD_WORDS: usize = 6;
/// The words of a record's place: x, line number.
pub const PLACE_WORDS: usize = 2;
/// The words of a line: first record, end x, kind.
pub const LINE_WORDS: usize = 3;

/// Where a slot's records start.
pub const RECORDS_AT: usize = HEAD_WORDS;
/// Where a slot's places start.
pub const PLACES_AT: usize = RECORDS_AT + MAX_RECORDS * RECORD_WORDS;
/// Where a slot's lines start.
pub const LINES_AT: usize = PLACES_AT + MAX_RECORDS * PLACE_WORDS;
/// The words of a slot.
pub const SLOT_WORDS: usize = LINES_AT + MAX_LINES * LINE_WORDS;

// As document 01 adds it up.
const _: () = assert!(SLOT_WORDS == 2_824);
