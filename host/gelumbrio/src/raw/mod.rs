//! The C interface over slices of words, and the only unsafe code.
//!
//! These functions take any words, numbers and lengths, as document 01 says of every call, and are what
//! [`Sheet`](crate::Sheet) is made of. Most programs want that one.
//!
//! ```
//! use gelumbrio::layout::SLOT_WORDS;
//! use gelumbrio::raw::{self, Answer};
//! use gelumbrio::{Clinic, Record, SlotNumber};
//!
//! let mut sheet = vec![0; 2 * SLOT_WORDS];
//! assert_eq!(raw::set_up(&mut sheet, &[9, 7], &[800, 440], &[0, 0]), Answer { number: 0, place: 2 });
//! let taken = raw::take(&mut sheet, Clinic(7));
//! assert_eq!(taken, Answer { number: 0, place: 1 });
//!
//! let slot = SlotNumber(taken.place);
//! let words = [Record::new('錠', 80)?; 6].map(Record::words).concat();
//! let edited = raw::edit(&mut sheet, Clinic(7), slot, 0, 0, &words);
//! assert_eq!((edited.number, edited.place, edited.redone), (0, 2, 2));
//! let lines = &sheet[raw::read(&sheet, Clinic(7), slot)];
//! assert_eq!(lines, [0, 440, 1, 5, 80, 3]);
//! # Ok::<(), gelumbrio::NoClass>(())
//! ```

#![allow(unsafe_code)]

mod answers;
mod interface;

use std::ops::Range;

pub use answers::{Answer, Clinic, EditAnswer, ImportAnswer, RubyPlace, SlotNumber};
use interface::{
    gelumbrio_class_of, gelumbrio_edit, gelumbrio_give_back, gelumbrio_import, gelumbrio_in_list,
    gelumbrio_read, gelumbrio_read_number, gelumbrio_ruby_place, gelumbrio_set_up, gelumbrio_take,
};

/// Set-up: gives each slot its clinic, measure and indent and empties it.
///
/// ```
/// use gelumbrio::layout::SLOT_WORDS;
/// use gelumbrio::raw::{self, Answer};
///
/// let mut sheet = vec![0; SLOT_WORDS];
/// assert_eq!(raw::set_up(&mut sheet, &[7], &[440], &[0]), Answer { number: 0, place: 1 });
/// // A list that is too long, and no sheet at all.
/// assert_eq!(raw::set_up(&mut sheet, &[7, 9], &[440], &[0]), Answer { number: 1, place: 0 });
/// assert_eq!(raw::set_up(&mut [], &[], &[], &[]), Answer { number: 1, place: 0 });
/// ```
pub fn set_up(sheet: &mut [u32], clinics: &[u32], measures: &[u32], indents: &[u32]) -> Answer {
    // SAFETY: each pointer and length are of one live slice, and `sheet`, being borrowed mutably,
    // overlaps none of the lists. The library is proved to stay inside them and keeps no pointer.
    unsafe {
        gelumbrio_set_up(
            sheet.as_mut_ptr(),
            sheet.len(),
            clinics.as_ptr(),
            clinics.len(),
            measures.as_ptr(),
            measures.len(),
            indents.as_ptr(),
            indents.len(),
        )
    }
}

/// Take: the caller's lowest-numbered slot that is not in use becomes one in use; its number is the place.
///
/// ```
/// use gelumbrio::layout::SLOT_WORDS;
/// use gelumbrio::raw::{self, Answer, Clinic};
///
/// let mut sheet = vec![0; SLOT_WORDS];
/// raw::set_up(&mut sheet, &[7], &[440], &[0]);
/// assert_eq!(raw::take(&mut sheet, Clinic(7)), Answer { number: 0, place: 0 });
/// assert_eq!(raw::take(&mut sheet, Clinic(7)), Answer { number: 13, place: 0 });
/// ```
pub fn take(sheet: &mut [u32], caller: Clinic) -> Answer {
    // SAFETY: the pointer and length are of a live slice that is borrowed mutably. The library is proved to stay
    // inside it and keeps no pointer.
    unsafe { gelumbrio_take(sheet.as_mut_ptr(), sheet.len(), caller) }
}

/// Give back: a slot in use of the caller's becomes as set-up left it.
///
/// ```
/// use gelumbrio::layout::SLOT_WORDS;
/// use gelumbrio::raw::{self, Clinic, SlotNumber};
///
/// let mut sheet = vec![0; SLOT_WORDS];
/// raw::set_up(&mut sheet, &[7], &[440], &[0]);
/// raw::take(&mut sheet, Clinic(7));
/// assert_eq!(raw::give_back(&mut sheet, Clinic(9), SlotNumber(0)).number, 3);
/// assert_eq!(raw::give_back(&mut sheet, Clinic(7), SlotNumber(0)).number, 0);
/// assert_eq!(raw::give_back(&mut sheet, Clinic(7), SlotNumber(0)).number, 14);
/// ```
pub fn give_back(sheet: &mut [u32], caller: Clinic, slot: SlotNumber) -> Answer {
    // SAFETY: the pointer and length are of a live slice that is borrowed mutably. The library is proved to stay
    // inside it and keeps no pointer.
    unsafe { gelumbrio_give_back(sheet.as_mut_ptr(), sheet.len(), caller, slot) }
}

/// Edit: deletes records at a place, inserts others there and composes the slot.
///
/// ```
/// use gelumbrio::layout::SLOT_WORDS;
/// use gelumbrio::raw::{self, Clinic, EditAnswer, SlotNumber};
///
/// let mut sheet = vec![0; SLOT_WORDS];
/// raw::set_up(&mut sheet, &[7], &[440], &[0]);
/// raw::take(&mut sheet, Clinic(7));
/// let ideograph = [0x6F22, 19, 80, 80, 0, 0];
/// let answer = raw::edit(&mut sheet, Clinic(7), SlotNumber(0), 0, 0, &ideograph);
/// assert_eq!(answer, EditAnswer { number: 0, place: 1, redone: 1 });
/// let answer = raw::edit(&mut sheet, Clinic(7), SlotNumber(0), 0, 0, &ideograph[..5]);
/// assert_eq!(answer, EditAnswer { number: 6, place: 0, redone: 0 });
/// ```
pub fn edit(
    sheet: &mut [u32],
    caller: Clinic,
    slot: SlotNumber,
    place: u32,
    deleted: u32,
    inserted: &[u32],
) -> EditAnswer {
    // SAFETY: both pointers and lengths are of live slices, and `sheet`, being borrowed mutably,
    // does not overlap `inserted`. The library is proved to stay inside them and keeps no pointer.
    unsafe {
        gelumbrio_edit(
            sheet.as_mut_ptr(),
            sheet.len(),
            caller,
            slot,
            place,
            deleted,
            inserted.as_ptr(),
            inserted.len(),
        )
    }
}

/// Import: reads a leaflet in UTF-8, puts its records in place of the slot's and composes the slot.
///
/// ```
/// use gelumbrio::layout::SLOT_WORDS;
/// use gelumbrio::raw::{self, Clinic, ImportAnswer, SlotNumber};
///
/// let mut sheet = vec![0; SLOT_WORDS];
/// raw::set_up(&mut sheet, &[7], &[440], &[0]);
/// raw::take(&mut sheet, Clinic(7));
/// let answer = raw::import(&mut sheet, Clinic(7), SlotNumber(0), 80, "1錠".as_bytes());
/// assert_eq!(answer, ImportAnswer { number: 0, redone: 1, place: 1 });
/// // The first byte that no leaflet has there.
/// let answer = raw::import(&mut sheet, Clinic(7), SlotNumber(0), 80, b"1\xFF");
/// assert_eq!(answer, ImportAnswer { number: 17, redone: 0, place: 1 });
/// ```
pub fn import(sheet: &mut [u32], caller: Clinic, slot: SlotNumber, size: u32, text: &[u8]) -> ImportAnswer {
    // SAFETY: both pointers and lengths are of live slices, and `sheet`, being borrowed mutably,
    // does not overlap `text`. The library is proved to stay inside them and keeps no pointer.
    unsafe {
        gelumbrio_import(sheet.as_mut_ptr(), sheet.len(), caller, slot, size, text.as_ptr(), text.len())
    }
}

/// Read's number: 0, or why [`read`] hands back nothing.
///
/// ```
/// use gelumbrio::layout::SLOT_WORDS;
/// use gelumbrio::raw::{self, Clinic, SlotNumber};
///
/// let mut sheet = vec![0; SLOT_WORDS];
/// raw::set_up(&mut sheet, &[7], &[440], &[0]);
/// assert_eq!(raw::read_number(&sheet, Clinic(7), SlotNumber(0)), 14);
/// raw::take(&mut sheet, Clinic(7));
/// assert_eq!(raw::read_number(&sheet, Clinic(7), SlotNumber(0)), 0);
/// ```
pub fn read_number(sheet: &[u32], caller: Clinic, slot: SlotNumber) -> u32 {
    // SAFETY: the pointer and length are of a live slice, which the library only reads.
    unsafe { gelumbrio_read_number(sheet.as_ptr(), sheet.len(), caller, slot) }
}

/// Read: the part of the sheet that is the slot's used line words; 0..0 where it is refused.
///
/// ```
/// use gelumbrio::layout::{LINES_AT, LINE_WORDS, SLOT_WORDS};
/// use gelumbrio::raw::{self, Clinic, SlotNumber};
///
/// let mut sheet = vec![0; SLOT_WORDS];
/// raw::set_up(&mut sheet, &[7], &[440], &[0]);
/// raw::take(&mut sheet, Clinic(7));
/// raw::import(&mut sheet, Clinic(7), SlotNumber(0), 80, "1錠".as_bytes());
/// assert_eq!(raw::read(&sheet, Clinic(7), SlotNumber(0)), LINES_AT..LINES_AT + LINE_WORDS);
/// assert_eq!(raw::read(&sheet, Clinic(9), SlotNumber(0)), 0..0);
/// ```
pub fn read(sheet: &[u32], caller: Clinic, slot: SlotNumber) -> Range<usize> {
    // SAFETY: the pointer and length are of a live slice, which the library only reads.
    let part = unsafe { gelumbrio_read(sheet.as_ptr(), sheet.len(), caller, slot) };
    part.start..part.end
}

/// Ruby place: the offset of the k-th ruby character from the start of its group.
///
/// ```
/// use gelumbrio::raw::{self, RubyPlace};
///
/// assert_eq!(raw::ruby_place(160, 3, 80, 1), RubyPlace { number: 0, offset: 60 });
/// assert_eq!(raw::ruby_place(160, 3, 80, 3), RubyPlace { number: 8, offset: 0 });
/// ```
pub fn ruby_place(base_advance: u32, ruby_count: u32, size: u32, k: u32) -> RubyPlace {
    // SAFETY: numbers go in and come out; no memory is shared.
    unsafe { gelumbrio_ruby_place(base_advance, ruby_count, size, k) }
}

/// Whether the published list of this class has this code point: 1 or 0. Numbers that are no class have no list.
///
/// ```
/// use gelumbrio::raw;
///
/// assert_eq!([7, 19, 20].map(|class| raw::in_list(class, 0x3001)), [1, 0, 0]);
/// ```
pub fn in_list(class: u32, code_point: u32) -> u32 {
    // SAFETY: numbers go in and come out; no memory is shared.
    unsafe { gelumbrio_in_list(class, code_point) }
}

/// The class that a published list gives this code point, 27 before the lowest; 0 where no list has it.
///
/// ```
/// use gelumbrio::raw;
///
/// assert_eq!([0x3001, 0x28, 0xFF08, u32::MAX].map(raw::class_of), [7, 27, 0, 0]);
/// ```
pub fn class_of(code_point: u32) -> u32 {
    // SAFETY: a number goes in and one comes out; no memory is shared.
    unsafe { gelumbrio_class_of(code_point) }
}
