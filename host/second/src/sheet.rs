//! The sheet's layout and its calls (document 01, "The sheet" and "Refusal numbers, in the order
//! they are checked").

use std::ops::Range;

use crate::answer::{Answer, EditAnswer, Edited, Refusal};
use crate::breaking::Setting;
use crate::compose::{break_into_lines, compose, Composition};
use crate::records::{decode_all, first_unlisted, spliced, Record, MAX_RECORDS, RECORD_WORDS};
use crate::redone::{redone_lines, Lines};

/// The most slots a sheet may have.
pub const MAX_SLOTS: usize = 64;

/// The largest clinic number.
pub const MAX_CLINIC: u32 = 65_535;

const MAX_LINES: usize = 256;
/// The words of a place: x, line number.
const PLACE_WORDS: usize = 2;
/// The words of a line: first record, end x, kind.
const LINE_WORDS: usize = 3;

const RECORDS_AT: usize = 8;
const PLACES_AT: usize = RECORDS_AT + MAX_RECORDS * RECORD_WORDS;
const LINES_AT: usize = PLACES_AT + MAX_RECORDS * PLACE_WORDS;

/// The words of a slot.
pub const SLOT_WORDS: usize = LINES_AT + MAX_LINES * LINE_WORDS;

/// Where in a slot the in-use word is (document 02, request 07).
pub const IN_USE_AT: usize = 5;

pub(crate) type Slot = [u32; SLOT_WORDS];

/// What a slot's head says; the other two words of the head are zeros.
pub(crate) struct Head {
    pub clinic: u32,
    pub setting: Setting,
    record_count: u32,
    line_count: u32,
    pub in_use: u32,
}

impl Head {
    pub fn of(slot: &Slot) -> Head {
        let &[clinic, measure, indent, record_count, line_count, in_use, ..] = slot;
        Head { clinic, setting: Setting { measure, indent }, record_count, line_count, in_use }
    }

    /// Whether the in-use word is one that no call writes, which counts under 4.
    fn is_use_damaged(&self) -> bool {
        self.in_use > 1
    }
}

/// What edit takes besides a sheet.
#[derive(Debug, Clone, Copy)]
pub struct Edit<'a> {
    /// A caller's clinic.
    pub caller: u32,
    /// A slot.
    pub slot: u32,
    /// A place, in records.
    pub place: u32,
    /// A count to delete, in records.
    pub deleted: u32,
    /// A slice of words to insert.
    pub inserted: &'a [u32],
}

impl Edit<'_> {
    /// How many records it inserts.
    pub fn inserted_records(&self) -> usize {
        self.inserted.len() / RECORD_WORDS
    }
}

/// How many records a slot says it holds, if the sheet has that slot.
pub fn record_count(sheet: &[u32], slot: u32) -> Option<u32> {
    let (slots, _) = sheet.as_chunks::<SLOT_WORDS>();
    slots.get(slot as usize).map(|slot| Head::of(slot).record_count)
}

/// Set-up: gives each slot its clinic, measure and indent and empties it.
pub fn set_up(sheet: &mut [u32], clinics: &[u32], measures: &[u32], indents: &[u32]) -> Answer {
    let outcome = check_set_up(sheet.len(), clinics, measures, indents);
    if outcome.is_ok() {
        let (slots, _) = sheet.as_chunks_mut::<SLOT_WORDS>();
        let lists = clinics.iter().zip(measures).zip(indents);
        for (slot, ((&clinic, &measure), &indent)) in slots.iter_mut().zip(lists) {
            *slot = fresh_slot(clinic, Setting { measure, indent });
        }
    }
    Answer::from(outcome)
}

/// Edit: deletes records at a place, inserts others there and composes the slot.
pub fn edit(sheet: &mut [u32], edit: Edit) -> EditAnswer {
    EditAnswer::from(try_edit(sheet, edit))
}

/// Read's number: 0, or why `read` hands back nothing.
pub fn read_number(sheet: &[u32], caller: u32, slot: u32) -> u32 {
    try_read(sheet, caller, slot).map_or_else(Refusal::number, |_| 0)
}

/// Read: the part of the sheet that is the slot's used line words; 0..0 where it is refused.
pub fn read(sheet: &[u32], caller: u32, slot: u32) -> Range<usize> {
    try_read(sheet, caller, slot).unwrap_or(0..0)
}

/// The words of a slot in use that holds these records, composed from them alone. It is refused as the
/// edit is of a slot just taken that inserts them all: with 8, 12, 9 or 10, or with 4, 6 or 7 where no such
/// edit or slot can be.
pub fn slot_words(clinic: u32, measure: u32, indent: u32, records: &[u32]) -> Result<Vec<u32>, EditAnswer> {
    let setting = Setting { measure, indent };
    let mut slot = fresh_slot(clinic, setting);
    slot[IN_USE_AT] = 1;
    if !setting.in_limits() {
        return Err(Refusal::Stored.into());
    }
    let records = spliced(&[], 0, 0, records)?;
    write(&mut slot, &records, &compose(&records, setting)?);
    Ok(slot.to_vec())
}

/// P, where set-up is accepted; otherwise answer 1 or 11.
pub fn check_set_up(
    sheet_length: usize,
    clinics: &[u32],
    measures: &[u32],
    indents: &[u32],
) -> Result<usize, Refusal> {
    let count = slot_count(sheet_length)?;
    if [clinics, measures, indents].iter().any(|list| list.len() != count) {
        return Err(Refusal::Length);
    }
    let mut slots = clinics.iter().zip(measures).zip(indents);
    let in_limits = |((&clinic, &measure), &indent): ((&u32, &u32), &u32)| {
        clinic <= MAX_CLINIC && Setting { measure, indent }.in_limits()
    };
    match slots.position(|slot| !in_limits(slot)) {
        Some(at) => Err(Refusal::Limits(at)),
        None => Ok(count),
    }
}

/// P of a sheet of this length, or answer 1.
pub fn slot_count(sheet_length: usize) -> Result<usize, Refusal> {
    let count = sheet_length / SLOT_WORDS;
    if sheet_length.is_multiple_of(SLOT_WORDS) && (1..=MAX_SLOTS).contains(&count) {
        Ok(count)
    } else {
        Err(Refusal::Length)
    }
}

/// Answer 3, unless the slot of this clinic is the caller's.
pub fn check_caller(caller: u32, clinic: u32) -> Result<(), Refusal> {
    if caller == 0 || caller != clinic {
        return Err(Refusal::Caller);
    }
    Ok(())
}

/// Answer 14, where this in-use word says that the slot is not in use.
pub fn check_in_use(in_use: u32) -> Result<(), Refusal> {
    match in_use {
        0 => Err(Refusal::NotInUse),
        _ => Ok(()),
    }
}

/// The line words of a composition.
pub fn line_words(composition: &Composition) -> impl Iterator<Item = [u32; LINE_WORDS]> + '_ {
    let lines = composition.lines.iter();
    lines.map(|line| [line.first as u32, line.end_x, line.kind as u32])
}

/// What edit, read and giving back all ask before 4: the index and the head of a slot that is the caller's and in use.
/// Each step gives the answer beside it.
pub(crate) fn slot_in_use(sheet: &[u32], caller: u32, slot: u32) -> Result<(usize, Head), Refusal> {
    slot_count(sheet.len())?; // 1
    let number = slot as usize;
    let (slots, _) = sheet.as_chunks::<SLOT_WORDS>();
    let head = Head::of(slots.get(number).ok_or(Refusal::Slot)?); // 2
    check_caller(caller, head.clinic)?; // 3
    check_in_use(head.in_use)?; // 14
    Ok((number, head))
}

/// The table in its order: each step gives the answers beside it.
fn try_edit(sheet: &mut [u32], edit: Edit) -> Result<Edited, Refusal> {
    let (number, head) = slot_in_use(sheet, edit.caller, edit.slot)?; // 1, 2, 3 and 14
    let (slots, _) = sheet.as_chunks_mut::<SLOT_WORDS>();
    let slot = &mut slots[number];
    let (stored, old_lines) = stored_text(slot, &head).ok_or(Refusal::Stored)?; // 4
    let records = spliced(&stored, edit.place, edit.deleted, edit.inserted)?; // 5 to 8 and 12
    let composition = compose(&records, head.setting)?; // 9 and 10
    write(slot, &records, &composition);
    Ok(edited(&old_lines, &composition, &edit))
}

/// What an edit tells that has these old lines and leaves this composition.
pub fn edited(old_lines: &Lines, composition: &Composition, edit: &Edit) -> Edited {
    let redone = redone_lines(old_lines, &composition.extents(), edit);
    Edited { lines: composition.lines.len(), redone: redone.len() }
}

fn try_read(sheet: &[u32], caller: u32, slot: u32) -> Result<Range<usize>, Refusal> {
    let (number, head) = slot_in_use(sheet, caller, slot)?;
    let count = head.line_count as usize;
    if count > MAX_LINES || head.is_use_damaged() {
        return Err(Refusal::Stored);
    }
    let start = number * SLOT_WORDS + LINES_AT;
    Ok(start..start + count * LINE_WORDS)
}

/// The records that a slot holds with the lines that the rules give them, unless the slot is damaged
/// (answer 4). What lines are stored does not matter.
pub(crate) fn stored_text(slot: &Slot, head: &Head) -> Option<(Vec<Record>, Lines)> {
    if !head.setting.in_limits() || head.is_use_damaged() {
        return None;
    }
    let (words, _) = slot[RECORDS_AT..PLACES_AT].as_chunks::<RECORD_WORDS>();
    let stored = words.get(..head.record_count as usize)?;
    let records = decode_all(stored).ok()?;
    if first_unlisted(&records).is_some() {
        return None;
    }
    let lines = break_into_lines(&records, head.setting).ok()?;
    Some((records, lines))
}

/// A slot as set-up and giving back leave it.
pub(crate) fn fresh_slot(clinic: u32, setting: Setting) -> Slot {
    let mut slot = [0; SLOT_WORDS];
    [slot[0], slot[1], slot[2]] = [clinic, setting.measure, setting.indent];
    slot
}

/// Writes every word of a slot but its clinic, measure, indent and in-use word.
fn write(slot: &mut Slot, records: &[Record], composition: &Composition) {
    slot[3..IN_USE_AT].fill(0);
    slot[IN_USE_AT + 1..].fill(0);
    slot[3] = records.len() as u32;
    slot[4] = composition.lines.len() as u32;

    put(&mut slot[RECORDS_AT..PLACES_AT], records.iter().map(Record::encode));
    let places = composition.places.iter().map(|place| [place.x, place.line as u32]);
    put(&mut slot[PLACES_AT..LINES_AT], places);
    put(&mut slot[LINES_AT..], line_words(composition));
}

/// Puts items of so many words one after another at the start of a part.
fn put<const WORDS: usize>(part: &mut [u32], items: impl Iterator<Item = [u32; WORDS]>) {
    let (places, _) = part.as_chunks_mut::<WORDS>();
    for (words, item) in places.iter_mut().zip(items) {
        *words = item;
    }
}
