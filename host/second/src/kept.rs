//! What an accepted edit leaves as it was (document 02, request 03), to test a program with.
//!
//! It is judged by the words of a slot before and after the edit. The layout is written out here, apart
//! from the program's.

use std::ops::Range;

use crate::sheet::Edit;

/// The words of a slot.
struct Slot<'a> {
    places: &'a [[u32; 2]],
    lines: &'a [[u32; 3]],
}

impl Slot<'_> {
    /// The used places and lines, unless a count is over 256.
    fn new(words: &[u32]) -> Option<Slot<'_>> {
        let (places, _) = words.get(1_544..2_056)?.as_chunks();
        let (lines, _) = words.get(2_056..2_824)?.as_chunks();
        Some(Slot { places: places.get(..words[3] as usize)?, lines: lines.get(..words[4] as usize)? })
    }

    /// The line holding the place; the last where it is the end, or 0 where there is none.
    fn line_holding(&self, place: usize) -> usize {
        let last = self.lines.len().saturating_sub(1);
        self.places.get(place).map_or(last, |&[_, line]| line as usize)
    }

    /// The first record of a line, or the record count where there is no such line.
    fn first_record(&self, line: usize) -> usize {
        self.lines.get(line).map_or(self.places.len(), |&[first, ..]| first as usize)
    }
}

/// The lines that an accepted edit composed anew, f up to r, where `redone` is what it reports; or
/// which line or place is not as promised. `old` and `new` are the slot's words before and after it,
/// and before it the slot held what the rules give its records.
pub fn redone_lines(old: &[u32], new: &[u32], edit: &Edit, redone: u32) -> Result<Range<usize>, String> {
    let (Some(old), Some(new)) = (Slot::new(old), Slot::new(new)) else {
        return Err("a slot has no such counts".to_string());
    };
    let f = old.line_holding(edit.place as usize).saturating_sub(1);
    let r = f + redone as usize;
    let count = new.lines.len();
    if r > count {
        return Err(format!(
            "{redone} of {count} lines are said to be composed anew, the first of them line {f}"
        ));
    }
    stands_still(&old, &new, f)?;
    is_moved(&old, &new, edit, r)?;
    Ok(f..r)
}

/// Whether the new lines before f, with their places, are the old ones.
fn stands_still(old: &Slot, new: &Slot, f: usize) -> Result<(), String> {
    let differs = |line: &usize| old.lines.get(*line) != new.lines.get(*line);
    if let Some(line) = (0..f).find(differs) {
        return Err(format!("line {line}, before line {f}, is not the old one"));
    }
    // The last of these lines also ends where it did. Without lines before f there is nothing to hold.
    let end = if f == 0 { 0 } else { new.first_record(f) };
    if f > 0 && end != old.first_record(f) {
        return Err(format!("line {f} starts with record {end}, which is not where it started"));
    }
    let differs = |record: &usize| old.places.get(*record) != new.places.get(*record);
    match (0..end).find(differs) {
        Some(record) => Err(format!("record {record}, before line {f}, is not at its old place")),
        None => Ok(()),
    }
}

/// Whether the new lines from r on, with their places, are the last old ones, moved only by the change
/// in record and line numbers.
fn is_moved(old: &Slot, new: &Slot, edit: &Edit, r: usize) -> Result<(), String> {
    let old_record = |record: usize| (record + edit.deleted as usize).checked_sub(edit.inserted_records());
    let old_line = |line: usize| (line + old.lines.len()).checked_sub(new.lines.len());

    for (line, &[first, end_x, kind]) in new.lines.iter().enumerate().skip(r) {
        let moved_back = old_record(first as usize).map(|first| [first as u32, end_x, kind]);
        let before = old_line(line).and_then(|line| old.lines.get(line)).copied();
        if before.is_none() || before != moved_back {
            return Err(format!("line {line}, from line {r} on, is not an old one moved"));
        }
    }
    for (record, &[x, line]) in new.places.iter().enumerate().skip(new.first_record(r)) {
        let moved_back = old_line(line as usize).map(|line| [x, line as u32]);
        let before = old_record(record).and_then(|record| old.places.get(record)).copied();
        if before.is_none() || before != moved_back {
            return Err(format!("record {record}, from line {r} on, is not where it was on an old line"));
        }
    }
    Ok(())
}
