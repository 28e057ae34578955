//! Whether a slot holds what the rules give its records.

use gelumbrio::layout::{RECORD_COUNT_AT, SLOT_WORDS};
use gelumbrio::limits::{MAX_CLINIC, MAX_RECORDS, MEASURES};
use gelumbrio::{Clinic, Record, Refusal, Sheet, Slot, SlotNumber};

use crate::characters::named;
use crate::scratch::try_records;

/// What is found in a slot.
#[derive(Debug, Clone, PartialEq, Eq)]
pub enum State {
    /// It is nobody's.
    Unassigned,
    /// Its clinic has not taken it, and it is empty.
    Free,
    /// It is in use, and its words are those that the rules give.
    InUse,
    /// Its records can be composed, but its other words are not what the rules give. An edit mends it.
    Stale,
    /// It is not in use, but not empty either: it was filled before there were takings.
    Waiting,
    /// Every edit of it is refused with 4, or would be if it were in use; or it is a clinic's that there cannot be.
    /// Only a set-up mends it.
    Damaged(String),
}

/// What mends a damaged slot.
pub const MENDING: &str = "Only a new sheet mends it, or an older copy of the file.";

/// Looks at a slot of a sheet.
pub fn state(slot: Slot<'_>) -> State {
    let Clinic(clinic) = slot.clinic();
    if clinic > MAX_CLINIC {
        return State::Damaged(format!("its clinic is {clinic}, and clinics are 0 to 65,535"));
    }
    if let Some(why) = damage(slot) {
        return State::Damaged(why);
    }
    let is_empty = slot.words()[RECORD_COUNT_AT..].iter().all(|&word| word == 0);
    match (slot.in_use(), clinic) {
        (0, _) if !is_empty => State::Waiting,
        (0, 0) => State::Unassigned,
        (0, _) => State::Free,
        (_, 0) => State::Damaged("it is in use by nobody".to_string()),
        _ if composed(slot).as_ref() == Some(slot.words()) => State::InUse,
        _ => State::Stale,
    }
}

/// The words of a slot in use as an edit leaves them that changes no record.
fn composed(slot: Slot<'_>) -> Option<[u32; SLOT_WORDS]> {
    let mut sheet = Sheet::from_words(slot.words().to_vec()).ok()?;
    sheet.edit(slot.clinic(), SlotNumber(0), 0..0, &[]).ok()?;
    <[u32; SLOT_WORDS]>::try_from(sheet.words()).ok()
}

/// Why every edit of a slot is refused with 4, or would be if it were in use. None where none is.
pub fn damage(slot: Slot<'_>) -> Option<String> {
    let (measure, indent, count) = (slot.measure(), slot.indent(), slot.record_count());
    if slot.in_use() > 1 {
        return Some(format!("its in-use word is {}, and not 0 or 1", slot.in_use()));
    }
    if !MEASURES.contains(&measure) {
        return Some(format!("its measure is {measure}, and measures are 8 to 1,000,000"));
    }
    if indent >= measure {
        return Some(format!("its indent is {indent}, and its measure {measure}"));
    }
    if count as usize > MAX_RECORDS {
        return Some(format!("it has {count} records, and {MAX_RECORDS} are the most"));
    }
    let records: Vec<Record> = slot.records().collect();
    let refusal = try_records(measure, indent, &records).err()?;
    let place = match refusal {
        Refusal::Record { record }
        | Refusal::NotListed { record }
        | Refusal::Group { record }
        | Refusal::NoBreaking { record } => record,
        _ => 0,
    };
    let character = records.get(place as usize).and_then(|record| record.character());
    let character = character.map_or(String::new(), |character| format!(", {},", named(character)));
    Some(format!("its record {place}{character} would be refused with {}", refusal.number()))
}
