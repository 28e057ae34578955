//! What a refusal means to a person, and what is to be done.

use std::path::Path;

use gelumbrio::limits::{MAX_GROUPED, MAX_LINES, MAX_RECORDS, MAX_RUBY};
use gelumbrio::{Class, Clinic, Record, Refusal, Sheet, SlotNumber};

use crate::characters::{named, REPLACEMENT};
use crate::check;
use crate::failure::{Failure, Spot};
use crate::leaflet::{Leaflet, Reading};
use crate::scratch;

/// A call on a slot of a sheet in a file.
#[derive(Debug, Clone, Copy)]
pub struct Call<'a> {
    /// The sheet's file.
    pub file: &'a Path,
    /// The sheet as it was called.
    pub sheet: &'a Sheet,
    /// Who called.
    pub clinic: Clinic,
    /// The slot that was called.
    pub slot: SlotNumber,
}

/// A leaflet put in place of a stretch of records.
#[derive(Debug)]
pub struct Change<'a> {
    /// The leaflet, where there is one.
    pub leaflet: Option<&'a Leaflet>,
    /// What it reads as.
    pub reading: Reading,
    /// The size of its characters.
    pub size: u32,
    /// The number that its first record has.
    pub at: usize,
    /// All records that would result; where the leaflet has more than a slot takes, not all of these.
    pub records: Vec<Record>,
    /// How many would result.
    pub count: usize,
}

/// A refused change of a slot: by what the sheet is and holds, or by the records that would result.
pub fn of_change(call: Call<'_>, change: &Change<'_>, refusal: Refusal) -> Failure {
    match (refusal.number(), call.sheet.slot(call.slot)) {
        (7 | 8 | 9 | 10 | 12, Some(slot)) => change.refused(refusal, slot.measure(), slot.indent()),
        _ => call.refused(refusal),
    }
}

impl Call<'_> {
    /// A refusal by what the sheet is and holds.
    pub fn refused(self, refusal: Refusal) -> Failure {
        let Call { file, sheet, clinic: Clinic(clinic), slot: SlotNumber(slot) } = self;
        let (file, argument) = (file.display(), quoted(file));
        let listing = format!("`gelumbrio sheet check {argument}` lists whose each slot is.");
        let (what, advice) = match refusal {
            Refusal::Slot => {
                let count = counted(sheet.slots() as u32, "slot");
                (format!("{file} has no slot {slot}"), format!("It has {count}, numbered from 0."))
            }
            Refusal::Caller if clinic == 0 => {
                ("clinic 0 is nobody, and has no slot".to_string(), "Clinics are 1 to 65,535.".to_string())
            }
            Refusal::Caller => (format!("slot {slot} of {file} is not clinic {clinic}'s"), listing),
            Refusal::NoneFree if !self.has_slots() => {
                (format!("clinic {clinic} has no slot in {file}"), listing)
            }
            Refusal::NoneFree => (
                format!("clinic {clinic} has no free slot in {file}"),
                format!("`gelumbrio give {argument} --clinic {clinic} --slot ..` empties one and frees it."),
            ),
            Refusal::NotInUse => (
                format!("slot {slot} of {file} is not in use"),
                format!("`gelumbrio take {argument} --clinic {clinic}` takes the clinic's lowest free slot."),
            ),
            Refusal::Damaged => self.damaged(),
            Refusal::PastEnd { count } => (
                format!(
                    "the edit reaches past the end of slot {slot}, which has {}",
                    counted(count, "record")
                ),
                format!("A place is 0 to {count}, and what is deleted must be there."),
            ),
            other => return Failure::numbered(other.number(), other.to_string()),
        };
        Failure::numbered(refusal.number(), what).advising(advice)
    }

    /// Why a slot is damaged, and what mends it. A read finds more lines than there can be, and an edit mends them.
    fn damaged(self) -> (String, String) {
        let Call { file, sheet, clinic, slot } = self;
        let (why, mending) = match sheet.slot(slot).and_then(check::damage) {
            Some(why) => (why, check::MENDING.to_string()),
            None => {
                let mending = format!("`{}` mends it.", composing(file, clinic, slot));
                (format!("it has more than {MAX_LINES} lines"), mending)
            }
        };
        (format!("slot {} of {} is damaged: {why}", slot.0, file.display()), mending)
    }

    /// Whether the clinic that calls has a slot on the sheet.
    fn has_slots(self) -> bool {
        let mut slots = (0..self.sheet.slots()).filter_map(|slot| self.sheet.slot(SlotNumber(slot as u32)));
        slots.any(|slot| slot.clinic() == self.clinic)
    }
}

/// The command that composes a slot anew and changes no record of it.
pub fn composing(file: &Path, clinic: Clinic, slot: SlotNumber) -> String {
    format!("gelumbrio edit {} --clinic {} --slot {} --at 0", quoted(file), clinic.0, slot.0)
}

/// A file's name as a shell takes it.
fn quoted(file: &Path) -> String {
    let name = file.display().to_string();
    let is_plain = |character: char| character.is_alphanumeric() || "._/-+=:@%".contains(character);
    match name.chars().all(is_plain) && !name.starts_with('-') {
        true => name,
        false => format!("'{}'", name.replace('\'', r"'\''")),
    }
}

/// So many of something.
pub fn counted(count: u32, what: &str) -> String {
    format!("{count} {what}{}", if count == 1 { "" } else { "s" })
}

/// Why this is no size, and which are.
pub fn no_size(size: u32) -> (String, String) {
    (format!("{size} is no size"), "A size is a multiple of 8, from 8 to 4,000.".to_string())
}

/// Whether a record of this class may be in a group.
fn may_have_ruby(class: u32) -> bool {
    matches!(Class::from_number(class), Some(Class::Hiragana | Class::Katakana | Class::Ideographic))
}

impl<'a> Change<'a> {
    /// A leaflet in place of all records.
    pub fn import(leaflet: &'a Leaflet, size: u32) -> Change<'a> {
        let reading = Reading::of(leaflet.text());
        let (records, count) = (scratch::records(&reading, size, &[]), reading.letters.len());
        Change { leaflet: Some(leaflet), reading, size, at: 0, records, count }
    }

    /// A refusal by the records that would result, in lines of this measure after this indent.
    pub fn refused(&self, refusal: Refusal, measure: u32, indent: u32) -> Failure {
        let (record, (what, advice)) = match refusal {
            Refusal::TooManyRecords => (MAX_RECORDS, self.too_many()),
            Refusal::Record { record } => (record as usize, self.own_rules(record as usize)),
            Refusal::Group { record } => (record as usize, self.group_rule(record as usize)),
            Refusal::NoBreaking { record } => (record as usize, self.too_wide(record, measure, indent)),
            // No leaflet comes to this: its characters have the classes that their lists give.
            Refusal::NotListed { record } => {
                (record as usize, (refusal.to_string(), "Give it the class of its list.".to_string()))
            }
            other => return Failure::numbered(other.number(), other.to_string()),
        };
        Failure::numbered(refusal.number(), what).at(self.spot(record)).advising(advice)
    }

    fn too_many(&self) -> (String, String) {
        let what = format!("the slot would have {} characters, and {MAX_RECORDS} are the most", self.count);
        (what, "Part the text here or earlier, and put the rest into another slot.".to_string())
    }

    /// Why a record does not go with its group, which is refused with 9.
    fn group_rule(&self, record: usize) -> (String, String) {
        let is_alike =
            |left: &Record, right: &Record| (left.size, left.ruby_count) == (right.size, right.ruby_count);
        let before = record.checked_sub(1).map(|before| &self.records[before]);
        match before.is_some_and(|before| is_alike(before, &self.records[record])) {
            true => (
                format!("this is the seventeenth character under one ruby, and {MAX_GROUPED} are the most"),
                "Make two ruby elements of it.".to_string(),
            ),
            false => (
                "this would come under one ruby with what is before it, and has another size or ruby"
                    .to_string(),
                "Leave a character between the two, or put both in anew.".to_string(),
            ),
        }
    }

    /// Why a record breaks its own rules, which is refused with 8.
    fn own_rules(&self, record: usize) -> (String, String) {
        let Record { size, class, group, ruby_count, .. } = self.records[record];
        let character = self.records[record].character().map_or(String::new(), named);
        if !scratch::is_size(size) {
            no_size(size)
        } else if group != 0 && !may_have_ruby(class) {
            (
                format!(
                    "{character} may not stand under ruby: ideographs and kana may, small kana and marks may not"
                ),
                "End the ruby element before it, and begin another after it if need be.".to_string(),
            )
        } else {
            (
                format!("there are {ruby_count} ruby characters over this, and {MAX_RUBY} are the most"),
                "Shorten its <rt>.".to_string(),
            )
        }
    }

    /// Which text is too wide for a line, and how long a line must be.
    fn too_wide(&self, record: u32, measure: u32, indent: u32) -> (String, String) {
        let text = if record == 0 && indent > 0 { "indent and text are" } else { "the text is" };
        let what = format!("up to where a line may next end, {text} wider than a line of {measure} units");
        let advice = match scratch::least_measure(indent, &self.records) {
            Some(least) => format!(
                "It needs a line of {least} units, which is {} of size {}; or a smaller --size.",
                counted(least.div_ceil(self.size.max(1)), "character"),
                self.size
            ),
            None => "No line is long enough for it: name a smaller --size.".to_string(),
        };
        (what, advice)
    }

    /// The place of a record: in the leaflet where it came from there, else in the slot.
    fn spot(&self, record: usize) -> Spot {
        let letter = record.checked_sub(self.at).and_then(|index| self.reading.letters.get(index));
        if let (Some(letter), Some(leaflet)) = (letter, self.leaflet) {
            return leaflet.spot(letter.offset, 1);
        }
        let line = self.records.iter().map(|record| record.character().unwrap_or(REPLACEMENT)).collect();
        Spot {
            name: format!("the slot's text after the edit, record {record}"),
            line,
            before: record,
            length: 1,
        }
    }
}
