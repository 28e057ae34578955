//! `sheet new` and `sheet check`.

use std::ffi::OsStr;

use gelumbrio::limits::{MAX_CLINIC, MAX_SLOTS};
use gelumbrio::{Clinic, Refusal, Sheet, Slot, SlotNumber, SlotSettings};

use super::compose::{no_line, size};
use super::Done;
use crate::arguments::{number, Arguments, Grammar, Length};
use crate::check::{state, State, MENDING};
use crate::failure::Failure;
use crate::refusals::{composing, counted};
use crate::sheet_file;

pub const NEW: Grammar = Grammar {
    command: "sheet new",
    once: &["size"],
    often: &["slot"],
    flags: &[],
    operands: &["FILE"],
    optional: 0,
};

pub const CHECK: Grammar =
    Grammar { command: "sheet check", once: &[], often: &[], flags: &[], operands: &["FILE"], optional: 0 };

/// What a slot is set up with, from `7:22:1`: clinic, characters a line and indent.
fn setting(text: &OsStr, size: u32) -> Option<SlotSettings> {
    let fields: Vec<&str> = text.to_str()?.split(':').collect();
    let &[clinic, measure, indent] = fields.as_slice() else { return None };
    let units = |text| Length::parse(text, Length::Characters).map(|length| length.units(size));
    Some(SlotSettings { clinic: Clinic(number(clinic)?), measure: units(measure)?, indent: units(indent)? })
}

/// Makes a sheet in a new file.
pub fn new(mut arguments: Arguments) -> Result<Done, Failure> {
    let size = size(&arguments)?;
    let mut settings = Vec::new();
    for text in arguments.all("slot") {
        settings.push(setting(text, size).ok_or_else(|| {
            arguments.wrong(format!(
                "--slot {} is no slot; 7:22:1 is one of clinic 7, with 22 characters a line and an indent of 1",
                text.display()
            ))
        })?);
    }
    if settings.is_empty() {
        return Err(arguments.wrong("which slots has it? --slot 7:22:1 is one of them"));
    }
    let sheet = set_up(&settings)?;
    let file = arguments.file();
    sheet_file::create(&file, &sheet)?;
    let listed = settings.iter().enumerate().map(|(slot, setting)| {
        listed(&sheet, slot, if setting.clinic == Clinic(0) { "nobody's" } else { "free" })
    });
    Ok(Done::changing(listed.collect()))
}

fn set_up(settings: &[SlotSettings]) -> Result<Sheet, Failure> {
    let set_up = Sheet::new(settings.len()).and_then(|mut sheet| {
        sheet.set_up(settings)?;
        Ok(sheet)
    });
    set_up.map_err(|refusal| match refusal {
        Refusal::Limits { slot } => out_of_limits(slot, &settings[slot as usize]),
        _ => {
            let what = format!("{} slots are too many for a sheet", settings.len());
            Failure::numbered(refusal.number(), what).advising(format!("A sheet has 1 to {MAX_SLOTS}."))
        }
    })
}

fn out_of_limits(slot: u32, setting: &SlotSettings) -> Failure {
    let &SlotSettings { clinic: Clinic(clinic), measure, indent } = setting;
    let (what, advice) = match clinic > MAX_CLINIC {
        true => {
            (format!("there is no clinic {clinic}"), "Clinics are 1 to 65,535; 0 leaves a slot to nobody.")
        }
        false => no_line(measure, indent),
    };
    Failure::numbered(11, format!("slot {slot}: {what}")).advising(advice)
}

/// A slot's line in a list.
fn listed(sheet: &Sheet, number: usize, what: &str) -> String {
    let slot = sheet.slot(SlotNumber(number as u32)).expect("a slot of the sheet");
    let (clinic, measure, indent) = (slot.clinic().0, slot.measure(), slot.indent());
    format!("slot {number}: clinic {clinic}, measure {measure}, indent {indent}: {what}\n")
}

/// Looks at every slot of a sheet.
pub fn check(mut arguments: Arguments) -> Result<Done, Failure> {
    let file = arguments.file();
    let sheet = sheet_file::read(&file)?;
    let mut said = String::new();
    let mut advice = Vec::new();
    for number in 0..sheet.slots() {
        let slot = sheet.slot(SlotNumber(number as u32)).expect("a slot of the sheet");
        let state = state(slot);
        said.push_str(&listed(&sheet, number, &told(&state, slot)));
        let composing = composing(&file, slot.clinic(), SlotNumber(number as u32));
        match state {
            State::Stale => advice.push(format!("`{composing}` composes slot {number} anew.")),
            State::Damaged(_) => advice.push(format!("Slot {number}: {MENDING}")),
            _ => {}
        }
    }
    if advice.is_empty() {
        return Ok(Done::saying(said));
    }
    let failure = Failure::plain(format!("{} is not as it should be\n{}", file.display(), said.trim_end()));
    Err(advice.into_iter().fold(failure, Failure::advising))
}

/// What is said of a slot.
fn told(state: &State, slot: Slot<'_>) -> String {
    let (records, lines) = (counted(slot.record_count(), "record"), counted(slot.line_count(), "line"));
    match state {
        State::Unassigned => "nobody's".to_string(),
        State::Free => "free".to_string(),
        State::InUse => format!("in use, {records}, {lines}"),
        State::Waiting => format!("not in use, but not empty: it holds {records}"),
        State::Stale => "its lines are not those that the rules give its records".to_string(),
        State::Damaged(why) => format!("damaged: {why}"),
    }
}
