//! `take` and `give`.

use gelumbrio::SlotNumber;

use super::Done;
use crate::arguments::{Arguments, Grammar};
use crate::failure::Failure;
use crate::refusals::Call;
use crate::sheet_file::LockedSheet;

pub const TAKE: Grammar =
    Grammar { command: "take", once: &["clinic"], often: &[], flags: &[], operands: &["FILE"], optional: 0 };

pub const GIVE: Grammar = Grammar {
    command: "give",
    once: &["clinic", "slot"],
    often: &[],
    flags: &[],
    operands: &["FILE"],
    optional: 0,
};

/// Takes the clinic's lowest free slot.
pub fn take(mut arguments: Arguments) -> Result<Done, Failure> {
    let clinic = arguments.clinic()?;
    let file = arguments.file();
    let locked = LockedSheet::open(&file)?;
    let old = locked.read()?;
    let mut sheet = old.clone();
    // A take names no slot, and no refusal of it does.
    let call = Call { file: &file, sheet: &old, clinic, slot: SlotNumber(0) };
    let slot = sheet.take(clinic).map_err(|refusal| call.refused(refusal))?;
    locked.replace(&sheet)?;
    Ok(Done::changing(format!("slot {}\n", slot.0)))
}

/// Gives a slot back.
pub fn give(mut arguments: Arguments) -> Result<Done, Failure> {
    let (clinic, slot) = (arguments.clinic()?, arguments.slot()?);
    let file = arguments.file();
    let locked = LockedSheet::open(&file)?;
    let old = locked.read()?;
    let mut sheet = old.clone();
    let call = Call { file: &file, sheet: &old, clinic, slot };
    sheet.give_back(clinic, slot).map_err(|refusal| call.refused(refusal))?;
    locked.replace(&sheet)?;
    Ok(Done::changing(format!("slot {} is free\n", slot.0)))
}
