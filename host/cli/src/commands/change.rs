//! `import` and `edit`.

use gelumbrio::{Edited, Record, Refusal};

use super::Done;
use crate::arguments::{Arguments, Grammar};
use crate::failure::Failure;
use crate::leaflet::{Leaflet, Reading};
use crate::no_leaflet::no_leaflet;
use crate::paragraph::groups_of;
use crate::refusals::{counted, of_change, Call, Change};
use crate::scratch::{self, USUAL_SIZE};
use crate::sheet_file::LockedSheet;

pub const IMPORT: Grammar = Grammar {
    command: "import",
    once: &["clinic", "slot", "size"],
    often: &[],
    flags: &[],
    operands: &["FILE", "LEAFLET"],
    optional: 0,
};

pub const EDIT: Grammar = Grammar {
    command: "edit",
    once: &["clinic", "slot", "at", "delete", "size"],
    often: &[],
    flags: &[],
    operands: &["FILE", "LEAFLET"],
    optional: 1,
};

/// Which records go out.
struct Stretch {
    at: usize,
    deleted: usize,
}

/// Puts a leaflet in place of all that a slot holds.
pub fn import(mut arguments: Arguments) -> Result<Done, Failure> {
    let (clinic, slot) = (arguments.clinic()?, arguments.slot()?);
    let size = arguments.number("size")?.unwrap_or(USUAL_SIZE);
    let file = arguments.file();
    let leaflet = Leaflet::read(&arguments.operand().unwrap_or_default())?;

    let locked = LockedSheet::open(&file)?;
    let old = locked.read()?;
    let call = Call { file: &file, sheet: &old, clinic, slot };
    let mut sheet = old.clone();
    let edited = sheet.import(clinic, slot, size, leaflet.text()).map_err(|refusal| match refusal {
        Refusal::Leaflet(fault) => no_leaflet(fault, &leaflet),
        refusal => of_change(call, &Change::import(&leaflet, size), refusal),
    })?;
    locked.replace(&sheet)?;
    Ok(Done::changing(report(edited)))
}

/// Deletes records of a slot and puts in what a leaflet reads as.
pub fn edit(mut arguments: Arguments) -> Result<Done, Failure> {
    let (clinic, slot) = (arguments.clinic()?, arguments.slot()?);
    let (at, deleted) = (arguments.needed("at")?, arguments.number("delete")?.unwrap_or(0));
    let size = arguments.number("size")?;
    let file = arguments.file();
    let leaflet = arguments.operand().map(|name| Leaflet::read(&name)).transpose()?;
    if let Some(leaflet) = &leaflet {
        // As in an import, this comes before all other refusals.
        scratch::leaflet_fault(leaflet.text()).map_or(Ok(()), |fault| Err(no_leaflet(fault, leaflet)))?;
    }

    let locked = LockedSheet::open(&file)?;
    let old = locked.read()?;
    let call = Call { file: &file, sheet: &old, clinic, slot };
    let stored: Vec<Record> = old.slot(slot).into_iter().flat_map(|slot| slot.records()).collect();
    let reading = leaflet.as_ref().map_or_else(Reading::default, |leaflet| Reading::of(leaflet.text()));
    let size = size.unwrap_or_else(|| size_at(&stored, at as usize));
    let inserted = scratch::records(&reading, size, &stored);
    let stretch = Stretch { at: at as usize, deleted: deleted as usize };

    let mut sheet = old.clone();
    // An end past the last number is past the slot's end too.
    let replaced = at..at.saturating_add(deleted);
    let edited = sheet.edit(clinic, slot, replaced, &inserted).map_err(|refusal| {
        let records = spliced(&stored, &stretch, &inserted);
        let count = records.len() - inserted.len() + reading.letters.len();
        let change = Change { leaflet: leaflet.as_ref(), reading, size, at: stretch.at, records, count };
        of_change(call, &change, refusal)
    })?;
    locked.replace(&sheet)?;
    let notes = parted(&stored, &stretch, !inserted.is_empty());
    Ok(Done { notes, ..Done::changing(report(edited)) })
}

/// The size of the text around a place: of the record before it, or of the first.
fn size_at(records: &[Record], at: usize) -> u32 {
    let before = at.checked_sub(1).and_then(|before| records.get(before));
    before.or(records.first()).map_or(USUAL_SIZE, |record| record.size)
}

/// The records that would result.
fn spliced(stored: &[Record], stretch: &Stretch, inserted: &[Record]) -> Vec<Record> {
    let start = stored.len().min(stretch.at);
    let end = stored.len().min(start.saturating_add(stretch.deleted));
    [&stored[..start], inserted, &stored[end..]].concat()
}

/// A note for each group of which an edit leaves a part: that part keeps the whole group's ruby.
fn parted(stored: &[Record], stretch: &Stretch, inserts: bool) -> Vec<String> {
    let (start, end) = (stretch.at, stretch.at + stretch.deleted);
    let is_parted = |&(first, length): &(usize, usize)| {
        let inside = |place: usize| first < place && place < first + length;
        let deletes = start < end && start < first + length && first < end;
        let leaves_some = first < start || end < first + length;
        (deletes && leaves_some) || (inserts && inside(start))
    };
    let groups = groups_of(stored).into_iter().filter(is_parted);
    let told = groups.map(|(first, length)| {
        format!(
            "the edit cuts into the text under one ruby, records {first} to {}; what is left of it keeps all {} \
             ruby characters",
            first + length - 1,
            stored[first].ruby_count
        )
    });
    told.collect()
}

fn report(edited: Edited) -> String {
    format!("{}, {} composed anew\n", counted(edited.lines, "line"), edited.redone)
}
