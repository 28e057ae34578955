//! Import: the edit that puts a leaflet's records in place of all that a slot holds (document 02, request 05).

use crate::answer::{EditAnswer, ImportAnswer};
use crate::leaflet;
use crate::sheet::{edit, record_count, Edit};

/// What import takes besides a sheet.
#[derive(Debug, Clone, Copy)]
pub struct Import<'a> {
    /// A caller's clinic.
    pub caller: u32,
    /// A slot.
    pub slot: u32,
    /// The size of every record.
    pub size: u32,
    /// A leaflet in UTF-8.
    pub text: &'a [u8],
}

impl Import<'_> {
    /// Has the edit made that this import is, of a slot with so many records; or answers 17, where the text has a
    /// fault.
    pub fn by_edit(&self, record_count: u32, edit: impl FnOnce(Edit) -> EditAnswer) -> ImportAnswer {
        match leaflet::records(self.text, self.size) {
            Ok(inserted) => {
                let Import { caller, slot, .. } = *self;
                edit(Edit { caller, slot, place: 0, deleted: record_count, inserted: &inserted }).into()
            }
            Err(at) => ImportAnswer::text_fault(at),
        }
    }
}

/// Import: reads a leaflet, puts its records in place of all others and composes the slot.
pub fn import(sheet: &mut [u32], import: Import) -> ImportAnswer {
    // Where there is no such slot, the edit says so whatever it deletes.
    let count = record_count(sheet, import.slot).unwrap_or(0);
    import.by_edit(count, |its_edit| edit(sheet, its_edit))
}
