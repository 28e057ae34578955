//! The import with a fault: a text is read, records are made of it, and an edit is made with them.

use second::sheet::record_count;
use second::{Edit, Import, ImportAnswer};

use super::misimport::Misimport;
use super::reader::{Character, Reader};
use crate::calls::Words;
use crate::faults::slots::slot_words_mut;
use crate::layout::slot_words;
use crate::program::{Program, Second};

impl Misimport {
    /// The import with this fault.
    pub fn import(self, sheet: &mut [u32], import: Import<'_>) -> ImportAnswer {
        match Reader::read(self, import.text) {
            Ok(characters) => self.edit(sheet, import, &characters),
            Err(at) => self.text_fault(sheet, import, at),
        }
    }

    /// The edit with the records of these characters.
    fn edit(self, sheet: &mut [u32], import: Import<'_>, characters: &[Character]) -> ImportAnswer {
        let size = if self == Misimport::SizeRounded { import.size & !7 } else { import.size };
        let mut records: Vec<Words> =
            characters.iter().map(|character| self.record(character, size)).collect();
        if self == Misimport::CutAt256 {
            records.truncate(256);
        }
        let count = record_count(sheet, import.slot).unwrap_or(0);
        let lines = slot_words(sheet, import.slot).map_or(0, |slot| slot[4]);
        let (place, deleted) = match self {
            Misimport::DeletesNothing => (0, 0),
            Misimport::Appends => (count, 0),
            Misimport::DeletesLines => (0, lines),
            _ => (0, count),
        };
        let Import { caller, slot, .. } = import;
        let inserted = records.concat();
        let answer = Second.edit(sheet, Edit { caller, slot, place, deleted, inserted: &inserted });
        let redone = if self == Misimport::ReportsNone { 0 } else { answer.redone };
        ImportAnswer { redone, ..answer.into() }
    }

    fn record(self, character: &Character, size: u32) -> Words {
        let &Character { code_point, class, group, ruby_count } = character;
        let is_half = match class {
            1 | 2 | 5 | 6 => true,
            7 => self != Misimport::CommaWhole,
            3 => self != Misimport::HyphenWhole,
            27 => self != Misimport::WesternWhole,
            _ => false,
        };
        [code_point, class, size, if is_half { size / 2 } else { size }, group, ruby_count]
    }

    /// What is answered to a text with this fault.
    fn text_fault(self, sheet: &mut [u32], import: Import<'_>, at: usize) -> ImportAnswer {
        let slot = slot_words(sheet, import.slot).map_or([0; 8], |slot| *slot.first_chunk().expect("a head"));
        if let Some(answer) = self.before_fault(sheet, import) {
            return answer;
        }
        if self == Misimport::FaultEmpties && import.caller != 0 && import.caller == slot[0] {
            if let Some(words) = slot_words_mut(sheet, import.slot) {
                words[3..].fill(0);
            }
        }
        let place = match self {
            Misimport::PlaceInCharacters => String::from_utf8_lossy(&import.text[..at]).chars().count(),
            Misimport::PlaceIsLength => import.text.len(),
            Misimport::ShortPlace => at % 65_536,
            _ => at,
        };
        let redone = if self == Misimport::FaultReports { slot[4] } else { 0 };
        ImportAnswer { redone, ..ImportAnswer::text_fault(place) }
    }

    /// Edit's answer, where this fault gives it before 17.
    fn before_fault(self, sheet: &mut [u32], import: Import<'_>) -> Option<ImportAnswer> {
        let earlier: &[u32] = match self {
            Misimport::AfterCaller => &[1, 2, 3],
            Misimport::AfterStored => &[4],
            Misimport::AfterCount => &[7],
            _ => return None,
        };
        // As many records as there would be characters if each took three bytes.
        let characters = if self == Misimport::AfterCount { import.text.len() / 3 } else { 0 };
        let Import { caller, slot, .. } = import;
        let inserted = vec![0; 6 * characters];
        let deleted = record_count(sheet, slot).unwrap_or(0);
        let edit = Edit { caller, slot, place: 0, deleted, inserted: &inserted };
        let answer = Second.edit(&mut sheet.to_vec(), edit);
        earlier.contains(&answer.number).then(|| answer.into())
    }
}
