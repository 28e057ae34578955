//! The book of demand 3 (document 01, "The book of demand 3").
//!
//! It is fed the arguments of each call and the sheet's length, and nothing of the sheet's words.
//! Before the first accepted set-up it has no slots, while the sheet may hold any words: what it
//! then answers to a call on a slot says nothing of the sheet, except for numbers 1, 2 and 17, and so does its answer
//! to a taking, except for 1 and 3.

use crate::answer::{Answer, EditAnswer, ImportAnswer, Refusal};
use crate::breaking::Setting;
use crate::compose::{break_into_lines, compose};
use crate::import::Import;
use crate::pool::lowest_free;
use crate::records::{spliced, Record};
use crate::sheet::{
    check_caller, check_in_use, check_set_up, edited, fresh_slot, line_words, slot_count, slot_words, Edit,
};

/// A slot of the book.
#[derive(Debug, Clone)]
struct Entry {
    clinic: u32,
    setting: Setting,
    /// 0, or 1 while the slot is in use.
    in_use: u32,
    /// None where the slot is not in use.
    records: Vec<Record>,
}

/// What a read of the book answers.
#[derive(Debug, Clone, PartialEq, Eq)]
pub struct Reading {
    /// The number of the read.
    pub number: u32,
    /// The line words; none where the read is refused.
    pub words: Vec<u32>,
}

/// For each slot a clinic, a measure, an indent, its in-use word and its records in order.
#[derive(Debug, Clone, Default)]
pub struct Book {
    entries: Vec<Entry>,
}

impl Book {
    /// A book that has been fed no call.
    pub fn new() -> Book {
        Book::default()
    }

    /// Whether a set-up has been accepted, so that the book speaks for the sheet.
    pub fn is_set_up(&self) -> bool {
        !self.entries.is_empty()
    }

    /// How many records a slot has, if the book has that slot.
    pub fn record_count(&self, slot: u32) -> Option<usize> {
        self.entries.get(slot as usize).map(|entry| entry.records.len())
    }

    /// The clinic of a slot, if the book has that slot.
    pub fn clinic(&self, slot: u32) -> Option<u32> {
        self.entries.get(slot as usize).map(|entry| entry.clinic)
    }

    /// Whether a slot is in use, if the book has that slot.
    pub fn is_in_use(&self, slot: u32) -> Option<bool> {
        self.entries.get(slot as usize).map(|entry| entry.in_use != 0)
    }

    /// Set-up.
    pub fn set_up(
        &mut self,
        sheet_length: usize,
        clinics: &[u32],
        measures: &[u32],
        indents: &[u32],
    ) -> Answer {
        let outcome = check_set_up(sheet_length, clinics, measures, indents);
        if outcome.is_ok() {
            let lists = clinics.iter().zip(measures).zip(indents);
            self.entries = lists
                .map(|((&clinic, &measure), &indent)| Entry {
                    clinic,
                    setting: Setting { measure, indent },
                    in_use: 0,
                    records: Vec::new(),
                })
                .collect();
        }
        Answer::from(outcome)
    }

    /// Take.
    pub fn take(&mut self, sheet_length: usize, caller: u32) -> Answer {
        let slots = self.entries.iter().map(|entry| (entry.clinic, entry.in_use));
        let outcome = slot_count(sheet_length).and_then(|_| lowest_free(caller, slots));
        if let Ok(slot) = outcome {
            self.entries[slot].in_use = 1;
        }
        Answer::from(outcome)
    }

    /// Give back.
    pub fn give_back(&mut self, sheet_length: usize, caller: u32, slot: u32) -> Answer {
        let outcome = self.slot_in_use(sheet_length, caller, slot).map(|slot| {
            let entry = &mut self.entries[slot];
            entry.in_use = 0;
            entry.records.clear();
            0
        });
        Answer::from(outcome)
    }

    /// Edit.
    pub fn edit(&mut self, sheet_length: usize, edit: Edit) -> EditAnswer {
        let outcome = self.slot_in_use(sheet_length, edit.caller, edit.slot).and_then(|slot| {
            let entry = &mut self.entries[slot];
            let records = spliced(&entry.records, edit.place, edit.deleted, edit.inserted)?;
            let composition = compose(&records, entry.setting)?;
            let old_lines = break_into_lines(&entry.records, entry.setting)?;
            entry.records = records;
            Ok(edited(&old_lines, &composition, &edit))
        });
        EditAnswer::from(outcome)
    }

    /// Import, which is its edit (document 02, request 05): it deletes all the records that the book has of the slot.
    pub fn import(&mut self, sheet_length: usize, import: Import) -> ImportAnswer {
        let count = self.record_count(import.slot).unwrap_or(0);
        import.by_edit(count as u32, |edit| self.edit(sheet_length, edit))
    }

    /// Read and its companion, which together are one read.
    pub fn read(&self, sheet_length: usize, caller: u32, slot: u32) -> Reading {
        let composed = self.slot_in_use(sheet_length, caller, slot).and_then(|slot| {
            let entry = &self.entries[slot];
            compose(&entry.records, entry.setting)
        });
        match composed {
            Ok(composition) => Reading { number: 0, words: line_words(&composition).flatten().collect() },
            Err(refusal) => Reading { number: refusal.number(), words: Vec::new() },
        }
    }

    /// The words that the sheet must hold: each slot composed from its records alone. Empty before
    /// the first accepted set-up.
    pub fn encode(&self) -> Vec<u32> {
        let slots: Vec<Vec<u32>> = self.entries.iter().map(Entry::encode).collect();
        slots.concat()
    }

    /// The index of the slot, which is the caller's and in use; otherwise answer 1, 2, 3 or 14.
    fn slot_in_use(&self, sheet_length: usize, caller: u32, slot: u32) -> Result<usize, Refusal> {
        let slot = slot as usize;
        if slot >= slot_count(sheet_length)? {
            return Err(Refusal::Slot);
        }
        // A slot that no set-up has assigned is nobody's.
        let (clinic, in_use) = self.entries.get(slot).map_or((0, 0), |entry| (entry.clinic, entry.in_use));
        check_caller(caller, clinic)?;
        check_in_use(in_use)?;
        Ok(slot)
    }
}

impl Entry {
    fn encode(&self) -> Vec<u32> {
        if self.in_use == 0 {
            return fresh_slot(self.clinic, self.setting).to_vec();
        }
        let records: Vec<u32> = self.records.iter().flat_map(Record::encode).collect();
        let Setting { measure, indent } = self.setting;
        // The book only keeps what it accepted, so there is always a composition.
        slot_words(self.clinic, measure, indent, &records).unwrap_or_default()
    }
}
