//! The calls of a program with a fault.

use std::ops::Range;

use second::sheet::record_count;
use second::{Answer, Edit, EditAnswer, Import, ImportAnswer, RubyPlace};

use super::edits;
use super::fault::Fault;
use super::slots::{keep_all_but_heads, keep_texts, whole_slots};
use crate::layout::{slot_words, LINES, SLOT};
use crate::program::{Program, Second, SECOND};

impl Program for Fault {
    fn name(&self) -> String {
        format!("{SECOND} with the fault {self:?}")
    }

    fn set_up(&self, sheet: &mut [u32], clinics: &[u32], measures: &[u32], indents: &[u32]) -> Answer {
        let before = sheet.to_vec();
        match self {
            Fault::LooseLength => return Second.set_up(whole_slots(sheet), clinics, measures, indents),
            Fault::SetUpAnyClinic => {
                let short: Vec<u32> = clinics.iter().map(|clinic| clinic % 65_536).collect();
                return Second.set_up(sheet, &short, measures, indents);
            }
            _ => {}
        }
        let answer = Second.set_up(sheet, clinics, measures, indents);
        match self {
            Fault::SetUpKeepsText if answer.number == 0 => keep_texts(sheet, &before),
            Fault::SetUpHeadOnly if answer.number == 0 => keep_all_but_heads(sheet, &before),
            Fault::Used(misuse) if answer.number == 0 => misuse.spoil_set_up(sheet, &before),
            Fault::SetUpNamesLast if answer.number == 11 => {
                return last_out_of_limits(clinics, measures, indents)
            }
            _ => {}
        }
        answer
    }

    fn take(&self, sheet: &mut [u32], caller: u32) -> Answer {
        match self {
            Fault::Used(misuse) => misuse.take(sheet, caller),
            Fault::LooseLength => Second.take(whole_slots(sheet), caller),
            _ => Second.take(sheet, caller),
        }
    }

    fn give_back(&self, sheet: &mut [u32], caller: u32, slot: u32) -> Answer {
        match self {
            Fault::Used(misuse) => misuse.give_back(sheet, caller, slot),
            Fault::LooseLength => Second.give_back(whole_slots(sheet), caller, slot),
            _ => Second.give_back(sheet, caller, slot),
        }
    }

    fn edit(&self, sheet: &mut [u32], edit: Edit<'_>) -> EditAnswer {
        edits::with_fault(*self, sheet, edit)
    }

    /// An edit's fault shows in an import too, which is its edit.
    fn import(&self, sheet: &mut [u32], import: Import<'_>) -> ImportAnswer {
        match self {
            Fault::Imported(misimport) => misimport.import(sheet, import),
            Fault::Used(misuse) => misuse.import(sheet, import),
            _ => {
                let count = record_count(sheet, import.slot).unwrap_or(0);
                import.by_edit(count, |its_edit| self.edit(sheet, its_edit))
            }
        }
    }

    fn read_number(&self, sheet: &[u32], caller: u32, slot: u32) -> u32 {
        let number = Second.read_number(sheet, caller, slot);
        let (clinic, measure) = slot_words(sheet, slot).map_or((0, 0), |words| (words[0], words[1]));
        match self {
            Fault::ReadAnyCount if number == 4 => 0,
            Fault::ReadJudges if number == 0 && !(8..=1_000_000).contains(&measure) => 4,
            Fault::CallerZero if number == 3 && caller == 0 && clinic == 0 => 0,
            Fault::Used(misuse) => misuse.read_number(sheet, caller, slot),
            _ => number,
        }
    }

    fn read(&self, sheet: &[u32], caller: u32, slot: u32) -> Range<usize> {
        let part = Second.read(sheet, caller, slot);
        let start = (slot as usize).saturating_mul(SLOT).saturating_add(LINES);
        match self {
            Fault::ReadAll if !part.is_empty() => start..start + 768,
            Fault::ReadRefusedPart if part == (0..0) && start < sheet.len() => start..start,
            Fault::Used(misuse) => misuse.read(sheet, caller, slot),
            _ => part,
        }
    }

    fn ruby_place(&self, base_advance: u32, ruby_count: u32, size: u32, k: u32) -> RubyPlace {
        let right = Second.ruby_place(base_advance, ruby_count, size, k);
        match self {
            Fault::Rows(misrow) if right.number == 0 => misrow.ruby_place(base_advance, ruby_count, size, k),
            Fault::RubyOneMore if k == ruby_count => {
                Second.ruby_place(base_advance, ruby_count, size, k.saturating_sub(1))
            }
            _ => right,
        }
    }

    fn in_list(&self, class: u32, code_point: u32) -> u32 {
        match self {
            Fault::Listed(mislisting) => mislisting.in_list(class, code_point).into(),
            _ => Second.in_list(class, code_point),
        }
    }

    fn class_of(&self, code_point: u32) -> u32 {
        match self {
            Fault::Listed(mislisting) => mislisting.class_of(code_point),
            _ => Second.class_of(code_point),
        }
    }
}

fn last_out_of_limits(clinics: &[u32], measures: &[u32], indents: &[u32]) -> Answer {
    let out = |at: usize| {
        clinics[at] > 65_535 || !(8..=1_000_000).contains(&measures[at]) || indents[at] >= measures[at]
    };
    let last = (0..clinics.len()).rev().find(|&at| out(at));
    Answer { number: 11, place: last.unwrap_or(0) as u32 }
}
