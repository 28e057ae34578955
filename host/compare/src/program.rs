//! The programs that can be compared.

use std::fmt;
use std::ops::Range;

use second::{Answer, Edit, EditAnswer, Import, ImportAnswer, RubyPlace};

use crate::calls::Call;
use crate::tally::Outcome;

/// What the second program is called.
pub const SECOND: &str = "the second program";

/// A program that answers the calls of documents 01 and 02 on raw words.
pub trait Program {
    /// What it is called where a comparison tells of it.
    fn name(&self) -> String;

    /// Set-up.
    fn set_up(&self, sheet: &mut [u32], clinics: &[u32], measures: &[u32], indents: &[u32]) -> Answer;

    /// Take.
    fn take(&self, sheet: &mut [u32], caller: u32) -> Answer;

    /// Give back.
    fn give_back(&self, sheet: &mut [u32], caller: u32, slot: u32) -> Answer;

    /// Edit.
    fn edit(&self, sheet: &mut [u32], edit: Edit<'_>) -> EditAnswer;

    /// Import.
    fn import(&self, sheet: &mut [u32], import: Import<'_>) -> ImportAnswer;

    /// Read's number.
    fn read_number(&self, sheet: &[u32], caller: u32, slot: u32) -> u32;

    /// Read: the part of the sheet it hands back.
    fn read(&self, sheet: &[u32], caller: u32, slot: u32) -> Range<usize>;

    /// Ruby place.
    fn ruby_place(&self, base_advance: u32, ruby_count: u32, size: u32, k: u32) -> RubyPlace;

    /// Whether the list of this class has this code point: 1 or 0.
    fn in_list(&self, class: u32, code_point: u32) -> u32;

    /// The class that the lists give this code point, or 0.
    fn class_of(&self, code_point: u32) -> u32;
}

/// What a program alone answers to a call.
#[derive(Clone, PartialEq, Eq)]
pub struct Answered {
    /// The number.
    pub number: u32,
    /// The outcome that is counted, but for damage.
    pub outcome: Option<Outcome>,
    /// All of the answer.
    pub told: String,
}

impl fmt::Debug for Answered {
    fn fmt(&self, f: &mut fmt::Formatter<'_>) -> fmt::Result {
        f.write_str(&self.told)
    }
}

/// Makes a call on one program alone.
pub fn answer(program: &dyn Program, sheet: &mut [u32], call: &Call) -> Answered {
    let answered = |number, outcome, told| Answered { number, outcome: Some(outcome), told };
    match call {
        Call::SetUp { clinics, measures, indents } => {
            let answer = program.set_up(sheet, clinics, measures, indents);
            answered(answer.number, Outcome::SetUp(answer.number), format!("{answer:?}"))
        }
        &Call::Take { caller } => {
            let answer = program.take(sheet, caller);
            answered(answer.number, Outcome::Take(answer.number), format!("{answer:?}"))
        }
        &Call::GiveBack { caller, slot } => {
            let answer = program.give_back(sheet, caller, slot);
            answered(answer.number, Outcome::GiveBack(answer.number), format!("{answer:?}"))
        }
        &Call::Edit { caller, slot, place, deleted, ref inserted } => {
            let answer = program.edit(sheet, Edit { caller, slot, place, deleted, inserted });
            answered(answer.number, Outcome::Edit(answer.number), format!("{answer:?}"))
        }
        &Call::Import { caller, slot, size, ref text } => {
            let answer = program.import(sheet, Import { caller, slot, size, text });
            answered(answer.number, Outcome::Import(answer.number), format!("{answer:?}"))
        }
        &Call::Read { caller, slot } => {
            let (number, part) =
                (program.read_number(sheet, caller, slot), program.read(sheet, caller, slot));
            let words = sheet.get(part.clone());
            answered(number, Outcome::of_read(number, &part), format!("{number}, {part:?}: {words:?}"))
        }
        &Call::Damage { at, word } => {
            sheet[at] = word;
            Answered { number: 0, outcome: None, told: String::new() }
        }
    }
}

/// The second program.
#[derive(Debug, Clone, Copy)]
pub struct Second;

impl Program for Second {
    fn name(&self) -> String {
        SECOND.to_string()
    }

    fn set_up(&self, sheet: &mut [u32], clinics: &[u32], measures: &[u32], indents: &[u32]) -> Answer {
        second::set_up(sheet, clinics, measures, indents)
    }

    fn take(&self, sheet: &mut [u32], caller: u32) -> Answer {
        second::take(sheet, caller)
    }

    fn give_back(&self, sheet: &mut [u32], caller: u32, slot: u32) -> Answer {
        second::give_back(sheet, caller, slot)
    }

    fn edit(&self, sheet: &mut [u32], edit: Edit<'_>) -> EditAnswer {
        second::edit(sheet, edit)
    }

    fn import(&self, sheet: &mut [u32], import: Import<'_>) -> ImportAnswer {
        second::import(sheet, import)
    }

    fn read_number(&self, sheet: &[u32], caller: u32, slot: u32) -> u32 {
        second::read_number(sheet, caller, slot)
    }

    fn read(&self, sheet: &[u32], caller: u32, slot: u32) -> Range<usize> {
        second::read(sheet, caller, slot)
    }

    fn ruby_place(&self, base_advance: u32, ruby_count: u32, size: u32, k: u32) -> RubyPlace {
        second::ruby_place(base_advance, ruby_count, size, k)
    }

    fn in_list(&self, class: u32, code_point: u32) -> u32 {
        second::in_list(class, code_point).into()
    }

    fn class_of(&self, code_point: u32) -> u32 {
        second::class_of(code_point).unwrap_or(0)
    }
}

/// The proved program, through its C interface.
#[cfg(feature = "proved")]
#[derive(Debug, Clone, Copy)]
pub struct Proved;

#[cfg(feature = "proved")]
impl Program for Proved {
    fn name(&self) -> String {
        "the proved library".to_string()
    }

    fn set_up(&self, sheet: &mut [u32], clinics: &[u32], measures: &[u32], indents: &[u32]) -> Answer {
        let answer = gelumbrio::raw::set_up(sheet, clinics, measures, indents);
        Answer { number: answer.number, place: answer.place }
    }

    fn take(&self, sheet: &mut [u32], caller: u32) -> Answer {
        let answer = gelumbrio::raw::take(sheet, gelumbrio::Clinic(caller));
        Answer { number: answer.number, place: answer.place }
    }

    fn give_back(&self, sheet: &mut [u32], caller: u32, slot: u32) -> Answer {
        let (caller, slot) = (gelumbrio::Clinic(caller), gelumbrio::SlotNumber(slot));
        let answer = gelumbrio::raw::give_back(sheet, caller, slot);
        Answer { number: answer.number, place: answer.place }
    }

    fn edit(&self, sheet: &mut [u32], edit: Edit<'_>) -> EditAnswer {
        let (caller, slot) = (gelumbrio::Clinic(edit.caller), gelumbrio::SlotNumber(edit.slot));
        let answer = gelumbrio::raw::edit(sheet, caller, slot, edit.place, edit.deleted, edit.inserted);
        EditAnswer { number: answer.number, place: answer.place, redone: answer.redone }
    }

    fn import(&self, sheet: &mut [u32], import: Import<'_>) -> ImportAnswer {
        let (caller, slot) = (gelumbrio::Clinic(import.caller), gelumbrio::SlotNumber(import.slot));
        let answer = gelumbrio::raw::import(sheet, caller, slot, import.size, import.text);
        ImportAnswer { number: answer.number, redone: answer.redone, place: answer.place }
    }

    fn read_number(&self, sheet: &[u32], caller: u32, slot: u32) -> u32 {
        gelumbrio::raw::read_number(sheet, gelumbrio::Clinic(caller), gelumbrio::SlotNumber(slot))
    }

    fn read(&self, sheet: &[u32], caller: u32, slot: u32) -> Range<usize> {
        gelumbrio::raw::read(sheet, gelumbrio::Clinic(caller), gelumbrio::SlotNumber(slot))
    }

    fn ruby_place(&self, base_advance: u32, ruby_count: u32, size: u32, k: u32) -> RubyPlace {
        let place = gelumbrio::raw::ruby_place(base_advance, ruby_count, size, k);
        RubyPlace { number: place.number, offset: place.offset }
    }

    fn in_list(&self, class: u32, code_point: u32) -> u32 {
        gelumbrio::raw::in_list(class, code_point)
    }

    fn class_of(&self, code_point: u32) -> u32 {
        gelumbrio::raw::class_of(code_point)
    }
}

/// The program under test.
#[cfg(feature = "proved")]
pub const UNDER_TEST: Proved = Proved;

/// The program under test: without the feature `proved`, the second program itself.
#[cfg(not(feature = "proved"))]
pub const UNDER_TEST: Second = Second;
