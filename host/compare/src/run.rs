//! One case on the program under test, on the second program and in the book.

use std::fmt::Debug;

use second::book::Book;
use second::{kept, Edit, Import};

use crate::calls::{Call, Case};
use crate::layout::{record_words, slot_words};
use crate::program::{Program, Second, SECOND};
use crate::same::{same_answer, same_number, same_part, same_words};
use crate::single::single_edits;
use crate::tally::{Outcome, Tally};

const BOOK: &str = "the book";

/// A sheet on each side, and the book.
pub struct Run<'a> {
    program: &'a dyn Program,
    tested: Vec<u32>,
    second: Vec<u32>,
    book: Book,
    /// Whether the book speaks for the sheet: a set-up was accepted and no damage done since.
    book_holds: bool,
    /// What was answered so far.
    pub tally: Tally,
}

/// The calls of a case, all words compared after each; or the first difference.
pub fn run(program: &dyn Program, case: &Case) -> Result<Tally, String> {
    let mut run = Run::new(program, case.sheet());
    for (i, call) in case.calls.iter().enumerate() {
        run.apply(call).map_err(|difference| format!("call {i}: {difference}"))?;
    }
    run.single_edits()?;
    Ok(run.tally)
}

impl<'a> Run<'a> {
    /// Both sides start with these words.
    pub fn new(program: &'a dyn Program, sheet: Vec<u32>) -> Run<'a> {
        let tested = sheet.clone();
        let (book, tally) = (Book::new(), Tally::default());
        Run { program, tested, second: sheet, book, book_holds: false, tally }
    }

    /// The book as it stands.
    pub fn book(&self) -> &Book {
        &self.book
    }

    /// Makes a call on both sides and in the book, and compares answers and words.
    pub fn apply(&mut self, call: &Call) -> Result<(), String> {
        match call {
            Call::SetUp { clinics, measures, indents } => self.set_up(clinics, measures, indents)?,
            Call::Take { caller } => self.take(*caller)?,
            Call::GiveBack { caller, slot } => self.give_back(*caller, *slot)?,
            &Call::Edit { caller, slot, place, deleted, ref inserted } => {
                self.edit(Edit { caller, slot, place, deleted, inserted })?;
            }
            &Call::Import { caller, slot, size, ref text } => {
                self.import(Import { caller, slot, size, text })?;
            }
            Call::Read { caller, slot } => self.read(*caller, *slot)?,
            Call::Damage { at, word } => {
                // No program has a part in it, so that there is nothing to compare.
                self.damage(*at, *word);
                return Ok(());
            }
        }
        same_words(&self.tested, &self.second, SECOND)?;
        if self.book_holds {
            same_words(&self.tested, &self.book.encode(), BOOK)?;
        }
        Ok(())
    }

    fn set_up(&mut self, clinics: &[u32], measures: &[u32], indents: &[u32]) -> Result<(), String> {
        let tested = self.program.set_up(&mut self.tested, clinics, measures, indents);
        let second = Second.set_up(&mut self.second, clinics, measures, indents);
        same_answer(tested, second, SECOND)?;
        // The answer of set-up depends on no word of the sheet, so the book always knows it.
        let book = self.book.set_up(self.tested.len(), clinics, measures, indents);
        same_answer(tested, book, BOOK)?;
        self.book_holds |= second.number == 0;
        self.tally.count(Outcome::SetUp(second.number));
        Ok(())
    }

    fn take(&mut self, caller: u32) -> Result<(), String> {
        let tested = self.program.take(&mut self.tested, caller);
        let second = Second.take(&mut self.second, caller);
        self.same_answers(tested, second, |book, length| book.take(length, caller))?;
        self.tally.count(Outcome::Take(second.number));
        Ok(())
    }

    fn give_back(&mut self, caller: u32, slot: u32) -> Result<(), String> {
        let tested = self.program.give_back(&mut self.tested, caller, slot);
        let second = Second.give_back(&mut self.second, caller, slot);
        self.same_answers(tested, second, |book, length| book.give_back(length, caller, slot))?;
        self.tally.count(Outcome::GiveBack(second.number));
        Ok(())
    }

    /// Whether both programs answer the same, and the book too where it speaks for the sheet.
    fn same_answers<A: PartialEq + Debug + Copy>(
        &mut self,
        tested: A,
        second: A,
        in_book: impl FnOnce(&mut Book, usize) -> A,
    ) -> Result<(), String> {
        same_answer(tested, second, SECOND)?;
        if self.book_holds {
            same_answer(tested, in_book(&mut self.book, self.tested.len()), BOOK)?;
        }
        Ok(())
    }

    fn edit(&mut self, edit: Edit<'_>) -> Result<(), String> {
        let before = slot_words(&self.tested, edit.slot).map(<[u32]>::to_vec);
        let tested = self.program.edit(&mut self.tested, edit);
        let second = Second.edit(&mut self.second, edit);
        self.same_answers(tested, second, |book, length| book.edit(length, edit))?;
        self.tally.count(Outcome::Edit(second.number));
        match before {
            Some(before) if tested.number == 0 => self.keeps_other_lines(before, edit, tested.redone),
            _ => Ok(()),
        }
    }

    fn import(&mut self, import: Import<'_>) -> Result<(), String> {
        let before = slot_words(&self.tested, import.slot).map(<[u32]>::to_vec);
        let tested = self.program.import(&mut self.tested, import);
        let second = Second.import(&mut self.second, import);
        self.same_answers(tested, second, |book, length| book.import(length, import))?;
        self.tally.count(Outcome::Import(second.number));
        match before {
            Some(before) if tested.number == 0 => {
                // The edit that it is, by the records that it left.
                let inserted =
                    record_words(slot_words(&self.tested, import.slot).unwrap_or_default()).to_vec();
                let Import { caller, slot, .. } = import;
                let edit = Edit { caller, slot, place: 0, deleted: before[3], inserted: &inserted };
                self.keeps_other_lines(before, edit, tested.redone)
            }
            _ => Ok(()),
        }
    }

    /// Whether the program under test left the lines as they were that it did not compose anew, by its
    /// own words and report. Where the book does not speak for the sheet, the stored lines may be any,
    /// and the old ones are those that the rules give the records.
    fn keeps_other_lines(&mut self, before: Vec<u32>, edit: Edit<'_>, redone: u32) -> Result<(), String> {
        let old = if self.book_holds { before } else { as_the_rules_give(&before)? };
        let new = slot_words(&self.tested, edit.slot).unwrap_or_default();
        let lines = kept::redone_lines(&old, new, &edit, redone)?;
        self.tally.count(Outcome::of_redone(&lines, new[4] as usize));
        Ok(())
    }

    fn read(&mut self, caller: u32, slot: u32) -> Result<(), String> {
        let number = self.program.read_number(&self.tested, caller, slot);
        let part = self.program.read(&self.tested, caller, slot);
        let second = Second.read_number(&self.second, caller, slot);
        let second_part = Second.read(&self.second, caller, slot);
        same_number(number, second, SECOND)?;
        same_part(&part, &second_part, number)?;
        if self.book_holds {
            let reading = self.book.read(self.tested.len(), caller, slot);
            same_number(number, reading.number, BOOK)?;
            if self.tested.get(part) != Some(reading.words.as_slice()) {
                return Err("read's words are not the book's".to_string());
            }
        }
        self.tally.count(Outcome::of_read(second, &second_part));
        Ok(())
    }

    /// Where the book speaks for the sheet, whether single edits leave the same words.
    pub fn single_edits(&self) -> Result<(), String> {
        if self.book_holds {
            single_edits(self.program, &self.tested, &self.book)?;
        }
        Ok(())
    }

    fn damage(&mut self, at: usize, word: u32) {
        for sheet in [&mut self.tested, &mut self.second] {
            if let Some(damaged) = sheet.get_mut(at) {
                *damaged = word;
            }
        }
        self.book_holds = false;
    }
}

/// The slot's words with the lines and places that the rules give its records.
fn as_the_rules_give(slot: &[u32]) -> Result<Vec<u32>, String> {
    let words = second::slot_words(slot[0], slot[1], slot[2], record_words(slot));
    words.map_err(|refusal| format!("it accepts an edit of records that are refused with {refusal:?}"))
}
