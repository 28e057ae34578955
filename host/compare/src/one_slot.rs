//! One slot on each side, whose whole text is replaced again and again, or edited: the quick way to
//! compare many paragraphs and edits. What the last text left behind is compared too.

use second::{kept, Edit, EditAnswer, Import, ImportAnswer};

use crate::calls::{Call, Case};
use crate::failure::Failure;
use crate::layout::{record_words, LINES, SLOT};
use crate::program::{Program, Second};
use crate::tally::{Outcome, Tally};

const CLINIC: u32 = 7;

/// A sheet of one slot on each side.
pub struct OneSlot<'a> {
    test: &'static str,
    seed: Option<u64>,
    program: &'a dyn Program,
    tested: Vec<u32>,
    second: Vec<u32>,
    /// The words that the last edit met on the tested side.
    before: Vec<u32>,
    /// Measure and indent, once the slot is set up.
    setting: Option<(u32, u32)>,
    /// The records that the slot holds.
    records: Vec<u32>,
    /// What was answered so far.
    pub tally: Tally,
}

impl<'a> OneSlot<'a> {
    /// Slots that hold nothing and have not been set up. A failure names the seed.
    pub fn new(test: &'static str, seed: Option<u64>, program: &'a dyn Program) -> OneSlot<'a> {
        OneSlot {
            test,
            seed,
            program,
            tested: vec![0; SLOT],
            second: vec![0; SLOT],
            before: vec![0; SLOT],
            setting: None,
            records: Vec::new(),
            tally: Tally::default(),
        }
    }

    /// Empties the slot and takes it.
    pub fn set_up(&mut self, measure: u32, indent: u32) -> Result<(), Failure> {
        let tested = self.program.set_up(&mut self.tested, &[CLINIC], &[measure], &[indent]);
        let second = Second.set_up(&mut self.second, &[CLINIC], &[measure], &[indent]);
        self.tally.count(Outcome::SetUp(second.number));
        let [set_up, take] = Call::one_slot(CLINIC, measure, indent);
        self.compared(tested == second, || set_up.clone())?;
        let tested = self.program.take(&mut self.tested, CLINIC);
        let second = Second.take(&mut self.second, CLINIC);
        self.tally.count(Outcome::Take(second.number));
        if tested != second || self.tested != self.second {
            return Err(self.failure_of(vec![set_up, take]));
        }
        self.setting = Some((measure, indent));
        self.records.clear();
        Ok(())
    }

    /// Puts these records in place of all others.
    pub fn replace(&mut self, records: &[u32]) -> Result<(), Failure> {
        self.make(own(0, (self.records.len() / 6) as u32, records))?;
        Ok(())
    }

    /// Deletes so many records at a place and inserts others there. The lines that the program under test
    /// does not report as composed anew must be as they were. Its answer comes back.
    pub fn edit(&mut self, place: u32, deleted: u32, inserted: &[u32]) -> Result<EditAnswer, Failure> {
        self.before.copy_from_slice(&self.tested);
        let edit = own(place, deleted, inserted);
        let answer = self.make(edit)?;
        if answer.number != 0 {
            return Ok(answer);
        }
        match kept::redone_lines(&self.before, &self.tested, &edit, answer.redone) {
            Ok(lines) => self.tally.count(Outcome::of_redone(&lines, answer.place as usize)),
            Err(_) => return Err(self.failure(record_words(&self.before), edit_call(edit))),
        }
        Ok(answer)
    }

    /// Imports a text in place of all records. Its answer comes back.
    pub fn import(&mut self, size: u32, text: &[u8]) -> Result<ImportAnswer, Failure> {
        let import = Import { caller: CLINIC, slot: 0, size, text };
        let tested = self.program.import(&mut self.tested, import);
        let second = Second.import(&mut self.second, import);
        self.tally.count(Outcome::Import(second.number));
        self.compared(tested == second, || Call::import(CLINIC, size, text))?;
        if second.number == 0 {
            self.records = record_words(&self.second).to_vec();
        }
        Ok(tested)
    }

    /// The records that both programs hold.
    pub fn records(&self) -> &[u32] {
        &self.records
    }

    /// The words that both programs hold.
    pub fn words(&self) -> &[u32] {
        &self.second
    }

    /// How many records stand on the first line of the text that both programs hold.
    pub fn on_first_line(&self) -> usize {
        let (records, lines) = (self.second[3], self.second[4]);
        let next_line = self.second[LINES + 3];
        (if lines > 1 { next_line } else { records }) as usize
    }

    /// Makes an edit on both sides.
    fn make(&mut self, edit: Edit) -> Result<EditAnswer, Failure> {
        let tested = self.program.edit(&mut self.tested, edit);
        let second = Second.edit(&mut self.second, edit);
        self.tally.count(Outcome::Edit(second.number));
        self.compared(tested == second, || edit_call(edit))?;
        if second.number == 0 {
            let (from, to) = (6 * edit.place as usize, 6 * (edit.place + edit.deleted) as usize);
            self.records.splice(from..to, edit.inserted.iter().copied());
        }
        Ok(tested)
    }

    /// A failure where answers or words differ after this call.
    fn compared(&self, same_answer: bool, call: impl Fn() -> Call) -> Result<(), Failure> {
        if same_answer && self.tested == self.second {
            return Ok(());
        }
        Err(self.failure(&self.records, call()))
    }

    /// What a call failed on that met these records.
    fn failure(&self, records: &[u32], call: Call) -> Failure {
        // The last set-up, the taking and the text give a slot the words that the call met.
        let mut calls = Vec::new();
        if let Some((measure, indent)) = self.setting {
            calls.extend(Call::one_slot(CLINIC, measure, indent));
            calls.push(Call::replace(CLINIC, 0, records));
        }
        calls.push(call);
        self.failure_of(calls)
    }

    /// The failure of these calls.
    fn failure_of(&self, calls: Vec<Call>) -> Failure {
        let case = Case { length: SLOT, junk: None, calls };
        Failure::new(self.test, self.seed, self.program, &case)
    }
}

/// The edit of the slot by its clinic.
fn own(place: u32, deleted: u32, inserted: &[u32]) -> Edit<'_> {
    Edit { caller: CLINIC, slot: 0, place, deleted, inserted }
}

fn edit_call(edit: Edit) -> Call {
    let Edit { caller, slot, place, deleted, inserted } = edit;
    Call::Edit { caller, slot, place, deleted, inserted: inserted.to_vec() }
}
