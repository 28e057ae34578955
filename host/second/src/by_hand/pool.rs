//! Slots taken and given back, worked by hand (document 02, request 07).

use crate::answer::Answer;

use super::{fresh, words, K};

/// How the paper of these cases is called.
pub const REQUEST_07: &str = "document 02, request 07";

const BIG: u32 = u32::MAX;
/// The words of a slot; the layout is written out here, apart from the program's.
const SLOT: usize = 2_824;

/// A sheet, a caller, and what the caller is answered who takes a slot of it.
#[derive(Debug, Clone, Copy)]
pub struct TakeCase {
    /// What is taken, or why nothing is.
    pub name: &'static str,
    /// The clinic and the in-use word of each slot.
    pub slots: &'static [(u32, u32)],
    /// The calling clinic.
    pub caller: u32,
    /// The number, and the slot's or 0.
    answer: (u32, u32),
}

/// Takings, in which clinic 7 is the caller where nothing else is said.
pub const TAKES: [TakeCase; 19] = [
    TakeCase::new("the only slot", &[(7, 0)], 7, (0, 0)),
    TakeCase::new("the lowest of three", &[(7, 0), (7, 0), (7, 0)], 7, (0, 0)),
    TakeCase::new("the lowest that is free", &[(7, 1), (7, 0), (7, 0)], 7, (0, 1)),
    TakeCase::new("the last", &[(7, 1), (7, 1), (7, 0)], 7, (0, 2)),
    TakeCase::new("one before those in use", &[(7, 0), (7, 1), (7, 1)], 7, (0, 0)),
    TakeCase::new("the own among another's", &[(9, 0), (7, 1), (9, 0), (7, 0), (9, 0)], 7, (0, 3)),
    TakeCase::new("the other's likewise", &[(9, 0), (7, 1), (9, 0), (7, 0), (9, 0)], 9, (0, 0)),
    TakeCase::new("past an unassigned one", &[(0, 0), (7, 0)], 7, (0, 1)),
    TakeCase::new("none: all own are in use", &[(7, 1), (9, 0), (7, 1), (9, 0)], 7, (13, 0)),
    TakeCase::new("one, where all of another are in use", &[(9, 1), (9, 1), (7, 0)], 7, (0, 2)),
    TakeCase::new("none: it has no slot", &[(7, 0), (9, 0), (0, 0)], 11, (13, 0)),
    TakeCase::new("a word of 2 is not free", &[(7, 2), (7, 0)], 7, (0, 1)),
    TakeCase::new("the largest word is not free", &[(7, BIG), (7, 0)], 7, (0, 1)),
    TakeCase::new("none: only damaged words are left", &[(7, 2), (7, 1), (7, BIG), (9, 0)], 7, (13, 0)),
    TakeCase::new("caller 0", &[(7, 0)], 0, (3, 0)),
    TakeCase::new("caller 0, of an unassigned slot", &[(0, 0), (7, 0)], 0, (3, 0)),
    TakeCase::new("caller 0, with all in use", &[(0, 1), (7, 1)], 0, (3, 0)),
    TakeCase::new("a caller whose low 16 bits are a clinic", &[(7, 0)], 7 + 65_536, (13, 0)),
    TakeCase::new("a clinic past the limit, which is not judged", &[(7, 0), (BIG, 0)], BIG, (0, 1)),
];

impl TakeCase {
    const fn new(
        name: &'static str,
        slots: &'static [(u32, u32)],
        caller: u32,
        answer: (u32, u32),
    ) -> TakeCase {
        TakeCase { name, slots, caller, answer }
    }

    /// The sheet before it, whose other words no slot ever holds.
    pub fn sheet(&self) -> Vec<u32> {
        let mut sheet: Vec<u32> = (0..self.slots.len() * SLOT).map(|at| BIG - at as u32).collect();
        for (slot, &(clinic, in_use)) in sheet.chunks_exact_mut(SLOT).zip(self.slots) {
            (slot[0], slot[5]) = (clinic, in_use);
        }
        sheet
    }

    /// What is answered, and every word of the sheet after it.
    pub fn expected(&self) -> (Answer, Vec<u32>) {
        let (number, place) = self.answer;
        let mut sheet = self.sheet();
        if number == 0 {
            sheet[place as usize * SLOT + 5] = 1;
        }
        (Answer { number, place }, sheet)
    }
}

/// A call on slot 0, in use by clinic 7 with twenty ideographs on two lines, after words of it were written over; slot
/// 1 is clinic 9's.
#[derive(Debug, Clone, Copy)]
pub struct UseCase {
    /// What is the matter with the slot or the call.
    pub name: &'static str,
    /// Caller and slot.
    pub call: (u32, u32),
    /// Which words of slot 0 are written over.
    pub damages: &'static [(usize, u32)],
    /// The numbers of an edit without a change, a read and a giving back.
    pub numbers: [u32; 3],
}

/// The clinics, measures and indents of the sheet of [`USES`].
pub const USES_SET_UP: [[u32; 2]; 3] = [[7, 9], [800, 800], [0, 0]];

/// Calls on slots in use and not in use.
pub const USES: [UseCase; 24] = [
    UseCase::new("in use", (7, 0), &[], [0, 0, 0]),
    UseCase::new("not in use", (7, 0), &[(5, 0)], [14, 14, 14]),
    UseCase::new("a word of 2", (7, 0), &[(5, 2)], [4, 4, 4]),
    UseCase::new("the largest word", (7, 0), &[(5, BIG)], [4, 4, 4]),
    UseCase::new("a measure of 7", (7, 0), &[(1, 7)], [4, 0, 4]),
    UseCase::new("a measure of 7, not in use", (7, 0), &[(1, 7), (5, 0)], [14, 14, 14]),
    UseCase::new("an indent of the measure", (7, 0), &[(2, 800)], [4, 0, 4]),
    UseCase::new("257 records", (7, 0), &[(3, 257)], [4, 0, 4]),
    UseCase::new("257 records, not in use", (7, 0), &[(3, 257), (5, 0)], [14, 14, 14]),
    UseCase::new("257 lines", (7, 0), &[(4, 257)], [0, 4, 0]),
    UseCase::new("257 lines, not in use", (7, 0), &[(4, 257), (5, 0)], [14, 14, 14]),
    UseCase::new("a record of class 17", (7, 0), &[(9, 17)], [4, 0, 4]),
    UseCase::new("a comma of class 19", (7, 0), &[(8, 0x3001)], [4, 0, 4]),
    UseCase::new("a group of two ruby counts", (7, 0), &[(12, 1), (13, 1), (18, 1), (19, 2)], [4, 0, 4]),
    UseCase::new("a record wider than the measure", (7, 0), &[(1, 79)], [4, 0, 4]),
    UseCase::new("words past the counts", (7, 0), &[(6, 1), (7, BIG), (1_543, 3), (2_823, 9)], [0, 0, 0]),
    UseCase::new("other lines and places", (7, 0), &[(1_544, 9), (2_056, 9), (2_059, 0)], [0, 0, 0]),
    UseCase::new("another clinic's", (9, 0), &[], [3, 3, 3]),
    UseCase::new("another clinic's, not in use", (9, 0), &[(5, 0)], [3, 3, 3]),
    UseCase::new("another clinic's, a word of 2", (9, 0), &[(5, 2)], [3, 3, 3]),
    UseCase::new("caller 0 of an unassigned slot", (0, 0), &[(0, 0), (5, 0)], [3, 3, 3]),
    UseCase::new("no such slot", (7, 2), &[(5, 0)], [2, 2, 2]),
    UseCase::new("the largest numbers", (BIG, BIG), &[(5, 0)], [2, 2, 2]),
    UseCase::new("an own slot that was never taken", (9, 1), &[], [14, 14, 14]),
];

impl UseCase {
    const fn new(
        name: &'static str,
        call: (u32, u32),
        damages: &'static [(usize, u32)],
        numbers: [u32; 3],
    ) -> UseCase {
        UseCase { name, call, damages, numbers }
    }

    /// The records that slot 0 holds at first.
    pub fn records() -> Vec<u32> {
        words(&[(20, K)])
    }

    /// The words of slot 0 after it was given back.
    pub fn given_back() -> Vec<u32> {
        let [[clinic, _], [measure, _], [indent, _]] = USES_SET_UP;
        let mut slot = fresh(&[clinic, measure, indent]);
        slot[5] = 0;
        slot
    }
}
