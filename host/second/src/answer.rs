//! What the calls answer (document 01, "Refusal numbers, in the order they are checked").

/// The answer of set-up, 0 and P; of taking, 0 and the slot's number; of giving back, 0 and 0. Or a refusal's number
/// and place.
#[derive(Debug, Clone, Copy, PartialEq, Eq)]
pub struct Answer {
    /// 0, or the refusal's number.
    pub number: u32,
    /// What goes with the number 0, otherwise the refusal's place.
    pub place: u32,
}

/// The answer of edit: 0, the line count and how many of these lines are composed anew, or a refusal's
/// number and place.
#[derive(Debug, Clone, Copy, PartialEq, Eq)]
pub struct EditAnswer {
    /// 0, or the refusal's number.
    pub number: u32,
    /// The line count where the number is 0, otherwise the refusal's place.
    pub place: u32,
    /// The number of lines composed anew (document 02, request 03); 0 where the edit is refused.
    pub redone: u32,
}

/// The answer of import (document 02, request 05): 17 and where the text has its first fault, otherwise its edit's.
#[derive(Debug, Clone, Copy, PartialEq, Eq)]
pub struct ImportAnswer {
    /// 0, or the refusal's number.
    pub number: u32,
    /// The number of lines composed anew; 0 where the import is refused.
    pub redone: u32,
    /// The line count where the number is 0, a place in bytes where it is 17, otherwise the edit's place.
    pub place: usize,
}

impl ImportAnswer {
    /// 17: the text has its first fault at this byte.
    pub fn text_fault(at: usize) -> ImportAnswer {
        ImportAnswer { number: 17, redone: 0, place: at }
    }
}

impl From<EditAnswer> for ImportAnswer {
    fn from(edit: EditAnswer) -> ImportAnswer {
        ImportAnswer { number: edit.number, redone: edit.redone, place: edit.place as usize }
    }
}

/// What an accepted edit tells.
#[derive(Debug, Clone, Copy, PartialEq, Eq)]
pub struct Edited {
    /// How many lines the slot has.
    pub lines: usize,
    /// How many of them are composed anew.
    pub redone: usize,
}

impl From<Result<usize, Refusal>> for Answer {
    /// From what goes with 0, or why the call is refused.
    fn from(outcome: Result<usize, Refusal>) -> Answer {
        let (number, place) = number_and_place(outcome);
        Answer { number, place }
    }
}

impl From<Result<Edited, Refusal>> for EditAnswer {
    fn from(outcome: Result<Edited, Refusal>) -> EditAnswer {
        let (number, place) = number_and_place(outcome.map(|edited| edited.lines));
        EditAnswer { number, place, redone: outcome.map_or(0, |edited| edited.redone as u32) }
    }
}

impl From<Refusal> for EditAnswer {
    fn from(refusal: Refusal) -> EditAnswer {
        EditAnswer::from(Err(refusal))
    }
}

/// The row of document 01's table, where 0 has this as its place.
fn number_and_place(outcome: Result<usize, Refusal>) -> (u32, u32) {
    match outcome {
        Ok(place) => (0, place as u32),
        Err(refusal) => (refusal.number(), refusal.place()),
    }
}

/// The answer of ruby place: 0 and an offset, or 8 and 0.
#[derive(Debug, Clone, Copy, PartialEq, Eq)]
pub struct RubyPlace {
    /// 0, or 8 where an argument is out of limits.
    pub number: u32,
    /// The offset of the ruby character from the start of its group.
    pub offset: u32,
}

/// Why a call is refused, in the order of the checks. The place is carried where it is not always 0.
#[derive(Debug, Clone, Copy, PartialEq, Eq)]
pub enum Refusal {
    /// 1: the sheet's length, or a set-up list's, is wrong.
    Length,
    /// 2: there is no such slot.
    Slot,
    /// 3: the slot is not the caller's.
    Caller,
    /// 13: the caller has no slot to take (document 02, request 07).
    NoneFree,
    /// 14: the slot is not in use (document 02, request 07).
    NotInUse,
    /// 4: what the slot holds is damaged.
    Stored,
    /// 5: the place or the deletion passes the end; carries the record count.
    Place(usize),
    /// 6: the inserted words are not whole records.
    Words,
    /// 7: more than 256 records would result.
    TooMany,
    /// 8: this record breaks its own rules.
    Record(usize),
    /// 12: this record's class has a list without its code point (document 02, request 04).
    NotListed(usize),
    /// 9: this record breaks a group rule.
    Group(usize),
    /// 10: the run that starts with this record is wider than the measure.
    NoBreaking(usize),
    /// 11: this slot's clinic, measure or indent is out of limits.
    Limits(usize),
}

impl Refusal {
    /// The number in document 01's table, or in the request that adds it.
    pub fn number(self) -> u32 {
        match self {
            Refusal::Length => 1,
            Refusal::Slot => 2,
            Refusal::Caller => 3,
            Refusal::NoneFree => 13,
            Refusal::NotInUse => 14,
            Refusal::Stored => 4,
            Refusal::Place(_) => 5,
            Refusal::Words => 6,
            Refusal::TooMany => 7,
            Refusal::Record(_) => 8,
            Refusal::NotListed(_) => 12,
            Refusal::Group(_) => 9,
            Refusal::NoBreaking(_) => 10,
            Refusal::Limits(_) => 11,
        }
    }

    /// The place that goes with the number.
    pub fn place(self) -> u32 {
        match self {
            Refusal::Place(at)
            | Refusal::Record(at)
            | Refusal::NotListed(at)
            | Refusal::Group(at)
            | Refusal::NoBreaking(at)
            | Refusal::Limits(at) => at as u32,
            _ => 0,
        }
    }
}
