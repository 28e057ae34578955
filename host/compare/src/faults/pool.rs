//! The calls of a program that misuses slots. A taking goes through all slots here, in another shape than the second
//! program's; what a giving back is refused with is asked of an edit without a change.

use std::ops::Range;

use second::sheet::record_count;
use second::{Answer, Edit, EditAnswer, Import, ImportAnswer};

use super::altered::with_head_word;
use super::in_use::{Misuse, On};
use super::slots::{slot_words_mut, whole_slots};
use crate::layout::{slot_words, IN_USE, LINES, PLACES, RECORDS, SLOT};
use crate::program::{Program, Second};

impl Misuse {
    /// Take.
    pub fn take(self, sheet: &mut [u32], caller: u32) -> Answer {
        let sheet = if self == Misuse::LooseLength { whole_slots(sheet) } else { sheet };
        let count = sheet.len() / SLOT;
        if !sheet.len().is_multiple_of(SLOT) || !(1..=64).contains(&count) {
            return Answer { number: 1, place: 0 };
        }
        let caller = if self == Misuse::ShortCaller { caller % 65_536 } else { caller };
        let slots: Vec<&[u32]> = sheet.chunks(SLOT).collect();
        let granted = self.granted(&slots, caller);
        let others_free = slots.iter().any(|slot| slot[0] != caller && slot[IN_USE] == 0);
        let refused_with_3 = match self {
            Misuse::ThirteenFirst => granted.is_some(),
            Misuse::CallerZeroTakes => false,
            _ => true,
        };
        match granted {
            _ if caller == 0 && refused_with_3 => Answer { number: 3, place: 0 },
            Some(slot) => {
                self.write_taken(sheet, slot);
                Answer { number: 0, place: slot as u32 + u32::from(self == Misuse::FromOne) }
            }
            None if self == Misuse::AnothersFreeCounts && others_free => Answer { number: 0, place: 0 },
            None => self.refused_take(sheet, caller),
        }
    }

    /// Where no slot is taken.
    fn refused_take(self, sheet: &mut [u32], caller: u32) -> Answer {
        let count = (sheet.len() / SLOT) as u32;
        let mut slots = sheet.chunks_exact_mut(SLOT);
        if let (Misuse::ThirteenMends, Some(damaged)) =
            (self, slots.find(|slot| slot[0] == caller && slot[IN_USE] > 1))
        {
            damaged[IN_USE] = 1;
        }
        Answer { number: 13, place: if self == Misuse::ThirteenNames { count } else { 0 } }
    }

    /// Which slot is taken.
    fn granted(self, slots: &[&[u32]], caller: u32) -> Option<usize> {
        let mut of_others = slots.iter().filter(|slot| slot[0] != 0 && slot[0] != caller).peekable();
        if self == Misuse::UsedUpByAnother
            && of_others.peek().is_some()
            && of_others.all(|slot| slot[IN_USE] != 0)
        {
            return None;
        }
        let mut free = (0..slots.len()).filter(|&slot| self.is_free(slots[slot], caller));
        match self {
            Misuse::Highest => free.next_back(),
            Misuse::DamagedLast => {
                let damaged = |slot: &&[u32]| slot[0] == caller && slot[IN_USE] > 1;
                free.next().or_else(|| slots.iter().position(damaged))
            }
            _ => free.next(),
        }
    }

    fn is_free(self, slot: &[u32], caller: u32) -> bool {
        let is_callers = match self {
            Misuse::AnyClinics => true,
            Misuse::UnassignedToo => slot[0] == caller || slot[0] == 0,
            _ => slot[0] == caller,
        };
        let word = slot[IN_USE];
        is_callers
            && match self {
                Misuse::FirstOwn => true,
                Misuse::DamagedIsFree | Misuse::AboveOneIsFree => word != 1,
                Misuse::PassesDamaged => word == 0 && (8..=1_000_000).contains(&slot[1]),
                Misuse::PassesWritten => word == 0 && slot[3] == 0,
                _ => word == 0,
            }
    }

    fn write_taken(self, sheet: &mut [u32], slot: usize) {
        let (words, after) = sheet[slot * SLOT..].split_at_mut(SLOT);
        match self {
            Misuse::TakeEmpties => words[3..].fill(0),
            Misuse::TakeClears(at) => words[at] = 0,
            Misuse::NextToo if !after.is_empty() => after[IN_USE] = 1,
            _ => {}
        }
        match self {
            Misuse::WritesNone => {}
            Misuse::WritesTwo => words[IN_USE] = 2,
            _ => words[IN_USE] = 1,
        }
    }

    /// Give back.
    pub fn give_back(self, sheet: &mut [u32], caller: u32, slot: u32) -> Answer {
        let clinic = slot_words(sheet, slot).map_or(0, |words| words[0]);
        let number = match self {
            Misuse::AnyGivesBack if caller != 0 => self.number(On::GiveBack, sheet, clinic, slot),
            Misuse::ZeroGivesBack if caller == 0 && clinic == 0 => {
                self.number(On::GiveBack, &with_word(sheet, slot, 0, 1), 1, slot)
            }
            _ => self.number(On::GiveBack, sheet, caller, slot),
        };
        let Some(words) = slot_words_mut(sheet, slot) else { return Answer { number, place: 0 } };
        let place = match (self, number) {
            (Misuse::NamesSlot, 0) | (Misuse::FourteenNames, 14) => slot,
            (Misuse::NamesLines, 0) => words[4],
            _ => 0,
        };
        match number {
            0 => self.empty(words),
            4 if self == Misuse::RefusalWrites => words[IN_USE] = 0,
            _ => {}
        }
        if let (Misuse::FreesNextToo, 0, Some(next)) = (self, number, slot_words_mut(sheet, slot + 1)) {
            next[IN_USE] = 0;
        }
        Answer { number, place }
    }

    fn empty(self, words: &mut [u32]) {
        let old = words.to_vec();
        match self {
            Misuse::LeavesAll => words[IN_USE] = 0,
            Misuse::LeavesPastCounts => {
                let [records, lines] = [old[3], old[4]].map(|count| count.min(256) as usize);
                words[3..=IN_USE].fill(0);
                words[RECORDS..][..6 * records].fill(0);
                words[PLACES..][..2 * records].fill(0);
                words[LINES..][..3 * lines].fill(0);
            }
            _ => words[3..].fill(0),
        }
        match self {
            Misuse::Leaves(at) => words[at] = old[at],
            Misuse::Clears(at) => words[at] = 0,
            _ => {}
        }
    }

    /// The number, up to 4, that this call on a slot gets.
    fn number(self, on: On, sheet: &[u32], caller: u32, slot: u32) -> u32 {
        let Some(word) = slot_words(sheet, slot).map(|words| words[IN_USE]) else {
            return asked(on, sheet, caller, slot);
        };
        let in_use_as = |word| asked(on, &with_word(sheet, slot, IN_USE, word), caller, slot);
        let number = in_use_as(self.seen(on, word));
        match (self, number) {
            (Misuse::FourteenFirst, 3) if word == 0 => 14,
            (Misuse::FourteenAfterFour, 14) if in_use_as(1) == 4 => 4,
            (Misuse::Unjudged, 4) if on == On::GiveBack => 0,
            (Misuse::JudgedAsRead, 0 | 4) if on == On::GiveBack => Second.read_number(sheet, caller, slot),
            _ => number,
        }
    }

    /// What an in-use word is taken for in a call.
    fn seen(self, on: On, word: u32) -> u32 {
        match (self, word) {
            (Misuse::Unused(which), 0) | (Misuse::AboveOne(which), 2..) if which == on => 1,
            (Misuse::EditTakes, 0) if on == On::Edit => 1,
            (Misuse::AboveOneIsFree, 2..) => 0,
            _ => word,
        }
    }

    /// Edit.
    pub fn edit(self, sheet: &mut [u32], edit: Edit<'_>) -> EditAnswer {
        let Some([lines, word]) = slot_words(sheet, edit.slot).map(|words| [words[4], words[IN_USE]]) else {
            return Second.edit(sheet, edit);
        };
        let answer = with_head_word(sheet, edit, IN_USE, self.seen(On::Edit, word));
        let left = match (self, answer.number) {
            (Misuse::EditClears, 0) | (Misuse::RefusedEditClears, 5..=12) => 0,
            (Misuse::EditTakes, 0) => 1,
            _ => word,
        };
        if let Some(words) = slot_words_mut(sheet, edit.slot) {
            words[IN_USE] = left;
        }
        match (self, answer.number) {
            (Misuse::FourteenFirst | Misuse::FourteenAfterFour, 3 | 14) => {
                EditAnswer { number: self.number(On::Edit, sheet, edit.caller, edit.slot), ..answer }
            }
            (Misuse::FourteenNames, 14) => EditAnswer { place: edit.slot, ..answer },
            (Misuse::FourteenReports, 14) => EditAnswer { redone: lines, ..answer },
            _ => answer,
        }
    }

    /// Import.
    pub fn import(self, sheet: &mut [u32], import: Import<'_>) -> ImportAnswer {
        let Import { caller, slot, .. } = import;
        let word = slot_words(sheet, slot).map_or(0, |words| words[IN_USE]);
        if self == Misuse::FourteenBeforeText && asked(On::Import, sheet, caller, slot) == 14 {
            return EditAnswer { number: 14, place: 0, redone: 0 }.into();
        }
        let seen = self.seen(On::Import, word);
        let count = record_count(sheet, slot).unwrap_or(0);
        let answer = import.by_edit(count, |its_edit| {
            if seen == word {
                self.edit(sheet, its_edit)
            } else {
                with_head_word(sheet, its_edit, IN_USE, seen)
            }
        });
        if let (Misuse::ImportClears, 0, Some(words)) = (self, answer.number, slot_words_mut(sheet, slot)) {
            words[IN_USE] = 0;
        }
        answer
    }

    /// Read's number.
    pub fn read_number(self, sheet: &[u32], caller: u32, slot: u32) -> u32 {
        self.number(On::Read, sheet, caller, slot)
    }

    /// Read.
    pub fn read(self, sheet: &[u32], caller: u32, slot: u32) -> Range<usize> {
        match self.read_number(sheet, caller, slot) {
            0 => Second.read(&with_word(sheet, slot, IN_USE, 1), caller, slot),
            _ => 0..0,
        }
    }

    /// Spoils the words that a set-up left.
    pub fn spoil_set_up(self, sheet: &mut [u32], before: &[u32]) {
        for (slot, old) in sheet.chunks_exact_mut(SLOT).zip(before.chunks_exact(SLOT)) {
            match self {
                Misuse::SetUpLeaves => slot[IN_USE] = old[IN_USE],
                Misuse::SetUpTakes if slot[0] != 0 => slot[IN_USE] = 1,
                _ => {}
            }
        }
    }
}

/// The number of a read, or of an edit without a change.
fn asked(on: On, sheet: &[u32], caller: u32, slot: u32) -> u32 {
    let edit = Edit { caller, slot, place: 0, deleted: 0, inserted: &[] };
    match on {
        On::Read => Second.read_number(sheet, caller, slot),
        On::Edit | On::Import | On::GiveBack => Second.edit(&mut sheet.to_vec(), edit).number,
    }
}

/// The sheet, one word of this slot another.
fn with_word(sheet: &[u32], slot: u32, at: usize, word: u32) -> Vec<u32> {
    let mut sheet = sheet.to_vec();
    if let Some(words) = slot_words_mut(&mut sheet, slot) {
        words[at] = word;
    }
    sheet
}
