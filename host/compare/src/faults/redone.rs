//! Misreadings of how many lines are composed anew (document 02, request 03). Every word is composed as
//! it should be.

use second::Edit;

use crate::layout::{line_starts, record_words, PLACES};

/// A wrong report.
#[derive(Debug, Clone, Copy, PartialEq, Eq)]
pub enum Misreading {
    /// None: the report is as it should be.
    Sound,
    /// f is k.
    FirstIsEdited,
    /// k is a line of the new text.
    EditedInNew,
    /// The end place is on the line after the last.
    EndAfterLast,
    /// The end place is on no line, and k is 0.
    EndOnNone,
    /// r may start anywhere.
    AnywhereAgain,
    /// r may start with an inserted record, or with the one at the place.
    PlaceAgain,
    /// r starts after the end of the inserted stretch, not at it.
    AfterEnd,
    /// r may be 0.
    NewLineZero,
    /// r may start with the record that started old line 0.
    OldLineZero,
    /// r starts anywhere at or after the inserted stretch, whatever started an old line.
    AnyStart,
    /// Deleted and inserted records are exchanged in the change of numbers.
    ChangeExchanged,
    /// The numbers of records do not change.
    NoChange,
    /// Where no line is r, r is the old line count.
    NoneIsOldCount,
    /// The report is the new line count.
    AllLines,
    /// The report is r.
    UpToR,
    /// The old lines are those that are stored.
    StoredLines,
    /// k is the line that is stored with the place.
    StoredPlace,
    /// A refused edit reports the lines that there are.
    RefusedToo,
}

/// All of them.
pub const MISREADINGS: [Misreading; 18] = [
    Misreading::FirstIsEdited,
    Misreading::EditedInNew,
    Misreading::EndAfterLast,
    Misreading::EndOnNone,
    Misreading::AnywhereAgain,
    Misreading::PlaceAgain,
    Misreading::AfterEnd,
    Misreading::NewLineZero,
    Misreading::OldLineZero,
    Misreading::AnyStart,
    Misreading::ChangeExchanged,
    Misreading::NoChange,
    Misreading::NoneIsOldCount,
    Misreading::AllLines,
    Misreading::UpToR,
    Misreading::StoredLines,
    Misreading::StoredPlace,
    Misreading::RefusedToo,
];

/// The first record of each line that the rules give a slot's records.
fn ruled_starts(slot: &[u32]) -> Vec<u32> {
    let composed = second::slot_words(slot[0], slot[1], slot[2], record_words(slot));
    composed.map_or(Vec::new(), |words| line_starts(&words))
}

impl Misreading {
    /// The report of an edit of a slot with these words before and after it.
    pub fn report(self, old: &[u32], new: &[u32], edit: &Edit, accepted: bool) -> u32 {
        if !accepted {
            return if self == Misreading::RefusedToo { old[4] } else { 0 };
        }
        let stored = self == Misreading::StoredLines;
        let old_starts = if stored { line_starts(old) } else { ruled_starts(old) };
        let new = line_starts(new);
        let k = self.edited(old, &old_starts, &new, edit.place);
        let f = if self == Misreading::FirstIsEdited { k } else { k.saturating_sub(1) };
        let r = self.again(&old_starts, &new, edit, f);
        let report = match self {
            Misreading::AllLines => new.len(),
            Misreading::UpToR => r,
            _ => r.saturating_sub(f),
        };
        report as u32
    }

    /// k, of a slot with these words before the edit, from the first record of each line.
    fn edited(self, slot: &[u32], old: &[u32], new: &[u32], place: u32) -> usize {
        let at_end = place == slot[3];
        let holding = |starts: &[u32]| starts.iter().rposition(|&start| start <= place).unwrap_or(0);
        match self {
            Misreading::EndAfterLast if at_end => old.len(),
            Misreading::EndOnNone if at_end => 0,
            Misreading::EditedInNew => holding(new),
            Misreading::StoredPlace if !at_end => slot[PLACES + 2 * place as usize + 1] as usize,
            _ => holding(old),
        }
    }

    /// r, from the first record of each line.
    fn again(self, old: &[u32], new: &[u32], edit: &Edit, f: usize) -> usize {
        let (deleted, inserted) = (edit.deleted, edit.inserted_records() as u32);
        let end = edit.place + inserted;
        let least_line = if self == Misreading::NewLineZero { f } else { f.max(1) };
        let least_old_line = if self == Misreading::OldLineZero { 0 } else { 1 };
        let least_start = match self {
            Misreading::AnywhereAgain => 0,
            Misreading::PlaceAgain => edit.place,
            Misreading::AfterEnd => end + 1,
            _ => end,
        };
        let before = |start: u32| match self {
            Misreading::NoChange => Some(start),
            Misreading::ChangeExchanged => (start + inserted).checked_sub(deleted),
            _ => (start + deleted).checked_sub(inserted),
        };
        let started_before = |start: u32| {
            let mut old_starts = old.iter().skip(least_old_line);
            self == Misreading::AnyStart || old_starts.any(|&old_start| Some(old_start) == before(start))
        };
        let is_r = |line: &usize| new[*line] >= least_start && started_before(new[*line]);
        let none = if self == Misreading::NoneIsOldCount { old.len() } else { new.len() };
        (least_line..new.len()).find(is_r).unwrap_or(none)
    }
}
