//! How many lines an edit composes anew (document 02, request 03).

use std::ops::Range;

use crate::sheet::Edit;

/// How a paragraph's records are shared out among its lines.
#[derive(Debug, Clone, PartialEq, Eq)]
pub struct Lines {
    /// The first record of each line, in order.
    pub starts: Vec<usize>,
    /// How many records there are.
    pub records: usize,
}

impl Lines {
    fn count(&self) -> usize {
        self.starts.len()
    }

    /// The number of the last line, if there is one.
    fn last(&self) -> Option<usize> {
        self.count().checked_sub(1)
    }

    /// The number of the line that this record stands on, if there is such a record.
    fn holding(&self, record: usize) -> Option<usize> {
        let up_to_record = self.starts.partition_point(|&start| start <= record);
        up_to_record.checked_sub(1).filter(|_| record < self.records)
    }

    /// The number of the line whose first record this is, if it starts one.
    fn started_by(&self, record: usize) -> Option<usize> {
        self.starts.binary_search(&record).ok()
    }
}

/// The numbers of the new lines that are composed anew, f up to r. An accepted edit reports how many
/// they are.
///
/// The old lines are those that the rules give the old records, whatever lines are stored.
pub fn redone_lines(old: &Lines, new: &Lines, edit: &Edit) -> Range<usize> {
    let place = edit.place as usize;
    // The old line holding the place, or the last where the place is the end, or 0 if there were none.
    let k = old.holding(place).or(old.last()).unwrap_or(0);
    let f = k.saturating_sub(1);

    let (deleted, inserted) = (edit.deleted as usize, edit.inserted_records());
    let end_of_inserted = place + inserted;
    let starts_as_an_old_line = |&line: &usize| {
        let first = new.starts[line];
        first >= end_of_inserted
            && old.started_by(first - inserted + deleted).is_some_and(|old_line| old_line >= 1)
    };
    let r = (f.max(1)..new.count()).find(starts_as_an_old_line).unwrap_or(new.count());
    f..r
}
