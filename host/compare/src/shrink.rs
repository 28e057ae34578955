//! Makes a failing case smaller by leaving out calls, records and bytes of texts.

use crate::calls::{Call, Case};

/// The most cases that are tried; shrinking is a help to the reader and need not be complete. A case with a long text
/// counts as several.
const MOST_TRIES: u32 = 20_000;
const LONG_TEXT: usize = 1_000;

/// A case that still fails and from which nothing more can be left out one by one.
pub fn smallest(case: &Case, fails: &dyn Fn(&Case) -> bool) -> Case {
    let mut shrinker = Shrinker { best: case.clone(), fails, tries: 0 };
    loop {
        let before = shrinker.best.clone();
        shrinker.drop_junk();
        shrinker.drop_calls();
        shrinker.drop_records();
        shrinker.drop_bytes();
        shrinker.lower_numbers();
        if shrinker.best == before || shrinker.tries >= MOST_TRIES {
            return shrinker.best;
        }
    }
}

struct Shrinker<'a> {
    best: Case,
    fails: &'a dyn Fn(&Case) -> bool,
    tries: u32,
}

impl Shrinker<'_> {
    /// Keeps the case if it still fails.
    fn keep(&mut self, case: Case) -> bool {
        self.tries += 1 + long_texts(&case);
        let kept = self.tries < MOST_TRIES && (self.fails)(&case);
        if kept {
            self.best = case;
        }
        kept
    }

    fn drop_junk(&mut self) {
        if self.best.junk.is_some() {
            let case = Case { junk: None, ..self.best.clone() };
            self.keep(case);
        }
    }

    fn drop_calls(&mut self) {
        self.drop_stretches(|case| case.calls.len(), |case, from, to| drop(case.calls.drain(from..to)));
    }

    fn drop_records(&mut self) {
        for i in 0..self.best.calls.len() {
            self.drop_stretches(
                |case| inserted(case, i).map_or(0, |words| words.len() / 6),
                |case, from, to| {
                    if let Some(Call::Edit { inserted, .. }) = case.calls.get_mut(i) {
                        inserted.drain(6 * from..6 * to);
                    }
                },
            );
        }
    }

    fn drop_bytes(&mut self) {
        for i in 0..self.best.calls.len() {
            self.drop_stretches(
                |case| text(case, i).map_or(0, <[u8]>::len),
                |case, from, to| {
                    if let Some(Call::Import { text, .. }) = case.calls.get_mut(i) {
                        text.drain(from..to);
                    }
                },
            );
        }
    }

    /// Leaves out stretches of items, from half of all down to single ones, the last first.
    fn drop_stretches(
        &mut self,
        count: impl Fn(&Case) -> usize,
        leave_out: impl Fn(&mut Case, usize, usize),
    ) {
        let mut length = count(&self.best).div_ceil(2);
        while length > 0 {
            let mut end = count(&self.best);
            while end > 0 {
                let start = end.saturating_sub(length);
                let mut case = self.best.clone();
                leave_out(&mut case, start, end);
                self.keep(case);
                end = start;
            }
            length /= 2;
        }
    }

    /// Tries 0 and halves for each edit's place and deletion.
    fn lower_numbers(&mut self) {
        for i in 0..self.best.calls.len() {
            for lower in [|_: u32| 0, |n: u32| n / 2, |n: u32| n.saturating_sub(1)] {
                self.change_edit(i, |place, _| *place = lower(*place));
                self.change_edit(i, |_, deleted| *deleted = lower(*deleted));
            }
        }
    }

    fn change_edit(&mut self, i: usize, change: impl Fn(&mut u32, &mut u32)) {
        let mut case = self.best.clone();
        if let Some(Call::Edit { place, deleted, .. }) = case.calls.get_mut(i) {
            change(place, deleted);
        }
        if case != self.best {
            self.keep(case);
        }
    }
}

fn inserted(case: &Case, i: usize) -> Option<&[u32]> {
    match case.calls.get(i) {
        Some(Call::Edit { inserted, .. }) => Some(inserted),
        _ => None,
    }
}

/// How many long texts all the bytes of a case would make.
fn long_texts(case: &Case) -> u32 {
    let bytes: usize = (0..case.calls.len()).filter_map(|i| text(case, i)).map(<[u8]>::len).sum();
    (bytes / LONG_TEXT) as u32
}

fn text(case: &Case, i: usize) -> Option<&[u8]> {
    match case.calls.get(i) {
        Some(Call::Import { text, .. }) => Some(text),
        _ => None,
    }
}
