//! Edits and the lines that they compose anew (document 02, request 03).

use crate::answer::EditAnswer;

use super::{words, Text, Words, FULL_STOP, K, RUBY_K};

/// An edit of a composed slot, and which lines it composes anew.
#[derive(Debug, Clone, Copy)]
pub struct EditCase {
    /// What is done where.
    pub name: &'static str,
    /// The measure and the indent.
    pub setting: (u32, u32),
    old: Text,
    /// The edit place.
    pub place: u32,
    /// How many records are deleted.
    pub deleted: u32,
    inserted: Text,
    /// Request 03's f and r: the first line composed anew, and the first after those.
    pub redone: (u32, u32),
    /// The new line count.
    pub lines: u32,
}

/// An ideograph a tenth as wide as the others.
const SMALL: Words = [0x6F22, 19, 8, 8, 0, 0];
/// Six lines of five in measure 440.
const SIX_LINES: Text = &[(30, K)];
/// Lines of five, five and five in measure 400; the second has the full stop.
const STOP_IN_LINE_1: Text = &[(6, K), (1, FULL_STOP), (8, K)];

/// Request 03, "How many lines did my edit redo?".
pub const EDITS: [EditCase; 18] = [
    EditCase::new("one of the last line", (440, 0), SIX_LINES, (27, 1, &[(1, K)]), (4, 6), 6),
    EditCase::new("its own line has room", (440, 0), SIX_LINES, (12, 0, &[(1, SMALL)]), (1, 3), 6),
    EditCase::new("every later line moves on by one", (440, 0), SIX_LINES, (12, 0, &[(1, K)]), (1, 7), 7),
    EditCase::new("at the end", (440, 0), SIX_LINES, (30, 0, &[(1, K)]), (4, 7), 7),
    EditCase::new("at the start", (440, 0), SIX_LINES, (0, 0, &[(1, K)]), (0, 7), 7),
    EditCase::new("a line before line 0", (440, 0), SIX_LINES, (0, 0, &[(5, K)]), (0, 2), 7),
    EditCase::new("two lines, by their like", (440, 0), SIX_LINES, (5, 10, &[(10, K)]), (0, 3), 6),
    EditCase::new("line 0 goes", (440, 0), SIX_LINES, (0, 5, &[]), (0, 1), 5),
    EditCase::new("into an empty slot", (440, 0), &[], (0, 0, &[(6, K)]), (0, 2), 2),
    EditCase::new("everything goes", (440, 0), SIX_LINES, (0, 30, &[]), (0, 0), 0),
    EditCase::new("the last lines go", (440, 0), SIX_LINES, (15, 15, &[]), (2, 3), 3),
    EditCase::new("nothing at the end", (440, 0), SIX_LINES, (30, 0, &[]), (4, 6), 6),
    EditCase::new("nothing in the middle", (440, 0), SIX_LINES, (12, 0, &[]), (1, 3), 6),
    EditCase::new("nothing in an empty slot", (440, 0), &[], (0, 0, &[]), (0, 0), 0),
    EditCase::new(
        "a group is joined across the place and leaves its line",
        (400, 0),
        &[(14, K), (1, RUBY_K), (10, K)],
        (15, 0, &[(1, RUBY_K)]),
        (2, 6),
        6,
    ),
    EditCase::new(
        "a full stop comes to a line's start",
        (400, 0),
        &[(25, K)],
        (15, 0, &[(1, FULL_STOP)]),
        (2, 6),
        6,
    ),
    EditCase::new("a deletion brings one there", (400, 0), STOP_IN_LINE_1, (5, 1, &[]), (0, 2), 3),
    EditCase::new("with an indent", (400, 80), &[(25, K)], (10, 0, &[(3, K)]), (1, 6), 6),
];

impl EditCase {
    const fn new(
        name: &'static str,
        setting: (u32, u32),
        old: Text,
        (place, deleted, inserted): (u32, u32, Text),
        redone: (u32, u32),
        lines: u32,
    ) -> EditCase {
        EditCase { name, setting, old, place, deleted, inserted, redone, lines }
    }

    /// The words of the records that the slot holds at first.
    pub fn old(&self) -> Vec<u32> {
        words(self.old)
    }

    /// The words that are inserted.
    pub fn inserted(&self) -> Vec<u32> {
        words(self.inserted)
    }

    /// What the edit answers.
    pub fn expected(&self) -> EditAnswer {
        let (f, r) = self.redone;
        EditAnswer { number: 0, place: self.lines, redone: r - f }
    }
}
