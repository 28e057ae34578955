//! What was answered and composed how often, and whether what must come up did.

use std::collections::BTreeMap;
use std::fmt;
use std::ops::Range;

/// How a line is brought to the measure. Stages are 1 and 2; the last that was needed counts.
#[derive(Debug, Clone, Copy, PartialEq, Eq, PartialOrd, Ord)]
pub enum Way {
    /// It is left as it is.
    Natural,
    /// It is shrunk, up to this stage.
    Shrunk(u32),
    /// It is stretched, up to this stage.
    Stretched(u32),
    /// It would be stretched, and stage 2 has no gap.
    Short,
}

/// Which of its lines an accepted edit composed anew.
#[derive(Debug, Clone, Copy, PartialEq, Eq, PartialOrd, Ord)]
pub enum Redone {
    /// None, as the slot has none.
    None,
    /// All of them.
    All,
    /// The first; lines as they were come after them.
    First,
    /// Some with lines as they were on both sides.
    Middle,
    /// The last; lines as they were come before them.
    Last,
}

/// What a call answered, how a line was composed that a comparison was after, or which an edit redid.
#[derive(Debug, Clone, Copy, PartialEq, Eq, PartialOrd, Ord)]
pub enum Outcome {
    /// Set-up, with this number.
    SetUp(u32),
    /// Take, with this number.
    Take(u32),
    /// Give back, with this number.
    GiveBack(u32),
    /// Edit, with this number.
    Edit(u32),
    /// Import, with this number.
    Import(u32),
    /// Read, with 0 and the words of lines.
    ReadLines,
    /// Read, with 0 and no words, as the slot has no lines.
    ReadNoLines,
    /// Read, with this number, which is not 0.
    ReadRefused(u32),
    /// Ruby place, with this number.
    RubyPlace(u32),
    /// Whether a class's list has a code point: 1 or 0.
    InList(u32),
    /// The class that the lists give a code point, or 0.
    ClassOf(u32),
    /// A line that is not the final one, brought to the measure so.
    Line(Way),
    /// A final line, brought to the measure so.
    FinalLine(Way),
    /// An accepted edit, which composed these lines anew.
    Redone(Redone),
}

impl Outcome {
    /// Every outcome of a read.
    pub const READS: [Outcome; 7] = [
        Outcome::ReadLines,
        Outcome::ReadNoLines,
        Outcome::ReadRefused(1),
        Outcome::ReadRefused(2),
        Outcome::ReadRefused(3),
        Outcome::ReadRefused(4),
        Outcome::ReadRefused(14),
    ];

    /// Every choice of lines that an edit can compose anew.
    pub const REDONE: [Outcome; 5] = [
        Outcome::Redone(Redone::None),
        Outcome::Redone(Redone::All),
        Outcome::Redone(Redone::First),
        Outcome::Redone(Redone::Middle),
        Outcome::Redone(Redone::Last),
    ];

    /// The outcome of an edit that composed these of so many lines anew.
    pub fn of_redone(lines: &Range<usize>, count: usize) -> Outcome {
        Outcome::Redone(match (lines.start == 0, lines.end == count) {
            _ if count == 0 => Redone::None,
            (true, true) => Redone::All,
            (true, false) => Redone::First,
            (false, false) => Redone::Middle,
            (false, true) => Redone::Last,
        })
    }

    /// Whether it is what a call answered.
    fn is_answer(&self) -> bool {
        !matches!(self, Outcome::Line(_) | Outcome::FinalLine(_) | Outcome::Redone(_))
    }

    /// The outcome of a read with this number and part.
    pub fn of_read(number: u32, part: &Range<usize>) -> Outcome {
        match number {
            0 if part.is_empty() => Outcome::ReadNoLines,
            0 => Outcome::ReadLines,
            _ => Outcome::ReadRefused(number),
        }
    }
}

/// How often each outcome was seen.
#[derive(Debug, Clone, Default)]
pub struct Tally(BTreeMap<Outcome, u64>);

impl Tally {
    /// Counts an outcome.
    pub fn count(&mut self, outcome: Outcome) {
        self.count_times(outcome, 1);
    }

    /// Counts an outcome that came up so many times.
    pub fn count_times(&mut self, outcome: Outcome, times: u64) {
        *self.0.entry(outcome).or_default() += times;
    }

    /// Counts another tally in.
    pub fn add(&mut self, other: &Tally) {
        other.0.iter().for_each(|(outcome, count)| self.count_times(*outcome, *count));
    }

    /// All calls that were answered.
    pub fn calls(&self) -> u64 {
        self.0.iter().filter(|(outcome, _)| outcome.is_answer()).map(|(_, count)| count).sum()
    }

    /// Those of these outcomes that were seen fewer times than `least`.
    pub fn rare(&self, least: u64, outcomes: impl IntoIterator<Item = Outcome>) -> Vec<Outcome> {
        let is_rare = |outcome: &Outcome| self.0.get(outcome).is_none_or(|&seen| seen < least);
        outcomes.into_iter().filter(is_rare).collect()
    }

    /// Makes sure that each of these outcomes came up.
    ///
    /// # Panics
    ///
    /// Where one was seen fewer times than `least`.
    pub fn assert_seen(&self, least: u64, outcomes: impl IntoIterator<Item = Outcome>) {
        let rare = self.rare(least, outcomes);
        assert!(rare.is_empty(), "seen fewer than {least} times: {rare:?}; seen: {self}");
    }
}

impl fmt::Display for Tally {
    fn fmt(&self, f: &mut fmt::Formatter<'_>) -> fmt::Result {
        write!(f, "{:?}", self.0)
    }
}
