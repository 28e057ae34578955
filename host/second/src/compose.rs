//! A whole paragraph: its lines and the place of each record (document 01, "The sheet").

use std::ops::Range;

use crate::adjust::{adjust, Kind};
use crate::answer::Refusal;
use crate::breaking::{Breaker, Setting};
use crate::records::{first_group_fault, Record};
use crate::redone::Lines;
use crate::units::units;

/// Where a record stands.
#[derive(Debug, Clone, Copy, PartialEq, Eq)]
pub struct Place {
    /// Its x.
    pub x: u32,
    /// The number of its line.
    pub line: usize,
}

/// A composed line.
#[derive(Debug, Clone, Copy, PartialEq, Eq)]
pub struct Line {
    /// The number of its first record.
    pub first: usize,
    /// The x at which its last unit ends.
    pub end_x: u32,
    /// Its kind.
    pub kind: Kind,
}

/// A composed paragraph.
#[derive(Debug, Clone, Default, PartialEq, Eq)]
pub struct Composition {
    /// The place of each record.
    pub places: Vec<Place>,
    /// The lines.
    pub lines: Vec<Line>,
}

/// The lines of these records, which are not adjusted; or answer 9 or 10.
pub fn break_into_lines(records: &[Record], setting: Setting) -> Result<Lines, Refusal> {
    with_breaker(records, setting, |breaker| {
        let first_record = |line: Range<usize>| breaker.units[line.start].first;
        Lines { starts: breaker.lines().into_iter().map(first_record).collect(), records: records.len() }
    })
}

/// The paragraph of these records, or answer 9 or 10.
pub fn compose(records: &[Record], setting: Setting) -> Result<Composition, Refusal> {
    with_breaker(records, setting, |breaker| {
        let lines = breaker.lines();
        let mut composition =
            Composition { places: Vec::with_capacity(records.len()), lines: Vec::with_capacity(lines.len()) };
        for line in lines {
            composition.add_line(breaker, line, setting.measure);
        }
        composition
    })
}

/// What is made of these records where they can be broken into lines; otherwise answer 9 or 10.
fn with_breaker<T>(
    records: &[Record],
    setting: Setting,
    make: impl FnOnce(&Breaker) -> T,
) -> Result<T, Refusal> {
    if let Some(at) = first_group_fault(records) {
        return Err(Refusal::Group(at));
    }
    let units = units(records);
    let breaker = Breaker::new(&units, setting);
    match breaker.first_wide_run() {
        Some(at) => Err(Refusal::NoBreaking(at)),
        None => Ok(make(&breaker)),
    }
}

impl Composition {
    /// Which records stand on each of its lines.
    pub fn extents(&self) -> Lines {
        Lines { starts: self.lines.iter().map(|line| line.first).collect(), records: self.places.len() }
    }

    /// Sets the next line, which holds these units.
    fn add_line(&mut self, breaker: &Breaker, line: Range<usize>, measure: u32) {
        let start_x = breaker.start_x(line.start);
        let is_final = line.end == breaker.units.len();
        let gaps = &breaker.gaps[line.start..line.end - 1];
        let units = &breaker.units[line];

        let advances: u32 = units.iter().map(|unit| unit.advance).sum();
        let spaces: u32 = gaps.iter().map(|gap| gap.space.natural).sum();
        let adjusted = adjust(gaps, start_x + advances + spaces, measure, is_final);

        let number = self.lines.len();
        let first = self.places.len();
        let mut x = start_x;
        let mut end_x = start_x;
        // No space is set after the last unit.
        let spaces_after = adjusted.widths.iter().chain(&[0]);
        for (unit, space) in units.iter().zip(spaces_after) {
            let places = unit.record_offsets().map(|offset| Place { x: x + offset, line: number });
            self.places.extend(places);
            end_x = x + unit.advance;
            x = end_x + space;
        }
        self.lines.push(Line { first, end_x, kind: adjusted.kind });
    }
}
