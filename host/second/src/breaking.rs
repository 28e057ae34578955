//! Where lines end (document 01, "Breaks and adjustment"; document 02, request 01).

use std::ops::Range;

use crate::spacing::{space, Space};
use crate::units::Unit;

/// The limits a line is set in.
#[derive(Debug, Clone, Copy, PartialEq, Eq)]
pub struct Setting {
    /// The width of a line.
    pub measure: u32,
    /// The x at which line 0 starts.
    pub indent: u32,
}

impl Setting {
    /// Measure 8 to 1,000,000, indent below measure.
    pub fn in_limits(&self) -> bool {
        (8..=1_000_000).contains(&self.measure) && self.indent < self.measure
    }
}

/// The gap between two neighbouring units.
#[derive(Debug, Clone, Copy, PartialEq, Eq)]
pub struct Gap {
    /// Its space, where both units stand on one line.
    pub space: Space,
    /// Whether a line may end here.
    pub permits_break: bool,
    /// Whether stretch stage 2 opens it: a permitted break with class 5 on neither side.
    pub opens: bool,
}

impl Gap {
    /// The gap between these two.
    pub fn new(left: &Unit, right: &Unit) -> Gap {
        let permits_break = permits_break(left, right);
        let beside_middle_dot = left.class.number() == 5 || right.class.number() == 5;
        Gap { space: space(left, right), permits_break, opens: permits_break && !beside_middle_dot }
    }
}

/// Whether a line may end between these two.
fn permits_break(left: &Unit, right: &Unit) -> bool {
    match (left.class.number(), right.class.number()) {
        (_, 2..=7 | 9 | 10 | 11) => false,
        (1 | 12, _) => false,
        (8, 8) => !left.same_code_point(right),
        (27, 27) => false,
        (27, 13) => !left.is_digit(),
        _ => true,
    }
}

/// A paragraph's units with what is between them, to be broken into lines.
#[derive(Debug)]
pub struct Breaker<'a> {
    /// The units, in order.
    pub units: &'a [Unit<'a>],
    /// The gap after each unit but the last.
    pub gaps: Vec<Gap>,
    setting: Setting,
    /// The units' ends where a line may end, as numbers of the unit after: the permitted breaks,
    /// then the paragraph's end.
    ends: Vec<usize>,
    /// The x of each unit if all stood on one line from 0 with every gap at its smallest.
    tight: Vec<u32>,
}

impl<'a> Breaker<'a> {
    /// Finds the gaps, the possible ends and the smallest widths.
    pub fn new(units: &'a [Unit<'a>], setting: Setting) -> Breaker<'a> {
        let mut breaker = Breaker {
            units,
            gaps: Vec::with_capacity(units.len()),
            setting,
            ends: Vec::with_capacity(units.len()),
            tight: Vec::with_capacity(units.len()),
        };
        let mut x = 0;
        for (i, unit) in units.iter().enumerate() {
            breaker.tight.push(x);
            let Some(next) = units.get(i + 1) else {
                breaker.ends.push(units.len());
                break;
            };
            let gap = Gap::new(unit, next);
            if gap.permits_break {
                breaker.ends.push(i + 1);
            }
            x += unit.advance + gap.space.smallest();
            breaker.gaps.push(gap);
        }
        breaker
    }

    /// The x at which a line that starts with this unit starts.
    pub fn start_x(&self, unit: usize) -> u32 {
        if unit == 0 {
            self.setting.indent
        } else {
            0
        }
    }

    /// The smallest width of a run that is not empty, both shrink stages in full, indent included.
    fn smallest_width(&self, run: &Range<usize>) -> u32 {
        let last = run.end - 1;
        self.start_x(run.start) + self.tight[last] - self.tight[run.start] + self.units[last].advance
    }

    fn fits(&self, run: &Range<usize>) -> bool {
        self.smallest_width(run) <= self.setting.measure
    }

    /// The runs between neighbouring permitted breaks.
    fn runs(&self) -> impl Iterator<Item = Range<usize>> + '_ {
        let starts = std::iter::once(0).chain(self.ends.iter().copied());
        starts.zip(&self.ends).map(|(start, &end)| start..end)
    }

    /// The first record of the first run between neighbouring permitted breaks that does not fit.
    /// There is one exactly when no breaking exists (answer 10).
    pub fn first_wide_run(&self) -> Option<usize> {
        let run = self.runs().find(|run| !self.fits(run))?;
        Some(self.units[run.start].first)
    }

    /// The longest run from this unit on that ends at a permitted break or at the paragraph's end
    /// and fits. A longer run is never narrower, so the search stops at the first that does not.
    fn longest_run(&self, start: usize) -> Option<Range<usize>> {
        let later = self.ends.partition_point(|&end| end <= start);
        let runs = self.ends[later..].iter().map(|&end| start..end);
        runs.take_while(|run| self.fits(run)).last()
    }

    /// The lines, as runs of units. They hold all units where no run is wider than the measure.
    pub fn lines(&self) -> Vec<Range<usize>> {
        let mut lines = Vec::new();
        let mut start = 0;
        while let Some(line) = self.longest_run(start) {
            start = line.end;
            lines.push(line);
        }
        lines
    }
}

#[cfg(test)]
mod tests {
    use super::*;
    use crate::records::{Class, Record};
    use crate::units::units;

    fn gap(left: (u32, u32), right: (u32, u32)) -> Gap {
        let record = |(class, code_point)| Record {
            code_point,
            class: Class::new(class).unwrap(),
            size: 80,
            advance: 80,
            group: 0,
            ruby_count: 0,
        };
        let records = [record(left), record(right)];
        let units = units(&records);
        Gap::new(&units[0], &units[1])
    }

    #[test]
    fn every_pair_of_classes() {
        let classes = (1..=16).chain([19, 27]);
        for l in classes.clone() {
            for r in classes.clone() {
                let not_first = [2, 3, 4, 5, 6, 7, 9, 10, 11].contains(&r);
                let not_last = [1, 12].contains(&l);
                let forbidden = not_first || not_last || (l == 27 && r == 27);
                let gap = gap((l, 0x2014), (r, 0x2025));
                assert_eq!(gap.permits_break, !forbidden, "{l} before {r}");
                assert_eq!(gap.opens, !forbidden && l != 5, "{l} before {r}");
            }
        }
    }

    #[test]
    fn a_doubled_dash_holds_together() {
        assert!(!gap((8, 0x2014), (8, 0x2014)).permits_break);
        assert!(gap((8, 0x2014), (8, 0x2025)).permits_break);
        assert!(gap((8, 0x2014), (13, 0x2014)).permits_break);
    }

    /// Request 01. What follows may have any code point, and no other pair is held.
    #[test]
    fn a_digit_holds_the_postfix_after_it() {
        let digits: Vec<u32> = "0123456789".chars().map(u32::from).collect();
        for code_point in (0..0x1_0000).filter(|code_point| !(0xD800..0xE000).contains(code_point)) {
            let is_digit = digits.contains(&code_point);
            for postfix in ['%', '℃', '5'].map(u32::from) {
                assert_eq!(gap((27, code_point), (13, postfix)).permits_break, !is_digit, "{code_point:04X}");
                assert_eq!(gap((27, code_point), (13, postfix)).opens, !is_digit, "{code_point:04X}");
            }
            for (l, r) in [(19, 13), (13, 13), (27, 12), (27, 14), (27, 19), (13, 27)] {
                assert!(gap((l, code_point), (r, '%'.into())).permits_break, "{l} before {r}");
            }
        }
    }

    #[test]
    fn limits_of_a_setting() {
        for (measure, indent, kept) in
            [(7, 0, false), (8, 7, true), (8, 8, false), (1_000_000, 999_999, true), (1_000_001, 0, false)]
        {
            assert_eq!(Setting { measure, indent }.in_limits(), kept);
        }
    }
}
