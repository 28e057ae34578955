//! Every pair of classes in sizes far apart, in lines brought to the measure in every way; and lines as long
//! as can be, in which gaps of one kind add up to the most (document 02, request 02).
//!
//! At which measures a line is natural, shrunk or stretched is taken from the second program's gaps. A line
//! counts as seen where the slot's first line holds just its records.

use std::collections::BTreeSet;

use second::breaking::Gap;
use second::records::decode_all;
use second::units::units;

use crate::calls::Words;
use crate::comparisons::pairs::for_each_pair;
use crate::failure::Failure;
use crate::generate::plain;
use crate::layout::{CLASSES, LARGEST_MEASURE};
use crate::one_slot::OneSlot;
use crate::program::Program;
use crate::scope::Scope;
use crate::tally::{Outcome, Tally, Way};

const TEST: &str = "gaps";
const MOST_RECORDS: usize = 256;
const LARGEST_SIZE: u32 = 4_000;
const LEAST_MEASURE: u32 = 8;

/// The most by which a line is stretched in stage 2.
const MOST_OPENED: u32 = 100;

/// The sizes of a pair, in all combinations: the limits, and some whose eighths are odd.
const SIZES: [u32; 5] = [8, 24, 80, 3_992, 4_000];

/// Classes which again and again make the most of one kind of gap: the widest that are rigid, those that shrink in
/// stage 1, two in three at best, those of stage 2 everywhere, and those that only open. The last has all kinds.
const CYCLES: [&[u32]; 9] = [
    &[5],
    &[6, 5],
    &[5, 19],
    &[6, 19],
    &[7, 19],
    &[2, 3, 1],
    &[27, 19],
    &[19],
    &[7, 19, 27, 15, 5, 16, 2, 9, 1, 11, 6, 4, 27, 10, 12, 13, 14, 8, 3, 19],
];

/// Compares pairs, then long lines.
pub fn compare(program: &dyn Program, scope: Scope) -> Result<Tally, Failure> {
    let mut slot = OneSlot::new(TEST, None, program);
    for_each_pair(scope.choose(&SIZES, &[8, 4_000]), |left, right| in_company(&mut slot, left, right))?;
    for cycle in CYCLES {
        let cycle: Vec<Words> = cycle.iter().map(|&class| narrow(class, LARGEST_SIZE)).collect();
        again_and_again(&mut slot, &cycle, scope.choose(100, 10))?;
    }
    if scope == Scope::Full {
        for [left_size, right_size] in [[4_000, 4_000], [4_000, 8], [8, 4_000], [8, 8]] {
            for left in CLASSES {
                for right in CLASSES {
                    let cycle = [narrow(left, left_size), narrow(right, right_size)];
                    again_and_again(&mut slot, &cycle, 30)?;
                }
            }
        }
    }
    Ok(slot.tally)
}

/// The pair on a line with a comma and a Western letter, so that every stage has something to give.
fn in_company(slot: &mut OneSlot, left: Words, right: Words) -> Result<(), Failure> {
    let [k, comma, western] = [19, 7, 27].map(|class| plain(class, 80));
    let line = [k, comma, k, western, k, left, right, k];
    in_every_way(slot, &line, &[])?;
    in_every_way(slot, &line, &wider_than(Sums::of(&line).room()))
}

/// These records again and again, on the longest line that is final and on the longest that is not, then on so many
/// lines and fewer, every second time with an indent.
fn again_and_again(slot: &mut OneSlot, cycle: &[Words], most_lines: u32) -> Result<(), Failure> {
    if let Some(line) = longest_final(cycle) {
        in_every_way(slot, &line, &[])?;
    }
    if let Some((line, rest)) = longest_not_final(cycle) {
        in_every_way(slot, &line, &rest)?;
    }
    let text = repeated(cycle, MOST_RECORDS);
    let natural = Sums::of(&text).natural;
    for lines in 1..=most_lines {
        let measure = (natural / lines).clamp(LEAST_MEASURE, LARGEST_MEASURE);
        slot.set_up(measure, lines % 2 * measure / 3)?;
        slot.replace(&text.concat())?;
    }
    Ok(())
}

fn repeated(cycle: &[Words], length: usize) -> Vec<Words> {
    cycle.iter().copied().cycle().take(length).collect()
}

/// The longest line that fits into the largest measure when it is shrunk.
fn longest_final(cycle: &[Words]) -> Option<Vec<Words>> {
    let mut lines = (1..=MOST_RECORDS).rev().map(|length| repeated(cycle, length));
    lines.find(|line| Sums::of(line).smallest() <= LARGEST_MEASURE)
}

/// The longest line whose measures are all in limits, and after it what does not fit on it. The line ends in an
/// ideograph, so that there may be a break.
fn longest_not_final(cycle: &[Words]) -> Option<(Vec<Words>, Vec<Words>)> {
    (0..MOST_RECORDS).rev().find_map(|length| {
        let mut line = repeated(cycle, length);
        line.push(plain(19, LARGEST_SIZE));
        let sums = Sums::of(&line);
        let rest = wider_than(sums.room());
        let fits = sums.widest() <= LARGEST_MEASURE && line.len() + rest.len() <= MOST_RECORDS;
        fits.then_some((line, rest))
    })
}

/// The line at each of its measures, with the rest after it, which is none or does not fit on it.
fn in_every_way(slot: &mut OneSlot, line: &[Words], rest: &[Words]) -> Result<(), Failure> {
    let sums = Sums::of(line);
    let text = [line, rest].concat();
    for measure in sums.measures() {
        slot.set_up(measure, 0)?;
        slot.replace(&text.concat())?;
        if slot.on_first_line() == line.len() {
            let is_final = rest.is_empty();
            let way = sums.way(measure, is_final);
            slot.tally.count(if is_final { Outcome::FinalLine(way) } else { Outcome::Line(way) });
        }
    }
    Ok(())
}

/// The record of this class and size, as narrow as it may be, so that many stand on a line.
fn narrow(class: u32, size: u32) -> Words {
    let mut record = plain(class, size);
    if [3, 27].contains(&class) {
        record[3] = 1;
    }
    record
}

/// Western letters that hold together and take more than this width.
fn wider_than(width: u32) -> Vec<Words> {
    let letter = |advance| [0x41, 27, LARGEST_SIZE, advance, 0, 0];
    let widest = 2 * LARGEST_SIZE;
    let mut letters = vec![letter(widest); (width / widest) as usize];
    letters.push(letter(width % widest + 1));
    letters
}

/// What a line's advances and gaps add up to.
#[derive(Default)]
struct Sums {
    natural: u32,
    /// What shrink stages 1 and 2 can take.
    shrink: [u32; 2],
    /// What stretch stage 1 can add.
    stretch: u32,
    /// The gaps of stretch stage 2.
    opening: u32,
}

impl Sums {
    fn of(line: &[Words]) -> Sums {
        let records = decode_all(line).expect("records that keep their rules");
        let units = units(&records);
        let mut sums = Sums { natural: units.iter().map(|unit| unit.advance).sum(), ..Sums::default() };
        for pair in units.windows(2) {
            let gap = Gap::new(&pair[0], &pair[1]);
            sums.natural += gap.space.natural;
            sums.shrink[0] += gap.space.shrink[0];
            sums.shrink[1] += gap.space.shrink[1];
            sums.stretch += gap.space.stretch;
            sums.opening += u32::from(gap.opens);
        }
        sums
    }

    fn smallest(&self) -> u32 {
        self.natural - self.shrink[0] - self.shrink[1]
    }

    /// The largest of its measures.
    fn widest(&self) -> u32 {
        self.natural + self.stretch + MOST_OPENED
    }

    /// What the largest of its measures would leave if all shrank in full. What comes next must not fit there.
    fn room(&self) -> u32 {
        self.widest() - self.smallest()
    }

    /// The natural width, and for each stage a part of what it holds and all of it.
    fn measures(&self) -> BTreeSet<u32> {
        let ([first, second], stretch) = (self.shrink, self.stretch);
        let taken = [0, first.div_ceil(3), first, first + second.div_ceil(3), first + second];
        let added = [stretch.div_ceil(3), stretch, stretch + 1, stretch + MOST_OPENED];
        let shrunk = taken.map(|part| self.natural - part);
        let stretched = added.map(|part| self.natural + part);
        let in_limits = |measure: &u32| (LEAST_MEASURE..=LARGEST_MEASURE).contains(measure);
        shrunk.into_iter().chain(stretched).filter(in_limits).collect()
    }

    /// How the line is brought to a measure in which it fits.
    fn way(&self, measure: u32, is_final: bool) -> Way {
        let excess = self.natural.saturating_sub(measure);
        let missing = measure.saturating_sub(self.natural);
        if excess > self.shrink[0] {
            Way::Shrunk(2)
        } else if excess > 0 {
            Way::Shrunk(1)
        } else if missing == 0 || is_final {
            Way::Natural
        } else if missing <= self.stretch {
            Way::Stretched(1)
        } else if self.opening > 0 {
            Way::Stretched(2)
        } else {
            Way::Short
        }
    }
}
