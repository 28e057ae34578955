//! Lines set once more from gaps with a fault: mistakes that a table of spaces invites, or sums packed in one word.
//!
//! Where lines end stays as it is, so that such a fault only shows in places, ends and kinds.

use second::adjust::Kind;
use second::breaking::Gap;
use second::records::{decode_all, Class};
use second::spacing::{space, Space};
use second::units::{units, Unit};

use super::fault::{Fault, FIELDS};
use crate::layout::{LINES, PLACES, RECORDS};

/// Sets every line of a slot that an edit has just composed.
pub fn set_again(fault: Fault, slot: &mut [u32]) {
    let (words, _) = slot[RECORDS..PLACES].as_chunks::<6>();
    let records = decode_all(&words[..slot[3] as usize]).unwrap_or_default();
    let units = units(&records);
    let line_number = |unit: &Unit| slot[PLACES + 2 * unit.first + 1];
    let lines: Vec<&[Unit]> = units.chunk_by(|a, b| line_number(a) == line_number(b)).collect();
    for (number, &units) in lines.iter().enumerate() {
        let start_x = if number == 0 { slot[2] } else { 0 };
        let line = Line { units, start_x, measure: slot[1], is_final: number + 1 == lines.len() };
        let (xs, kind) = line.set(fault);
        for (unit, &x) in units.iter().zip(&xs) {
            for (record, offset) in (unit.first..).zip(unit.record_offsets()) {
                slot[PLACES + 2 * record] = x.wrapping_add(offset);
            }
            slot[LINES + 3 * number + 1] = x.wrapping_add(unit.advance);
        }
        slot[LINES + 3 * number + 2] = kind as u32;
    }
}

struct Line<'a> {
    units: &'a [Unit<'a>],
    start_x: u32,
    measure: u32,
    is_final: bool,
}

impl Line<'_> {
    /// The x of each unit, and the line's kind. Only the totals are sums of packed words.
    fn set(&self, fault: Fault) -> (Vec<u32>, Kind) {
        let gaps: Vec<[i64; 4]> = self.units.windows(2).map(|pair| gap(fault, &pair[0], &pair[1])).collect();
        let totals = totals(&gaps, if let Fault::Fields(bits) = fault { bits } else { FIELDS });
        let [least, first, second, weight] = totals;
        let advances: i64 = self.units.iter().map(|unit| i64::from(unit.advance)).sum();
        let natural = i64::from(self.start_x) + advances + least + first + second;
        let excess = (natural - i64::from(self.measure)).max(0);
        let missing = if self.is_final { 0 } else { (i64::from(self.measure) - natural).max(0) };

        // Stretch stage 1 adds up to twice what shrink stage 2 takes.
        let stretched = missing.min(2 * second);
        let opened = if weight > 0 { missing - stretched } else { 0 };
        let added = [0, -excess.min(first), stretched - (excess - first).clamp(0, second), opened];

        let mut x = i64::from(self.start_x);
        let mut xs = vec![self.start_x];
        let mut reached = [0; 4];
        for (unit, gap) in self.units.iter().zip(&gaps) {
            x += i64::from(unit.advance) + gap[..3].iter().sum::<i64>();
            (0..4).for_each(|field| reached[field] += gap[field]);
            let fields = (0..4).filter(|&field| totals[field] > 0);
            let moved: i64 = fields.map(|field| added[field] * reached[field] / totals[field]).sum();
            xs.push((x + moved) as u32);
        }
        let kind = match missing - stretched - opened {
            _ if self.is_final => Kind::Final,
            0 => Kind::Flush,
            _ => Kind::Short,
        };
        (xs, kind)
    }
}

/// The sums of the gaps' numbers, added up in one word with fields of so many bits, the first the lowest.
fn totals(gaps: &[[i64; 4]], bits: [u32; 4]) -> [i64; 4] {
    let packed = |gap: &[i64; 4]| {
        let fields = gap.iter().zip(bits).rev();
        fields.fold(0, |word, (&number, bits)| (word << bits) + number as u64)
    };
    let mut word = gaps.iter().map(packed).fold(0, u64::wrapping_add);
    bits.map(|bits| {
        let number = word % (1 << bits);
        word >>= bits;
        number as i64
    })
}

/// A gap's four numbers: its least width, what shrink stages 1 and 2 can take, its weight in stretch stage 2.
fn gap(fault: Fault, left: &Unit, right: &Unit) -> [i64; 4] {
    let gap = Gap::new(left, right);
    let space = space_with_fault(fault, left, right, gap.space);
    let [first, second] = space.shrink;
    [space.smallest(), first, second, u32::from(gap.opens)].map(i64::from)
}

/// The space between these two with the fault, where this is the sound one.
fn space_with_fault(fault: Fault, left: &Unit, right: &Unit, sound: Space) -> Space {
    let classes = (u32::from(left.class.number()), u32::from(right.class.number()));
    match fault {
        Fault::OtherSide(l, r) if (l, r) == classes => {
            space(&as_if(left, left.class, right.size), &as_if(right, right.class, left.size))
        }
        Fault::NextStage(l, r) if (l, r) == classes => in_next_stage(sound),
        Fault::TableByColumns => {
            space(&as_if(left, right.class, left.size), &as_if(right, left.class, right.size))
        }
        Fault::OneSpaceOfTwo if matches!(classes, (5..=7, 5)) => {
            Space { natural: sound.natural - right.size / 4, ..sound }
        }
        _ => sound,
    }
}

/// The unit, of another class and size.
fn as_if<'a>(unit: &Unit<'a>, class: Class, size: u32) -> Unit<'a> {
    let mut other = *unit;
    (other.class, other.size) = (class, size);
    other
}

fn in_next_stage(space: Space) -> Space {
    let shrink = match space.shrink {
        [0, 0] => [space.natural / 2, 0],
        [part, 0] => [0, part],
        [_, _] => [0, 0],
    };
    Space { shrink, ..space }
}
