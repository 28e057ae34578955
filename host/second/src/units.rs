//! Units (document 01, "Records and groups"), and how the two rows of a group stand (document 02, request 06).

use crate::answer::{Refusal, RubyPlace};
use crate::records::{ruby_count_in_limits, size_in_limits, Class, Record};

/// The largest base advance of a group: 16 records of size 4,000.
const MAX_BASE_ADVANCE: u32 = 64_000;

/// A unit: a group, or a single record outside groups.
#[derive(Debug, Clone, Copy)]
pub struct Unit<'a> {
    /// The number of its first record in the paragraph.
    pub first: usize,
    /// Its records; never empty.
    records: &'a [Record],
    /// Its record's class; 19 for a group.
    pub class: Class,
    /// The size of each of its records.
    pub size: u32,
    /// Its width: for a group, the longer row's.
    pub advance: u32,
}

impl<'a> Unit<'a> {
    /// The unit of `record` and those that follow it in its group.
    fn new(first: usize, record: &Record, records: &'a [Record]) -> Unit<'a> {
        let is_group = record.group != 0;
        let base: u32 = records.iter().map(|r| r.advance).sum();
        // Outside groups the ruby count is 0, so the base is the longer row there too.
        let ruby = ruby_advance(record.ruby_count, record.size);
        Unit {
            first,
            records,
            class: if is_group { Class::IDEOGRAPHIC } else { record.class },
            size: record.size,
            advance: base.max(ruby),
        }
    }

    /// The offset of each of its records from the unit's x.
    pub fn record_offsets(&self) -> impl Iterator<Item = u32> + '_ {
        let count = self.records.len() as u32;
        let total: u32 = self.records.iter().map(|r| r.advance).sum();
        let row = Row::new(count, self.advance - total);
        let mut solid = 0;
        (0..count).zip(self.records).map(move |(k, record)| {
            let offset = solid + row.moved(k);
            solid += record.advance;
            offset
        })
    }

    /// Whether both are a single record of one code point.
    pub fn same_code_point(&self, other: &Unit) -> bool {
        match (self.records, other.records) {
            ([a], [b]) => a.code_point == b.code_point,
            _ => false,
        }
    }

    /// Whether it is a single record of an Arabic digit, 0 to 9.
    pub fn is_digit(&self) -> bool {
        match self.records {
            [record] => char::from_u32(record.code_point).is_some_and(|character| character.is_ascii_digit()),
            _ => false,
        }
    }
}

/// The units of a paragraph, in order.
pub fn units(records: &[Record]) -> Vec<Unit<'_>> {
    let mut units = Vec::with_capacity(records.len());
    let mut first = 0;
    for chunk in records.chunk_by(Record::joins) {
        units.extend(chunk.first().map(|record| Unit::new(first, record, chunk)));
        first += chunk.len();
    }
    units
}

/// The width of a row of ruby characters, each half the size.
fn ruby_advance(count: u32, size: u32) -> u32 {
    count * (size / 2)
}

/// How a row of a group stands beside the other (document 02, request 06).
#[derive(Debug, Clone, Copy)]
enum Row {
    /// It is the longer one, or both are equal: its items stand without space.
    Solid,
    /// It is the shorter one and has a single item, which stands in the middle: this far from the start.
    Single(u32),
    /// It is the shorter one, and only its inner gaps open, so that both rows start and end together. Each gets the
    /// same, and what is then left over of D, less than there are gaps, goes among them by ones.
    Opened { gaps: u32, each: u32, left_over: u32 },
}

impl Row {
    /// The row of n items that falls short of the other by D, which is 0 for the longer one.
    fn new(n: u32, shortfall: u32) -> Row {
        match (n, shortfall) {
            (_, 0) => Row::Solid,
            (0 | 1, _) => Row::Single(shortfall / 2),
            _ => Row::Opened { gaps: n - 1, each: shortfall / (n - 1), left_over: shortfall % (n - 1) },
        }
    }

    /// How far item k is moved from its solid offset. The k gaps before it hold k parts in n - 1 of what is left
    /// over, rounded down, so that this is floor(Dk/(n-1)) of an opened row.
    fn moved(self, k: u32) -> u32 {
        match self {
            Row::Solid => 0,
            Row::Single(middle) => middle,
            Row::Opened { gaps, each, left_over } => k * each + k * left_over / gaps,
        }
    }
}

/// The offset of the k-th ruby character from the start of its group (document 01, "The sheet").
pub fn ruby_place(base_advance: u32, ruby_count: u32, size: u32, k: u32) -> RubyPlace {
    let in_limits = size_in_limits(size)
        && ruby_count_in_limits(ruby_count)
        && k < ruby_count
        && (1..=MAX_BASE_ADVANCE).contains(&base_advance);
    if !in_limits {
        return RubyPlace { number: Refusal::Record(0).number(), offset: 0 };
    }
    let row = Row::new(ruby_count, base_advance.saturating_sub(ruby_advance(ruby_count, size)));
    RubyPlace { number: 0, offset: ruby_advance(k, size) + row.moved(k) }
}

#[cfg(test)]
mod tests {
    use super::*;
    use crate::lists::usual;

    fn record(class: u32, group: u32, ruby_count: u32) -> Record {
        Record {
            code_point: usual(class).unwrap().into(),
            class: Class::new(class).unwrap(),
            size: 80,
            advance: 80,
            group,
            ruby_count,
        }
    }

    #[test]
    fn neighbours_of_one_group_are_one_unit() {
        let groups = [0, 0, 1, 1, 2, 1, 0];
        let records = groups.map(|group| record(15, group, u32::from(group != 0)));
        let units = units(&records);
        let firsts: Vec<usize> = units.iter().map(|unit| unit.first).collect();
        assert_eq!(firsts, [0, 1, 2, 4, 5, 6]);
        let classes: Vec<u8> = units.iter().map(|unit| unit.class.number()).collect();
        assert_eq!(classes, [15, 15, 19, 19, 19, 15]);
    }

    #[test]
    fn the_longer_row_gives_the_advance() {
        let advance = |ruby_count| units(&[record(19, 1, ruby_count); 2])[0].advance;
        assert_eq!([1, 4, 5, 64].map(advance), [160, 160, 200, 2_560]);
    }

    /// The offsets of so many records of size 80, in a group with so many ruby characters.
    fn offsets(records: usize, ruby_count: u32) -> Vec<u32> {
        let records = vec![record(16, 1, ruby_count); records];
        let unit = units(&records)[0];
        unit.record_offsets().collect()
    }

    #[test]
    fn the_longer_base_row_is_solid() {
        assert_eq!(offsets(2, 3), [0, 80]);
        assert_eq!(offsets(1, 1), [0]);
        // Equal rows.
        assert_eq!(offsets(2, 4), [0, 80]);
    }

    #[test]
    fn the_shorter_base_row_is_opened_inside() {
        // D = 40 in one gap.
        assert_eq!(offsets(2, 5), [0, 120]);
        // D = 120 in two gaps, 60 each.
        assert_eq!(offsets(3, 9), [0, 140, 280]);
        // D = 40, 20 each.
        assert_eq!(offsets(3, 7), [0, 100, 200]);
    }

    #[test]
    fn what_no_gap_can_have_in_full_is_rounded_down() {
        // D = 40 in three gaps: 0, 13, 26 and 40 beside the solid 0, 80, 160 and 240.
        assert_eq!(offsets(4, 9), [0, 93, 186, 280]);
        // D = 80 in three gaps: 0, 26, 53 and 80.
        assert_eq!(offsets(4, 10), [0, 106, 213, 320]);
        // D = 40 in six gaps: 0, 6, 13, 20, 26, 33 and 40.
        assert_eq!(offsets(7, 15), [0, 86, 173, 260, 346, 433, 520]);
    }

    #[test]
    fn a_single_record_stands_in_the_middle() {
        assert_eq!(
            [2, 3, 4, 5, 64].map(|ruby_count| offsets(1, ruby_count)),
            [[0], [20], [40], [60], [1_240]]
        );
    }
}
