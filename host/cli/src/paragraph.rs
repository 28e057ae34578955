//! A composed paragraph with all that is needed to show it: records, lines, and where its ruby stands.

use gelumbrio::{ruby_place, Clinic, Line, Record, Refusal, Sheet, SlotNumber};

use crate::leaflet::Element;

/// What a slot holds, to be shown.
#[derive(Debug)]
pub struct Paragraph {
    /// How long a line is.
    pub measure: u32,
    /// Where the first line starts.
    pub indent: u32,
    /// Its records.
    pub records: Vec<Record>,
    /// Its lines, with the x of each record.
    pub lines: Vec<Line>,
    /// Its groups, in order.
    pub groups: Vec<Group>,
}

/// Records that have ruby over them.
#[derive(Debug, Clone, PartialEq, Eq)]
pub struct Group {
    /// The first of its records.
    pub first: usize,
    /// How many records it has.
    pub length: usize,
    /// Where it starts in its line.
    pub x: u32,
    /// How far it goes: as far as the longer of its two rows.
    pub advance: u32,
    /// The x of each ruby character, which is half as large as a record.
    pub ruby_xs: Vec<u32>,
    /// The ruby characters, where it is known which they are: a sheet keeps only how many.
    pub ruby: Option<Vec<char>>,
}

/// A record or a group: what a line is made of.
#[derive(Debug, Clone, Copy, PartialEq, Eq)]
pub struct Unit {
    /// The first of its records.
    pub first: usize,
    /// How many records it has.
    pub length: usize,
    /// Where it starts.
    pub x: u32,
    /// Where it ends.
    pub end: u32,
}

impl Paragraph {
    /// What a slot of the caller's holds. The ruby is that of the elements, if any are given, which must be as many as
    /// the slot's groups.
    pub fn of(
        sheet: &Sheet,
        caller: Clinic,
        slot: SlotNumber,
        elements: Option<&[Element]>,
    ) -> Result<Paragraph, Refusal> {
        let lines = sheet.lines(caller, slot)?;
        let words = sheet.slot(slot).ok_or(Refusal::Slot)?;
        let records: Vec<Record> = words.records().collect();
        let xs: Vec<u32> = lines.iter().flat_map(|line| &line.xs).copied().collect();
        let mut groups = Vec::new();
        for (first, length) in groups_of(&records) {
            let ruby = elements.and_then(|elements| elements.get(groups.len()));
            groups.push(Group::of(&records[first..first + length], first, xs[first], ruby)?);
        }
        Ok(Paragraph { measure: words.measure(), indent: words.indent(), records, lines, groups })
    }

    /// The records of a line.
    pub fn records_of(&self, line: &Line) -> std::ops::Range<usize> {
        let first = line.first_record as usize;
        first..first + line.xs.len()
    }

    /// The groups of a line, which no line parts.
    pub fn groups_of(&self, line: &Line) -> impl Iterator<Item = &Group> {
        let records = self.records_of(line);
        self.groups.iter().filter(move |group| records.contains(&group.first))
    }

    /// The units of a line, in order.
    pub fn units_of(&self, line: &Line) -> Vec<Unit> {
        let mut units = Vec::new();
        let mut next = line.first_record as usize;
        let end = self.records_of(line).end;
        while next < end {
            let unit = match self.groups.iter().find(|group| group.first == next) {
                Some(&Group { first, length, x, advance, .. }) => Unit { first, length, x, end: x + advance },
                None => {
                    let x = line.xs[next - line.first_record as usize];
                    Unit { first: next, length: 1, x, end: x + self.records[next].advance }
                }
            };
            next += unit.length;
            units.push(unit);
        }
        units
    }

    /// The smallest and the largest size of its records.
    pub fn sizes(&self) -> Option<(u32, u32)> {
        let sizes = self.records.iter().map(|record| record.size);
        sizes.clone().min().zip(sizes.max())
    }
}

/// The groups of a list of records, each as its first record and their number. Neighbours with the same number other
/// than 0 are one group.
pub fn groups_of(records: &[Record]) -> Vec<(usize, usize)> {
    let mut groups = Vec::new();
    let mut first = 0;
    for run in records.chunk_by(|left, right| left.group == right.group) {
        if run[0].group != 0 {
            groups.push((first, run.len()));
        }
        first += run.len();
    }
    groups
}

impl Group {
    /// The group of these records, whose first stands at x.
    fn of(records: &[Record], first: usize, x: u32, element: Option<&Element>) -> Result<Group, Refusal> {
        let Record { size, ruby_count, .. } = records[0];
        let base: u32 = records.iter().map(|record| record.advance).sum();
        let ruby = ruby_count * (size / 2);
        // A single record under longer ruby stands in the middle; two or more start with it.
        let x = if records.len() == 1 { x - ruby.saturating_sub(base) / 2 } else { x };
        let places = (0..ruby_count).map(|k| ruby_place(base, ruby_count, size, k).map(|offset| x + offset));
        Ok(Group {
            first,
            length: records.len(),
            x,
            advance: base.max(ruby),
            ruby_xs: places.collect::<Result<_, _>>()?,
            ruby: element.map(|element| element.ruby.clone()),
        })
    }
}
