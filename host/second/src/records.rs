//! Records, a record's own rules and the group rules (document 01, "Records and groups"), and that a record's
//! class has its code point (document 02, request 04).

use crate::answer::Refusal;
use crate::lists::in_list;

/// Words of a record: code point, class, size, advance, group, ruby count.
pub const RECORD_WORDS: usize = 6;

/// The most records a paragraph may have.
pub const MAX_RECORDS: usize = 256;

/// The most records a group may have.
const MAX_GROUP_RECORDS: usize = 16;

/// The most ruby characters a group may have.
const MAX_RUBY_COUNT: u32 = 64;

/// One of the eighteen classes, by its JLReq number.
#[derive(Debug, Clone, Copy, PartialEq, Eq)]
pub struct Class(u8);

impl Class {
    /// Ideographic characters (cl-19); a group counts as this class.
    pub const IDEOGRAPHIC: Class = Class(19);

    /// The class of this number, if it is one of the eighteen.
    pub fn new(number: u32) -> Option<Class> {
        match number {
            1..=16 | 19 | 27 => Some(Class(number as u8)),
            _ => None,
        }
    }

    /// The JLReq number.
    pub fn number(self) -> u8 {
        self.0
    }

    /// Whether a record of this class and size may have this advance.
    fn admits_advance(self, advance: u32, size: u32) -> bool {
        match self.0 {
            1 | 2 | 5 | 6 | 7 => advance == size / 2,
            3 => (1..=size).contains(&advance),
            27 => (1..=2 * size).contains(&advance),
            _ => advance == size,
        }
    }

    /// Whether a record of this class may stand in a group.
    fn admits_ruby(self) -> bool {
        matches!(self.0, 15 | 16 | 19)
    }
}

/// Whether a size is a multiple of 8 from 8 to 4,000.
pub fn size_in_limits(size: u32) -> bool {
    (8..=4_000).contains(&size) && size.is_multiple_of(8)
}

/// Whether a group may have this many ruby characters.
pub fn ruby_count_in_limits(count: u32) -> bool {
    (1..=MAX_RUBY_COUNT).contains(&count)
}

/// A record that keeps its own rules.
#[derive(Debug, Clone, Copy, PartialEq, Eq)]
pub struct Record {
    /// A Unicode scalar value.
    pub code_point: u32,
    /// The character class.
    pub class: Class,
    /// The character size.
    pub size: u32,
    /// The character's own advance.
    pub advance: u32,
    /// 0, or the number of the group it stands in.
    pub group: u32,
    /// The ruby characters of its group; 0 outside groups.
    pub ruby_count: u32,
}

impl Record {
    /// The record of these words, unless it breaks its own rules (answer 8).
    pub fn decode(words: &[u32; RECORD_WORDS]) -> Option<Record> {
        let &[code_point, class, size, advance, group, ruby_count] = words;
        let class = Class::new(class)?;
        let record = Record { code_point, class, size, advance, group, ruby_count };
        let keeps_rules = char::from_u32(code_point).is_some()
            && size_in_limits(size)
            && class.admits_advance(advance, size)
            && record.group_and_ruby_agree();
        keeps_rules.then_some(record)
    }

    /// The words of the record.
    pub fn encode(&self) -> [u32; RECORD_WORDS] {
        [
            self.code_point,
            u32::from(self.class.number()),
            self.size,
            self.advance,
            self.group,
            self.ruby_count,
        ]
    }

    /// Whether two neighbouring records stand in one group.
    pub fn joins(&self, next: &Record) -> bool {
        self.group != 0 && self.group == next.group
    }

    fn group_and_ruby_agree(&self) -> bool {
        match self.group {
            0 => self.ruby_count == 0,
            1..=65_535 => ruby_count_in_limits(self.ruby_count) && self.class.admits_ruby(),
            _ => false,
        }
    }
}

/// The records of these words, or the index of the first that breaks its own rules.
pub fn decode_all(words: &[[u32; RECORD_WORDS]]) -> Result<Vec<Record>, usize> {
    let mut records = Vec::with_capacity(words.len());
    for (i, words) in words.iter().enumerate() {
        records.push(Record::decode(words).ok_or(i)?);
    }
    Ok(records)
}

/// The first record whose class's list lacks its code point (answer 12).
pub fn first_unlisted(records: &[Record]) -> Option<usize> {
    records.iter().position(|record| !in_list(record.class.number().into(), record.code_point))
}

/// The first record that breaks a group rule (answer 9): it differs in size or ruby count from the
/// one before it in its group, or is its group's seventeenth.
pub fn first_group_fault(records: &[Record]) -> Option<usize> {
    let mut in_group = 1;
    let neighbours = records.iter().zip(records.iter().skip(1));
    for (i, (before, record)) in neighbours.enumerate() {
        if !before.joins(record) {
            in_group = 1;
            continue;
        }
        in_group += 1;
        let differs = record.size != before.size || record.ruby_count != before.ruby_count;
        if differs || in_group > MAX_GROUP_RECORDS {
            return Some(i + 1);
        }
    }
    None
}

/// The records after an edit, or answer 5, 6, 7, 8 or 12. The old records keep their own rules and stand in
/// their classes' lists, so only an inserted one can fall under 8 or 12.
pub fn spliced(old: &[Record], place: u32, deleted: u32, inserted: &[u32]) -> Result<Vec<Record>, Refusal> {
    let end = u64::from(place) + u64::from(deleted);
    if end > old.len() as u64 {
        return Err(Refusal::Place(old.len()));
    }
    let (place, end) = (place as usize, end as usize);
    let (inserted, cut_short) = inserted.as_chunks::<RECORD_WORDS>();
    if !cut_short.is_empty() {
        return Err(Refusal::Words);
    }
    let (before, after) = (&old[..place], &old[end..]);
    if before.len() + inserted.len() + after.len() > MAX_RECORDS {
        return Err(Refusal::TooMany);
    }
    let inserted = decode_all(inserted).map_err(|i| Refusal::Record(place + i))?;
    if let Some(i) = first_unlisted(&inserted) {
        return Err(Refusal::NotListed(place + i));
    }
    Ok([before, &inserted, after].concat())
}
