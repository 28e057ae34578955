//! Mistakes in the published lists, and in when and of which records they are asked (document 02, request 04).

use second::lists::{in_list, usual, BLOCKS, COMPATIBILITY, LISTS};
use second::{Edit, EditAnswer};

use super::altered::with_texts_as;
use super::slots::stored_records;
use crate::calls::Words;
use crate::program::{Program, Second};

/// A wrong list, or a right one asked wrongly.
#[derive(Debug, Clone, Copy, PartialEq, Eq)]
pub enum Mislisting {
    /// The class's list lacks a code point of its own.
    Lost(u32, u32),
    /// The class's list has a code point that is not its own.
    Gained(u32, u32),
    /// The block of ideographs with this index is left out.
    WithoutBlock(usize),
    /// Ideographs past 16 bits are left out.
    NoSupplementary,
    /// Only the low 16 bits of a code point are looked at.
    ShortCodePoint,
    /// Of a class number only what is left by 32 is looked at.
    ClassWraps,
    /// A class's list has what import would give that class.
    ByImport,
    /// A character's class is the lowest-numbered list's, before 27 too.
    LowestFirst,
    /// 12 is asked before 8.
    BeforeEight,
    /// 8 and 12 are asked record by record, and not 8 of all records first.
    RecordByRecord,
    /// 12 is asked after 9.
    AfterNine,
    /// 12 is asked after 10.
    AfterTen,
    /// 12 names the record among the inserted ones.
    NamesInserted,
    /// Only inserted records are asked.
    StoredUnasked,
    /// Stored records are asked only as those that result: they fall under 12 and not under 4.
    StoredUnderTwelve,
}

/// Those that change the lookup of a code point in a class, of one that is in some list or is not.
pub fn wrong_lists() -> Vec<Mislisting> {
    use Mislisting::{Gained, Lost};
    let mut faults = vec![
        Gained(19, '、'.into()),
        // Named only in a remark, or in an entry of two code points.
        Gained(8, '―'.into()),
        Gained(15, '\u{309A}'.into()),
        Gained(1, '（'.into()),
        Gained(27, '５'.into()),
        // For compatibility, and no unified ideograph.
        Gained(19, '\u{FA10}'.into()),
        // Stands twice in Annex A.
        Lost(19, 'Ⅻ'.into()),
        Lost(19, COMPATIBILITY[0].into()),
        Lost(19, COMPATIBILITY[11].into()),
        Mislisting::NoSupplementary,
        Mislisting::ShortCodePoint,
        Mislisting::ByImport,
    ];
    // The last of 19 is 仝, which is an ideograph too.
    for (class, characters) in LISTS {
        let ends = [characters.chars().next(), characters.chars().last()];
        faults.extend(ends.into_iter().flatten().map(|character| Lost(class, character.into())));
    }
    // A list of one character has both its ends there.
    faults.dedup();
    for (index, block) in BLOCKS.into_iter().enumerate() {
        faults.extend([Lost(19, block.first), Lost(19, block.last)]);
        faults.extend([Gained(19, block.first - 1), Gained(19, block.last + 1)]);
        faults.push(Mislisting::WithoutBlock(index));
    }
    faults
}

/// Those that only lookups show, as an edit asks neither.
pub const LOOKUPS: [Mislisting; 2] = [Mislisting::ClassWraps, Mislisting::LowestFirst];

/// Right lists, asked wrongly.
pub const ASKED_WRONGLY: [Mislisting; 7] = [
    Mislisting::BeforeEight,
    Mislisting::RecordByRecord,
    Mislisting::AfterNine,
    Mislisting::AfterTen,
    Mislisting::NamesInserted,
    Mislisting::StoredUnasked,
    Mislisting::StoredUnderTwelve,
];

/// A character that no list has.
const IN_NO_LIST: char = '（';

impl Mislisting {
    /// Whether the class's list has the code point, by these lists.
    pub fn in_list(self, class: u32, code_point: u32) -> bool {
        let right = in_list(class, code_point);
        let this = (class, code_point);
        match self {
            Mislisting::Lost(class, code_point) => right && this != (class, code_point),
            Mislisting::Gained(class, code_point) => right || this == (class, code_point),
            Mislisting::WithoutBlock(index) => {
                let block = BLOCKS[index];
                right && !(class == 19 && (block.first..=block.last).contains(&code_point))
            }
            Mislisting::NoSupplementary => right && code_point <= 0xFFFF,
            Mislisting::ShortCodePoint => in_list(class, code_point % 0x1_0000),
            Mislisting::ClassWraps => in_list(class % 32, code_point),
            Mislisting::ByImport => second::class_of(code_point) == Some(class),
            _ => right,
        }
    }

    /// The class of the code point, by these lists.
    pub fn class_of(self, code_point: u32) -> u32 {
        let western = 27;
        let others = (1..=16).chain([19]);
        let order: Vec<u32> = match self {
            Mislisting::LowestFirst => others.chain([western]).collect(),
            _ => [western].into_iter().chain(others).collect(),
        };
        order.into_iter().find(|&class| self.in_list(class, code_point)).unwrap_or(0)
    }

    /// The edit that asks these lists.
    pub fn edit(self, sheet: &mut [u32], edit: Edit<'_>) -> EditAnswer {
        match self {
            Mislisting::BeforeEight => instead_of_eight(sheet, edit, |_| edit.inserted_records()),
            Mislisting::RecordByRecord => instead_of_eight(sheet, edit, |at| at),
            Mislisting::AfterNine => instead_of_twelve(sheet, edit, &[9]),
            Mislisting::AfterTen => instead_of_twelve(sheet, edit, &[9, 10]),
            Mislisting::NamesInserted => {
                let answer = Second.edit(sheet, edit);
                let named = if answer.number == 12 { answer.place - edit.place } else { answer.place };
                EditAnswer { place: named, ..answer }
            }
            Mislisting::StoredUnasked => with_stored_listed(sheet, edit),
            Mislisting::StoredUnderTwelve => stored_under_twelve(sheet, edit),
            _ => with_texts_as(sheet, edit, |record| self.as_if(record), |record| self.as_if(record)),
        }
    }

    /// The record with a character that the right list has, or has not, just as this one has its own.
    fn as_if(self, record: Words) -> Words {
        let [code_point, class, ..] = record;
        match (in_list(class, code_point), self.in_list(class, code_point)) {
            (false, true) => as_listed(record),
            (true, false) => with_character(record, IN_NO_LIST.into()),
            _ => record,
        }
    }
}

/// The record, its character another.
fn with_character(mut record: Words, code_point: u32) -> Words {
    record[0] = code_point;
    record
}

/// The record, with a character of its class where it has none and the class is one.
fn as_listed(record: Words) -> Words {
    let [code_point, class, ..] = record;
    let character = usual(class).filter(|_| !in_list(class, code_point));
    // What falls under 8 by its code point still does.
    match character.filter(|_| char::from_u32(code_point).is_some()) {
        Some(character) => with_character(record, character.into()),
        None => record,
    }
}

/// The first that its class's list lacks.
fn first_unlisted(records: &[Words]) -> Option<u32> {
    records.iter().position(|&[code_point, class, ..]| !in_list(class, code_point)).map(|at| at as u32)
}

/// The edit, where 8 gives way to 12 if that is due to one of the first inserted records. How many these are is told
/// by the number of the one, among the inserted, that falls under 8.
fn instead_of_eight(sheet: &mut [u32], edit: Edit<'_>, first: impl Fn(usize) -> usize) -> EditAnswer {
    let answer = Second.edit(sheet, edit);
    if answer.number != 8 {
        return answer;
    }
    let (inserted, _) = edit.inserted.as_chunks::<6>();
    match first_unlisted(&inserted[..first((answer.place - edit.place) as usize)]) {
        Some(at) => EditAnswer { number: 12, place: edit.place + at, redone: 0 },
        None => answer,
    }
}

/// The edit, where 12 gives way to these numbers.
fn instead_of_twelve(sheet: &mut [u32], edit: Edit<'_>, numbers: &[u32]) -> EditAnswer {
    let mut other = sheet.to_vec();
    let answer = Second.edit(sheet, edit);
    if answer.number != 12 {
        return answer;
    }
    let unasked = with_texts_as(&mut other, edit, as_listed, as_listed);
    if numbers.contains(&unasked.number) {
        unasked
    } else {
        answer
    }
}

/// The edit in which stored records need no list.
fn with_stored_listed(sheet: &mut [u32], edit: Edit<'_>) -> EditAnswer {
    with_texts_as(sheet, edit, as_listed, |record| record)
}

/// The edit in which stored records need no list, and those that result do.
fn stored_under_twelve(sheet: &mut [u32], edit: Edit<'_>) -> EditAnswer {
    let before = sheet.to_vec();
    let answer = with_stored_listed(sheet, edit);
    let after_twelve = matches!(answer.number, 0 | 9 | 10 | 12);
    let resulting = after_twelve.then(|| resulting(&before, edit));
    match resulting.and_then(|records| first_unlisted(&records)) {
        Some(place) => {
            sheet.copy_from_slice(&before);
            EditAnswer { number: 12, place, redone: 0 }
        }
        None => answer,
    }
}

/// The records that an edit leads to whose numbers are in limits.
fn resulting(sheet: &[u32], edit: Edit<'_>) -> Vec<Words> {
    let mut records = stored_records(sheet, edit.slot);
    let (inserted, _) = edit.inserted.as_chunks::<6>();
    let place = edit.place as usize;
    records.splice(place..place + edit.deleted as usize, inserted.iter().copied());
    records
}
