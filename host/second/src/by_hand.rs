//! Cases composed by hand, for the tests of this program and of any other: those of document 01
//! ("Composed by hand"), and those of document 02's requests.

mod edits;
mod groups;
mod pool;

use crate::answer::{EditAnswer, Edited, Refusal};

pub use edits::{EditCase, EDITS};
pub use groups::{GroupCase, AMONG_OTHERS, GROUPS, REQUEST_06, RUBY};
pub use pool::{TakeCase, UseCase, REQUEST_07, TAKES, USES, USES_SET_UP};

type Words = [u32; 6];

/// The x of a line's records, its end x and its kind.
type Line = (&'static [u32], u32, u32);

/// A case. Its indent is 0.
#[derive(Debug, Clone, Copy)]
pub struct Case {
    /// Its name in document 01, or its text.
    pub name: &'static str,
    /// The records of its paragraph.
    pub records: &'static [Words],
    /// Its measure.
    pub measure: u32,
    /// Its lines, or why it is refused.
    lines: Result<&'static [Line], Refusal>,
}

/// An ideograph, the paper's K.
const K: Words = [0x6F22, 19, 80, 80, 0, 0];
const FULL_STOP: Words = [0x3002, 6, 80, 40, 0, 0];
const COMMA: Words = [0x3001, 7, 80, 40, 0, 0];
const OPENING: Words = [0x300C, 1, 80, 40, 0, 0];
const CLOSING: Words = [0x300D, 2, 80, 40, 0, 0];
const WESTERN: Words = [0x41, 27, 80, 40, 0, 0];
/// An ideograph of a group with 2 ruby characters.
const RUBY_K: Words = [0x6F22, 19, 80, 80, 1, 2];
/// An ideograph of a group with 3 ruby characters.
const GROUPED: Words = [0x6F22, 19, 80, 80, 1, 3];

const FIVE: Words = letter('5');
const PERCENT: Words = ['%' as u32, 13, 80, 80, 0, 0];
const CELSIUS: Words = ['℃' as u32, 13, 80, 80, 0, 0];
/// A digit as wide as an ideograph, of class 19, and the same with a ruby character.
const WIDE_FIVE: Words = ['5' as u32, 19, 80, 80, 0, 0];
const GROUPED_FIVE: Words = ['5' as u32, 19, 80, 80, 1, 1];

/// A record of size 80 and as wide.
const fn of_class(character: char, class: u32) -> Words {
    [character as u32, class, 80, 80, 0, 0]
}

/// A bracket of size 80, which is half as wide.
const fn bracket(character: char, class: u32) -> Words {
    [character as u32, class, 80, 40, 0, 0]
}

/// A digit or letter of class 27.
const fn letter(character: char) -> Words {
    [character as u32, 27, 80, 40, 0, 0]
}

/// Five records in measure 240: the third goes to the next line with the postfix after it.
const HELD: Result<&[Line], usize> = Ok(&[(&[0, 160], 240, 1), (&[0, 40, 120], 200, 3)]);
/// It ends the first line, and the postfix starts the next.
const PARTED: Result<&[Line], usize> = Ok(&[(&[0, 80, 200], 240, 1), (&[0, 80], 160, 3)]);
const PARTED_WIDE: Result<&[Line], usize> = Ok(&[(&[0, 80, 160], 240, 1), (&[0, 80], 160, 3)]);

const WITH_FULL_STOP: &[Words] = &[K, K, K, K, K, FULL_STOP, K];
const WITH_COMMA: &[Words] = &[K, K, COMMA, K, K, K];
const IN_BRACKETS: &[Words] = &[OPENING, K, CLOSING];

/// C1 to C13; C10 and C11 are two each.
pub const CASES: [Case; 15] = [
    Case::new("C1", &[], 400, Ok(&[])),
    Case::new("C2", &[K; 5], 400, Ok(&[(&[0, 80, 160, 240, 320], 400, 3)])),
    Case::new("C3", &[K; 6], 440, Ok(&[(&[0, 90, 180, 270, 360], 440, 1), (&[0], 80, 3)])),
    Case::new("C4", WITH_FULL_STOP, 400, Ok(&[(&[0, 106, 213, 320], 400, 1), (&[0, 80, 160], 240, 3)])),
    Case::new("C5", WITH_COMMA, 460, Ok(&[(&[0, 80, 160, 220, 300, 380], 460, 3)])),
    Case::new("C6", WITH_COMMA, 459, Ok(&[(&[0, 99, 179, 279, 379], 459, 1), (&[0], 80, 3)])),
    Case::new("C7", &[K, WESTERN, K], 220, Ok(&[(&[0, 90, 140], 220, 3)])),
    Case::new("C8", &[K, WESTERN, K], 219, Ok(&[(&[0, 179], 219, 1), (&[0], 80, 3)])),
    Case::new("C9", &[K; 2], 100, Ok(&[(&[0], 80, 2), (&[0], 80, 3)])),
    Case::new("C10", &[K], 79, Err(0)),
    Case::new("C10", &[K], 80, Ok(&[(&[0], 80, 3)])),
    Case::new("C11", IN_BRACKETS, 159, Err(0)),
    Case::new("C11", IN_BRACKETS, 160, Ok(&[(&[0, 40, 120], 160, 3)])),
    Case::new("C12", &[GROUPED; 2], 400, Ok(&[(&[0, 80], 160, 3)])),
    Case::new("C13", &[GROUPED], 400, Ok(&[(&[20], 120, 3)])),
];

/// Request 01, "Five percent must stay together". All but the first four are at the ends of the digits,
/// at those of the measure, or beside the rule.
pub const FIVE_PERCENT: [Case; 13] = [
    Case::new("漢漢5%漢", &[K, K, FIVE, PERCENT, K], 240, HELD),
    Case::new("漢漢a%漢", &[K, K, letter('a'), PERCENT, K], 240, PARTED),
    Case::new(
        "漢5%漢漢",
        &[K, FIVE, PERCENT, K, K],
        350,
        Ok(&[(&[0, 135, 175, 270], 350, 1), (&[0], 80, 3)]),
    ),
    Case::new(
        "漢漢漢25℃",
        &[K, K, K, letter('2'), FIVE, CELSIUS],
        400,
        Ok(&[(&[0, 160, 320], 400, 1), (&[0, 40, 80], 160, 3)]),
    ),
    Case::new("漢漢/%漢", &[K, K, letter('/'), PERCENT, K], 240, PARTED),
    Case::new("漢漢0%漢", &[K, K, letter('0'), PERCENT, K], 240, HELD),
    Case::new("漢漢9%漢", &[K, K, letter('9'), PERCENT, K], 240, HELD),
    Case::new("漢漢:%漢", &[K, K, letter(':'), PERCENT, K], 240, PARTED),
    Case::new("漢漢5%漢, 5 of class 19", &[K, K, WIDE_FIVE, PERCENT, K], 240, PARTED_WIDE),
    Case::new("漢漢5%漢, 5 with ruby", &[K, K, GROUPED_FIVE, PERCENT, K], 240, PARTED_WIDE),
    Case::new("漢5%, 1 too wide", &[K, FIVE, PERCENT], 119, Err(1)),
    Case::new("漢5%", &[K, FIVE, PERCENT], 120, Ok(&[(&[0], 80, 2), (&[0, 40], 120, 3)])),
    Case::new("漢10%, 1 too wide", &[K, letter('1'), letter('0'), PERCENT], 159, Err(1)),
];

/// A comma marked as class 19, which opened a line.
const COMMA_AS_19: Words = ['、' as u32, 19, 80, 80, 0, 0];
/// A record that breaks its own rules, of a class whose list lacks its code point too.
const NARROW_COMMA_AS_19: Words = ['、' as u32, 19, 80, 40, 0, 0];

/// Request 04, "Classes checked against the published lists".
pub const LISTED: [Case; 14] = [
    Case::refused("、 as 19", &[COMMA_AS_19], 400, Refusal::NotListed(0)),
    Case::refused("the comma that opened a line", &[K, K, COMMA_AS_19, K], 160, Refusal::NotListed(2)),
    Case::new("漢、", &[K, COMMA], 400, Ok(&[(&[0, 80], 120, 3)])),
    Case::refused("漢 as 15", &[of_class('漢', 15)], 400, Refusal::NotListed(0)),
    Case::new("( as 1, ) as 27", &[bracket('(', 1), letter(')')], 400, Ok(&[(&[0, 40], 80, 3)])),
    Case::refused("（ as 1", &[bracket('（', 1)], 400, Refusal::NotListed(0)),
    Case::new("A as 19 and as 27", &[of_class('A', 19), WESTERN], 400, Ok(&[(&[0, 100], 140, 3)])),
    Case::refused("５ as 27", &[letter('５')], 400, Refusal::NotListed(0)),
    Case::new("仝Ⅻ as 19", &[of_class('仝', 19), of_class('Ⅻ', 19)], 400, Ok(&[(&[0, 80], 160, 3)])),
    Case::refused("U+2015, of a remark, as 8", &[of_class('\u{2015}', 8)], 400, Refusal::NotListed(0)),
    Case::refused("8 before 12", &[COMMA_AS_19, NARROW_COMMA_AS_19], 400, Refusal::Record(1)),
    Case::refused("12 before 9", &[GROUPED, RUBY_K, COMMA_AS_19], 400, Refusal::NotListed(2)),
    Case::refused("12 before 10", &[K, COMMA_AS_19], 79, Refusal::NotListed(1)),
    Case::new("𠮷, of extension B", &[of_class('𠮷', 19)], 80, Ok(&[(&[0], 80, 3)])),
];

/// All cases, by the paper that asks for them.
pub const PAPERS: [(&str, &[Case]); 4] = [
    ("document 01", &CASES),
    ("document 02, request 01", &FIVE_PERCENT),
    ("document 02, request 04", &LISTED),
    (REQUEST_06, &AMONG_OTHERS),
];

/// Records one after another, so many of each.
type Text = &'static [(usize, Words)];

fn words(text: Text) -> Vec<u32> {
    text.iter().flat_map(|(count, record)| record.repeat(*count)).collect()
}

/// What the edit answers that inserts these records into a slot just taken with this clinic, measure and indent, and
/// every word of the slot after it, where these are its lines. The layout is written out here, apart from the
/// program's.
fn composed(head: &[u32; 3], records: &[Words], lines: &[Line]) -> (EditAnswer, Vec<u32>) {
    // Where there were no lines, all are composed anew.
    let answer = EditAnswer::from(Ok(Edited { lines: lines.len(), redone: lines.len() }));
    let mut slot = fresh(head);
    slot[3] = records.len() as u32;
    slot[4] = lines.len() as u32;
    slot[8..][..6 * records.len()].copy_from_slice(&records.concat());
    let mut first = 0;
    for (number, &(xs, end_x, kind)) in lines.iter().enumerate() {
        slot[2_056 + 3 * number..][..3].copy_from_slice(&[first as u32, end_x, kind]);
        for &x in xs {
            slot[1_544 + 2 * first..][..2].copy_from_slice(&[x, number as u32]);
            first += 1;
        }
    }
    (answer, slot)
}

/// A slot just taken, with this clinic, measure and indent.
fn fresh(head: &[u32; 3]) -> Vec<u32> {
    let mut slot = vec![0; 2_824];
    slot[..3].copy_from_slice(head);
    slot[5] = 1;
    slot
}

impl Case {
    /// A case with these lines, or refused with 10 and this place.
    const fn new(
        name: &'static str,
        records: &'static [Words],
        measure: u32,
        lines: Result<&'static [Line], usize>,
    ) -> Case {
        let lines = match lines {
            Ok(lines) => Ok(lines),
            Err(at) => Err(Refusal::NoBreaking(at)),
        };
        Case { name, records, measure, lines }
    }

    const fn refused(name: &'static str, records: &'static [Words], measure: u32, refusal: Refusal) -> Case {
        Case { name, records, measure, lines: Err(refusal) }
    }

    /// What the edit answers that inserts the records into a slot that this clinic just took, and every
    /// word of the slot after it.
    pub fn expected(&self, clinic: u32) -> (EditAnswer, Vec<u32>) {
        let head = [clinic, self.measure, 0];
        match self.lines {
            Ok(lines) => composed(&head, self.records, lines),
            Err(refusal) => (refusal.into(), fresh(&head)),
        }
    }
}
