//! Records, slots and random numbers for the tests.

// Each test file uses a part of these.
#![allow(dead_code)]

use second::lists::{annex_a, usual, BLOCKS};
use second::sheet::SLOT_WORDS;
use second::Edit;

pub type Words = [u32; 6];

pub const CLINIC: u32 = 7;

/// A character of the class's list; of a number that has none, any.
pub fn listed(class: u32) -> u32 {
    usual(class).unwrap_or('漢').into()
}

/// A record outside groups.
pub fn record(class: u32, size: u32, advance: u32) -> Words {
    [listed(class), class, size, advance, 0, 0]
}

/// A record that keeps its own rules, of a class whose list lacks its code point.
pub const COMMA_AS_19: Words = ['、' as u32, 19, 80, 80, 0, 0];

/// A record outside groups with the advance that its class asks for, or half the size.
pub fn plain(class: u32, size: u32) -> Words {
    let halved = matches!(class, 1 | 2 | 3 | 5 | 6 | 7 | 27);
    record(class, size, if halved { size / 2 } else { size })
}

/// An ideograph of size 80: document 01's K.
pub fn k() -> Words {
    plain(19, 80)
}

/// A record of class 19 in a group.
pub fn grouped(size: u32, group: u32, ruby_count: u32) -> Words {
    [0x6F22, 19, size, size, group, ruby_count]
}

pub fn flat(records: &[Words]) -> Vec<u32> {
    records.concat()
}

/// A sheet of one slot, set up for `CLINIC` and taken.
pub fn one_slot(measure: u32, indent: u32) -> Vec<u32> {
    let mut sheet = vec![0; SLOT_WORDS];
    let answer = second::set_up(&mut sheet, &[CLINIC], &[measure], &[indent]);
    assert_eq!((answer.number, answer.place), (0, 1));
    assert_eq!(take(&mut sheet, CLINIC), (0, 0));
    sheet
}

/// The answer of a take as number and place.
pub fn take(sheet: &mut [u32], caller: u32) -> (u32, u32) {
    let answer = second::take(sheet, caller);
    (answer.number, answer.place)
}

/// The edit of slot 0 by `CLINIC`.
pub fn own(place: u32, deleted: u32, inserted: &[u32]) -> Edit<'_> {
    Edit { caller: CLINIC, slot: 0, place, deleted, inserted }
}

/// The answer of an edit as number and place.
pub fn edit(sheet: &mut [u32], edit: Edit) -> (u32, u32) {
    let answer = second::edit(sheet, edit);
    (answer.number, answer.place)
}

/// The number and place of an edit that is refused, which changes no word and redoes no line.
pub fn refused(sheet: &mut [u32], edit: Edit) -> (u32, u32) {
    let before = sheet.to_vec();
    let answer = second::edit(sheet, edit);
    assert_ne!(answer.number, 0);
    assert_eq!(answer.redone, 0);
    assert_eq!(sheet, before);
    (answer.number, answer.place)
}

/// The answer of inserting records into an empty slot.
pub fn compose(records: &[Words], measure: u32, indent: u32) -> (u32, u32) {
    let mut sheet = one_slot(measure, indent);
    edit(&mut sheet, own(0, 0, &flat(records)))
}

/// Splitmix64: every seed gives a sequence of its own. Whatever fails while a sequence is in use, an
/// assertion or the program, the seed is printed.
pub struct Random {
    seed: u64,
    state: u64,
}

impl Drop for Random {
    fn drop(&mut self) {
        if std::thread::panicking() {
            println!("it failed with seed {}", self.seed);
        }
    }
}

impl Random {
    pub fn new(seed: u64) -> Random {
        Random { seed, state: seed }
    }

    pub fn next(&mut self) -> u64 {
        self.state = self.state.wrapping_add(0x9E37_79B9_7F4A_7C15);
        let mut z = self.state;
        z = (z ^ (z >> 30)).wrapping_mul(0xBF58_476D_1CE4_E5B9);
        z = (z ^ (z >> 27)).wrapping_mul(0x94D0_49BB_1331_11EB);
        z ^ (z >> 31)
    }

    /// A number below `n`.
    pub fn below(&mut self, n: u32) -> u32 {
        (self.next() % u64::from(n)) as u32
    }

    pub fn one_of<T: Copy>(&mut self, items: &[T]) -> T {
        items[self.below(items.len() as u32) as usize]
    }

    /// True once in `n` times.
    pub fn once_in(&mut self, n: u32) -> bool {
        self.below(n) == 0
    }
}

/// A random character of the class's list: of all that Annex A has, or for class 19 of all blocks; of class 27
/// mostly about the digits.
fn random_character(random: &mut Random, class: u32) -> u32 {
    match class {
        19 if random.once_in(2) => {
            let block = random.one_of(&BLOCKS);
            block.first + random.below(block.last - block.first + 1)
        }
        27 if !random.once_in(4) => random.one_of(&['/', '0', '5', '9', ':', 'a']).into(),
        _ => {
            let nth = random.below(annex_a(class).count() as u32);
            annex_a(class).nth(nth as usize).expect("fewer than there are").into()
        }
    }
}

/// Random records that keep their own rules and stand in their classes' lists; groups among them.
pub fn random_records(random: &mut Random, count: u32) -> Vec<Words> {
    const CLASSES: [u32; 18] = [1, 2, 3, 4, 5, 6, 7, 8, 9, 10, 11, 12, 13, 14, 15, 16, 19, 27];
    let mut records = Vec::new();
    while (records.len() as u32) < count {
        let size = random.one_of(&[8, 16, 24, 80]);
        if random.once_in(5) {
            let (group, ruby) = (1 + random.below(4), 1 + random.below(9));
            for _ in 0..1 + random.below(5) {
                records.push(grouped(size, group, ruby));
            }
        } else {
            let common = random.once_in(2);
            let class = if common { 19 } else { random.one_of(&CLASSES) };
            let mut record = plain(class, size);
            record[0] = random_character(random, class);
            if class == 27 {
                record[3] = 1 + random.below(2 * size);
            }
            records.push(record);
        }
    }
    records.truncate(count as usize);
    records
}
