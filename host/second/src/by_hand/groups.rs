//! Both rows of groups (document 02, request 06): groups among other records, alone in their slots, and rows of
//! ruby over any base advance.

use super::{composed, Case, Words, K};
use crate::answer::EditAnswer;

/// The paper of both rows of a group.
pub const REQUEST_06: &str = "document 02, request 06";

/// An ideograph of a group with so many ruby characters.
const fn with_ruby(ruby_count: u32) -> Words {
    [0x6F22, 19, 80, 80, 1, ruby_count]
}

/// Request 06, "Both rows end together": groups among other records. Two ideographs fall short of five ruby characters
/// by 40, and so do four of nine, in three gaps; one falls short of three by 40.
pub const AMONG_OTHERS: [Case; 4] = [
    Case::new(
        "漢, five ruby over 漢漢, 漢",
        &[K, with_ruby(5), with_ruby(5), K],
        400,
        Ok(&[(&[0, 80, 200, 280], 360, 3)]),
    ),
    Case::new(
        "the same, stretched",
        &[K, with_ruby(5), with_ruby(5), K, K],
        400,
        Ok(&[(&[0, 100, 220, 320], 400, 1), (&[0], 80, 3)]),
    ),
    Case::new(
        "nine ruby over 漢漢漢漢, stretched",
        &[K, with_ruby(9), with_ruby(9), with_ruby(9), with_ruby(9), K],
        459,
        Ok(&[(&[0, 99, 192, 285, 379], 459, 1), (&[0], 80, 3)]),
    ),
    Case::new(
        "three ruby over 漢, on a line of their own",
        &[K, with_ruby(3), K],
        120,
        Ok(&[(&[0], 80, 2), (&[20], 120, 1), (&[0], 80, 3)]),
    ),
];

/// A group alone in its slot, and where the items of its two rows stand.
#[derive(Debug, Clone, Copy)]
pub struct GroupCase {
    /// The size of its records.
    pub size: u32,
    base: &'static [u32],
    /// The offset of each of its ruby characters.
    pub ruby: &'static [u32],
    advance: u32,
}

/// The offsets of a solid row of items this wide.
const fn solid<const N: usize>(advance: u32) -> [u32; N] {
    let mut row = [0; N];
    let mut k = 1;
    while k < N {
        row[k] = row[k - 1] + advance;
        k += 1;
    }
    row
}

/// Request 06: the size, the records' offsets, those of the ruby characters, and the longer row's width.
pub const GROUPS: [GroupCase; 17] = [
    // C12 and C13.
    GroupCase::new(80, &[0, 80], &[0, 60, 120], 160),
    GroupCase::new(80, &[20], &[0, 40, 80], 120),
    // Single items: D = 40, 220, 132, 62,000 and 124,000.
    GroupCase::new(80, &[0], &[20], 80),
    GroupCase::new(88, &[0, 88, 176], &[110], 264),
    GroupCase::new(88, &[66], &[0, 44, 88, 132, 176], 220),
    GroupCase::new(4_000, &solid::<16>(4_000), &[31_000], 64_000),
    GroupCase::new(4_000, &[62_000], &solid::<64>(2_000), 128_000),
    // Two items: D = 80 and 40.
    GroupCase::new(80, &[0, 80], &[0, 120], 160),
    GroupCase::new(80, &[0, 120], &[0, 40, 80, 120, 160], 200),
    // Equal rows.
    GroupCase::new(16, &[0, 16, 32], &[0, 8, 16, 24, 32, 40], 48),
    // Longer by one ruby character, D = 4: in two gaps, in three, in six and in thirty.
    GroupCase::new(8, &[0, 8], &[0, 6, 12], 16),
    GroupCase::new(8, &[0, 9, 18, 28], &solid::<9>(4), 36),
    GroupCase::new(8, &[0, 8, 16, 24], &[0, 4, 9, 14, 18, 23, 28], 32),
    GroupCase::new(
        8,
        &solid::<16>(8),
        &[
            0, 4, 8, 12, 16, 20, 24, 28, 33, 37, 41, 45, 49, 53, 57, 62, 66, 70, 74, 78, 82, 86, 90, 95, 99,
            103, 107, 111, 115, 119, 124,
        ],
        128,
    ),
    // D = 40 in three gaps, D = 40 and 128 in fifteen.
    GroupCase::new(80, &[0, 93, 186, 280], &solid::<9>(40), 360),
    GroupCase::new(
        80,
        &[0, 82, 165, 248, 330, 413, 496, 578, 661, 744, 826, 909, 992, 1_074, 1_157, 1_240],
        &solid::<33>(40),
        1_320,
    ),
    GroupCase::new(
        8,
        &[0, 16, 33, 49, 66, 82, 99, 115, 132, 148, 165, 181, 198, 214, 231, 248],
        &solid::<64>(4),
        256,
    ),
];

/// Request 06: rows of ruby over any base advance, as ruby place is told it. The base advance, the size, and where the
/// ruby characters stand.
pub const RUBY: [(u32, u32, &[u32]); 9] = [
    // A single one: D = 5, 1 and 63,996, and a base that is narrower.
    (45, 80, &[2]),
    (41, 80, &[0]),
    (64_000, 8, &[31_998]),
    (1, 8, &[0]),
    // D = 1 and 2 in three gaps.
    (17, 8, &[0, 4, 8, 13]),
    (18, 8, &[0, 4, 9, 14]),
    // D = 7 in two gaps, D = 58,000 in two, D = 63 in sixty-three.
    (127, 80, &[0, 43, 87]),
    (64_000, 4_000, &[0, 31_000, 62_000]),
    (319, 8, &solid::<64>(5)),
];

impl GroupCase {
    const fn new(size: u32, base: &'static [u32], ruby: &'static [u32], advance: u32) -> GroupCase {
        GroupCase { size, base, ruby, advance }
    }

    /// What it is called where a test tells of it.
    pub fn name(&self) -> String {
        let (records, size, ruby) = (self.base.len(), self.size, self.ruby.len());
        format!("a group of {records} records of size {size} and {ruby} ruby characters")
    }

    /// The sum of its records' advances.
    pub fn base_advance(&self) -> u32 {
        self.base.len() as u32 * self.size
    }

    /// A measure that it just fits.
    pub fn measure(&self) -> u32 {
        self.advance
    }

    /// Its records.
    pub fn records(&self) -> Vec<Words> {
        vec![[0x6F22, 19, self.size, self.size, 1, self.ruby.len() as u32]; self.base.len()]
    }

    /// What [`super::Case::expected`] says of a case.
    pub fn expected(&self, clinic: u32) -> (EditAnswer, Vec<u32>) {
        composed(&[clinic, self.measure(), 0], &self.records(), &[(self.base, self.advance, 3)])
    }
}
