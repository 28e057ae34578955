//! Well-formed UTF-8: table 3-7 of the Unicode standard, row by row.

use std::ops::RangeInclusive;

/// A row: its first code point, and which bytes stand first, second, third and fourth. Its code points in order have
/// its sequences of bytes in order.
struct Row {
    first: u32,
    bytes: &'static [RangeInclusive<u8>],
}

/// What may follow a first byte where the table has no less.
const ANY: RangeInclusive<u8> = 0x80..=0xBF;

const TABLE: [Row; 9] = [
    Row { first: 0, bytes: &[0x00..=0x7F] },
    Row { first: 0x80, bytes: &[0xC2..=0xDF, ANY] },
    Row { first: 0x800, bytes: &[0xE0..=0xE0, 0xA0..=0xBF, ANY] },
    Row { first: 0x1000, bytes: &[0xE1..=0xEC, ANY, ANY] },
    Row { first: 0xD000, bytes: &[0xED..=0xED, 0x80..=0x9F, ANY] },
    Row { first: 0xE000, bytes: &[0xEE..=0xEF, ANY, ANY] },
    Row { first: 0x1_0000, bytes: &[0xF0..=0xF0, 0x90..=0xBF, ANY, ANY] },
    Row { first: 0x4_0000, bytes: &[0xF1..=0xF3, ANY, ANY, ANY] },
    Row { first: 0x10_0000, bytes: &[0xF4..=0xF4, 0x80..=0x8F, ANY, ANY] },
];

/// The character with which these bytes start, and how many of them it takes; none where they start with no
/// well-formed sequence.
pub fn first_character(bytes: &[u8]) -> Option<(char, usize)> {
    TABLE.iter().find_map(|row| Some((row.character(bytes)?, row.bytes.len())))
}

impl Row {
    /// The character with which these bytes start, if it is one of the row.
    fn character(&self, bytes: &[u8]) -> Option<char> {
        let sequence = bytes.get(..self.bytes.len())?;
        let mut nth = 0;
        for (byte, range) in sequence.iter().zip(self.bytes) {
            if !range.contains(byte) {
                return None;
            }
            nth = nth * (u32::from(range.end() - range.start()) + 1) + u32::from(byte - range.start());
        }
        char::from_u32(self.first + nth)
    }
}

#[cfg(test)]
mod tests {
    use super::*;

    #[test]
    fn every_character_has_its_sequence() {
        for character in '\0'..=char::MAX {
            let mut buffer = [0xFF; 5];
            let length = character.encode_utf8(&mut buffer).len();
            assert_eq!(first_character(&buffer), Some((character, length)), "{character:?}");
            assert_eq!(first_character(&buffer[..length]), Some((character, length)), "{character:?}");
            assert_eq!(first_character(&buffer[..length - 1]), None, "{character:?}");
        }
    }

    /// The rows have as many sequences as there are characters, so that no other has one.
    #[test]
    fn no_other_sequence_is_well_formed() {
        let ranges = |row: &Row| row.bytes.iter().map(|range| range.clone().count()).product::<usize>();
        assert_eq!(TABLE.iter().map(ranges).sum::<usize>(), ('\0'..=char::MAX).count());
    }
}
