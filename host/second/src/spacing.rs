//! The space between two units (document 01, "Space between units"), and how far it gives way
//! when a line is adjusted (document 01, "Breaks and adjustment").

use crate::units::Unit;

/// The space between two neighbouring units of a line.
#[derive(Debug, Clone, Copy, PartialEq, Eq)]
pub struct Space {
    /// Its width before adjustment.
    pub natural: u32,
    /// What shrink stages 1 and 2 can take from it.
    pub shrink: [u32; 2],
    /// What stretch stage 1 can add to it.
    pub stretch: u32,
}

impl Space {
    /// A space that no limited stage changes.
    fn fixed(natural: u32) -> Space {
        Space { natural, shrink: [0, 0], stretch: 0 }
    }

    /// Beside brackets and commas: half a size, down to a quarter in shrink stage 1.
    fn punctuation(size: u32) -> Space {
        Space { natural: size / 2, shrink: [size / 2 - size / 4, 0], stretch: 0 }
    }

    /// Between Japanese and Western: a quarter of a size, down to an eighth in shrink stage 2, up
    /// to a half in stretch stage 1.
    fn western(size: u32) -> Space {
        Space { natural: size / 4, shrink: [0, size / 4 - size / 8], stretch: size / 2 - size / 4 }
    }

    /// Its width after both shrink stages in full.
    pub fn smallest(&self) -> u32 {
        self.natural - self.shrink[0] - self.shrink[1]
    }
}

/// The space between two units by rules a to k: the first that matches holds. Sizes are multiples
/// of 8, so that every fraction is exact.
pub fn space(left: &Unit, right: &Unit) -> Space {
    let (l, r) = (left.size, right.size);
    match (left.class.number(), right.class.number()) {
        // a
        (5, 5) => Space::fixed(l / 4 + r / 4),
        // b
        (6 | 7, 5) => Space::fixed(l / 2 + r / 4),
        // c
        (_, 5) => Space::fixed(r / 4),
        // d
        (5, _) => Space::fixed(l / 4),
        // e
        (1, _) => Space::fixed(0),
        // f
        (2, 2 | 6 | 7 | 14) => Space::fixed(0),
        (2, _) => Space::punctuation(l),
        // g: the space after a full stop never shrinks.
        (6 | 7, 2 | 6 | 7) => Space::fixed(0),
        (6, _) => Space::fixed(l / 2),
        (7, _) => Space::punctuation(l),
        // h
        (14, 1) => Space::fixed(0),
        (_, 1) => Space::punctuation(r),
        // i
        (27, 9 | 10 | 11 | 15 | 16 | 19) => Space::western(r),
        // j
        (4 | 9 | 10 | 11 | 15 | 16 | 19, 27) => Space::western(l),
        // k
        _ => Space::fixed(0),
    }
}

#[cfg(test)]
mod tests {
    use super::*;
    use crate::lists::usual;
    use crate::records::{Class, Record};
    use crate::units::units;

    const LEFT: u32 = 80;
    const RIGHT: u32 = 160;
    const CLASSES: [u32; 18] = [1, 2, 3, 4, 5, 6, 7, 8, 9, 10, 11, 12, 13, 14, 15, 16, 19, 27];

    /// The space between records of these classes, of sizes 80 and 160.
    fn between(left: u32, right: u32) -> Space {
        let record = |class, size| Record {
            code_point: usual(class).unwrap().into(),
            class: Class::new(class).unwrap(),
            size,
            advance: size,
            group: 0,
            ruby_count: 0,
        };
        let records = [record(left, LEFT), record(right, RIGHT)];
        let units = units(&records);
        space(&units[0], &units[1])
    }

    /// Rules a to k as document 01 words them: the letter, eighths of each side's size, and
    /// whether the rule's gap shrinks in stage 1 or 2.
    fn by_the_paper(l: u32, r: u32) -> (char, u32, u32, u32) {
        let japanese = [9, 10, 11, 15, 16, 19];
        if l == 5 && r == 5 {
            ('a', 2, 2, 0)
        } else if [6, 7].contains(&l) && r == 5 {
            ('b', 4, 2, 0)
        } else if r == 5 {
            ('c', 0, 2, 0)
        } else if l == 5 {
            ('d', 2, 0, 0)
        } else if l == 1 {
            ('e', 0, 0, 0)
        } else if l == 2 {
            let none = [2, 6, 7, 14].contains(&r);
            ('f', if none { 0 } else { 4 }, 0, 1)
        } else if l == 6 || l == 7 {
            let none = [2, 6, 7].contains(&r);
            ('g', if none { 0 } else { 4 }, 0, u32::from(l == 7))
        } else if r == 1 {
            ('h', 0, if l == 14 { 0 } else { 4 }, 1)
        } else if l == 27 && japanese.contains(&r) {
            ('i', 0, 2, 2)
        } else if r == 27 && (l == 4 || japanese.contains(&l)) {
            ('j', 2, 0, 2)
        } else {
            ('k', 0, 0, 0)
        }
    }

    #[test]
    fn every_pair_of_classes() {
        for l in CLASSES {
            for r in CLASSES {
                let (rule, left, right, stage) = by_the_paper(l, r);
                let natural = LEFT / 8 * left + RIGHT / 8 * right;
                let shrink = match stage {
                    1 => [natural / 2, 0],
                    2 => [0, natural / 2],
                    _ => [0, 0],
                };
                let stretch = if stage == 2 { natural } else { 0 };
                let expected = Space { natural, shrink, stretch };
                assert_eq!(between(l, r), expected, "rule {rule}: {l} before {r}");
            }
        }
    }

    #[test]
    fn smallest_widths() {
        assert_eq!(between(7, 19).smallest(), LEFT / 4);
        assert_eq!(between(19, 1).smallest(), RIGHT / 4);
        assert_eq!(between(6, 19).smallest(), LEFT / 2);
        assert_eq!(between(27, 19).smallest(), RIGHT / 8);
        assert_eq!(between(7, 5).smallest(), LEFT / 2 + RIGHT / 4);
    }
}
