//! Random records and paragraphs.

use std::sync::LazyLock;

use second::lists::{self, BLOCKS, COMPATIBILITY};

use crate::calls::Words;
use crate::layout::{CLASSES, LARGEST_MEASURE};
use crate::random::Random;

/// Numbers at the limits of document 01 and of 32 bits.
pub const EDGES: [u32; 31] = [
    0, 1, 2, 3, 6, 7, 8, 9, 15, 16, 17, 18, 19, 20, 26, 27, 28, 63, 64, 65, 255, 256, 257, 4_000, 65_535,
    65_536, 999_999, 1_000_000, 1_000_001, 0x8000_0000, 0xFFFF_FFFF,
];

/// The advance of a record of this class, in the middle where there is a choice.
pub fn usual_advance(class: u32, size: u32) -> u32 {
    match class {
        1 | 2 | 3 | 5 | 6 | 7 | 27 => size / 2,
        _ => size,
    }
}

/// A character that is usual in this class, which is one of the eighteen.
pub fn usual(class: u32) -> u32 {
    lists::usual(class).expect("one of the eighteen classes").into()
}

/// A record outside groups.
pub fn plain(class: u32, size: u32) -> Words {
    [usual(class), class, size, usual_advance(class, size), 0, 0]
}

/// The characters that Annex A lists for this class, in its order.
pub fn annex_a(class: u32) -> &'static [u32] {
    static LISTS: LazyLock<[Vec<u32>; 28]> =
        LazyLock::new(|| std::array::from_fn(|class| lists::annex_a(class as u32).map(u32::from).collect()));
    &LISTS[class as usize]
}

/// Another character of this class than this one, if its list has one.
pub fn another(class: u32, code_point: u32) -> Option<u32> {
    annex_a(class).iter().copied().find(|&other| other != code_point)
}

/// A random character of this class. Annex A's first and last come up often.
fn listed(random: &mut Random, class: u32) -> u32 {
    let characters = annex_a(class);
    match random.below(8) {
        0 => characters[0],
        1 => characters[characters.len() - 1],
        2..=6 if class == 19 => ideograph(random),
        _ => random.one_of(characters),
    }
}

/// A unified ideograph, often at the end of a block.
fn ideograph(random: &mut Random) -> u32 {
    let block = random.one_of(&BLOCKS);
    match random.below(6) {
        0 => block.first,
        1 => block.last,
        2 => random.one_of(&COMPATIBILITY).into(),
        _ => random.between(block.first, block.last),
    }
}

/// All texts over an alphabet of up to this many records, the shortest first.
pub fn all_texts(alphabet: &[Words], longest: u32) -> Vec<Vec<u32>> {
    let mut all = vec![Vec::new()];
    let mut last = all.clone();
    for _ in 0..longest {
        let longer = |words: &Vec<u32>| alphabet.iter().map(|record| [words, &record[..]].concat()).collect();
        last = last.iter().flat_map::<Vec<Vec<u32>>, _>(longer).collect();
        all.extend_from_slice(&last);
    }
    all
}

/// What a paragraph is made of.
#[derive(Debug, Clone, Copy)]
pub struct Style {
    /// The sizes to choose from.
    sizes: &'static [u32],
    /// One unit in so many is a group.
    one_group_in: u32,
    /// One record in so many has any class at all, the others one that is frequent in text.
    any_class_in: u32,
}

const STYLES: [Style; 6] = [
    Style { sizes: &[80], one_group_in: 12, any_class_in: 6 },
    Style { sizes: &[8], one_group_in: 40, any_class_in: 3 },
    Style { sizes: &[8, 16, 24, 48], one_group_in: 8, any_class_in: 2 },
    Style { sizes: &[80, 160], one_group_in: 2, any_class_in: 8 },
    Style { sizes: &[3_992, 4_000], one_group_in: 6, any_class_in: 2 },
    Style { sizes: &[40], one_group_in: 1_000, any_class_in: 1 },
];

const FREQUENT: [u32; 13] = [15, 15, 15, 16, 19, 19, 19, 7, 6, 1, 2, 27, 13];

impl Style {
    /// One of the styles.
    pub fn random(random: &mut Random) -> Style {
        random.one_of(&STYLES)
    }

    /// A measure in which a paragraph of this style mostly fits, from a few units to one line.
    pub fn measure(&self, random: &mut Random) -> u32 {
        let size = random.one_of(self.sizes);
        let units = random.one_of(&[1, 2, 4, 8, 16, 30, 300]);
        let measure = size * units + random.below(size * units);
        measure.clamp(8, LARGEST_MEASURE)
    }

    /// One of its sizes; now and then one that no record may have.
    pub fn import_size(&self, random: &mut Random) -> u32 {
        match random.below(20) {
            0 => random.one_of(&EDGES),
            1 => random.one_of(self.sizes) + 4,
            _ => random.one_of(self.sizes),
        }
    }

    /// Mostly none, else anything below the measure.
    pub fn indent(&self, random: &mut Random, measure: u32) -> u32 {
        match random.below(4) {
            0 => random.below(measure),
            1 => random.below(measure.min(100)),
            _ => 0,
        }
    }

    /// A record outside groups.
    fn record(&self, random: &mut Random) -> Words {
        let any = random.once_in(self.any_class_in);
        let class = if any { random.one_of(&CLASSES) } else { random.one_of(&FREQUENT) };
        let size = random.one_of(self.sizes);
        let advance = match class {
            3 => random.between(1, size),
            27 if random.once_in(4) => random.between(1, 2 * size),
            _ => usual_advance(class, size),
        };
        let code_point = match class {
            // few, so that neighbours are often alike
            8 if !random.once_in(4) => random.one_of(&['—', '‥']).into(),
            // the digits and a few on either side
            27 if !random.once_in(4) => random.between(0x2C, 0x3D),
            _ => listed(random, class),
        };
        [code_point, class, size, advance, 0, 0]
    }

    /// The records of a group; few numbers, so that neighbours are sometimes one group.
    fn group(&self, random: &mut Random) -> Vec<Words> {
        let class = random.one_of(&[15, 16, 19, 19]);
        let size = random.one_of(self.sizes);
        let group = if random.once_in(4) { 65_535 } else { random.between(1, 40) };
        let ruby_count = if random.once_in(6) { random.between(1, 64) } else { random.between(1, 6) };
        let count = if random.once_in(6) { random.between(1, 16) } else { random.between(1, 3) };
        (0..count).map(|_| [listed(random, class), class, size, size, group, ruby_count]).collect()
    }

    /// A paragraph of this many records, each keeping its own rules and of its class's list.
    pub fn paragraph(&self, random: &mut Random, count: u32) -> Vec<u32> {
        let mut records: Vec<Words> = Vec::with_capacity(count as usize + 16);
        while records.len() < count as usize {
            if random.once_in(self.one_group_in) {
                records.extend(self.group(random));
            } else {
                records.push(self.record(random));
            }
        }
        records.truncate(count as usize);
        records.concat()
    }
}

/// Spoils one word, which may or may not break a rule, or take a code point or a class out of its list.
pub fn spoil(random: &mut Random, words: &mut [u32]) {
    if !words.is_empty() {
        let at = random.below(words.len() as u32) as usize;
        words[at] = match random.below(5) {
            0 => random.one_of(&EDGES),
            1 => random.one_of(&[0xD7FF, 0xD800, 0xDFFF, 0xE000, 0x10_FFFF, 0x11_0000]),
            2 => words[at].wrapping_add(1),
            3 => of_any_class(random),
            _ => words[at].wrapping_sub(1),
        };
    }
}

/// Spoils a few words, so that one record may fall under 8 and another, before or after it, under 12 or 9.
pub fn spoil_some(random: &mut Random, words: &mut [u32]) {
    (0..random.between(1, 4)).for_each(|_| spoil(random, words));
}

/// Gives a record the character of some class, mostly not its own.
pub fn exchange_character(random: &mut Random, words: &mut [u32]) {
    let (records, _) = words.as_chunks_mut::<6>();
    if !records.is_empty() {
        let at = random.below(records.len() as u32) as usize;
        records[at][0] = of_any_class(random);
    }
}

/// A random character of some class.
pub fn of_any_class(random: &mut Random) -> u32 {
    let class = random.one_of(&CLASSES);
    listed(random, class)
}
