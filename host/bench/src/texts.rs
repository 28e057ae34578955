//! The texts that are composed. Every character is one of its class's list.

use second::lists::{usual, BLOCKS};

/// A record's words.
pub type Words = [u32; 6];

/// The size of every text.
pub const SIZE: u32 = 80;

/// How many leaflets there are: one for each slot of the largest sheet.
pub const LEAFLETS: u32 = 64;
/// The records of a leaflet.
pub const LEAFLET_RECORDS: u32 = 256;

/// What leaflets are made of: a phrase, and how many ruby characters stand over it. One with ruby is a group.
const PHRASES: [(&str, u32); 16] = [
    ("1日3回、", 0),
    ("毎食後に", 0),
    ("1回2錠を", 0),
    ("水またはぬるま湯で飲んでください。", 0),
    ("(ロキソプロフェン)", 0),
    ("アセトアミノフェン500mgを", 0),
    ("「カロナール」", 0),
    ("10%の消毒液で", 0),
    ("38℃を超えたら、", 0),
    ("赤み・腫れ・かゆみ", 0),
    ("が出たら、すぐに電話してください。", 0),
    ("少しずつ", 0),
    ("徐々に減らし、", 0),
    ("ショックが起きたときは、", 0),
    ("頓服", 4),
    ("嘔吐", 3),
];

/// A record outside groups, of a usual character of its class.
pub fn record(class: u32, size: u32) -> Words {
    let character = usual(class).unwrap_or_else(|| panic!("{class} is no class"));
    of_class(character.into(), class, size)
}

/// A record outside groups.
fn of_class(code_point: u32, class: u32, size: u32) -> Words {
    let advance = if matches!(class, 1 | 2 | 5 | 6 | 7 | 27) { size / 2 } else { size };
    [code_point, class, size, advance, 0, 0]
}

/// The records of a phrase, in a group of this number where it is not 0.
fn phrase_records(phrase: &str, group: u32, ruby_count: u32) -> impl Iterator<Item = Words> + '_ {
    phrase.chars().map(move |character| {
        let [code_point, class, size, advance, ..] = of_class(character.into(), class(character), SIZE);
        [code_point, class, size, advance, group, ruby_count]
    })
}

/// So many records, of these again and again.
fn repeated(records: impl Iterator<Item = Words> + Clone, count: u32) -> Vec<u32> {
    records.cycle().take(count as usize).flatten().collect()
}

/// A text with ideographs, kana, punctuation, a Western word and a group with ruby, again and again.
pub fn text(records: u32) -> Vec<u32> {
    let plain: Vec<Words> = phrase_records("薬は食後に、クリームを5mgと「軟膏」など。", 0, 0).collect();
    let group: Vec<Words> = phrase_records("錠剤", 1, 5).collect();
    repeated(plain.into_iter().chain(group), records)
}

/// What imported texts are made of outside their ruby elements.
const PROSE: &str = "薬は食後に、クリームを5mgと「軟膏」など。10%の消毒液で少しずつ・徐々に、38℃まで。";

/// The ruby elements of an imported text, each of two records.
const RUBY: [&str; 4] = [
    "<ruby>頓服<rt>とんぷく</rt></ruby>",
    "<ruby>錠剤<rp>(</rp><rt>じょうざい</rt><rp>)</rp></ruby>",
    "<ruby>嘔吐<rt>おうと</rt></ruby>",
    "<ruby>出血<rp></rp><rt>しゅっけつ</rt><rp></rp></ruby>",
];
/// How many ruby elements an imported text has.
const RUBY_ELEMENTS: usize = 20;

/// A text to import of 256 records, with ruby elements evenly among them. It starts with one and ends without. The
/// prose starts with this character, so that texts differ.
pub fn imported(from: usize) -> String {
    let plain = LEAFLET_RECORDS as usize - 2 * RUBY_ELEMENTS;
    let mut text = String::new();
    for (at, character) in PROSE.chars().cycle().skip(from).take(plain).enumerate() {
        // The nth element stands where its share of the prose starts.
        if let Some(nth) = (0..RUBY_ELEMENTS).find(|nth| nth * plain / RUBY_ELEMENTS == at) {
            text += RUBY[nth % RUBY.len()];
        }
        text.push(character);
    }
    text
}

/// An imported text whose last character is one that no list has.
pub fn with_last_unlisted() -> String {
    let mut text = imported(0);
    text.pop();
    text + "（"
}

/// Prose of about so many bytes and no more.
pub fn prose(bytes: usize) -> String {
    PROSE
        .chars()
        .cycle()
        .scan(0, |length, character| {
            *length += character.len_utf8();
            (*length <= bytes).then_some(character)
        })
        .collect()
}

/// A text of Western words, again and again. Full-width spaces stand between them: without these no line may end.
pub fn latin(records: u32) -> Vec<u32> {
    let words = "Acetaminophen 500mg: take 1 or 2 tablets with water, not more than 8 a day (24h). \
                 If you take a β-blocker, ask first. Café au lait is no problem. ";
    let western = words.chars().map(|character| match character {
        ' ' => record(14, SIZE),
        _ => of_class(character.into(), 27, SIZE),
    });
    repeated(western, records)
}

/// A text of groups, each of four records under ruby that is longer, so that every base row is opened.
pub fn opened(records: u32) -> Vec<u32> {
    let group = |nth| phrase_records("抗生物質", nth + 1, 9);
    (0..records.div_ceil(4)).flat_map(group).take(records as usize).flatten().collect()
}

/// A text of ideographs, of each block in turn.
pub fn rare(records: u32) -> Vec<u32> {
    let ideograph = |nth: u32| {
        let block = BLOCKS[nth as usize % BLOCKS.len()];
        of_class(block.first + 97 * nth % (block.last - block.first + 1), 19, SIZE)
    };
    (0..records).flat_map(ideograph).collect()
}

/// Texts of which no two are alike: phrases one after another, in an order of each text's own. Its seed is its number,
/// so that every run has the same texts.
pub fn leaflets() -> impl Iterator<Item = Vec<u32>> {
    (0..LEAFLETS).map(|seed| leaflet(Order(u64::from(seed))))
}

fn leaflet(mut order: Order) -> Vec<u32> {
    let records = LEAFLET_RECORDS as usize;
    let mut words: Vec<Words> = Vec::with_capacity(records);
    while words.len() < records {
        let (phrase, ruby_count) = PHRASES[order.below(PHRASES.len())];
        // A group has a number of its own: that of its first record, counted from 1.
        let group = if ruby_count == 0 { 0 } else { words.len() as u32 + 1 };
        words.extend(phrase_records(phrase, group, ruby_count));
    }
    words.truncate(records);
    words.concat()
}

/// The class of a character of the phrases.
fn class(character: char) -> u32 {
    match character {
        '(' | '「' => 1,
        ')' | '」' => 2,
        '・' => 5,
        '。' => 6,
        '、' => 7,
        '々' => 9,
        'ー' => 10,
        'ェ' | 'ッ' | 'ョ' => 11,
        '%' | '℃' => 13,
        'ぁ'..='ん' => 15,
        'ァ'..='ヺ' => 16,
        '一'..='鿿' => 19,
        '0'..='9' | 'a'..='z' => 27,
        _ => panic!("{character} has no class yet"),
    }
}

/// Numbers in an order that the seed gives, by Splitmix64.
struct Order(u64);

impl Order {
    /// The next number, below `n`.
    fn below(&mut self, n: usize) -> usize {
        self.0 = self.0.wrapping_add(0x9E37_79B9_7F4A_7C15);
        let mut z = self.0;
        z = (z ^ (z >> 30)).wrapping_mul(0xBF58_476D_1CE4_E5B9);
        z = (z ^ (z >> 27)).wrapping_mul(0x94D0_49BB_1331_11EB);
        ((z ^ (z >> 31)) % n as u64) as usize
    }
}

#[cfg(test)]
mod tests {
    use std::collections::BTreeSet;

    use super::*;

    #[test]
    fn every_character_is_of_its_class() {
        let usual = [1, 7, 14, 15, 19, 27].map(|class| record(class, SIZE)).concat();
        for words in leaflets().chain([usual, text(257), latin(256), rare(256)]) {
            for record in words.chunks(6) {
                assert!(second::in_list(record[1], record[0]), "{record:?}");
            }
        }
    }

    #[test]
    fn imported_texts_are_of_256_records() {
        for from in [0, 1] {
            let words = second::leaflet::records(imported(from).as_bytes(), SIZE).expect("a leaflet");
            let groups: BTreeSet<u32> = words.chunks(6).map(|record| record[4]).collect();
            assert_eq!((words.len() / 6, groups.len()), (LEAFLET_RECORDS as usize, RUBY_ELEMENTS + 1));
        }
        let refused = with_last_unlisted();
        assert_eq!(second::leaflet::records(refused.as_bytes(), SIZE), Err(refused.len() - '（'.len_utf8()));
        assert!((500_000 - 3..=500_000).contains(&prose(500_000).len()));
    }

    #[test]
    fn no_two_leaflets_are_alike() {
        let different: BTreeSet<Vec<u32>> = leaflets().collect();
        assert_eq!(different.len(), LEAFLETS as usize);
    }
}
