//! The lists of Annex A with the unified ideographs, and answer 12 (document 02, request 04).

mod common;

use common::{
    compose, edit, flat, grouped, k, listed, one_slot, own, plain, refused, Words, CLINIC, COMMA_AS_19,
};
use second::book::Book;
use second::lists::{annex_a, unified_ideographs, usual, BLOCKS, COMPATIBILITY, LISTS, USUAL};
use second::sheet::SLOT_WORDS;
use second::{class_of, in_list, Edit};

/// How many characters Annex A has for each class, counted on the paper.
const COUNTS: [(u32, usize); 18] = [
    (1, 16),
    (2, 16),
    (3, 4),
    (4, 6),
    (5, 3),
    (6, 2),
    (7, 2),
    (8, 6),
    (9, 6),
    (10, 1),
    (11, 40),
    (12, 6),
    (13, 32),
    (14, 1),
    (15, 74),
    (16, 78),
    (19, 464),
    (27, 767),
];

/// How many code points have the property in Unicode 15.1.
const UNIFIED_IDEOGRAPHS: usize = 97_680;

fn code_points() -> impl Iterator<Item = u32> {
    0..=0x11_FFFF
}

fn holds(class: u32, character: char) -> bool {
    in_list(class, character.into())
}

#[test]
fn each_list_has_its_characters_and_no_others() {
    assert_eq!(LISTS.map(|(class, characters)| (class, characters.chars().count())), COUNTS);
    for (class, count) in COUNTS {
        assert!(annex_a(class).all(|character| holds(class, character)), "class {class}");
        let held = code_points().filter(|&code_point| in_list(class, code_point)).count();
        // 仝 is among both.
        let ideographs = if class == 19 { UNIFIED_IDEOGRAPHS - 1 } else { 0 };
        assert_eq!(held, count + ideographs, "class {class}");
    }
}

#[test]
fn other_numbers_have_no_list() {
    for class in [0, 17, 18].into_iter().chain(20..27).chain(28..70).chain([19 + 32, 27 + 64, u32::MAX]) {
        assert!(!code_points().any(|code_point| in_list(class, code_point)), "class {class}");
    }
    for code_point in [0x11_0000, 0x8000_3001, u32::MAX] {
        assert!(!(0..70).any(|class| in_list(class, code_point)), "{code_point:#X}");
        assert_eq!(class_of(code_point), None);
    }
}

#[test]
fn ideographs_of_every_block() {
    assert_eq!(unified_ideographs().count(), UNIFIED_IDEOGRAPHS);
    assert!(unified_ideographs().all(|code_point| in_list(19, code_point)));
    for block in BLOCKS {
        let ends = [block.first - 1, block.first, block.last, block.last + 1];
        assert_eq!(ends.map(|end| in_list(19, end)), [false, true, true, false], "{}", block.name);
    }
    assert!(COMPATIBILITY.iter().all(|&character| holds(19, character)));
    // The first of that block, the one after it and its last are compatibility ideographs.
    assert!(!['\u{F900}', '\u{FA0D}', '\u{FA10}', '\u{FAD9}'].iter().any(|&character| holds(19, character)));
}

#[test]
fn characters_of_two_lists() {
    for (character, classes) in [
        ('(', &[1, 27][..]),
        ('A', &[19, 27]),
        ('5', &[19, 27]),
        ('%', &[13, 27]),
        ('—', &[8, 27]),
        ('・', &[5]),
        ('、', &[7]),
        ('仝', &[19]),
        ('Ⅻ', &[19]),
        ('々', &[9]),
        // Only remarks name this one.
        ('\u{2015}', &[]),
        ('（', &[]),
        ('５', &[]),
        // The half of an entry of two code points.
        ('\u{309A}', &[]),
        (' ', &[]),
        ('\u{A0}', &[27]),
    ] {
        let having: Vec<u32> = (0..40).filter(|&class| holds(class, character)).collect();
        assert_eq!(having, classes, "{character:?}");
    }
}

#[test]
fn the_class_of_a_character() {
    for (character, class) in [
        ('(', Some(27)),
        ('A', Some(27)),
        ('%', Some(27)),
        ('「', Some(1)),
        ('、', Some(7)),
        ('漢', Some(19)),
        ('𠮷', Some(19)),
        ('Ⅻ', Some(19)),
        ('ァ', Some(11)),
        ('ア', Some(16)),
        ('\u{3000}', Some(14)),
        ('（', None),
        ('\u{2015}', None),
        ('\0', None),
    ] {
        assert_eq!(class_of(character.into()), class, "{character:?}");
    }
    // 27 if that list has it, otherwise the lowest-numbered list's.
    let order = [27].into_iter().chain(1..=16).chain([19]).collect::<Vec<u32>>();
    for code_point in code_points() {
        let first = order.iter().copied().find(|&class| in_list(class, code_point));
        assert_eq!(class_of(code_point), first, "{code_point:#X}");
    }
}

#[test]
fn usual_characters_are_of_their_classes() {
    assert_eq!(USUAL.map(|(class, _)| class), LISTS.map(|(class, _)| class));
    assert!(USUAL.iter().all(|&(class, character)| holds(class, character)));
    assert_eq!([0, 17, 28].map(usual), [None; 3]);
}

/// Every character of every list, as many at once as a slot holds.
#[test]
fn a_character_of_the_list_is_accepted() {
    for (class, _) in LISTS {
        let of_class = |character: char| {
            let mut record = plain(class, 8);
            record[0] = character.into();
            record
        };
        let records: Vec<Words> = annex_a(class).map(of_class).collect();
        for text in records.chunks(256) {
            assert_eq!(compose(text, 1_000_000, 0), (0, 1), "class {class}");
        }
    }
}

#[test]
fn number_12_names_the_first() {
    assert_eq!(compose(&[COMMA_AS_19], 800, 0), (12, 0));
    assert_eq!(compose(&[k(), COMMA_AS_19, k(), COMMA_AS_19], 800, 0), (12, 1));
    let mut sheet = one_slot(800, 0);
    assert_eq!(edit(&mut sheet, own(0, 0, &flat(&[k(); 3]))), (0, 1));
    // The number is counted in the whole paragraph.
    assert_eq!(refused(&mut sheet, own(2, 1, &flat(&[k(), COMMA_AS_19]))), (12, 3));
    assert_eq!(refused(&mut sheet, own(0, 3, &COMMA_AS_19)), (12, 0));
}

#[test]
fn number_12_comes_after_8_and_before_9_and_10() {
    let breaks_8 = [listed(19), 19, 80, 79, 0, 0];
    let breaks_9 = [grouped(80, 1, 2), grouped(80, 1, 3)];
    let wide = plain(19, 4_000);
    assert_eq!(compose(&[COMMA_AS_19, k(), breaks_8], 800, 0), (8, 2));
    assert_eq!(compose(&[breaks_9[0], breaks_9[1], COMMA_AS_19], 800, 0), (12, 2));
    assert_eq!(compose(&[wide, COMMA_AS_19], 800, 0), (12, 1));
    assert_eq!(compose(&[breaks_9[0], breaks_9[1], wide, COMMA_AS_19, breaks_8], 800, 0), (8, 4));
    // A record that falls under 8 is not asked for its list first.
    let mut both = COMMA_AS_19;
    both[3] = 1;
    assert_eq!(compose(&[both], 800, 0), (8, 0));
}

/// An inserted record may make a stored group break its rule, which comes later.
#[test]
fn number_12_comes_before_9_of_stored_records() {
    let mut sheet = one_slot(800, 0);
    let text = [grouped(16, 1, 2), k(), grouped(8, 1, 2), k()];
    assert_eq!(edit(&mut sheet, own(0, 0, &flat(&text))), (0, 1));
    assert_eq!(refused(&mut sheet, own(1, 1, &[])), (9, 1));
    assert_eq!(refused(&mut sheet, own(1, 1, &COMMA_AS_19)), (12, 1));
}

#[test]
fn number_4_covers_12() {
    let mut sound = one_slot(800, 0);
    assert_eq!(edit(&mut sound, own(0, 0, &flat(&[k(), plain(15, 80), plain(1, 80), k()]))), (0, 1));
    // Code points and classes under which each record keeps its own rules.
    for (at, word) in
        [(8, '、'), (8, '（'), (8 + 6, 'ア'), (8 + 12, '」')].map(|(at, word)| (at, word.into()))
    {
        let mut sheet = sound.clone();
        sheet[at] = word;
        assert_eq!(refused(&mut sheet, own(0, 0, &[])), (4, 0), "word {at} = {word}");
        // Not even the edit that would delete it.
        assert_eq!(refused(&mut sheet, own(0, 4, &[])), (4, 0), "word {at} = {word}");
    }
    for (at, class) in [(9, 16), (15, 19), (21, 2)] {
        let mut sheet = sound.clone();
        sheet[at] = class;
        assert_eq!(refused(&mut sheet, own(0, 0, &[])), (4, 0), "word {at} = {class}");
    }
    // Past the count nothing is judged.
    let mut sheet = sound.clone();
    sheet[8 + 24..][..6].copy_from_slice(&COMMA_AS_19);
    assert_eq!(edit(&mut sheet, own(0, 0, &[])), (0, 1));
    assert_eq!(sheet, sound);
}

#[test]
fn the_book_refuses_with_12_too() {
    let mut book = Book::new();
    assert_eq!(book.set_up(SLOT_WORDS, &[CLINIC], &[800], &[0]).number, 0);
    assert_eq!(book.take(SLOT_WORDS, CLINIC).number, 0);
    let text = flat(&[k(); 3]);
    assert_eq!(book.edit(SLOT_WORDS, own(0, 0, &text)).number, 0);
    let before = book.encode();
    let inserted = flat(&[k(), COMMA_AS_19]);
    let answer = book.edit(SLOT_WORDS, Edit { deleted: 1, ..own(2, 0, &inserted) });
    assert_eq!((answer.number, answer.place, answer.redone), (12, 3, 0));
    assert_eq!(book.encode(), before);
}
