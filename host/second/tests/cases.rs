//! C1 to C13 (document 01, "Composed by hand"), and the cases of document 02's requests.

mod common;

use common::{edit, flat, k, one_slot, own, CLINIC};
use second::by_hand::{GROUPS, PAPERS, RUBY};
use second::{ruby_place, RubyPlace};

#[test]
fn every_word_of_every_case() {
    for case in PAPERS.into_iter().flat_map(|(_, cases)| cases) {
        let mut sheet = one_slot(case.measure, 0);
        let answer = second::edit(&mut sheet, own(0, 0, &flat(case.records)));
        let (expected, words) = case.expected(CLINIC);
        assert_eq!(answer, expected, "{} at measure {}", case.name, case.measure);
        let differing = sheet.iter().zip(&words).position(|(a, b)| a != b);
        assert_eq!(differing, None, "{} at measure {}: this word differs", case.name, case.measure);
    }
}

#[test]
fn c3_whole() {
    let mut sheet = one_slot(440, 0);
    let inserted = flat(&[k(); 6]);
    assert_eq!(edit(&mut sheet, own(0, 0, &inserted)), (0, 2));

    let mut expected = vec![0; 2_824];
    expected[..8].copy_from_slice(&[CLINIC, 440, 0, 6, 2, 1, 0, 0]);
    expected[8..44].copy_from_slice(&inserted);
    expected[1_544..1_556].copy_from_slice(&[0, 0, 90, 0, 180, 0, 270, 0, 360, 0, 0, 1]);
    expected[2_056..2_062].copy_from_slice(&[0, 440, 1, 5, 80, 3]);
    assert_eq!(sheet, expected);
    assert_eq!(second::slot_words(CLINIC, 440, 0, &inserted), Ok(expected));
}

#[test]
fn both_rows_of_every_group() {
    for group in GROUPS {
        let mut sheet = one_slot(group.measure(), 0);
        let answer = second::edit(&mut sheet, own(0, 0, &flat(&group.records())));
        assert_eq!((answer, sheet), group.expected(CLINIC), "{}", group.name());
        row_of_ruby(group.base_advance(), group.size, group.ruby);
    }
}

#[test]
fn ruby_over_any_base_advance() {
    for (base_advance, size, offsets) in RUBY {
        row_of_ruby(base_advance, size, offsets);
    }
}

fn row_of_ruby(base_advance: u32, size: u32, offsets: &[u32]) {
    let count = offsets.len() as u32;
    let places: Vec<RubyPlace> = (0..count).map(|k| ruby_place(base_advance, count, size, k)).collect();
    let expected: Vec<RubyPlace> = offsets.iter().map(|&offset| RubyPlace { number: 0, offset }).collect();
    assert_eq!(places, expected, "{count} of size {size} over {base_advance}");
}
