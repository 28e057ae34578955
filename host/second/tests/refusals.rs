//! Every refusal but 8, 12, 9 and 13 with its place, and the order in which they are checked (document 01, "Refusal
//! numbers, in the order they are checked").

mod common;

use common::{compose, edit, flat, grouped, k, one_slot, own, plain, refused, take, CLINIC, COMMA_AS_19};
use second::{read, read_number, set_up, slot_words, Answer, Edit, EditAnswer};

const SLOT: usize = 2_824;
const BIG: u32 = u32::MAX;

fn answer(number: u32, place: u32) -> Answer {
    Answer { number, place }
}

/// Set-up's answer on a sheet of junk of this length; checks that a refusal changes no word.
fn set_up_answer(length: usize, clinics: &[u32], measures: &[u32], indents: &[u32]) -> (u32, u32) {
    let mut sheet = vec![0xDEAD; length];
    let answer = set_up(&mut sheet, clinics, measures, indents);
    if answer.number != 0 {
        assert!(sheet.iter().all(|&word| word == 0xDEAD));
    }
    (answer.number, answer.place)
}

#[test]
fn set_up_empties_every_slot() {
    let mut sheet = vec![BIG; 2 * SLOT];
    assert_eq!(set_up(&mut sheet, &[0, 65_535], &[8, 1_000_000], &[7, 0]), answer(0, 2));
    let mut expected = vec![0; 2 * SLOT];
    expected[..3].copy_from_slice(&[0, 8, 7]);
    expected[SLOT..SLOT + 3].copy_from_slice(&[65_535, 1_000_000, 0]);
    assert_eq!(sheet, expected);
}

#[test]
fn set_up_number_1() {
    for length in [0, 1, SLOT - 1, SLOT + 1, 65 * SLOT] {
        let slots = length / SLOT;
        let lists = (vec![1; slots], vec![80; slots], vec![0; slots]);
        assert_eq!(set_up_answer(length, &lists.0, &lists.1, &lists.2), (1, 0), "{length}");
    }
    for (clinics, measures, indents) in [(1, 2, 2), (2, 1, 2), (2, 2, 3), (0, 2, 2), (2, 2, 0)] {
        let lists = (vec![1; clinics], vec![80; measures], vec![0; indents]);
        assert_eq!(set_up_answer(2 * SLOT, &lists.0, &lists.1, &lists.2), (1, 0));
    }
    let full = (vec![1; 64], vec![80; 64], vec![0; 64]);
    assert_eq!(set_up_answer(64 * SLOT, &full.0, &full.1, &full.2), (0, 64));
}

#[test]
fn set_up_number_11() {
    for (clinic, measure, indent) in [
        (65_536, 80, 0),
        (BIG, 80, 0),
        (1, 7, 0),
        (1, 0, 0),
        (1, 1_000_001, 0),
        (1, BIG, 0),
        (1, 80, 80),
        (1, 80, BIG),
    ] {
        let two = set_up_answer(2 * SLOT, &[1, clinic], &[80, measure], &[0, indent]);
        assert_eq!(two, (11, 1), "{clinic} {measure} {indent}");
        let both = set_up_answer(2 * SLOT, &[clinic, clinic], &[measure; 2], &[indent; 2]);
        assert_eq!(both, (11, 0));
        // 1 comes before 11.
        assert_eq!(set_up_answer(2 * SLOT, &[clinic], &[measure], &[indent]), (1, 0));
    }
}

#[test]
fn each_number_comes_before_the_next() {
    // A call with every fault; each step mends the one just answered.
    let broken = [grouped(16, 1, 3), grouped(8, 1, 3), plain(19, 4_000), COMMA_AS_19, [0; 6]];
    let mut long = flat(&broken).repeat(60);
    long.push(0);
    let every_fault = Edit { caller: 0, slot: 2, ..own(9, BIG, &long) };
    let mut sheet = vec![0; 2 * SLOT + 1];
    assert_eq!(refused(&mut sheet, every_fault), (1, 0));
    sheet.pop();
    assert_eq!(set_up(&mut sheet, &[CLINIC, 9], &[800, 800], &[0, 0]), answer(0, 2));
    assert_eq!(take(&mut sheet, CLINIC), (0, 0));
    assert_eq!(edit(&mut sheet, own(0, 0, &flat(&[k(); 2]))), (0, 1));
    let sound = sheet.clone();
    (sheet[1], sheet[5]) = (0, 0);
    assert_eq!(refused(&mut sheet, every_fault), (2, 0));
    assert_eq!(refused(&mut sheet, Edit { slot: 0, ..every_fault }), (3, 0));
    assert_eq!(refused(&mut sheet, Edit { caller: 9, slot: 0, ..every_fault }), (3, 0));
    assert_eq!(refused(&mut sheet, own(9, BIG, &long)), (14, 0));
    sheet[5] = 1;
    assert_eq!(refused(&mut sheet, own(9, BIG, &long)), (4, 0));
    sheet = sound;
    assert_eq!(refused(&mut sheet, own(9, BIG, &long)), (5, 2));
    assert_eq!(refused(&mut sheet, own(1, 0, &long)), (6, 0));
    long.pop();
    assert_eq!(refused(&mut sheet, own(1, 0, &long)), (7, 0));
    assert_eq!(refused(&mut sheet, own(1, 0, &flat(&broken))), (8, 5));
    assert_eq!(refused(&mut sheet, own(1, 0, &flat(&broken[..4]))), (12, 4));
    assert_eq!(refused(&mut sheet, own(1, 0, &flat(&broken[..3]))), (9, 2));
    assert_eq!(refused(&mut sheet, own(1, 0, &flat(&broken[1..3]))), (10, 2));
    assert_eq!(edit(&mut sheet, own(1, 0, &flat(&broken[1..2]))), (0, 1));
}

#[test]
fn number_1() {
    for length in [0, 1, SLOT - 1, SLOT + 1, 65 * SLOT] {
        let mut sheet = vec![1; length];
        assert_eq!(refused(&mut sheet, Edit { caller: 1, ..own(0, 0, &[]) }), (1, 0), "{length}");
        assert_eq!(read_number(&sheet, 1, 0), 1);
        assert_eq!(read(&sheet, 1, 0), 0..0);
    }
}

#[test]
fn number_2() {
    let mut sheet = one_slot(800, 0);
    for slot in [1, 64, BIG] {
        assert_eq!(refused(&mut sheet, Edit { slot, ..own(0, 0, &[]) }), (2, 0));
        assert_eq!(read_number(&sheet, CLINIC, slot), 2);
        assert_eq!(read(&sheet, CLINIC, slot), 0..0);
    }
}

#[test]
fn number_3() {
    let mut sheet = one_slot(800, 0);
    for caller in [0, 8, CLINIC + 65_536, BIG] {
        assert_eq!(refused(&mut sheet, Edit { caller, ..own(0, 0, &[]) }), (3, 0));
        assert_eq!(read_number(&sheet, caller, 0), 3);
        assert_eq!(read(&sheet, caller, 0), 0..0);
    }
    // Nobody is the caller of an unassigned slot.
    sheet[0] = 0;
    assert_eq!(refused(&mut sheet, Edit { caller: 0, ..own(0, 0, &[]) }), (3, 0));
    assert_eq!(read_number(&sheet, 0, 0), 3);
    // The table does not judge a stored clinic: its own caller gets in.
    sheet[0] = BIG;
    assert_eq!(edit(&mut sheet, Edit { caller: BIG, ..own(0, 0, &[]) }), (0, 0));
}

#[test]
fn number_4() {
    let mut sound = one_slot(800, 100);
    let text = [k(), grouped(80, 1, 2), grouped(80, 1, 2)];
    assert_eq!(edit(&mut sound, own(0, 0, &flat(&text))), (0, 1));
    // Measure, indent, count, in-use word, a record's own rules, its class's list, a group rule, a wide run.
    let damages = [
        (1, 7),
        (1, 1_000_001),
        (2, 800),
        (3, 257),
        (3, BIG),
        (3, 4),
        (5, 2),
        (5, BIG),
        (9, 17),
        (8, u32::from('、')),
        (9, 15),
        (8 + 12, u32::from('、')),
        (8 + 12 + 5, 3),
        (1, 159),
    ];
    for (at, word) in damages {
        let mut sheet = sound.clone();
        sheet[at] = word;
        assert_eq!(refused(&mut sheet, own(0, 3, &[])), (4, 0), "word {at} = {word}");
        assert_eq!(refused(&mut sheet, Edit { caller: 8, ..own(0, 3, &[]) }), (3, 0));
    }
    // Past the count, in the line count, in the spare words, places and lines, nothing is judged.
    for (at, word) in [(4, BIG), (6, 1), (7, BIG), (26, BIG), (1_544, BIG), (2_056, BIG)] {
        let mut sheet = sound.clone();
        sheet[at] = word;
        assert_eq!(edit(&mut sheet, own(0, 0, &[])), (0, 1), "word {at} = {word}");
        assert_eq!(sheet, sound, "an accepted edit writes the zeros too");
    }
}

#[test]
fn a_read_judges_the_line_count_and_the_in_use_word_only() {
    let mut sheet = one_slot(800, 0);
    assert_eq!((read_number(&sheet, CLINIC, 0), read(&sheet, CLINIC, 0).len()), (0, 0));
    sheet[1..4].fill(BIG);
    sheet[4] = 256;
    assert_eq!(read_number(&sheet, CLINIC, 0), 0);
    assert_eq!(read(&sheet, CLINIC, 0), 2_056..2_824);
    for (at, word) in [(4, 257), (4, BIG), (5, 2), (5, BIG)] {
        let mut damaged = sheet.clone();
        damaged[at] = word;
        assert_eq!(read_number(&damaged, CLINIC, 0), 4);
        assert_eq!(read(&damaged, CLINIC, 0), 0..0);
        assert_eq!(read_number(&damaged, 8, 0), 3);
        damaged[5] = 0;
        assert_eq!(read_number(&damaged, CLINIC, 0), 14);
        assert_eq!(read(&damaged, CLINIC, 0), 0..0);
    }
}

#[test]
fn number_5() {
    let mut sheet = one_slot(800, 0);
    assert_eq!(edit(&mut sheet, own(0, 0, &flat(&[k(); 3]))), (0, 1));
    for (place, deleted) in [(4, 0), (3, 1), (0, 4), (1, BIG), (BIG, 1), (BIG, BIG), (BIG, 0)] {
        assert_eq!(refused(&mut sheet, own(place, deleted, &[])), (5, 3), "{place} {deleted}");
    }
    assert_eq!(edit(&mut sheet, own(3, 0, &[])), (0, 1));
    assert_eq!(edit(&mut sheet, own(0, 3, &[])), (0, 0));
}

#[test]
fn number_6_and_7() {
    let mut sheet = one_slot(8_000, 0);
    assert_eq!(refused(&mut sheet, own(0, 0, &[0; 5])), (6, 0));
    assert_eq!(refused(&mut sheet, own(0, 0, &[0; 6 * 300 + 1])), (6, 0));
    assert_eq!(refused(&mut sheet, own(0, 0, &[0; 6 * 257])), (7, 0));
    assert_eq!(edit(&mut sheet, own(0, 0, &flat(&[k(); 256]))).0, 0);
    assert_eq!(refused(&mut sheet, own(128, 0, &flat(&[k()]))), (7, 0));
    assert_eq!(refused(&mut sheet, own(128, 3, &flat(&[k(); 4]))), (7, 0));
    assert_eq!(edit(&mut sheet, own(128, 4, &flat(&[k(); 4]))).0, 0);
}

#[test]
fn number_10() {
    // The indent counts in the first run only.
    assert_eq!(compose(&[k(), k()], 100, 20), (0, 2));
    assert_eq!(compose(&[k(), k()], 100, 21), (10, 0));
    // The first wide run is named, by its first record.
    let wide = [k(), grouped(80, 1, 1), grouped(80, 1, 1), plain(1, 80), k(), plain(7, 80)];
    assert_eq!(compose(&wide, 160, 0), (0, 3));
    assert_eq!(compose(&wide, 159, 0), (10, 1));
    assert_eq!(compose(&wide[..1], 159, 0), (0, 1));
    let inner = [k(), plain(1, 80), k(), plain(7, 80), plain(1, 80), k(), plain(7, 80)];
    assert_eq!(compose(&inner, 159, 0), (10, 1));
}

#[test]
fn slot_words_answers_as_the_edit_of_a_slot_just_taken() {
    let refusal = |number, place| EditAnswer { number, place, redone: 0 };
    assert_eq!(slot_words(1, 7, 0, &[]), Err(refusal(4, 0)));
    assert_eq!(slot_words(1, 80, 80, &[]), Err(refusal(4, 0)));
    assert_eq!(slot_words(1, 80, 0, &[0; 7]), Err(refusal(6, 0)));
    assert_eq!(slot_words(1, 80, 0, &[0; 6 * 257]), Err(refusal(7, 0)));
    assert_eq!(slot_words(1, 80, 0, &[0; 6]), Err(refusal(8, 0)));
    assert_eq!(slot_words(1, 80, 0, &COMMA_AS_19), Err(refusal(12, 0)));
    assert_eq!(slot_words(1, 80, 0, &flat(&[grouped(8, 1, 1); 17])), Err(refusal(9, 16)));
    assert_eq!(slot_words(1, 79, 0, &flat(&[k()])), Err(refusal(10, 0)));
    let fresh = slot_words(1, 80, 0, &[]);
    assert_eq!(fresh.map(|words| (words.len(), words[..6].to_vec())), Ok((SLOT, vec![1, 80, 0, 0, 0, 1])));
}
