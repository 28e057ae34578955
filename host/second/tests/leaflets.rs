//! Which texts import reads, and import as its edit (document 02, request 05).

mod common;

use common::{edit, flat, k, one_slot, own, Random, CLINIC};
use second::book::Book;
use second::leaflet::by_hand::{all_refused, ACCEPTED, SIZE};
use second::leaflet::records;
use second::sheet::SLOT_WORDS;
use second::{import, set_up, Edit, Import, ImportAnswer};

fn own_import(text: &[u8]) -> Import<'_> {
    Import { caller: CLINIC, slot: 0, size: SIZE, text }
}

#[test]
fn texts_read_by_hand() {
    for case in ACCEPTED {
        assert_eq!(records(case.text.as_bytes(), SIZE), Ok(case.records()), "{}", case.name);
    }
    for case in all_refused() {
        assert_eq!(records(case.text, SIZE), Err(case.place), "{}", case.name);
    }
}

/// An accepted text cut anywhere is accepted, or is refused where it is cut or where the cut element starts.
#[test]
fn accepted_texts_cut_short() {
    for case in ACCEPTED {
        let text = case.text.as_bytes();
        for end in 0..text.len() {
            let cut = &text[..end];
            let bracket = cut.iter().rposition(|&byte| byte == b'<').filter(|&at| !cut[at..].contains(&b'>'));
            let character = (end.saturating_sub(3)..=end).rev().find(|&at| case.text.is_char_boundary(at));
            let expected = bracket.or(character);
            if let Err(place) = records(cut, SIZE) {
                assert_eq!(Some(place), expected, "{} cut at {end}", case.name);
            }
        }
    }
}

#[test]
fn import_is_its_edit() {
    for case in ACCEPTED {
        // The longest ruby takes 2,560.
        let mut by_edit = one_slot(2_560, 0);
        assert_eq!(edit(&mut by_edit, own(0, 0, &flat(&[k(); 60]))), (0, 2));
        let mut sheet = by_edit.clone();
        let edited = second::edit(&mut by_edit, own(0, 60, &case.records()));
        assert_eq!(edited.number, 0, "{}", case.name);
        assert_eq!(import(&mut sheet, own_import(case.text.as_bytes())), edited.into(), "{}", case.name);
        assert!(sheet == by_edit, "{}", case.name);
    }
}

#[test]
fn a_fault_changes_nothing_and_comes_first() {
    let mut sheet = one_slot(800, 0);
    assert_eq!(edit(&mut sheet, own(0, 0, &flat(&[k(); 30]))), (0, 3));
    let before = sheet.clone();
    for case in all_refused() {
        let fault = ImportAnswer { number: 17, redone: 0, place: case.place };
        let due = own_import(case.text);
        assert_eq!(import(&mut sheet, due), fault, "{}", case.name);
        assert_eq!(import(&mut sheet, Import { slot: 1, ..due }), fault, "{}", case.name);
        assert_eq!(import(&mut sheet, Import { caller: 0, size: 7, ..due }), fault, "{}", case.name);
        assert_eq!(import(&mut sheet[1..], due), fault, "{}", case.name);
        assert_eq!(import(&mut [], due), fault, "{}", case.name);
        assert!(sheet == before, "{}", case.name);
    }
}

/// The number and place of an import that is refused otherwise, which changes no word.
fn refused(sheet: &mut [u32], import: Import) -> (u32, usize) {
    let before = sheet.to_vec();
    let answer = second::import(sheet, import);
    assert!(answer.redone == 0 && *sheet == before);
    (answer.number, answer.place)
}

#[test]
fn edits_refusals_stand() {
    let mut sheet = one_slot(800, 0);
    let a = own_import("あ".as_bytes());
    assert_eq!(refused(&mut sheet[1..], a), (1, 0));
    assert_eq!(refused(&mut sheet, Import { slot: 1, ..a }), (2, 0));
    assert_eq!(refused(&mut sheet, Import { caller: CLINIC + 1, ..a }), (3, 0));
    assert_eq!(refused(&mut sheet, Import { caller: 0, ..a }), (3, 0));
    let many = "あ".repeat(257);
    assert_eq!(refused(&mut sheet, own_import(many.as_bytes())), (7, 0));
    assert_eq!(import(&mut sheet, own_import(&many.as_bytes()[3..])).number, 0);
    for size in [0, 4, 84, 4_008, u32::MAX] {
        assert_eq!(refused(&mut sheet, Import { size, ..a }), (8, 0));
        // Seven comes before eight.
        assert_eq!(refused(&mut sheet, Import { size, text: many.as_bytes(), ..a }), (7, 0));
        // No record has a bad size where there is none.
        assert_eq!(import(&mut sheet.clone(), Import { size, text: b"", ..a }).number, 0);
    }
    assert_eq!(refused(&mut sheet, Import { size: 808, ..a }), (10, 0));
    // A base of another class than 15, 16 and 19, and too many ruby characters.
    assert_eq!(refused(&mut sheet, own_import("あ<ruby>い5<rt>ご</rt></ruby>".as_bytes())), (8, 2));
    let ruby = |base: usize, ruby: usize| {
        format!("<ruby>{}<rt>{}</rt></ruby>", "漢".repeat(base), "か".repeat(ruby))
    };
    assert_eq!(refused(&mut sheet, own_import(ruby(1, 65).as_bytes())), (8, 0));
    assert_eq!(refused(&mut sheet, own_import(ruby(17, 1).as_bytes())), (9, 16));
    assert_eq!(refused(&mut sheet, own_import(ruby(17, 65).as_bytes())), (8, 0));
    for (in_use, number) in [(0, 14), (2, 4), (u32::MAX, 4)] {
        let mut other = sheet.clone();
        other[5] = in_use;
        assert_eq!(refused(&mut other, a), (number, 0));
        assert_eq!(refused(&mut other, own_import(b"<")), (17, 0));
    }
    sheet[3] = 257;
    assert_eq!(refused(&mut sheet, a), (4, 0));
    sheet[3] = u32::MAX;
    assert_eq!(refused(&mut sheet, a), (4, 0));
}

#[test]
fn long_texts_take_no_time() {
    let kana = "あ".repeat(350_000);
    assert_eq!(records(kana.as_bytes(), SIZE).map(|words| words.len()), Ok(6 * 350_000));
    let at_end = kana.clone() + "（";
    assert_eq!(records(at_end.as_bytes(), SIZE), Err(kana.len()));
    let open = kana.clone() + "<ruby>" + &kana;
    assert_eq!(records(open.as_bytes(), SIZE), Err(open.len()));
    let ruby = "<ruby>漢<rt>かん</rt></ruby>".repeat(30_000);
    assert_eq!(records((ruby.clone() + "<rt>").as_bytes(), SIZE), Err(ruby.len()));
}

/// Imports among edits, on the sheet and in the book.
#[test]
fn the_book_imports_likewise() {
    let mut numbers = [0; 18];
    for seed in 1..=50 {
        let mut random = Random::new(seed);
        let mut sheet = vec![0; 2 * SLOT_WORDS];
        let mut book = Book::new();
        let lists = [[1, 2], [800, 400], [0, 80]];
        set_up(&mut sheet, &lists[0], &lists[1], &lists[2]);
        book.set_up(sheet.len(), &lists[0], &lists[1], &lists[2]);
        for clinic in lists[0] {
            assert_eq!(second::take(&mut sheet, clinic), book.take(2 * SLOT_WORDS, clinic));
        }
        for _ in 0..60 {
            let slot = random.below(2);
            let caller = if random.once_in(10) { 3 } else { 1 + slot };
            if random.once_in(2) {
                let refused: Vec<_> = all_refused().collect();
                let text = match random.below(8) {
                    0 => random.one_of(&refused).text.to_vec(),
                    1 => "あ".repeat(250 + random.below(10) as usize).into_bytes(),
                    n => (0..n).flat_map(|_| random.one_of(&ACCEPTED).text.bytes()).collect(),
                };
                let import = Import { caller, slot, size: random.one_of(&[8, 8, 80, 12]), text: &text };
                let answer = second::import(&mut sheet, import);
                assert_eq!(answer, book.import(sheet.len(), import));
                numbers[answer.number as usize] += 1;
            } else {
                let count = book.record_count(slot).unwrap_or(0) as u32;
                let edit = Edit { caller, slot, place: count / 2, deleted: count / 3, inserted: &k() };
                assert_eq!(second::edit(&mut sheet, edit), book.edit(sheet.len(), edit));
            }
            assert!(book.encode() == sheet);
        }
    }
    for number in [0, 3, 7, 8, 17] {
        assert!(numbers[number] > 10, "{number} came up {} times", numbers[number]);
    }
}

#[test]
fn before_set_up_the_book_imports_nothing() {
    let mut book = Book::new();
    let a = own_import("あ".as_bytes());
    assert_eq!(book.import(SLOT_WORDS + 1, a).number, 1);
    assert_eq!(book.import(SLOT_WORDS, Import { slot: 1, ..a }).number, 2);
    assert_eq!(book.import(SLOT_WORDS, a).number, 3);
    assert_eq!(book.import(SLOT_WORDS + 1, own_import(b"<")), ImportAnswer::text_fault(0));
}
