//! Slots taken and given back (document 02, request 07).

mod common;

use common::{edit, flat, k, one_slot, own, take, CLINIC};
use second::book::Book;
use second::by_hand::{UseCase, TAKES, USES, USES_SET_UP};
use second::sheet::SLOT_WORDS;
use second::{give_back, read, read_number, set_up, Answer, Edit};

const BIG: u32 = u32::MAX;

#[test]
fn every_taking_by_hand() {
    for case in TAKES {
        let mut sheet = case.sheet();
        let answer = second::take(&mut sheet, case.caller);
        assert_eq!((answer, sheet), case.expected(), "{}", case.name);
    }
}

/// Number and place.
fn given_back(sheet: &mut [u32], caller: u32, slot: u32) -> (u32, u32) {
    let answer = give_back(sheet, caller, slot);
    (answer.number, answer.place)
}

/// The sheet of a case, its words written over.
fn sheet_of(case: &UseCase) -> Vec<u32> {
    let mut sheet = vec![BIG; 2 * SLOT_WORDS];
    let [clinics, measures, indents] = USES_SET_UP;
    assert_eq!(set_up(&mut sheet, &clinics, &measures, &indents).number, 0);
    assert_eq!(take(&mut sheet, CLINIC), (0, 0));
    assert_eq!(edit(&mut sheet, own(0, 0, &UseCase::records())), (0, 2));
    case.damages.iter().for_each(|&(at, word)| sheet[at] = word);
    sheet
}

#[test]
fn every_call_by_hand() {
    for case in USES {
        let sheet = sheet_of(&case);
        let (caller, slot) = case.call;
        let mut edited = sheet.clone();
        let answer = second::edit(&mut edited, Edit { caller, slot, ..own(0, 0, &[]) });
        let mut emptied = sheet.clone();
        let (given, place) = given_back(&mut emptied, caller, slot);
        let numbers = [answer.number, read_number(&sheet, caller, slot), given];
        assert_eq!(numbers, case.numbers, "{}", case.name);
        assert_eq!(place, 0, "{}", case.name);
        if answer.number != 0 {
            assert_eq!((answer.place, answer.redone), (0, 0), "{}", case.name);
            assert!(edited == sheet, "{}", case.name);
        }
        if numbers[1] != 0 {
            assert_eq!(read(&sheet, caller, slot), 0..0, "{}", case.name);
        }
        let expected = match given {
            0 => [UseCase::given_back(), sheet[SLOT_WORDS..].to_vec()].concat(),
            _ => sheet,
        };
        assert!(emptied == expected, "{}", case.name);
    }
}

#[test]
fn wrong_lengths() {
    for length in [0, 1, SLOT_WORDS - 1, SLOT_WORDS + 1, 65 * SLOT_WORDS] {
        let mut sheet = vec![0; length];
        for caller in [0, 7] {
            assert_eq!(take(&mut sheet, caller), (1, 0), "{length}");
            assert_eq!(given_back(&mut sheet, caller, 0), (1, 0), "{length}");
        }
        assert!(sheet.iter().all(|&word| word == 0));
    }
    // The largest sheet, down to its last slot.
    let mut sheet = vec![1; 64 * SLOT_WORDS];
    sheet[63 * SLOT_WORDS + 5] = 0;
    assert_eq!(take(&mut sheet, 1), (0, 63));
    assert_eq!(take(&mut sheet, 1), (13, 0));
}

/// Slots 0, 2 and 4 are clinic 7's, 1 and 3 clinic 9's.
#[test]
fn takings_and_givings_back_of_two_clinics() {
    let mut sheet = vec![BIG; 5 * SLOT_WORDS];
    let mut book = Book::new();
    let lists = [[7, 9, 7, 9, 7], [800; 5], [0; 5]];
    set_up(&mut sheet, &lists[0], &lists[1], &lists[2]);
    book.set_up(sheet.len(), &lists[0], &lists[1], &lists[2]);
    // The caller, the slot to give back or none to take one, and the number and place.
    let calls = [
        (7, None, (0, 0)),
        (7, None, (0, 2)),
        (9, None, (0, 1)),
        (9, None, (0, 3)),
        (9, None, (13, 0)),
        (7, None, (0, 4)),
        (7, None, (13, 0)),
        (9, Some(2), (3, 0)),
        (7, Some(2), (0, 0)),
        (7, Some(2), (14, 0)),
        (9, None, (13, 0)),
        (7, Some(0), (0, 0)),
        (7, None, (0, 0)),
        (7, None, (0, 2)),
        (9, Some(3), (0, 0)),
        (7, None, (13, 0)),
        (9, None, (0, 3)),
    ];
    for (i, (caller, slot, (number, place))) in calls.into_iter().enumerate() {
        let (answer, in_book) = match slot {
            None => (second::take(&mut sheet, caller), book.take(5 * SLOT_WORDS, caller)),
            Some(slot) => (give_back(&mut sheet, caller, slot), book.give_back(5 * SLOT_WORDS, caller, slot)),
        };
        assert_eq!((answer, in_book), (Answer { number, place }, Answer { number, place }), "call {i}");
        assert!(sheet == book.encode(), "call {i}");
    }
}

/// An edit keeps the word, accepted or refused, and a slot taken again is as fresh as before.
#[test]
fn the_word_through_edits() {
    let mut sheet = one_slot(440, 20);
    let taken = sheet.clone();
    assert_eq!(edit(&mut sheet, own(0, 0, &flat(&[k(); 12]))), (0, 3));
    assert_eq!(sheet[5], 1);
    assert_eq!(edit(&mut sheet, own(13, 0, &[])), (5, 12));
    assert_eq!(sheet[5], 1);
    assert_eq!(take(&mut sheet, CLINIC), (13, 0));
    // Whatever stands past the counts goes too.
    for at in (6..8).chain(8 + 6 * 12..1_544).chain(1_544 + 24..2_056).chain(2_056 + 9..SLOT_WORDS) {
        sheet[at] = BIG;
    }
    assert_eq!(given_back(&mut sheet, CLINIC, 0), (0, 0));
    assert_eq!(sheet[..3], [CLINIC, 440, 20]);
    assert!(sheet[3..].iter().all(|&word| word == 0));
    assert_eq!(edit(&mut sheet, own(0, 0, &[])), (14, 0));
    assert_eq!(take(&mut sheet, CLINIC), (0, 0));
    assert_eq!(sheet, taken);
}
