//! Edits with a fault: what goes in is changed, or what comes out is spoiled.

use second::{in_list, Edit, EditAnswer};

use super::altered::{with_head_word, with_texts_as};
use super::fault::Fault;
use super::slots::{slot_words_mut, spoil_next_slot, whole_slots};
use super::spoiled::spoil_slot;
use crate::calls::Words;
use crate::generate::usual;
use crate::layout::{slot_words, SLOT};
use crate::program::{Program, Second};

/// The edit with this fault.
pub fn with_fault(fault: Fault, sheet: &mut [u32], edit: Edit<'_>) -> EditAnswer {
    let before = sheet.to_vec();
    let answer = with_changed_input(fault, sheet, edit);
    with_spoiled_output(fault, sheet, edit, &before, answer)
}

/// The edit where the fault lies in what goes in.
fn with_changed_input(fault: Fault, sheet: &mut [u32], edit: Edit<'_>) -> EditAnswer {
    let slots = (sheet.len() / SLOT).max(1) as u32;
    let clinic = slot_words(sheet, edit.slot).map_or(0, |words| words[0]);
    match fault {
        Fault::NaturalBreaks => with_records_as(sheet, edit, |record| class_as(record, 7, 6)),
        Fault::ClassAs(class, other) => with_records_as(sheet, edit, |record| class_as(record, class, other)),
        Fault::NarrowRuby => with_records_as(sheet, edit, with_one_ruby),
        Fault::DashesAlike => with_records_as(sheet, edit, with_one_dash),
        Fault::DigitParted => with_records_as(sheet, edit, |record| {
            western_as(record, |character| character.is_ascii_digit(), 'a')
        }),
        Fault::NineParted => {
            with_records_as(sheet, edit, |record| western_as(record, |character| character == '9', 'a'))
        }
        Fault::LetterHeld => with_records_as(sheet, edit, |record| western_as(record, |_| true, '5')),
        Fault::NumericHeld => {
            with_records_as(sheet, edit, |record| western_as(record, char::is_numeric, '5'))
        }
        Fault::Listed(mislisting) => mislisting.edit(sheet, edit),
        Fault::Used(misuse) => misuse.edit(sheet, edit),
        Fault::LargeSizes => with_records_as(sheet, edit, with_size_in_limits),
        Fault::CallerZero if edit.caller == 0 && clinic == 0 => {
            with_head_word(sheet, Edit { caller: 1, ..edit }, 0, 1)
        }
        Fault::ShortCaller if edit.caller % 65_536 == clinic => {
            Second.edit(sheet, Edit { caller: clinic, ..edit })
        }
        Fault::SlotWraps => Second.edit(sheet, Edit { slot: edit.slot % slots, ..edit }),
        Fault::LooseLength => Second.edit(whole_slots(sheet), edit),
        Fault::IndentForgotten => with_head_word(sheet, edit, 2, 0),
        Fault::DeletionWraps if edit.place.checked_add(edit.deleted).is_none() => {
            Second.edit(sheet, Edit { place: 0, deleted: 0, ..edit })
        }
        _ => Second.edit(sheet, edit),
    }
}

/// The edit in which records are set as if they were others. One that its class's list lacks stays as it is, so that
/// it is refused as it should be.
fn with_records_as(sheet: &mut [u32], edit: Edit<'_>, other: impl Fn(Words) -> Words) -> EditAnswer {
    let other = |record: Words| if in_list(record[1], record[0]) { other(record) } else { record };
    with_texts_as(sheet, edit, other, other)
}

/// The answer and words where the fault lies in what comes out.
fn with_spoiled_output(
    fault: Fault,
    sheet: &mut [u32],
    edit: Edit<'_>,
    before: &[u32],
    answer: EditAnswer,
) -> EditAnswer {
    let old = slot_words(before, edit.slot).unwrap_or(&[]);
    let Some(slot) = slot_words_mut(sheet, edit.slot) else { return answer };
    match (fault, answer.number) {
        (Fault::Redone(misreading), number) => {
            EditAnswer { redone: misreading.report(old, slot, &edit, number == 0), ..answer }
        }
        (Fault::RefuseAll, 0) => {
            slot.copy_from_slice(old);
            another(10, 0)
        }
        (Fault::NextSlot, 0) => {
            spoil_next_slot(sheet, edit.slot);
            answer
        }
        (Fault::OldLineCount, 0) => {
            slot[4] = old[4];
            EditAnswer { place: old[4], ..answer }
        }
        (Fault::RefusalWrites, 10) => {
            slot[6] = 1;
            answer
        }
        (Fault::StoredUnjudged, 4) => another(0, old[4]),
        (_, 0) => {
            spoil_slot(fault, slot, old);
            answer
        }
        _ => spoiled_refusal(fault, edit, old, answer),
    }
}

/// Another answer than the right one.
fn another(number: u32, place: u32) -> EditAnswer {
    EditAnswer { number, place, redone: 0 }
}

fn spoiled_refusal(fault: Fault, edit: Edit<'_>, old: &[u32], answer: EditAnswer) -> EditAnswer {
    match (fault, answer.number) {
        (Fault::DamageBeforeCaller, 3) if !(8..=1_000_000).contains(&old[1]) => another(4, 0),
        (Fault::FiveNamesPlace, 5) => another(5, edit.place),
        (Fault::SevenBeforeSix, 6) if edit.inserted.len() / 6 > 256 => another(7, 0),
        (Fault::NineBeforeEight, 8) => match first_of_unequal_size(edit.inserted) {
            Some(at) => another(9, edit.place + at),
            None => answer,
        },
        (Fault::EightNamesInserted, 8) => another(8, answer.place - edit.place),
        (Fault::NineNamesGroup, 9) => another(9, answer.place - 1),
        (Fault::TenNamesFirst, 10) => another(10, 0),
        _ => answer,
    }
}

/// The record, of another class with a character of that where it is of this one and in no group.
fn class_as(mut record: Words, class: u32, other: u32) -> Words {
    if record[1] == class && record[4] == 0 {
        [record[0], record[1]] = [usual(other), other];
    }
    record
}

fn with_one_ruby(mut record: Words) -> Words {
    record[5] = record[5].min(1);
    record
}

fn with_one_dash(mut record: Words) -> Words {
    if record[1] == 8 {
        record[0] = 0x2014;
    }
    record
}

/// The record, another character where it is one of these of class 27.
fn western_as(mut record: Words, is_one: impl Fn(char) -> bool, other: char) -> Words {
    if record[1] == 27 && char::from_u32(record[0]).is_some_and(is_one) {
        record[0] = other.into();
    }
    record
}

/// The record, of size 4,000 where its own is larger and up to 4,096, its advance in proportion.
fn with_size_in_limits(mut record: Words) -> Words {
    let size = record[2];
    if (4_001..=4_096).contains(&size) && size.is_multiple_of(8) && record[3] <= 2 * size {
        record[2] = 4_000;
        record[3] = 4_000 * record[3] / size;
    }
    record
}

/// The first inserted record whose group is the one before's and whose size is not.
fn first_of_unequal_size(inserted: &[u32]) -> Option<u32> {
    let records: Vec<&[u32]> = inserted.chunks_exact(6).collect();
    let unequal = |pair: &[&[u32]]| pair[0][4] != 0 && pair[0][4] == pair[1][4] && pair[0][2] != pair[1][2];
    records.windows(2).position(unequal).map(|at| at as u32 + 1)
}
