//! Slots taken and given back (document 02, request 07).

mod common;

use common::{damaged, edited, refused, sheet, two_lines, CLINIC, K, SLOT};
use gelumbrio::{Clinic, Refusal, Sheet, SlotNumber, SlotSettings};

#[test]
fn refusals_of_slots_that_are_not_in_use() {
    let mut sheet = sheet(400);
    refused(sheet.take(Clinic(0)), 3, Refusal::Caller);
    refused(sheet.take(CLINIC), 13, Refusal::NoneFree);
    refused(sheet.take(Clinic(11)), 13, Refusal::NoneFree);
    refused(sheet.give_back(CLINIC, SlotNumber(2)), 2, Refusal::Slot);
    refused(sheet.give_back(Clinic(9), SLOT), 3, Refusal::Caller);
    assert_eq!(sheet.give_back(CLINIC, SLOT), Ok(()));
    refused(sheet.give_back(CLINIC, SLOT), 14, Refusal::NotInUse);
    refused(sheet.edit(CLINIC, SLOT, .., &[]), 14, Refusal::NotInUse);
    refused(sheet.import(CLINIC, SLOT, 80, "あ"), 14, Refusal::NotInUse);
    refused(sheet.read(CLINIC, SLOT), 14, Refusal::NotInUse);
    refused(sheet.lines(CLINIC, SLOT), 14, Refusal::NotInUse);
    // Another clinic learns nothing of it.
    refused(sheet.read(Clinic(9), SLOT), 3, Refusal::Caller);
}

#[test]
fn a_slot_given_back_is_taken_before_higher_ones() {
    let mut sheet = Sheet::new(4).unwrap();
    let clinics = [CLINIC, Clinic(9), CLINIC, CLINIC];
    sheet.set_up(&clinics.map(|clinic| SlotSettings { clinic, measure: 440, indent: 20 })).unwrap();
    let set_up = sheet.clone();
    assert_eq!([(); 2].map(|()| sheet.take(CLINIC)), [Ok(SLOT), Ok(SlotNumber(2))]);
    assert_eq!(sheet.edit(CLINIC, SLOT, .., &[K; 6]), edited(2, 2));
    assert_eq!(sheet.give_back(CLINIC, SLOT), Ok(()));
    assert_eq!([(); 2].map(|()| sheet.take(CLINIC)), [Ok(SLOT), Ok(SlotNumber(3))]);
    assert_eq!(sheet.lines(CLINIC, SLOT), Ok(vec![]));
    assert_eq!(sheet.take(Clinic(9)), Ok(SlotNumber(1)));
    for (slot, clinic) in (0..).zip(clinics) {
        assert_eq!(sheet.give_back(clinic, SlotNumber(slot)), Ok(()));
    }
    assert_eq!(sheet, set_up);
}

/// A sheet that was filled before slots were taken has in-use words of 0.
#[test]
fn a_text_from_before_is_there_once_its_slot_is_taken() {
    let filled = two_lines();
    let mut sheet = damaged(&filled, 5, 0);
    refused(sheet.read(CLINIC, SLOT), 14, Refusal::NotInUse);
    refused(sheet.edit(CLINIC, SLOT, .., &[]), 14, Refusal::NotInUse);
    assert_eq!(sheet.take(CLINIC), Ok(SLOT));
    assert_eq!(sheet, filled);
    assert_eq!(sheet.lines(CLINIC, SLOT).map(|lines| lines.len()), Ok(2));
}
