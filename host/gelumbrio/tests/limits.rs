//! The named limits are the library's: what is at one is accepted, and what is past it refused.

mod common;

use common::{refused, settings, sheet, CLINIC, K, SLOT};
use gelumbrio::limits::{
    MAX_BASE_ADVANCE, MAX_CLINIC, MAX_GROUP, MAX_GROUPED, MAX_LINES, MAX_RECORDS, MAX_RUBY, MAX_SLOTS,
    MEASURES, SIZES, SIZE_STEP,
};
use gelumbrio::{ruby_place, Clinic, Edited, Record, Refusal, Sheet, SlotSettings};

#[test]
fn of_sheets_and_settings() {
    let mut largest = Sheet::new(MAX_SLOTS).unwrap();
    assert_eq!(largest.set_up(&[settings(CLINIC, 400); MAX_SLOTS]), Ok(()));
    assert_eq!(Sheet::new(MAX_SLOTS + 1), Err(Refusal::Length));

    let mut sheet = Sheet::new(1).unwrap();
    let (least, most) = MEASURES.into_inner();
    let of = |clinic, measure, indent| SlotSettings { clinic: Clinic(clinic), measure, indent };
    for good in [of(0, least, least - 1), of(1, most, 0), of(MAX_CLINIC, most, most - 1)] {
        assert_eq!(sheet.set_up(&[good]), Ok(()), "{good:?}");
        assert_eq!(sheet.slot(SLOT).unwrap().settings(), good);
    }
    for bad in [of(MAX_CLINIC + 1, most, 0), of(1, least - 1, 0), of(1, most + 1, 0), of(1, least, least)] {
        refused(sheet.set_up(&[bad]), 11, Refusal::Limits { slot: 0 });
    }
}

#[test]
fn of_records_and_lines() {
    let mut sheet = sheet(80);
    let full = Edited { lines: MAX_LINES as u32, redone: MAX_LINES as u32 };
    assert_eq!(sheet.edit(CLINIC, SLOT, .., &[K; MAX_RECORDS]), Ok(full));
    refused(sheet.edit(CLINIC, SLOT, 0..0, &[K]), 7, Refusal::TooManyRecords);

    let (least, most) = SIZES.into_inner();
    let mut edit = |record: Record| sheet.edit(CLINIC, SLOT, .., &[record]).map(|_edited| ());
    let of = |size| Record::new('漢', size).unwrap();
    assert_eq!(edit(of(least)), Ok(()));
    // They are within limits, and too wide.
    let too_wide = Refusal::NoBreaking { record: 0 };
    assert_eq!([most, most - SIZE_STEP].map(of).map(&mut edit), [Err(too_wide); 2]);
    for bad in [least - SIZE_STEP, least + 1, most + SIZE_STEP, most - SIZE_STEP / 2] {
        refused(edit(of(bad)), 8, Refusal::Record { record: 0 });
    }
}

#[test]
fn of_groups_and_ruby() {
    let mut sheet = sheet(8_000);
    let grouped = |group, ruby_count| vec![K.in_group(group, ruby_count); MAX_GROUPED];
    let mut edit = |records: &[Record]| sheet.edit(CLINIC, SLOT, .., records).map(|edited| edited.lines);
    assert_eq!(edit(&grouped(MAX_GROUP, MAX_RUBY)), Ok(1));
    refused(edit(&grouped(MAX_GROUP + 1, 1)), 8, Refusal::Record { record: 0 });
    refused(edit(&grouped(1, MAX_RUBY + 1)), 8, Refusal::Record { record: 0 });
    let one_more = [grouped(1, 1), vec![K.in_group(1, 1)]].concat();
    refused(edit(&one_more), 9, Refusal::Group { record: MAX_GROUPED as u32 });

    assert!(ruby_place(MAX_BASE_ADVANCE, MAX_RUBY, 80, MAX_RUBY - 1).is_ok());
    refused(ruby_place(MAX_BASE_ADVANCE + 1, 1, 80, 0), 8, Refusal::Ruby);
    refused(ruby_place(1, MAX_RUBY + 1, 80, 0), 8, Refusal::Ruby);
}
