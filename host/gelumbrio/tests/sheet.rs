//! The safe face: sheets, typed lines and refusals in words.

mod common;

use std::error::Error;

use common::{damaged, edited, refused, settings, sheet, two_lines, CLINIC, K, SLOT};
use gelumbrio::layout::SLOT_WORDS;
use gelumbrio::{
    class_of, in_list, raw, ruby_place, Class, Clinic, Kind, Line, NoClass, Record, Refusal, Sheet,
    SlotNumber,
};

#[test]
fn a_sheet_has_1_to_64_slots() {
    for slots in [0, 65, usize::MAX] {
        assert_eq!(Sheet::new(slots), Err(Refusal::Length));
    }
    assert_eq!(Sheet::new(64).unwrap().slots(), 64);
    for length in [0, SLOT_WORDS - 1, SLOT_WORDS + 1, 65 * SLOT_WORDS] {
        assert_eq!(Sheet::from_words(vec![0; length]), Err(Refusal::Length));
    }
}

#[test]
fn typed_lines() {
    let mut sheet = sheet(400);
    let full_stop = Record::new('。', 80).unwrap();
    let text = [K, K, K, K, K, full_stop, K];
    assert_eq!(sheet.edit(CLINIC, SLOT, .., &text), edited(2, 2));
    let expected = vec![
        Line { first_record: 0, end_x: 400, kind: Kind::Flush, xs: vec![0, 106, 213, 320] },
        Line { first_record: 4, end_x: 240, kind: Kind::Final, xs: vec![0, 80, 160] },
    ];
    assert_eq!(sheet.lines(CLINIC, SLOT), Ok(expected));
    assert_eq!(sheet.read(CLINIC, SLOT), Ok(&[0, 400, 1, 4, 240, 3][..]));
    assert_eq!(sheet.lines(Clinic(9), SlotNumber(1)), Ok(vec![]));
}

#[test]
fn words_can_be_kept_and_brought_back() {
    let mut sheet = sheet(100);
    assert_eq!(sheet.edit(CLINIC, SLOT, .., &[K, K]), edited(2, 2));
    let kept = sheet.clone().into_words();
    let back = Sheet::from_words(kept).unwrap();
    assert_eq!(back, sheet);
    assert_eq!(back.lines(CLINIC, SLOT).unwrap()[0].kind, Kind::Short);
}

#[test]
fn an_edit_says_how_many_lines_it_redid() {
    let mut sheet = sheet(440);
    assert_eq!(sheet.edit(CLINIC, SLOT, .., &[K; 30]), edited(6, 6));
    // A small one has room on line 2, whose neighbour before it counts too.
    assert_eq!(sheet.edit(CLINIC, SLOT, 12..12, &[Record { size: 8, advance: 8, ..K }]), edited(6, 2));
    assert_eq!(sheet.edit(CLINIC, SLOT, 31.., &[K]), edited(7, 3));
    assert_eq!(sheet.edit(CLINIC, SLOT, .., &[]), edited(0, 0));
}

#[test]
fn damaged_lines_are_mended_by_any_accepted_edit() {
    let sound = two_lines();
    // The line count, the first line's start and kind, the second line's start and kind.
    for (at, word) in [
        (4, 0),
        (4, 1),
        (4, 3),
        (4, 257),
        (2_056, 1),
        (2_056, 6),
        (2_058, 0),
        (2_058, 3),
        (2_059, 0),
        (2_059, 6),
        (2_059, 7),
        (2_059, u32::MAX),
        (2_061, 1),
        (2_061, 4),
    ] {
        let mut sheet = damaged(&sound, at, word);
        assert_eq!(sheet.lines(CLINIC, SLOT), Err(Refusal::Damaged), "word {at} = {word}");
        assert_eq!(sheet.edit(CLINIC, SLOT, 0..0, &[]), edited(2, 1), "word {at} = {word}");
        assert_eq!(sheet, sound, "word {at} = {word}");
    }
}

#[test]
fn lines_are_held_against_the_record_count() {
    // Fewer records than the lines speak of; an edit then goes by the count.
    for (count, lines) in [(0, 0), (5, 1)] {
        let mut sheet = damaged(&two_lines(), 3, count);
        assert_eq!(sheet.lines(CLINIC, SLOT), Err(Refusal::Damaged), "{count} records");
        assert_eq!(sheet.edit(CLINIC, SLOT, 0..0, &[]), edited(lines, lines));
        assert_eq!(sheet.lines(CLINIC, SLOT).map(|typed| typed.len()), Ok(lines as usize));
    }
}

#[test]
fn damaged_settings_and_records_need_a_set_up() {
    let sound = two_lines();
    // Measure, indent, record count, in-use word, a record's class, and code points and classes that do not go
    // together.
    for (at, word) in [(1, 7), (2, 440), (3, 300), (5, 2), (9, 17), (8, 0x3001), (9, 15)] {
        let mut sheet = damaged(&sound, at, word);
        assert_eq!(sheet.edit(CLINIC, SLOT, 0..0, &[]), Err(Refusal::Damaged), "word {at} = {word}");
        assert_eq!(sheet.edit(CLINIC, SLOT, .., &[]), Err(Refusal::Damaged), "word {at} = {word}");
        assert_eq!(sheet.give_back(CLINIC, SLOT), Err(Refusal::Damaged), "word {at} = {word}");
        assert_eq!(sheet.lines(CLINIC, SLOT).is_err(), [3, 5].contains(&at), "word {at} = {word}");
        assert_eq!(sheet.set_up(&[settings(CLINIC, 440), settings(Clinic(9), 800)]), Ok(()));
        assert_eq!(sheet.take(CLINIC), Ok(SLOT));
        assert_eq!(sheet.lines(CLINIC, SLOT), Ok(vec![]));
    }
}

#[test]
fn what_lines_does_not_judge_is_handed_back_as_stored() {
    let sound = two_lines();
    let changed = damaged(&damaged(&sound, 1_544, 9), 2_057, 999);
    let lines = changed.lines(CLINIC, SLOT).unwrap();
    assert_eq!((lines[0].xs[0], lines[0].end_x), (9, 999));
}

#[test]
fn refusals_by_number() {
    let mut sheet = sheet(400);
    refused(sheet.set_up(&[settings(CLINIC, 400)]), 1, Refusal::Length);
    refused(sheet.set_up_words(&[7, 9], &[400, 800], &[0]), 1, Refusal::Length);
    refused(sheet.edit(CLINIC, SlotNumber(2), .., &[]), 2, Refusal::Slot);
    refused(sheet.edit(Clinic(9), SLOT, .., &[]), 3, Refusal::Caller);
    refused(damaged(&sheet, 1, 7).edit(CLINIC, SLOT, .., &[]), 4, Refusal::Damaged);
    refused(sheet.edit(CLINIC, SLOT, 1.., &[]), 5, Refusal::PastEnd { count: 0 });
    refused(sheet.edit_words(CLINIC, SLOT, 0, 0, &[0; 5]), 6, Refusal::PartialRecord);
    refused(sheet.edit(CLINIC, SLOT, .., &[K; 257]), 7, Refusal::TooManyRecords);
    let bad_record = [K, Record::from([0; 6])];
    refused(sheet.edit(CLINIC, SLOT, .., &bad_record), 8, Refusal::Record { record: 1 });
    let comma_as_19 = [K, K, Record::of_class('、', Class::Ideographic, 80)];
    refused(sheet.edit(CLINIC, SLOT, .., &comma_as_19), 12, Refusal::NotListed { record: 2 });
    let long_group = [K.in_group(1, 1); 17];
    refused(sheet.edit(CLINIC, SLOT, .., &long_group), 9, Refusal::Group { record: 16 });
    let wide = [K, Record { size: 408, advance: 408, ..K }];
    refused(sheet.edit(CLINIC, SLOT, .., &wide), 10, Refusal::NoBreaking { record: 1 });
    let limits = sheet.set_up(&[settings(CLINIC, 400), settings(CLINIC, 7)]);
    refused(limits, 11, Refusal::Limits { slot: 1 });

    refused(sheet.import(CLINIC, SlotNumber(2), 80, ""), 2, Refusal::Slot);
    refused(sheet.import(Clinic(9), SLOT, 80, ""), 3, Refusal::Caller);
    refused(damaged(&sheet, 1, 7).import(CLINIC, SLOT, 80, ""), 4, Refusal::Damaged);
    refused(sheet.import(CLINIC, SLOT, 80, "あ".repeat(257)), 7, Refusal::TooManyRecords);
    refused(sheet.import(CLINIC, SLOT, 81, "あ"), 8, Refusal::Record { record: 0 });
    let long_base = format!("あ<ruby>{}<rt>か</rt></ruby>", "漢".repeat(17));
    refused(sheet.import(CLINIC, SLOT, 80, long_base), 9, Refusal::Group { record: 17 });
    refused(sheet.import(CLINIC, SLOT, 408, "あ"), 10, Refusal::NoBreaking { record: 0 });

    refused(sheet.read(CLINIC, SlotNumber(2)), 2, Refusal::Slot);
    refused(Sheet::new(1).unwrap().read(Clinic(0), SLOT), 3, Refusal::Caller);
    refused(damaged(&sheet, 4, 257).read(CLINIC, SLOT), 4, Refusal::Damaged);
    refused(damaged(&sheet, 5, 2).read(CLINIC, SLOT), 4, Refusal::Damaged);
}

#[test]
fn a_refusal_says_why() {
    let expected = "the text from record 3 to where a line may next end does not fit in the measure; \
                    line 0 also holds the indent";
    assert_eq!(Refusal::NoBreaking { record: 3 }.to_string(), expected);
    let expected =
        "what the slot holds is damaged; any accepted edit mends its lines, but bad settings, records \
                    or in-use words need a set-up, which empties every slot";
    assert_eq!(Refusal::Damaged.to_string(), expected);
    assert_eq!(Refusal::NoneFree.to_string(), "the clinic has no free slot");
    assert_eq!(Refusal::NotInUse.to_string(), "the slot is not in use; its clinic must take it first");
    let told = Refusal::NotListed { record: 4 }.to_string();
    assert!(told.starts_with("record 4's character is not in the published list of its class"), "{told}");
    assert_eq!(
        Refusal::Length.to_string(),
        "the sheet is not 1 to 64 slots of 2824 words, or a set-up does not have one setting for each slot"
    );
}

/// A chain of errors tells each once.
#[test]
fn what_went_wrong_is_an_error() {
    let Err(refusal @ Refusal::Leaflet(fault)) = sheet(400).import(CLINIC, SLOT, 80, "（") else {
        panic!("a full-width bracket is in no list")
    };
    let errors: [Box<dyn Error>; 3] =
        [Box::new(refusal), Box::new(fault), Box::new(NoClass { character: '（' })];
    assert_eq!(errors[0].to_string(), errors[1].to_string());
    assert!(errors.iter().all(|error| error.source().is_none()));
}

#[test]
fn lists() {
    // A character of two lists, one of class 19 alone, the full-width form that no list has.
    use Class::{Comma, Hiragana, Ideographic, OpeningBracket, Western};
    assert_eq!([OpeningBracket, Ideographic, Western].map(|class| in_list(class, '(')), [true, false, true]);
    assert_eq!([Hiragana, Ideographic, Western].map(|class| in_list(class, '漢')), [false, true, false]);
    assert!(Class::ALL.into_iter().all(|class| !in_list(class, '（')));
    let classes = ['(', '漢', '𠮷', '、', '（'].map(class_of);
    assert_eq!(classes, [Some(Western), Some(Ideographic), Some(Ideographic), Some(Comma), None]);
}

/// A number has a list where it is a class's, and then the class has a name.
#[test]
fn the_classes_are_those_that_have_lists() {
    for number in (0..100).chain([u32::MAX]) {
        let has_list = (0..0x3_0000).any(|code_point| raw::in_list(number, code_point) == 1);
        assert_eq!(Class::from_number(number).map(Class::number), has_list.then_some(number));
    }
}

/// Every character that has a class, alone in a leaflet.
#[test]
fn a_new_record_is_the_one_that_an_import_makes() {
    let mut sheet = sheet(400);
    let mut classes = Vec::new();
    let mut text = [0; 4];
    for character in '\0'..=char::MAX {
        let Ok(record) = Record::new(character, 80) else {
            assert_eq!(raw::class_of(character.into()), 0, "{character:?}");
            continue;
        };
        classes.push(record.class);
        // By themselves these stand in no leaflet.
        if !matches!(character, '<' | '>' | '&') {
            sheet.import(CLINIC, SLOT, 80, character.encode_utf8(&mut text)).unwrap();
            assert!(sheet.slot(SLOT).unwrap().records().eq([record]), "{character:?}");
        }
    }
    classes.sort();
    classes.dedup();
    assert_eq!(classes, Class::ALL.map(Class::number));
}

/// Four records under nine ruby characters, which are 40 wider, between two others; then a single one under three.
#[test]
fn a_group_starts_and_ends_with_its_ruby() {
    let mut sheet = sheet(520);
    let text = [&[K][..], &[K.in_group(1, 9); 4], &[K, K.in_group(2, 3)]].concat();
    assert_eq!(sheet.edit(CLINIC, SLOT, .., &text), edited(2, 2));
    let lines = sheet.lines(CLINIC, SLOT).unwrap();
    assert_eq!((lines[0].xs.as_slice(), lines[0].end_x), (&[0, 80, 173, 266, 360, 440][..], 520));
    assert_eq!((lines[1].xs.as_slice(), lines[1].end_x), (&[20][..], 120));
}

#[test]
fn ruby() {
    assert_eq!([0, 1, 2].map(|k| ruby_place(160, 3, 80, k)), [Ok(0), Ok(60), Ok(120)]);
    assert_eq!([0, 1, 2].map(|k| ruby_place(80, 3, 80, k)), [Ok(0), Ok(40), Ok(80)]);
    // A single one, and a difference that no three gaps can share evenly.
    assert_eq!(ruby_place(45, 1, 80, 0), Ok(2));
    assert_eq!([0, 1, 2, 3].map(|k| ruby_place(17, 4, 8, k)), [Ok(0), Ok(4), Ok(8), Ok(13)]);
    assert_eq!(ruby_place(160, 3, 80, 3), Err(Refusal::Ruby));
    assert_eq!(Refusal::Ruby.number(), 8);
}
