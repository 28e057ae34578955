//! Sheets in files: each command against the same call of the library.

mod common;

use common::{text, ward, Folder};
use gelumbrio::layout::{PLACES_AT, SLOT_WORDS};
use gelumbrio::{Clinic, Record, Sheet, SlotNumber};

const DOSE: &str = "<ruby>食後<rt>しょくご</rt></ruby>に1回2錠、水で飲みます。";
const SLOT: SlotNumber = SlotNumber(0);

#[test]
fn a_sheets_file_is_its_words() {
    let folder = Folder::new();
    let new = ["sheet", "new", "ward", "--slot", "7:22:1", "--slot", "9:2400u:0", "--slot=0:8u:7u"];
    let said = folder.run(&new).accepted();
    assert_eq!(
        said,
        "slot 0: clinic 7, measure 1760, indent 80: free\n\
         slot 1: clinic 9, measure 2400, indent 0: free\n\
         slot 2: clinic 0, measure 8, indent 7: nobody's\n"
    );
    let mut sheet = Sheet::new(3).unwrap();
    sheet.set_up_words(&[7, 9, 0], &[1760, 2400, 8], &[80, 0, 7]).unwrap();
    let words: Vec<u8> = sheet.words().iter().flat_map(|word| word.to_le_bytes()).collect();
    assert_eq!(folder.read("ward"), words);
    assert_eq!(folder.names(), ["ward"]);

    // Characters of half the size.
    folder.run(&["sheet", "new", "small", "--size", "40", "--slot", "7:22:1"]).accepted();
    let slot = folder.sheet("small");
    let slot = slot.slot(SLOT).unwrap();
    assert_eq!((slot.measure(), slot.indent()), (880, 40));
}

#[test]
fn every_command_does_what_the_call_does() {
    let folder = Folder::with_sheet();
    let mut sheet = ward();
    assert_eq!(folder.sheet("ward"), sheet);

    folder.write("dose.html", DOSE);
    let slot = ["--clinic", "7", "--slot", "0"];
    let said = folder.run(&[&["import", "ward", "dose.html"], &slot[..]].concat()).accepted();
    let edited = sheet.import(Clinic(7), SLOT, 80, DOSE).unwrap();
    assert_eq!((said.as_str(), edited.lines, edited.redone), ("1 line, 1 composed anew\n", 1, 1));
    assert_eq!(folder.sheet("ward"), sheet);

    // 朝食 in place of 水で, with ruby: its group must not be one with the other.
    let insert = [&["edit", "ward", "--at", "8", "--delete", "2", "-"], &slot[..]].concat();
    folder.run_with(&insert, "<ruby>朝食<rt>ちょうしょく</rt></ruby>\n").accepted();
    let group = ['朝', '食'].map(|character| Record::new(character, 80).unwrap().in_group(2, 6));
    sheet.edit(Clinic(7), SLOT, 8..10, &group).unwrap();
    assert_eq!(folder.sheet("ward"), sheet);
    assert_eq!(text(&sheet, 0), "食後に1回2錠、朝食飲みます。");

    // Deleting alone needs no leaflet.
    folder.run(&[&["edit", "ward", "--at", "0", "--delete", "3"], &slot[..]].concat()).accepted();
    sheet.edit(Clinic(7), SLOT, ..3, &[]).unwrap();
    assert_eq!(folder.sheet("ward"), sheet);

    assert_eq!(folder.run(&["take", "ward", "--clinic", "9"]).accepted(), "slot 1\n");
    assert_eq!(folder.run(&[&["give", "ward"], &slot[..]].concat()).accepted(), "slot 0 is free\n");
    sheet.take(Clinic(9)).unwrap();
    sheet.give_back(Clinic(7), SLOT).unwrap();
    assert_eq!(folder.sheet("ward"), sheet);
    assert_eq!(folder.names(), ["dose.html", "ward"]);
}

#[test]
fn new_characters_are_as_large_as_those_before_them() {
    let folder = Folder::with_sheet();
    let slot = ["--clinic", "7", "--slot", "0"];
    folder.run_with(&[&["import", "ward", "-", "--size", "40"], &slot[..]].concat(), "頭痛").accepted();
    let sizes = || {
        let sheet = folder.sheet("ward");
        sheet.slot(SLOT).unwrap().records().map(|record| record.size).collect::<Vec<_>>()
    };
    let edit = |at: &str, more: &[&str]| {
        folder.run_with(&[&["edit", "ward", "-", "--at", at], &slot[..], more].concat(), "薬").accepted();
    };
    edit("2", &[]);
    edit("0", &["--size", "80"]);
    edit("1", &[]);
    edit("0", &[]);
    assert_eq!(sizes(), [80, 80, 80, 40, 40, 40]);
    edit("6", &["--size", "16"]);
    assert_eq!(sizes().last(), Some(&16));
}

#[test]
fn a_slot_is_shown_with_marks_for_its_ruby_or_with_its_leaflet() {
    let folder = Folder::with_sheet();
    folder.write("dose.html", DOSE);
    let slot = ["--clinic", "7", "--slot", "0"];
    folder.run(&[&["import", "ward", "dose.html"], &slot[..]].concat()).accepted();
    let before = folder.read("ward");
    let show = |more: &[&str]| folder.run(&[&["show", "ward"], &slot[..], more].concat());
    let text = "   食後に 1回 2錠、水で飲みます。\n";
    assert_eq!(show(&[]).accepted(), format!("   ****\n{text}"));
    assert_eq!(show(&["--leaflet", "dose.html"]).accepted(), format!("   しょくご\n{text}"));

    let as_composed = folder.run(&["compose", "dose.html", "--chars", "22", "--indent", "1", "--json"]);
    let json = show(&["--leaflet", "dose.html", "--json"]).accepted();
    assert_eq!(json, as_composed.accepted());
    assert_eq!(show(&["--json"]).accepted(), json.replace("\"しょくご\"", "null"));

    show(&["--svg", "x.svg", "--html", "x.html", "--marks"]).accepted();
    let drawn = String::from_utf8(folder.read("x.svg")).unwrap();
    assert!(
        drawn.contains("<title>ward, slot 0</title>") && drawn.matches("<circle").count() == 4,
        "{drawn}"
    );

    folder.write("other.html", DOSE.replace("しょくご", "しょく"));
    assert!(show(&["--leaflet", "other.html"]).refused().contains("other.html is not the text of slot 0"));
    folder.write("other.html", "食後（");
    assert!(show(&["--leaflet", "other.html"]).refused().contains("refused with 17"));
    assert_eq!(folder.read("ward"), before);
}

/// The sheet of a folder with one word another.
fn with_word(folder: &Folder, at: usize, word: u32) {
    let mut words = folder.sheet("ward").into_words();
    words[at] = word;
    folder.store("ward", &Sheet::from_words(words).unwrap());
}

#[test]
fn a_check_tells_what_each_slot_is() {
    let folder = Folder::new();
    let slots = ["--slot", "7:22:1", "--slot", "7:22:1", "--slot", "0:22:0"];
    folder.run(&[&["sheet", "new", "ward"], &slots[..]].concat()).accepted();
    folder.run(&["take", "ward", "--clinic", "7"]).accepted();
    folder.run_with(&["import", "ward", "-", "--clinic", "7", "--slot", "0"], DOSE).accepted();
    let check = || folder.run(&["sheet", "check", "ward"]);
    let free = "slot 1: clinic 7, measure 1760, indent 80: free\n\
                slot 2: clinic 0, measure 1760, indent 0: nobody's\n";
    assert_eq!(
        check().accepted(),
        format!("slot 0: clinic 7, measure 1760, indent 80: in use, 15 records, 1 line\n{free}")
    );

    // From before there was an in-use word: its text is there once it is taken.
    with_word(&folder, 5, 0);
    assert!(check().accepted().contains("not in use, but not empty: it holds 15 records"));
    folder.run(&["take", "ward", "--clinic", "7"]).accepted();

    // Composed by another rule.
    let stored = folder.read("ward");
    with_word(&folder, PLACES_AT, 81);
    let said = check().refused();
    assert!(said.contains("slot 0: clinic 7, measure 1760, indent 80: its lines are not those"), "{said}");
    let slot = ["--clinic", "7", "--slot", "0"];
    let shown = folder.run(&[&["show", "ward"], &slot[..]].concat());
    assert!(shown.status == 0 && shown.err.contains("these are") && shown.out.contains("食後"), "{shown:?}");
    folder.run(&[&["edit", "ward", "--at", "0"], &slot[..]].concat()).accepted();
    assert_eq!(folder.read("ward"), stored);

    for (at, word, why) in [
        (0, 0, "it is in use by nobody"),
        (0, 65_536, "its clinic is 65536"),
        (1, 7, "its measure is 7"),
        (2, 1760, "its indent is 1760, and its measure 1760"),
        (3, 257, "it has 257 records"),
        (5, 2, "its in-use word is 2"),
        (9, 27, "its record 0, '食' (U+98DF), would be refused with 8"),
        (8, 0x3042, "its record 0, 'あ' (U+3042), would be refused with 12"),
        (8, 0xD800, "its record 0 would be refused with 8"),
        (SLOT_WORDS + 1, 0, "its measure is 0"),
    ] {
        folder.write("ward", &stored);
        with_word(&folder, at, word);
        let said = check().refused();
        let damaged = at / SLOT_WORDS;
        assert!(said.contains(&format!("slot {damaged}: ")) && said.contains("damaged: "), "{said}");
        assert!(said.contains(why), "{said}");
        if at < SLOT_WORDS && at != 0 {
            let said = folder.run(&[&["edit", "ward", "--at", "0"], &slot[..]].concat()).refused();
            assert!(
                said.contains("refused with 4: slot 0 of ward is damaged: ") && said.contains(why),
                "{said}"
            );
        }
    }
    // More lines than there can be, which an edit mends.
    folder.write("ward", &stored);
    with_word(&folder, 4, 257);
    let said = folder.run(&[&["show", "ward"], &slot[..]].concat()).refused();
    assert!(said.contains("refused with 4") && said.contains("--at 0` mends it"), "{said}");
    folder.run(&[&["edit", "ward", "--at", "0"], &slot[..]].concat()).accepted();
    assert_eq!(folder.read("ward"), stored);
}

#[test]
fn an_edit_that_cuts_into_a_group_says_so() {
    let folder = Folder::with_sheet();
    let slot = ["--clinic", "7", "--slot", "0"];
    folder.run_with(&[&["import", "ward", "-"], &slot[..]].concat(), DOSE).accepted();
    let stored = folder.read("ward");
    for (at, deleted, inserted, is_cut) in [
        ("0", "1", "", true),
        ("1", "1", "", true),
        ("1", "2", "", true),
        ("1", "0", "薬", true),
        ("1", "0", "", false),
        ("0", "2", "薬", false),
        ("0", "0", "薬", false),
        ("2", "1", "薬", false),
    ] {
        folder.write("ward", &stored);
        let edit = [&["edit", "ward", "-", "--at", at, "--delete", deleted], &slot[..]].concat();
        let said = folder.run_with(&edit, inserted);
        assert_eq!((said.status, !said.err.is_empty()), (0, is_cut), "{said:?}");
        assert!(
            !is_cut || said.err.contains("note: the edit cuts into the text under one ruby, records 0 to 1")
        );
    }
}
