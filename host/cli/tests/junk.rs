//! Sheets of other hands: every command answers as its call does, and leaves what that leaves.

mod common;

use common::{ward, Folder, Said};
use compare::random::Random;
use gelumbrio::layout::{CLINIC_AT, HEAD_WORDS, IN_USE_AT, LINES_AT, PLACES_AT, RECORDS_AT, SLOT_WORDS};
use gelumbrio::{Clinic, Sheet, SlotNumber};

const SHEETS: u32 = 150;
const SLOT: SlotNumber = SlotNumber(0);
const LEAFLET: &str =
    "<ruby>食後<rt>しょくご</rt></ruby>に1回2錠、水で飲みます。「痛み」が続くときは相談してください。";

/// A good sheet with some of its words others.
fn junk(random: &mut Random) -> Sheet {
    let mut sheet = ward();
    sheet.import(Clinic(7), SLOT, 80, LEAFLET).unwrap();
    let mut words = sheet.into_words();
    for _ in 0..=random.below(2) {
        let at = match random.below(5) {
            0 => random.below(HEAD_WORDS as u32) as usize,
            1 => RECORDS_AT + random.below(60) as usize,
            2 => PLACES_AT + random.below(60) as usize,
            3 => LINES_AT + random.below(12) as usize,
            _ => random.below(2 * SLOT_WORDS as u32) as usize,
        };
        words[at] = match random.below(5) {
            // Some sheets stay good.
            0 => words[at],
            1 => words[at].wrapping_add(1),
            2 => random.below(4),
            3 => random.below(300),
            _ => random.word(),
        };
    }
    Sheet::from_words(words).unwrap()
}

/// Whether a command did to a sheet in a file what a call did to its words.
fn agrees(folder: &Folder, said: &Said, accepted: bool, left: &Sheet) -> bool {
    let as_told = match accepted {
        true => said.status == 0,
        false => said.status == 1 && said.out.is_empty() && said.err.starts_with("gelumbrio: refused with "),
    };
    as_told && folder.sheet("ward") == *left
}

#[test]
fn commands_answer_as_their_calls_do_on_any_words() {
    let folder = Folder::new();
    let random = &mut Random::new(17);
    let (mut accepted, mut refused, mut sound, mut unsound) = (0, 0, 0, 0);
    for _ in 0..SHEETS {
        let sheet = junk(random);
        let call = |arguments: &[&str]| {
            folder.store("ward", &sheet);
            folder.run_with(arguments, "頭痛")
        };
        let own = ["--clinic", "7", "--slot", "0"];
        type Change = fn(&mut Sheet) -> bool;
        let changes: [(&[&str], Change); 4] = [
            (&["edit", "ward", "--at", "0"], |sheet| sheet.edit(Clinic(7), SLOT, 0..0, &[]).is_ok()),
            (&["import", "ward", "-"], |sheet| sheet.import(Clinic(7), SLOT, 80, "頭痛").is_ok()),
            (&["give", "ward"], |sheet| sheet.give_back(Clinic(7), SLOT).is_ok()),
            (&["take", "ward"], |sheet| sheet.take(Clinic(7)).is_ok()),
        ];
        for (command, change) in changes {
            let own = if command[0] == "take" { &own[..2] } else { &own[..] };
            let said = call(&[command, own].concat());
            let mut left = sheet.clone();
            let is_accepted = change(&mut left);
            assert!(agrees(&folder, &said, is_accepted, &left), "{command:?}: {said:?}");
            *(if is_accepted { &mut accepted } else { &mut refused }) += 1;
        }
        // What is shown is what an edit would leave, where a read is accepted and an edit too.
        let said = call(&[&["show", "ward", "--svg", "x.svg"], &own[..]].concat());
        let can_show =
            sheet.read(Clinic(7), SLOT).is_ok() && sheet.clone().edit(Clinic(7), SLOT, 0..0, &[]).is_ok();
        assert!(agrees(&folder, &said, can_show, &sheet), "{said:?}");
        let said = call(&["sheet", "check", "ward"]);
        assert!(said.status == 0 || (said.status == 1 && said.out.is_empty()), "{said:?}");
        assert_eq!(folder.sheet("ward"), sheet);
        if let Some(is_sound) = is_sound(&sheet) {
            assert_eq!(said.status == 0, is_sound, "{said:?}");
            *(if is_sound { &mut sound } else { &mut unsound }) += 1;
        }
    }
    println!("{accepted} changes accepted, {refused} refused; {sound} sheets sound, {unsound} not");
    assert!(accepted > 0 && refused > 0 && sound > 0 && unsound > 0);
}

/// Whether an edit that changes no record is accepted and leaves the sheet as it is. It is asked where slot 0 is in
/// use by clinic 7 and the other one as it was set up.
fn is_sound(sheet: &Sheet) -> Option<bool> {
    let words = sheet.words();
    let is_asked =
        (words[CLINIC_AT], words[IN_USE_AT]) == (7, 1) && words[SLOT_WORDS..] == ward().words()[SLOT_WORDS..];
    let mut left = sheet.clone();
    let is_accepted = left.edit(Clinic(7), SLOT, 0..0, &[]).is_ok();
    is_asked.then(|| is_accepted && left == *sheet)
}
