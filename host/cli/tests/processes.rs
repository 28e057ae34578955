//! Programs that change one sheet at once, and programs that are killed.

mod common;

use std::process::Stdio;
use std::thread;
use std::time::Duration;

use common::{command, text, Folder};
use compare::random::Random;
use gelumbrio::{Clinic, Sheet, SlotNumber};

const PROCESSES: u32 = 8;
const KILLS: u32 = 200;

/// Distinct ideographs, so that each edit can be told.
fn ideograph(number: u32) -> char {
    char::from_u32(0x4E00 + number).expect("an ideograph")
}

/// A sheet with a taken slot for each clinic from 1 on.
fn sheet_of(folder: &Folder, clinics: u32) {
    let slots: Vec<String> = (1..=clinics).map(|clinic| format!("--slot={clinic}:22:0")).collect();
    let slots: Vec<&str> = slots.iter().map(String::as_str).collect();
    folder.run(&[&["sheet", "new", "ward"], slots.as_slice()].concat()).accepted();
    for clinic in 1..=clinics {
        folder.run(&["take", "ward", "--clinic", &clinic.to_string()]).accepted();
    }
}

/// Puts a character at the start of a slot.
fn put_first(folder: &Folder, clinic: u32, slot: u32, character: char) {
    let (clinic, slot) = (clinic.to_string(), slot.to_string());
    let edit = ["edit", "ward", "-", "--at", "0", "--clinic", &clinic, "--slot", &slot];
    folder.run_with(&edit, character.to_string()).accepted();
}

#[test]
fn a_thousand_edits_from_eight_processes_are_all_there() {
    const EDITS: u32 = 125;
    let folder = Folder::new();
    sheet_of(&folder, PROCESSES);
    thread::scope(|scope| {
        for clinic in 1..=PROCESSES {
            let folder = &folder;
            scope.spawn(move || {
                for edit in 0..EDITS {
                    put_first(folder, clinic, clinic - 1, ideograph(EDITS * clinic + edit));
                }
            });
        }
    });
    let sheet = folder.sheet("ward");
    for clinic in 1..=PROCESSES {
        let expected: String = (0..EDITS).rev().map(|edit| ideograph(EDITS * clinic + edit)).collect();
        assert_eq!(text(&sheet, clinic - 1), expected);
    }
    folder.run(&["sheet", "check", "ward"]).accepted();
    assert_eq!(folder.names(), ["ward"]);
}

#[test]
fn eight_processes_share_one_slot() {
    const EDITS: u32 = 32;
    let folder = Folder::new();
    sheet_of(&folder, 1);
    thread::scope(|scope| {
        for process in 0..PROCESSES {
            let folder = &folder;
            scope.spawn(move || {
                (0..EDITS).for_each(|edit| put_first(folder, 1, 0, ideograph(EDITS * process + edit)));
            });
        }
    });
    let mut characters: Vec<char> = text(&folder.sheet("ward"), 0).chars().collect();
    characters.sort();
    assert_eq!(characters, (0..PROCESSES * EDITS).map(ideograph).collect::<Vec<_>>());
}

#[test]
fn two_programs_draw_one_picture() {
    let folder = Folder::new();
    let draw = |text: &str| {
        let said = folder.run_with(&["compose", "-", "--chars", "9", "--svg", "x.svg"], text);
        (said.accepted(), folder.read("x.svg"))
    };
    let pictures = ["頭痛", "食後"].map(|text| draw(text).1);
    thread::scope(|scope| {
        for text in ["頭痛", "食後"] {
            let (draw, pictures) = (&draw, &pictures);
            scope.spawn(move || (0..50).for_each(|_| assert!(pictures.contains(&draw(text).1))));
        }
    });
    assert_eq!(folder.names(), ["x.svg"]);
}

#[test]
fn only_one_of_two_programs_makes_a_sheet() {
    for _ in 0..20 {
        let folder = Folder::new();
        let new = |slot: &'static str| {
            let mut command = command(&folder.path, &["sheet", "new", "ward", "--slot", slot]);
            command.stdout(Stdio::null()).stderr(Stdio::null()).spawn().expect("the program runs")
        };
        let mut both = [new("7:22:1"), new("9:30:0")];
        let made = both.each_mut().map(|running| running.wait().expect("it ends").success());
        assert!(made[0] != made[1], "{made:?}");
        assert_eq!(folder.sheet("ward").slot(SlotNumber(0)).unwrap().clinic().0, if made[0] { 7 } else { 9 });
        assert_eq!(folder.names(), ["ward"]);
    }
}

#[test]
fn a_killed_program_leaves_the_old_sheet_or_the_new_one() {
    let folder = Folder::new();
    sheet_of(&folder, 1);
    let texts = ["頭痛のとき、1回2錠。".repeat(9), "<ruby>食後<rt>しょくご</rt></ruby>に水で。".repeat(20)];
    let sheets: Vec<Sheet> = texts.iter().map(|text| imported(&folder, text)).collect();
    for (name, text) in ["a", "b"].iter().zip(&texts) {
        folder.write(name, text);
    }
    let import = |name| {
        let arguments = ["import", "ward", name, "--clinic", "1", "--slot", "0"];
        let mut command = command(&folder.path, &arguments);
        command.stdout(Stdio::null()).stderr(Stdio::null()).spawn().expect("the program runs")
    };
    // About as long as a program takes: longer after one that was killed too early, shorter after one too late.
    let mut usual = Duration::from_millis(2);
    let (mut random, mut done) = (Random::new(1), 0);
    let mut held = folder.sheet("ward");
    for _ in 0..KILLS {
        let other = usize::from(held == sheets[0]);
        let mut running = import(["a", "b"][other]);
        thread::sleep(usual * random.below(2_000) / 1_000);
        let _ = running.kill();
        running.wait().expect("it ends");
        let left = folder.sheet("ward");
        assert!(left == held || left == sheets[other], "a sheet that is neither the old one nor the new one");
        let is_done = left != held;
        usual = if is_done { usual * 9 / 10 } else { usual * 11 / 10 };
        done += u32::from(is_done);
        held = left;
    }
    println!("{done} of {KILLS} programs were done before they were killed");
    assert!(0 < done && done < KILLS);
    folder.run(&["sheet", "check", "ward"]).accepted();
    assert!(import("a").wait().expect("it ends").success());
    assert_eq!(folder.names(), ["a", "b", "ward"]);
}

/// The sheet of a folder after a text was imported.
fn imported(folder: &Folder, text: &str) -> Sheet {
    let mut sheet = folder.sheet("ward");
    sheet.import(Clinic(1), SlotNumber(0), 80, text).expect("a leaflet");
    sheet
}
