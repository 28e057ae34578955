//! The C header beside this crate: the same names for the same numbers, and structs of one shape.

use std::fs;
use std::mem::{offset_of, size_of};
use std::path::Path;
use std::process::Command;

use gelumbrio::raw::{Answer, EditAnswer, ImportAnswer, RubyPlace};
use gelumbrio::{layout, limits, Class, Refusal};

/// The header's names of limits and words, with this crate's numbers.
fn sheet_names() -> Vec<(&'static str, usize)> {
    let (least_measure, largest_measure) = limits::MEASURES.into_inner();
    let (least_size, largest_size) = limits::SIZES.into_inner();
    assert_eq!(least_size, limits::SIZE_STEP, "the header names the least size as the step of sizes");
    vec![
        ("MOST_SLOTS", limits::MAX_SLOTS),
        ("MOST_RECORDS", limits::MAX_RECORDS),
        ("MOST_LINES", limits::MAX_LINES),
        ("HIGHEST_CLINIC", limits::MAX_CLINIC as usize),
        ("LEAST_MEASURE", least_measure as usize),
        ("LARGEST_MEASURE", largest_measure as usize),
        ("LEAST_SIZE", least_size as usize),
        ("LARGEST_SIZE", largest_size as usize),
        ("HIGHEST_GROUP", limits::MAX_GROUP as usize),
        ("MOST_GROUPED", limits::MAX_GROUPED),
        ("MOST_RUBY", limits::MAX_RUBY as usize),
        ("LARGEST_BASE", limits::MAX_BASE_ADVANCE as usize),
        ("CLINIC_AT", layout::CLINIC_AT),
        ("MEASURE_AT", layout::MEASURE_AT),
        ("INDENT_AT", layout::INDENT_AT),
        ("RECORD_COUNT_AT", layout::RECORD_COUNT_AT),
        ("LINE_COUNT_AT", layout::LINE_COUNT_AT),
        ("IN_USE_AT", layout::IN_USE_AT),
        ("HEAD_WORDS", layout::HEAD_WORDS),
        ("RECORD_WORDS", layout::RECORD_WORDS),
        ("PLACE_WORDS", layout::PLACE_WORDS),
        ("LINE_WORDS", layout::LINE_WORDS),
        ("RECORDS_AT", layout::RECORDS_AT),
        ("PLACES_AT", layout::PLACES_AT),
        ("LINES_AT", layout::LINES_AT),
        ("SLOT_WORDS", layout::SLOT_WORDS),
    ]
}

/// The header's names of refusals.
const REFUSALS: [(&str, Refusal); 14] = [
    ("LENGTH", Refusal::Length),
    ("SLOT", Refusal::Slot),
    ("CALLER", Refusal::Caller),
    ("NONE_FREE", Refusal::NoneFree),
    ("NOT_IN_USE", Refusal::NotInUse),
    ("DAMAGED", Refusal::Damaged),
    ("PAST_END", Refusal::PastEnd { count: 0 }),
    ("PARTIAL_RECORD", Refusal::PartialRecord),
    ("TOO_MANY_RECORDS", Refusal::TooManyRecords),
    ("RECORD", Refusal::Record { record: 0 }),
    ("NOT_LISTED", Refusal::NotListed { record: 0 }),
    ("GROUP", Refusal::Group { record: 0 }),
    ("NO_BREAKING", Refusal::NoBreaking { record: 0 }),
    ("LIMITS", Refusal::Limits { slot: 0 }),
];

/// A class's name in the header: that of its Rust name, in capitals.
fn in_capitals(class: Class) -> String {
    let mut name = String::new();
    for letter in format!("{class:?}").chars() {
        if letter.is_ascii_uppercase() {
            name.push('_');
        }
        name.push(letter.to_ascii_uppercase());
    }
    format!("CLASS{name}")
}

/// What the header must say, as expressions of C with their values.
fn expected() -> Vec<(String, usize)> {
    let named = |(name, value): (&str, usize)| (format!("GELUMBRIO_{name}"), value);
    let mut expected: Vec<(String, usize)> = sheet_names().into_iter().map(named).collect();
    // The words of records, places and lines, in the order in which this crate takes them apart.
    let record = ["CODE_POINT", "CLASS", "SIZE", "ADVANCE", "GROUP", "RUBY_COUNT"];
    for (of, words) in
        [("RECORD", &record[..]), ("PLACE", &["X", "LINE"]), ("LINE", &["FIRST_RECORD", "END_X", "KIND"])]
    {
        expected.extend(words.iter().enumerate().map(|(at, word)| (format!("GELUMBRIO_{of}_{word}"), at)));
    }
    let kinds = ["FLUSH", "SHORT", "FINAL"].into_iter().zip(1..);
    expected.extend(kinds.map(|(kind, number)| (format!("GELUMBRIO_KIND_{kind}"), number)));
    let classes =
        Class::ALL.map(|class| (format!("GELUMBRIO_{}", in_capitals(class)), class.number() as usize));
    expected.extend(classes);
    let refusals =
        REFUSALS.map(|(name, refusal)| (format!("GELUMBRIO_REFUSED_{name}"), refusal.number() as usize));
    expected.extend(refusals);
    expected.extend([named(("ACCEPTED", 0)), named(("REFUSED_LEAFLET", 17))]);
    expected
}

/// The structs' sizes and where their fields are.
fn shapes() -> Vec<(String, usize)> {
    let shape = |expression: &str, value| (expression.to_string(), value);
    vec![
        shape("sizeof(GelumbrioClinic)", size_of::<gelumbrio::Clinic>()),
        shape("sizeof(GelumbrioSlotNumber)", size_of::<gelumbrio::SlotNumber>()),
        shape("sizeof(GelumbrioAnswer)", size_of::<Answer>()),
        shape("offsetof(GelumbrioAnswer, place)", offset_of!(Answer, place)),
        shape("sizeof(GelumbrioEditAnswer)", size_of::<EditAnswer>()),
        shape("offsetof(GelumbrioEditAnswer, place)", offset_of!(EditAnswer, place)),
        shape("offsetof(GelumbrioEditAnswer, redone)", offset_of!(EditAnswer, redone)),
        shape("sizeof(GelumbrioImportAnswer)", size_of::<ImportAnswer>()),
        shape("offsetof(GelumbrioImportAnswer, redone)", offset_of!(ImportAnswer, redone)),
        shape("offsetof(GelumbrioImportAnswer, place)", offset_of!(ImportAnswer, place)),
        shape("sizeof(GelumbrioRubyPlace)", size_of::<RubyPlace>()),
        shape("offsetof(GelumbrioRubyPlace, offset)", offset_of!(RubyPlace, offset)),
        shape("sizeof(GelumbrioPart)", 2 * size_of::<usize>()),
    ]
}

#[test]
fn the_header_says_the_same_numbers() {
    let package = Path::new(env!("CARGO_MANIFEST_DIR"));
    let root = package.ancestors().nth(2).expect("the package stands in host/ of the repository");
    let header = fs::read_to_string(root.join("include/gelumbrio.h")).expect("the header");

    let expected = expected();
    let mut source = String::from("#include \"gelumbrio.h\"\n");
    for (at, (expression, value)) in expected.iter().chain(&shapes()).enumerate() {
        source +=
            &format!("typedef char check_{at}[({expression}) == {value} ? 1 : -1]; /* {expression} */\n");
    }
    let file = Path::new(env!("CARGO_TARGET_TMPDIR")).join("header.c");
    fs::write(&file, source).expect("the source is written");
    let compiled = Command::new("cc")
        .args(["-std=c99", "-pedantic", "-Wall", "-Wextra", "-Werror", "-fsyntax-only", "-I"])
        .arg(root.join("include"))
        .arg(&file)
        .status()
        .expect("a C compiler, `cc`, is on the PATH");
    assert!(compiled.success());

    // And it names no others.
    let is_name = |letter: char| letter.is_ascii_alphanumeric() || letter == '_';
    let mut names: Vec<&str> =
        header.split(|letter| !is_name(letter)).filter(|name| name.starts_with("GELUMBRIO_")).collect();
    names.sort();
    names.dedup();
    let mut known: Vec<&str> =
        expected.iter().map(|(name, _)| name.as_str()).chain(["GELUMBRIO_H"]).collect();
    known.sort();
    assert_eq!(names, known);
}
