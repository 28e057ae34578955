//! Every planted fault is found, and the case that shows it is made small.

use compare::comparisons::{
    cases, digits, gaps, junk, leaflet, limits, lists, pairs, paragraphs, redone, ruby, sequences, short,
    slots, Comparison, ALL,
};
use compare::failure::{Failure, NOT_SEEN_AGAIN};
use compare::faults::{
    wrong_lists, Fault, Misimport, Misreading, Misrow, Misuse, ASKED_WRONGLY, CLASSES_AS, DIGITS, FIELDS,
    IMPORTED_WRONGLY, IN_BOTH_ROWS, IN_RUBY, LOOKUPS, MISIMPORTS, MISREADINGS, MISUSES, NARROW_FIELDS,
    SINGLE, TABLES,
};
use compare::generate::plain;
use compare::layout::{CLASSES, LINES};
use compare::program::{Program, Second, SECOND, UNDER_TEST};
use compare::report::heading;
use compare::scope::Scope;

/// The first failure of these comparisons, whose case shows the difference again.
fn find(fault: Fault, comparisons: &[Comparison]) -> Failure {
    let found = comparisons.iter().find_map(|comparison| comparison(&fault, Scope::Brief).err());
    let failure = found.unwrap_or_else(|| panic!("{fault:?} was not found"));
    assert_ne!(failure.difference, NOT_SEEN_AGAIN, "{fault:?}: {failure}");
    failure
}

/// Each is found by these comparisons, in a case of at most so many calls.
fn each_is_found(faults: &[Fault], comparisons: &[Comparison], most_calls: usize) {
    for &fault in faults {
        let failure = find(fault, comparisons);
        println!("{}", failure.in_one_line());
        assert!(failure.calls <= most_calls, "{fault:?}: {failure}");
    }
}

/// The program passes every comparison in brief.
fn passes_all(program: &dyn Program) {
    for comparison in ALL {
        if let Err(failure) = comparison(program, Scope::Brief) {
            panic!("{failure}");
        }
    }
}

#[test]
fn single_faults() {
    each_is_found(&SINGLE, &ALL, 6);
}

#[test]
fn a_class_set_as_another() {
    each_is_found(&CLASSES_AS, &[pairs::compare], 3);
}

#[test]
fn digits_and_the_postfix_after_them() {
    each_is_found(&DIGITS, &[digits::compare], 3);
}

#[test]
fn every_pair_of_classes_is_looked_at() {
    for left in CLASSES {
        for right in CLASSES {
            find(Fault::PairShifted(left, right), &[pairs::compare]);
            find(Fault::PairShifted(left, right), &[gaps::compare]);
        }
        println!("{SECOND} with the faults PairShifted({left}, each class): found by pairs, and by gaps");
    }
}

#[test]
fn spaces_from_a_wrong_table() {
    each_is_found(&TABLES, &[gaps::compare], 3);
}

/// Where there is a space, a cell of the table can take it from the wrong side, or name the wrong stage.
#[test]
fn every_cell_of_the_table_is_looked_at() {
    let mut cells = 0;
    for left in CLASSES {
        for right in CLASSES.into_iter().filter(|&right| has_space(left, right)) {
            cells += 1;
            find(Fault::NextStage(left, right), &[gaps::compare]);
            // Between middle dots both sides give the same part.
            if (left, right) != (5, 5) {
                find(Fault::OtherSide(left, right), &[gaps::compare]);
            }
        }
    }
    // Of rules a to d, f, g, h, i and j.
    assert_eq!(cells, 35 + 13 + 28 + 12 + 6 + 7);
    println!("{SECOND} with the faults NextStage and OtherSide in each of {cells} cells: found by gaps");
}

/// Whether records of these two classes stand apart.
fn has_space(left: u32, right: u32) -> bool {
    let records = [plain(left, 80), plain(right, 80)];
    let slot = second::slot_words(7, 1_000, 0, &records.concat()).expect("a pair that fits");
    slot[LINES + 1] > records[0][3] + records[1][3]
}

#[test]
fn sums_in_fields_too_narrow() {
    each_is_found(&NARROW_FIELDS, &[gaps::compare], 3);
}

/// The lines of these faults are otherwise set as they should be.
#[test]
fn sums_in_fields_wide_enough() {
    let packed = Fault::Fields(FIELDS);
    passes_all(&packed);
    assert!(gaps::compare(&packed, Scope::Full).is_ok());
}

fn in_rows(misrows: &[Misrow], more: &[Misrow]) -> Vec<Fault> {
    [misrows, more].concat().into_iter().map(Fault::Rows).collect()
}

#[test]
fn rows_of_ruby_set_wrongly() {
    let faults = in_rows(&IN_BOTH_ROWS, &IN_RUBY);
    each_is_found(&faults, &[ruby::places], 1);
    each_is_found(&faults, &[cases::compare], 3);
}

/// Each shows on the sheet, in the cases worked by hand, and among all other calls.
#[test]
fn base_rows_set_wrongly() {
    let faults = in_rows(&IN_BOTH_ROWS, &[Misrow::OldBase]);
    each_is_found(&faults, &[ruby::groups], 3);
    each_is_found(&faults, &[cases::compare], 3);
    each_is_found(&faults, &[sequences::compare], 8);
}

/// An edit without a change leaves places of document 01 as they are stored, or composes such places anew.
#[test]
fn places_as_document_01_has_them() {
    let faults = in_rows(&[Misrow::StoredPlaces, Misrow::OuterGaps, Misrow::OldBase], &[]);
    each_is_found(&faults, &[ruby::stored], 5);
}

/// A fault of one row is not seen in the other: both are compared, and what is stored besides.
#[test]
fn one_row_set_wrongly() {
    let passes = |misrow, comparison: Comparison| comparison(&Fault::Rows(misrow), Scope::Brief).is_ok();
    assert!(passes(Misrow::OldBase, ruby::places));
    for misrow in IN_RUBY {
        assert!(passes(misrow, ruby::groups) && passes(misrow, ruby::stored));
    }
    assert!(passes(Misrow::StoredPlaces, ruby::places) && passes(Misrow::StoredPlaces, ruby::groups));
}

/// The second program deals the gaps out; by the formula, rows stand alike.
#[test]
fn rows_set_by_the_formula() {
    let sound = Fault::Rows(Misrow::Sound);
    passes_all(&sound);
    assert!(ruby::compare(&sound, Scope::Full).is_ok());
}

#[test]
fn misreadings_of_the_redone_lines() {
    each_is_found(&MISREADINGS.map(Fault::Redone), &[redone::compare], 5);
}

/// Their reports are otherwise what they should be.
#[test]
fn the_redone_lines_read_rightly() {
    passes_all(&Fault::Redone(Misreading::Sound));
}

/// Each shows in a lookup, and in what an edit answers.
#[test]
fn wrong_lists_are_found() {
    let faults: Vec<Fault> = wrong_lists().into_iter().map(Fault::Listed).collect();
    each_is_found(&faults, &[lists::lookups], 1);
    each_is_found(&faults, &[lists::edits], 3);
    each_is_found(&LOOKUPS.map(Fault::Listed), &[lists::lookups], 1);
}

#[test]
fn lists_asked_wrongly() {
    each_is_found(&ASKED_WRONGLY.map(Fault::Listed), &[lists::edits], 5);
}

/// They show among all other calls too.
#[test]
fn lists_asked_wrongly_in_sequences_and_junk() {
    each_is_found(&ASKED_WRONGLY.map(Fault::Listed), &[sequences::compare, junk::compare], 8);
}

#[test]
fn misimports() {
    let faults: Vec<Fault> = MISIMPORTS.concat().into_iter().map(Fault::Imported).collect();
    each_is_found(&faults, &[leaflet::compare, limits::compare], 4);
}

/// Those of the call, and not of how a text is read, show among all other calls too.
#[test]
fn misimports_in_sequences_and_junk() {
    let faults = IMPORTED_WRONGLY.map(Fault::Imported);
    each_is_found(&faults, &[sequences::compare], 8);
    each_is_found(&faults, &[junk::compare], 8);
}

/// A reader of another shape reads every text as the second program does.
#[test]
fn imports_by_another_reader() {
    let sound = Fault::Imported(Misimport::Sound);
    passes_all(&sound);
    assert!(leaflet::compare(&sound, Scope::Full).is_ok());
}

#[test]
fn misuses_of_slots() {
    each_is_found(&MISUSES.map(Fault::Used), &[slots::compare, limits::compare], 6);
}

/// "No clinic can use up another's slots": each of these takings changes what another clinic is answered, which shows
/// without the second program.
#[test]
fn takings_that_another_clinic_feels() {
    let felt = [
        Misuse::AnyClinics,
        Misuse::UnassignedToo,
        Misuse::AnothersFreeCounts,
        Misuse::UsedUpByAnother,
        Misuse::NextToo,
    ];
    each_is_found(&felt.map(Fault::Used), &[slots::two_clinics], 4);
    // These slots are taken wrongly, and nobody else's.
    for misuse in [Misuse::Highest, Misuse::DamagedIsFree, Misuse::TakeEmpties] {
        assert!(slots::two_clinics(&Fault::Used(misuse), Scope::Brief).is_ok(), "{misuse:?}");
    }
}

/// They show among all other calls too.
#[test]
fn misuses_of_slots_in_sequences_and_junk() {
    each_is_found(&MISUSES.map(Fault::Used), &[sequences::compare, junk::compare], 8);
}

/// A taking that goes through all slots, and a giving back that asks an edit, agree with the second program.
#[test]
fn slots_used_rightly() {
    passes_all(&Fault::Used(Misuse::Sound));
}

#[test]
fn a_failure_is_told_with_its_seed() {
    let told = find(Fault::OldLines, &[sequences::compare]).to_string();
    println!("{told}");
    assert!(told.contains("cd host && GELUMBRIO_SEED=") && told.contains("--test sequences"));
    assert!(told.contains("under test: the second program with the fault OldLines\n"));
    assert!(told.contains("smallest case found"));
}

/// A set-up over a text fails: the case has the text too, and the seed is named.
#[test]
fn a_failing_set_up_is_told_with_the_text_before_it() {
    for comparison in [pairs::compare, short::compare, paragraphs::compare] {
        let failure = find(Fault::SetUpHeadOnly, &[comparison]);
        println!("{failure}");
        assert_eq!((failure.calls, failure.seed.is_some()), (4, failure.test == "paragraphs"));
    }
}

#[test]
fn the_second_program_agrees_with_itself() {
    println!("{}", heading("all, in brief", &Second));
    passes_all(&Second);
}

/// A comparison of the second program with itself must not pass for one of the proved library.
#[test]
fn a_comparison_names_the_program_under_test() {
    let tested = if cfg!(feature = "proved") { "the proved library" } else { "the second program" };
    let expected = format!("limits: under test is {tested}, beside the second program");
    assert_eq!(heading("limits", &UNDER_TEST), expected);
}
