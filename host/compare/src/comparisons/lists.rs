//! The published lists (document 02, request 04): every code point in every class, each character accepted in its
//! class, its neighbours and other classes' characters refused with 12, before 9 and 10 and after 8, and answer 4 for
//! stored records that their classes' lists lack.

use second::in_list;
use second::lists::BLOCKS;

use crate::calls::{Call, Case, Words};
use crate::failure::Failure;
use crate::generate::{all_texts, annex_a, plain, usual};
use crate::layout::{CLASSES, RECORDS, SLOT};
use crate::one_slot::OneSlot;
use crate::program::{Program, Second, SECOND};
use crate::run::run;
use crate::same::same_answer;
use crate::scope::Scope;
use crate::tally::{Outcome, Tally};

const TEST: &str = "lists";
const CLINIC: u32 = 7;
const SIZE: u32 = 8;
/// All records of a slot fit on one line.
const MEASURE: u32 = 10_000;
/// Wider than the measure.
const WIDE: u32 = 4_000;
const NARROW_MEASURE: u32 = WIDE - 1;
const MOST_RECORDS: usize = 256;

/// Compares the lookups, then what edits make of the lists.
pub fn compare(program: &dyn Program, scope: Scope) -> Result<Tally, Failure> {
    let mut tally = lookups(program, scope)?;
    tally.add(&edits(program, scope)?);
    Ok(tally)
}

/// Every code point, and numbers that are none, in every class, and in numbers that are none.
pub fn lookups(program: &dyn Program, scope: Scope) -> Result<Tally, Failure> {
    let mut tally = Tally::default();
    let code_points: Vec<u32> = code_points(scope).collect();
    let classes = (0..=40).chain([63, 64 + 19, 256 + 27, 0x8000_0000 + 19, u32::MAX]);
    for class in classes {
        let mut having = 0;
        for &code_point in &code_points {
            let (tested, second) = (program.in_list(class, code_point), Second.in_list(class, code_point));
            having += u64::from(second);
            if tested != second {
                return Err(lookup_failure(
                    program,
                    format!("in list: class {class}"),
                    code_point,
                    tested,
                    second,
                ));
            }
        }
        tally.count_times(Outcome::InList(1), having);
        tally.count_times(Outcome::InList(0), code_points.len() as u64 - having);
    }
    for &code_point in &code_points {
        let (tested, second) = (program.class_of(code_point), Second.class_of(code_point));
        if tested != second {
            return Err(lookup_failure(program, "class of".to_string(), code_point, tested, second));
        }
        tally.count(Outcome::ClassOf(second));
    }
    Ok(tally)
}

/// In full all code points, surrogates too, and as many numbers past them; in brief those below the first ideograph,
/// those about the ends of its blocks, and the forms that are wide or for compatibility.
pub fn code_points(scope: Scope) -> Box<dyn Iterator<Item = u32>> {
    let past = [0x20_3001, 0x7FFF_FFFF, 0x8000_3001, u32::MAX - 1, u32::MAX];
    if scope == Scope::Full {
        return Box::new((0..=0x11_FFFF).chain(past));
    }
    let ends = BLOCKS.into_iter().flat_map(|block| [block.first, block.last]);
    let about = ends.flat_map(|end| end - 2..=end + 2);
    let forms = (0xF900..0xFB00).chain(0xFF00..0xFFF0).chain(0x4ED0..0x4EE0);
    Box::new((0..0x3400).chain(about).chain(forms).chain(0x10_FFFE..0x11_0002).chain(past))
}

fn lookup_failure(program: &dyn Program, call: String, code_point: u32, tested: u32, second: u32) -> Failure {
    let difference = same_answer(tested, second, SECOND).err().unwrap_or_default();
    let case = format!("{call}, U+{code_point:04X}");
    Failure { program: program.name(), test: TEST, seed: None, difference, calls: 1, case }
}

/// What edits accept and refuse.
pub fn edits(program: &dyn Program, scope: Scope) -> Result<Tally, Failure> {
    let mut slot = OneSlot::new(TEST, None, program);
    slot.set_up(MEASURE, 0)?;
    for class in CLASSES {
        listed(&mut slot, class, scope)?;
    }
    slot.replace(&plain(19, SIZE).repeat(5))?;
    for class in CLASSES {
        not_listed(&mut slot, class, scope)?;
    }
    let mut tally = slot.tally;
    for case in [order(scope), stored()] {
        let seen = run(program, &case).map_err(|_| Failure::new(TEST, None, program, &case))?;
        tally.add(&seen);
    }
    Ok(tally)
}

/// A record of this class, whether its list has the code point or not.
fn record(code_point: u32, class: u32) -> Words {
    let mut record = plain(class, SIZE);
    record[0] = code_point;
    record
}

/// Each character in its class, as many at once as a slot holds. All ideographs in full, in brief those at the ends
/// of their blocks.
fn listed(slot: &mut OneSlot, class: u32, scope: Scope) -> Result<(), Failure> {
    let mut characters = annex_a(class).to_vec();
    if class == 19 {
        characters.extend(code_points(scope).filter(|&code_point| in_list(19, code_point)));
    }
    for characters in characters.chunks(MOST_RECORDS) {
        let text: Vec<u32> = characters.iter().flat_map(|&code_point| record(code_point, class)).collect();
        slot.replace(&text)?;
        assert_eq!(slot.records(), text, "a text that both programs refuse shows nothing");
    }
    Ok(())
}

/// The code points beside each of the class's, and other classes' characters, one by one as record 3, inserted with a
/// sound one before it. In brief the characters of the two longest lists are tried in no other class.
fn not_listed(slot: &mut OneSlot, class: u32, scope: Scope) -> Result<(), Failure> {
    let of_blocks = BLOCKS.into_iter().filter(|_| class == 19).flat_map(|block| [block.first, block.last]);
    let beside = annex_a(class).iter().copied().chain(of_blocks).flat_map(|end| [end - 1, end + 1]);
    let longest_list = scope.choose(usize::MAX, 100);
    let of_others =
        CLASSES.into_iter().map(annex_a).filter(|list| list.len() <= longest_list).flatten().copied();
    // Full-width forms, ideographs for compatibility, a dash that only a remark names, half an entry of two.
    let in_none = (0xFF01..0xFF5F).chain(['\u{F900}', '\u{FA10}', '―', '\u{309A}', ' '].map(u32::from));

    let mut tried: Vec<u32> = beside.chain(of_others).chain(in_none).collect();
    tried.sort_unstable();
    tried.dedup();
    for code_point in tried.into_iter().filter(|&code_point| !in_list(class, code_point)) {
        slot.edit(2, 1, &[plain(19, SIZE), record(code_point, class)].concat())?;
    }
    Ok(())
}

/// All short texts of sound records and of such as fall under 8, 12, 9 or 10: any 8 comes before any 12, any 12 before
/// any 9, any 9 before any 10. The book answers likewise.
fn order(scope: Scope) -> Case {
    let comma_as_19 = record(usual(7), 19);
    let breaks_8 = [usual(19), 19, SIZE, SIZE + 1, 0, 0];
    let both = [usual(7), 19, SIZE, SIZE + 1, 0, 0];
    let grouped = |ruby_count| [usual(19), 19, SIZE, SIZE, 1, ruby_count];
    let alphabet = [plain(19, SIZE), comma_as_19, breaks_8, both, grouped(1), grouped(2), plain(19, WIDE)];
    let calls = all_texts(&alphabet, scope.choose(4, 3)).into_iter().flat_map(|text| {
        let [set_up, take] = Call::one_slot(CLINIC, NARROW_MEASURE, 0);
        [
            set_up,
            take,
            Call::replace(CLINIC, 0, &plain(15, SIZE).repeat(3)),
            Call::Edit { caller: CLINIC, slot: 0, place: 1, deleted: 1, inserted: text },
        ]
    });
    Case { length: SLOT, junk: None, calls: calls.collect() }
}

/// A stored record of each class gets the character of each, then the class of each: then it is edited, deleted and
/// read.
fn stored() -> Case {
    let mut calls = Vec::new();
    for class in CLASSES {
        for other in CLASSES {
            for (at, word) in [(0, usual(other)), (1, other)] {
                calls.extend(Call::one_slot(CLINIC, MEASURE, 0));
                calls.extend([
                    Call::replace(CLINIC, 0, &[plain(19, SIZE), plain(class, SIZE)].concat()),
                    Call::Damage { at: RECORDS + 6 + at, word },
                    Call::Read { caller: CLINIC, slot: 0 },
                    Call::Edit { caller: CLINIC, slot: 0, place: 0, deleted: 0, inserted: vec![] },
                    Call::Edit { caller: CLINIC, slot: 0, place: 1, deleted: 1, inserted: vec![] },
                ]);
            }
        }
    }
    Case { length: SLOT, junk: None, calls }
}
