//! Sheets of wrong lengths, and the largest numbers everywhere, in a damaged head too.

use crate::calls::{Call, Case, Words};
use crate::failure::Failure;
use crate::generate::{plain, usual, usual_advance, EDGES};
use crate::layout::{CLASSES, IN_USE, RECORDS, SLOT};
use crate::program::Program;
use crate::run::run;
use crate::scope::Scope;
use crate::tally::Tally;
use crate::texts::DOSE;

const TEST: &str = "limits";
const BIG: u32 = u32::MAX;
const LENGTHS: [usize; 10] =
    [0, 1, SLOT - 1, SLOT, SLOT + 1, 2 * SLOT - 1, 2 * SLOT, 64 * SLOT, 64 * SLOT + 1, 65 * SLOT];

/// Compares what is at and past the limits.
pub fn compare(program: &dyn Program, _scope: Scope) -> Result<Tally, Failure> {
    let mut cases = Vec::new();
    cases.extend(LENGTHS.map(wrong_length));
    cases.push(set_up_numbers());
    cases.extend(edit_numbers());
    cases.push(inserted_lengths());
    cases.push(record_numbers());
    cases.push(record_sizes());
    cases.push(group_lengths());
    cases.push(full_slots());
    cases.extend(measures());
    cases.extend(damaged_heads());
    let mut tally = Tally::default();
    for case in cases {
        match run(program, &case) {
            Ok(seen) => tally.add(&seen),
            Err(_) => return Err(Failure::new(TEST, None, program, &case)),
        }
    }
    Ok(tally)
}

fn set_up(slots: usize, measure: u32) -> Call {
    Call::SetUp { clinics: vec![7; slots], measures: vec![measure; slots], indents: vec![0; slots] }
}

fn one_slot(measure: u32) -> [Call; 2] {
    Call::one_slot(7, measure, 0)
}

/// Every call on a sheet of this length, which may be wrong.
fn wrong_length(length: usize) -> Case {
    let slots = length / SLOT;
    let mut calls = vec![set_up(slots, 800), set_up(slots + 1, 800), set_up(0, 800)];
    calls.extend([7, 0, BIG, 7, 7].map(|caller| Call::Take { caller }));
    for slot in [0, slots.saturating_sub(1) as u32, slots as u32, 64, BIG] {
        calls.push(Call::Edit { caller: 7, slot, place: 0, deleted: 0, inserted: plain(19, 80).to_vec() });
        for text in [DOSE, "<"] {
            calls.push(Call::Import { caller: 7, slot, size: 80, text: text.into() });
        }
        calls.push(Call::Read { caller: 7, slot });
        calls.push(Call::Read { caller: 0, slot });
        calls.push(Call::Read { caller: BIG, slot });
        calls.extend([7, 0, BIG].map(|caller| Call::GiveBack { caller, slot }));
    }
    Case { length, junk: Some(length as u64), calls }
}

/// Every edge in every list, in the first and in the last slot.
fn set_up_numbers() -> Case {
    let mut calls = Vec::new();
    for edge in EDGES {
        for slot in [0, 2] {
            for list in 0..3 {
                let mut lists = [vec![7; 3], vec![800; 3], vec![0; 3]];
                lists[list][slot] = edge;
                let [clinics, measures, indents] = lists;
                calls.push(Call::SetUp { clinics, measures, indents });
            }
        }
        calls.push(Call::SetUp { clinics: vec![edge; 3], measures: vec![edge; 3], indents: vec![edge; 3] });
    }
    Case { length: 3 * SLOT, junk: None, calls }
}

/// Every pair of edges as place and deletion, and as caller and slot, and every edge as an import's size and as the
/// caller of a taking, each on nine records in the first of two slots. The second is not in use.
fn edit_numbers() -> Vec<Case> {
    let on_nine_records = |calls: &[Call]| {
        let text = plain(19, 80).repeat(9);
        let nine = [set_up(2, 800), Call::Take { caller: 7 }, Call::replace(7, 0, &text)];
        Case { length: 2 * SLOT, junk: None, calls: [&nine, calls].concat() }
    };
    let largest = Call::Edit { caller: BIG, slot: BIG, place: BIG, deleted: BIG, inserted: vec![BIG; 3_000] };
    let mut cases = vec![on_nine_records(&[largest])];
    for edge in EDGES {
        for other in EDGES {
            cases.push(on_nine_records(&[
                Call::Read { caller: edge, slot: other },
                Call::Edit { caller: edge, slot: other, place: 0, deleted: 0, inserted: vec![] },
                Call::Edit { caller: 7, slot: 0, place: edge, deleted: other, inserted: vec![] },
                Call::GiveBack { caller: edge, slot: other },
            ]));
            // A fault in the text comes before all that is wrong with caller and slot.
            cases.push(on_nine_records(&["<", "あ"].map(|text| {
                let text = text.into();
                Call::Import { caller: edge, slot: other, size: 80, text }
            })));
        }
        cases.push(on_nine_records(&["<", "", DOSE].map(|text| Call::import(7, edge, text))));
        cases.push(on_nine_records(&[edge, edge].map(|caller| Call::Take { caller })));
    }
    cases
}

/// Insertions that are no whole records, too many, or both; of junk, of records that are sound, and
/// of these once more where they stand already.
fn inserted_lengths() -> Case {
    let mut calls = Vec::new();
    for records in [0, 1, 2, 127, 128, 129, 255, 256, 257, 300] {
        for cut in [0, 1, 5] {
            let mut words = plain(19, 80).repeat(records);
            words.truncate(words.len().saturating_sub(cut));
            calls.extend(one_slot(8_000));
            calls.push(Call::replace(7, 0, &vec![BIG; words.len()]));
            calls.push(Call::replace(7, 0, &words));
            calls.push(Call::replace(7, 0, &words));
        }
    }
    Case { length: SLOT, junk: None, calls }
}

/// Every edge in every word of a record of every kind.
fn record_numbers() -> Case {
    let mut calls = Vec::new();
    let grouped = [0x6F22, 19, 80, 80, 1, 2];
    let kinds = [1, 3, 19, 27].map(|class| plain(class, 80)).into_iter().chain([grouped]);
    for record in kinds {
        for word in 0..6 {
            let code_points = [0xD7FF, 0xD800, 0xDFFF, 0xE000, 0x10_FFFF, 0x11_0000];
            let advances = [39, 40, 41, 79, 80, 81, 159, 160, 161];
            for edge in EDGES.into_iter().chain(code_points).chain(advances) {
                let mut spoiled: Words = record;
                spoiled[word] = edge;
                calls.extend(one_slot(1_000_000));
                calls.push(Call::replace(7, 0, &[record, spoiled].concat()));
            }
        }
    }
    Case { length: SLOT, junk: None, calls }
}

/// Every class in sizes at and past the limits, each with an advance that goes with its size.
fn record_sizes() -> Case {
    let sizes = [0, 4, 8, 12, 3_992, 4_000, 4_004, 4_008, 4_096, 0x8000_0000, BIG - 15, BIG - 7, BIG];
    let mut calls = Vec::new();
    for class in CLASSES {
        for size in sizes {
            let advances = match class {
                3 => vec![1, size],
                27 => vec![1, size, size.wrapping_mul(2)],
                _ => vec![usual_advance(class, size)],
            };
            for advance in advances {
                calls.extend(one_slot(1_000_000));
                calls.push(Call::replace(7, 0, &[usual(class), class, size, advance, 0, 0]));
            }
        }
    }
    Case { length: SLOT, junk: None, calls }
}

/// Groups of 1 to 40 records, alone and after a group that differs.
fn group_lengths() -> Case {
    let mut calls = vec![];
    let grouped = [0x6F22, 19, 16, 16, 1, 2];
    let (other_size, other_count) = ([0x6F22, 19, 8, 8, 1, 2], [0x6F22, 19, 16, 16, 1, 3]);
    for length in 1..=40 {
        for before in [&[][..], &plain(19, 16), &other_size, &other_count] {
            calls.extend(one_slot(1_000));
            calls.push(Call::replace(7, 0, &[before, &grouped.repeat(length)].concat()));
        }
    }
    Case { length: SLOT, junk: None, calls }
}

/// 256 records, 256 lines, the largest advances, and one record too many.
fn full_slots() -> Case {
    let widest = [0x6F22, 19, 4_000, 4_000, 1, 64];
    let mut calls = Vec::new();
    for (record, measure) in [
        (plain(19, 8), 8),
        (plain(19, 8), 1_000_000),
        (plain(19, 4_000), 1_000_000),
        ([0x41, 27, 4_000, 8_000, 0, 0], 1_000_000),
        (plain(5, 4_000), 1_000_000),
        (widest, 128_000),
        (widest, 127_999),
    ] {
        calls.extend(one_slot(measure));
        let text: Vec<u32> = (0..256).flat_map(|i| numbered(record, i)).collect();
        calls.push(Call::replace(7, 0, &text));
        calls.push(Call::Read { caller: 7, slot: 0 });
        calls.push(Call::Edit { caller: 7, slot: 0, place: 256, deleted: 0, inserted: record.to_vec() });
        calls.push(Call::Edit {
            caller: 7,
            slot: 0,
            place: 255,
            deleted: 1,
            inserted: numbered(record, 255).to_vec(),
        });
        calls.push(Call::Edit { caller: 7, slot: 0, place: 0, deleted: 255, inserted: vec![] });
        calls.push(Call::Read { caller: 7, slot: 0 });
    }
    Case { length: SLOT, junk: Some(1), calls }
}

/// The record, in a group of its own where it is in one.
fn numbered(mut record: Words, i: u32) -> Words {
    if record[4] != 0 {
        record[4] = 1 + i;
    }
    record
}

/// A text with every kind of gap in measures at and around both limits, and with large indents.
fn measures() -> Vec<Case> {
    let text = [1, 19, 7, 27, 19, 2, 6, 5, 16].map(|class| plain(class, 8)).concat();
    let in_measure = |(measure, indent): (u32, u32)| {
        let [set_up, take] = Call::one_slot(7, measure, indent);
        Case { length: SLOT, junk: None, calls: vec![set_up, take, Call::replace(7, 0, &text)] }
    };
    let settings = (8..200).map(|measure| (measure, measure / 3));
    let large = [(1_000_000, 0), (1_000_000, 999_999), (1_000_000, 999_900), (999_999, 1)];
    settings.chain(large).map(in_measure).collect()
}

/// Every edge in every word of the head of a slot with a text, and in all words before the in-use word beside each
/// kind of that: read, edited, imported into, given back and taken so.
fn damaged_heads() -> Vec<Case> {
    let each_edge = |at| EDGES.map(|edge| (at, edge));
    let alone = (0..RECORDS).flat_map(each_edge).map(|damage| vec![damage]);
    let beside = [0, 2, BIG]
        .into_iter()
        .flat_map(|in_use| (0..IN_USE).flat_map(each_edge).map(move |damage| vec![damage, (IN_USE, in_use)]));
    alone.chain(beside).map(|damages| with_damaged_head(&damages)).collect()
}

/// Each call that changes the slot meets these words.
fn with_damaged_head(damages: &[(usize, u32)]) -> Case {
    let damages: Vec<Call> = damages.iter().map(|&(at, word)| Call::Damage { at, word }).collect();
    let mut calls = one_slot(800).to_vec();
    calls.push(Call::replace(7, 0, &plain(19, 80).repeat(20)));
    for call in [
        Call::Read { caller: 7, slot: 0 },
        Call::import(7, 80, "あ<"),
        Call::replace(7, 0, &plain(19, 80)),
        Call::import(7, 80, DOSE),
        Call::GiveBack { caller: 7, slot: 0 },
        Call::Take { caller: 7 },
    ] {
        calls.extend_from_slice(&damages);
        calls.push(call);
    }
    Case { length: SLOT, junk: None, calls }
}
