//! Slots taken and given back (document 02, request 07): all small sheets by their slots' clinics and in-use words,
//! with every caller; givings back of slots full of words; sheets of every size with one free slot, which is each in
//! turn; and the calls of two clinics in either order.

use crate::calls::{Call, Case};
use crate::failure::Failure;
use crate::generate::plain;
use crate::layout::{IN_USE, RECORDS, SLOT};
use crate::program::{answer, Answered, Program};
use crate::run::run;
use crate::same::{same_answer, same_words};
use crate::scope::Scope;
use crate::tally::Tally;
use crate::texts::DOSE;

const TEST: &str = "slots";
const CLINICS: [u32; 3] = [0, 7, 9];
/// Free, in use, and a word that says neither.
const IN_USE_WORDS: [u32; 3] = [0, 1, 2];
/// Those of the slots, and one without a slot.
const CALLERS: [u32; 4] = [0, 7, 9, 11];
/// The same, dealt out to two sheets: only the last on each can change it.
const TAKERS: [&[u32]; 2] = [&[0, 11, 7], &[9]];
const OTHER_WAY_ROUND: &str = "the other way round";
const MEASURE: u32 = 800;
const SIZE: u32 = 80;

/// The clinic and the in-use word of a slot.
type Head = (u32, u32);

/// Compares takings, all calls on small sheets, givings back, takings of the only free slot, and two clinics' calls.
pub fn compare(program: &dyn Program, scope: Scope) -> Result<Tally, Failure> {
    let mut tally = takings(program, scope)?;
    tally.add(&calls_on_each_slot(program, scope)?);
    tally.add(&given_back(program)?);
    tally.add(&only_free(program, scope)?);
    tally.add(&two_clinics(program, scope)?);
    Ok(tally)
}

/// All sheets of so many slots.
fn all_sheets(slots: u32) -> impl Iterator<Item = Vec<Head>> {
    let heads: Vec<Head> =
        CLINICS.iter().flat_map(|&clinic| IN_USE_WORDS.map(|in_use| (clinic, in_use))).collect();
    let count = heads.len();
    (0..count.pow(slots)).map(move |nth| {
        let digits = (0..slots).map(|slot| nth / count.pow(slot) % count);
        digits.map(|digit| heads[digit]).collect()
    })
}

/// Writes clinics and in-use words over those of a sheet.
fn written_over(heads: &[Head]) -> impl Iterator<Item = Call> + '_ {
    heads.iter().enumerate().flat_map(|(slot, &(clinic, in_use))| {
        let start = slot * SLOT;
        [Call::Damage { at: start, word: clinic }, Call::Damage { at: start + IN_USE, word: in_use }]
    })
}

fn seen(program: &dyn Program, case: &Case) -> Result<Tally, Failure> {
    run(program, case).map_err(|_| Failure::new(TEST, None, program, case))
}

/// Each caller takes a slot of each sheet. Smaller ones hold junk besides.
fn takings(program: &dyn Program, scope: Scope) -> Result<Tally, Failure> {
    let mut tally = Tally::default();
    for slots in 1..=scope.choose(5, 3) {
        for (nth, heads) in (0..).zip(all_sheets(slots)) {
            for callers in TAKERS {
                let mut calls: Vec<Call> = written_over(&heads).collect();
                calls.extend(callers.iter().map(|&caller| Call::Take { caller }));
                let junk = (slots < 4).then_some(nth);
                tally.add(&seen(program, &Case { length: heads.len() * SLOT, junk, calls })?);
            }
        }
    }
    Ok(tally)
}

/// The text of a slot, which no other has.
fn text(slot: usize) -> Vec<u32> {
    plain(19, SIZE).repeat(1 + 12 * slot)
}

/// The calls that a clinic can make on a slot, of which each leaves the in-use word as the next expects it.
fn calls_on(caller: u32, slot: u32) -> [Call; 5] {
    let inserted = plain(15, SIZE).to_vec();
    [
        Call::Read { caller, slot },
        Call::Edit { caller, slot, place: 0, deleted: 0, inserted },
        Call::Import { caller, slot, size: SIZE, text: DOSE.into() },
        Call::Import { caller, slot, size: SIZE, text: b"<".to_vec() },
        Call::GiveBack { caller, slot },
    ]
}

/// Each caller makes every call on each slot of each sheet, and on one that it does not have. All slots have texts.
fn calls_on_each_slot(program: &dyn Program, scope: Scope) -> Result<Tally, Failure> {
    let mut tally = Tally::default();
    for slots in 1..=scope.choose(3, 2) {
        let of_all = |word| vec![word; slots as usize];
        let set_up = Call::SetUp { clinics: of_all(7), measures: of_all(MEASURE), indents: of_all(0) };
        let takes = vec![Call::Take { caller: 7 }; slots as usize];
        let edits = (0..slots).map(|slot| {
            let inserted = text(slot as usize);
            Call::Edit { caller: 7, slot, place: 0, deleted: 0, inserted }
        });
        let before: Vec<Call> = [set_up].into_iter().chain(takes).chain(edits).collect();
        for heads in all_sheets(slots) {
            for (caller, slot) in
                CALLERS.into_iter().flat_map(|caller| (0..=slots).map(move |slot| (caller, slot)))
            {
                let mut calls: Vec<Call> = before.iter().cloned().chain(written_over(&heads)).collect();
                calls.extend(calls_on(caller, slot));
                // A text that stood in a slot not in use is read again once the slot is taken.
                calls.extend([
                    Call::Read { caller, slot },
                    Call::Take { caller },
                    Call::Read { caller, slot },
                ]);
                tally.add(&seen(program, &Case { length: heads.len() * SLOT, junk: None, calls })?);
            }
        }
    }
    Ok(tally)
}

/// Slots without records, with few and with all, in which every word that is not judged is written over: given back,
/// taken again and read.
fn given_back(program: &dyn Program) -> Result<Tally, Failure> {
    let mut tally = Tally::default();
    for count in [0, 1, 20, 256] {
        let mut calls = Call::one_slot(7, SIZE, SIZE / 8).to_vec();
        calls.push(Call::replace(7, 0, &plain(19, SIZE / 2).repeat(count)));
        let unjudged = [4].into_iter().chain(IN_USE + 1..RECORDS).chain(RECORDS + 6 * count..SLOT);
        calls.extend(unjudged.map(|at| Call::Damage { at, word: 1 + at as u32 }));
        let (caller, slot) = (7, 0);
        calls.extend([Call::GiveBack { caller, slot }, Call::Take { caller }, Call::Read { caller, slot }]);
        tally.add(&seen(program, &Case { length: SLOT, junk: None, calls })?);
    }
    Ok(tally)
}

/// On sheets of each size all slots are taken; then each is given back and taken again, while the other clinic has no
/// free one.
fn only_free(program: &dyn Program, scope: Scope) -> Result<Tally, Failure> {
    let mut tally = Tally::default();
    let brief: Vec<usize> = vec![1, 2, 7, 64];
    for slots in scope.choose((1..=64).collect(), brief) {
        let clinics: Vec<u32> = (0..slots).map(|slot| if slot % 3 == 1 { 9 } else { 7 }).collect();
        let takes = clinics.iter().map(|&caller| Call::Take { caller });
        let again = (0..).zip(&clinics).flat_map(|(slot, &caller)| {
            let other = if caller == 7 { 9 } else { 7 };
            [
                Call::GiveBack { caller, slot },
                Call::Take { caller: other },
                Call::Take { caller },
                Call::Take { caller },
            ]
        });
        let (measures, indents) = (vec![MEASURE; slots], vec![0; slots]);
        let set_up = Call::SetUp { clinics: clinics.clone(), measures, indents };
        let calls = [set_up].into_iter().chain(takes).chain(again).collect();
        tally.add(&seen(program, &Case { length: slots * SLOT, junk: Some(slots as u64), calls })?);
    }
    Ok(tally)
}

/// A sheet of sound slots, all with texts.
fn sheet_with_texts(heads: &[Head]) -> Vec<u32> {
    let slots = heads.iter().enumerate().flat_map(|(slot, &(clinic, in_use))| {
        let mut words = second::slot_words(clinic, MEASURE, 0, &text(slot)).expect("a text that fits");
        words[IN_USE] = in_use;
        words
    });
    slots.collect()
}

/// The program under test alone: clinic 7's takings, one or more than there are slots, change no answer of clinic 9's
/// or of one without slots, and no answer of theirs changes those takings; whichever comes first, the same sheet is
/// left.
pub fn two_clinics(program: &dyn Program, scope: Scope) -> Result<Tally, Failure> {
    let mut tally = Tally::default();
    let slots: u32 = scope.choose(3, 2);
    let take = |caller| Call::Take { caller };
    let others: Vec<Call> =
        (0..=slots).flat_map(|slot| calls_on(9, slot)).chain([take(9), take(11)]).collect();
    for heads in all_sheets(slots) {
        let sheet = sheet_with_texts(&heads);
        for takings in [1, slots + 1].map(|takings| vec![take(7); takings as usize]) {
            for other in &others {
                let (first, answers) = made(program, &sheet, takings.iter().chain([other]));
                let (last, mut other_way_round) = made(program, &sheet, [other].into_iter().chain(&takings));
                other_way_round.rotate_left(1);
                answers.iter().filter_map(|answered| answered.outcome).for_each(|seen| tally.count(seen));
                let same = same_answer(answers, other_way_round, OTHER_WAY_ROUND)
                    .and_then(|()| same_words(&first, &last, OTHER_WAY_ROUND));
                same.map_err(|difference| failure(program, &heads, &takings, other, difference))?;
            }
        }
    }
    Ok(tally)
}

/// The sheet that these calls leave, and their answers.
fn made<'a>(
    program: &dyn Program,
    sheet: &[u32],
    calls: impl Iterator<Item = &'a Call>,
) -> (Vec<u32>, Vec<Answered>) {
    let mut sheet = sheet.to_vec();
    let answers = calls.map(|call| answer(program, &mut sheet, call)).collect();
    (sheet, answers)
}

fn failure(
    program: &dyn Program,
    heads: &[Head],
    takings: &[Call],
    other: &Call,
    difference: String,
) -> Failure {
    let case = format!(
        "slots with texts, by clinic and in-use word {heads:?}\n  {} times {}\n  {other}",
        takings.len(),
        takings[0]
    );
    Failure { program: program.name(), test: TEST, seed: None, difference, calls: takings.len() + 1, case }
}
