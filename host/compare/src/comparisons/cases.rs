//! C1 to C13 (document 01, "Composed by hand") and the cases of document 02's requests, against the
//! numbers on the paper and beside the second program.

use second::by_hand::{
    self, UseCase, EDITS, GROUPS, PAPERS, REQUEST_06, REQUEST_07, RUBY, TAKES, USES, USES_SET_UP,
};
use second::leaflet::by_hand::{all_refused, ACCEPTED, SIZE};
use second::{Edit, EditAnswer, ImportAnswer};

use crate::calls::{Call, Case};
use crate::failure::Failure;
use crate::layout::{record_words, SLOT};
use crate::one_slot::OneSlot;
use crate::program::{answer, Answered, Program};
use crate::run::run;
use crate::same::{same_answer, same_words};
use crate::scope::Scope;
use crate::tally::{Outcome, Tally};

const TEST: &str = "cases";
const CLINIC: u32 = 7;
const PAPER: &str = "the paper";

/// Compares the cases.
pub fn compare(program: &dyn Program, _scope: Scope) -> Result<Tally, Failure> {
    let mut tally = Tally::default();
    let cases = PAPERS.into_iter().flat_map(|(paper, cases)| cases.iter().map(move |case| (paper, case)));
    for (paper, case) in cases {
        let on_paper = case.expected(CLINIC);
        tally.add(&composed(program, (paper, case.name), case.measure, &case.records.concat(), on_paper)?);
    }
    for case in EDITS {
        tally.add(&edit(program, &case)?);
    }
    tally.add(&imports(program)?);
    for group in GROUPS {
        let (records, on_paper) = (group.records().concat(), group.expected(CLINIC));
        tally.add(&composed(program, (REQUEST_06, &group.name()), group.measure(), &records, on_paper)?);
        row_of_ruby(program, group.base_advance(), group.size, group.ruby)?;
    }
    for (base_advance, size, offsets) in RUBY {
        row_of_ruby(program, base_advance, size, offsets)?;
    }
    for case in TAKES {
        taking(program, &case)
            .map_err(|difference| paper_failure(program, REQUEST_07, case.name, difference))?;
        tally.count(Outcome::Take(case.expected().0.number));
    }
    for case in USES {
        tally.add(&calls_on_a_slot(program, &case)?);
    }
    Ok(tally)
}

/// A taking of request 07, as on the paper.
fn taking(program: &dyn Program, case: &by_hand::TakeCase) -> Result<(), String> {
    let mut sheet = case.sheet();
    let (answer, words) = case.expected();
    same_answer(program.take(&mut sheet, case.caller), answer, PAPER)?;
    same_words(&sheet, &words, PAPER)
}

/// An edit, a read and a giving back of request 07, beside the second program and as on the paper.
fn calls_on_a_slot(program: &dyn Program, case: &UseCase) -> Result<Tally, Failure> {
    let mut tally = Tally::default();
    let [clinics, measures, indents] = USES_SET_UP.map(|list| list.to_vec());
    let mut before = vec![Call::SetUp { clinics, measures, indents }, Call::Take { caller: CLINIC }];
    before.push(Call::replace(CLINIC, 0, &UseCase::records()));
    before.extend(case.damages.iter().map(|&(at, word)| Call::Damage { at, word }));

    let (caller, slot) = case.call;
    let calls = [
        Call::Edit { caller, slot, place: 0, deleted: 0, inserted: vec![] },
        Call::Read { caller, slot },
        Call::GiveBack { caller, slot },
    ];
    for (call, expected) in calls.into_iter().zip(case.numbers) {
        let mut sheet = vec![0; USES_SET_UP[0].len() * SLOT];
        before.iter().for_each(|call| drop(answer(program, &mut sheet, call)));
        let Answered { number, told, .. } = answer(program, &mut sheet, &call);
        if number != expected {
            let difference = format!("{call}: {told}; {PAPER}: number {expected}");
            return Err(paper_failure(program, REQUEST_07, case.name, difference));
        }
        let length = sheet.len();
        let beside = Case { length, junk: None, calls: [&before[..], &[call]].concat() };
        tally.add(&run(program, &beside).map_err(|_| Failure::new(TEST, None, program, &beside))?);
    }
    Ok(tally)
}

/// Records in a slot just taken, beside the second program and as on the paper.
fn composed(
    program: &dyn Program,
    (paper, name): (&str, &str),
    measure: u32,
    records: &[u32],
    on_paper: (EditAnswer, Vec<u32>),
) -> Result<Tally, Failure> {
    let mut calls = Call::one_slot(CLINIC, measure, 0).to_vec();
    calls.extend([Call::replace(CLINIC, 0, records), Call::Read { caller: CLINIC, slot: 0 }]);
    let beside = Case { length: SLOT, junk: None, calls };
    let seen = run(program, &beside).map_err(|_| Failure::new(TEST, None, program, &beside))?;
    as_on_paper(program, measure, records, on_paper)
        .map_err(|difference| paper_failure(program, paper, name, difference))?;
    Ok(seen)
}

/// A row of ruby as on the paper of request 06.
fn row_of_ruby(program: &dyn Program, base_advance: u32, size: u32, expected: &[u32]) -> Result<(), Failure> {
    let count = expected.len() as u32;
    let offsets: Vec<u32> =
        (0..count).map(|k| program.ruby_place(base_advance, count, size, k).offset).collect();
    if offsets == expected {
        return Ok(());
    }
    let name = format!("a base advance of {base_advance}, size {size} and {count} ruby characters");
    Err(paper_failure(program, REQUEST_06, &name, format!("ruby stands at {offsets:?}")))
}

/// An edit of request 03, beside the second program and as on the paper.
fn edit(program: &dyn Program, case: &by_hand::EditCase) -> Result<Tally, Failure> {
    let mut slot = OneSlot::new(TEST, None, program);
    slot.set_up(case.setting.0, case.setting.1)?;
    slot.replace(&case.old())?;
    let edited = slot.edit(case.place, case.deleted, &case.inserted())?;
    same_answer(edited, case.expected(), PAPER)
        .map_err(|difference| paper_failure(program, "document 02, request 03", case.name, difference))?;
    Ok(slot.tally)
}

/// The texts of request 05, beside the second program and as on the paper. All fit on one line.
fn imports(program: &dyn Program) -> Result<Tally, Failure> {
    let mut slot = OneSlot::new(TEST, None, program);
    slot.set_up(10_000, 0)?;
    let failed = |name: &str, difference| paper_failure(program, "document 02, request 05", name, difference);
    for case in ACCEPTED {
        let answer = slot.import(SIZE, case.text.as_bytes())?;
        let lines = u32::from(!case.text.is_empty());
        let expected = ImportAnswer { number: 0, redone: lines, place: lines as usize };
        same_answer(answer, expected, PAPER).map_err(|difference| failed(case.name, difference))?;
        // Both programs hold these words.
        if record_words(slot.words()) != case.records() {
            return Err(failed(case.name, "the records are not those of the paper".to_string()));
        }
    }
    for case in all_refused() {
        let answer = slot.import(SIZE, case.text)?;
        same_answer(answer, ImportAnswer::text_fault(case.place), PAPER)
            .map_err(|difference| failed(case.name, difference))?;
    }
    Ok(slot.tally)
}

fn paper_failure(program: &dyn Program, paper: &str, name: &str, difference: String) -> Failure {
    let case = format!("{name} of {paper}");
    Failure { program: program.name(), test: TEST, seed: None, difference, calls: 2, case }
}

/// Whether the answer and every word are those of the paper.
fn as_on_paper(
    program: &dyn Program,
    measure: u32,
    records: &[u32],
    (answer, words): (EditAnswer, Vec<u32>),
) -> Result<(), String> {
    let mut sheet = vec![0; SLOT];
    program.set_up(&mut sheet, &[CLINIC], &[measure], &[0]);
    program.take(&mut sheet, CLINIC);
    let edit = Edit { caller: CLINIC, slot: 0, place: 0, deleted: 0, inserted: records };
    same_answer(program.edit(&mut sheet, edit), answer, PAPER)?;
    same_words(&sheet, &words, PAPER)
}
