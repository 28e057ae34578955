//! The two rows of a group (document 01, "Records and groups"; document 02, request 06).
//!
//! Ruby place: all of its limits, and a wide choice of groups. The places of grouped records: every record count with
//! every ruby count, in new slots and in those that were composed by document 01's rule.

use crate::calls::{Call, Case, Words};
use crate::failure::Failure;
use crate::generate::{plain, usual};
use crate::layout::SLOT;
use crate::one_slot::OneSlot;
use crate::program::{Program, Second, SECOND};
use crate::rows::{set_base_rows, Row};
use crate::run::run;
use crate::same::same_answer;
use crate::scope::Scope;
use crate::tally::{Outcome, Tally, Way};

const TEST: &str = "ruby";
const SIZES: [u32; 12] = [0, 4, 7, 8, 12, 16, 80, 88, 3_992, 4_000, 4_008, u32::MAX];
const BASES: [u32; 14] = [0, 1, 2, 7, 8, 79, 80, 81, 1_279, 1_280, 63_999, 64_000, 64_001, u32::MAX];

/// The sizes of groups on the sheet.
pub const GROUP_SIZES: [u32; 8] = [8, 16, 24, 80, 88, 120, 3_992, 4_000];
const LEAST_MEASURE: u32 = 8;
const CLINIC: u32 = 7;

/// Compares ruby place, then groups in new slots and in stored ones.
pub fn compare(program: &dyn Program, scope: Scope) -> Result<Tally, Failure> {
    let mut tally = places(program, scope)?;
    tally.add(&groups(program, scope)?);
    tally.add(&stored(program, scope)?);
    Ok(tally)
}

/// Compares ruby place.
pub fn places(program: &dyn Program, scope: Scope) -> Result<Tally, Failure> {
    let mut tally = Tally::default();
    let many = (1..64_000).step_by(scope.choose(251, 6_271));
    for base_advance in many.chain(BASES) {
        for size in SIZES {
            for ruby_count in (0..=66).chain([u32::MAX]) {
                row(program, base_advance, ruby_count, size, &mut tally)?;
            }
        }
    }
    Ok(tally)
}

fn row(program: &dyn Program, base: u32, count: u32, size: u32, tally: &mut Tally) -> Result<(), Failure> {
    for k in (0..=count.min(66)).chain([u32::MAX]) {
        let tested = program.ruby_place(base, count, size, k);
        let second = Second.ruby_place(base, count, size, k);
        tally.count(Outcome::RubyPlace(second.number));
        same_answer(tested, second, SECOND).map_err(|difference| Failure {
            program: program.name(),
            test: TEST,
            seed: None,
            difference,
            calls: 1,
            case: format!("ruby place: base advance {base}, ruby count {count}, size {size}, k {k}"),
        })?;
    }
    Ok(())
}

/// Compares groups in new slots, alone and between ungrouped records: in a measure too narrow by 1, in one where the
/// group has a line of its own, in one that the line of three just fits, and in one to which it is stretched.
pub fn groups(program: &dyn Program, scope: Scope) -> Result<Tally, Failure> {
    let mut slot = OneSlot::new(TEST, None, program);
    for group in chosen(scope) {
        let in_line = group.count + 2;
        let measures = [group.advance() - 1, group.advance(), group.line(), group.wide_measure()];
        for measure in measures.into_iter().filter(|&measure| measure >= LEAST_MEASURE) {
            slot.set_up(measure, 0)?;
            slot.replace(&group.records().concat())?;
            slot.replace(&group.between().concat())?;
            if slot.on_first_line() == in_line && slot.records().len() == 6 * in_line {
                slot.tally.count(Outcome::FinalLine(Way::Natural));
            }
            slot.replace(&group.twice())?;
            if slot.on_first_line() == in_line {
                let way = if measure > group.line() { Way::Stretched(2) } else { Way::Natural };
                slot.tally.count(Outcome::Line(way));
            }
        }
    }
    Ok(slot.tally)
}

/// Compares what an edit without a change makes of slots that were composed by document 01's rule.
pub fn stored(program: &dyn Program, scope: Scope) -> Result<Tally, Failure> {
    let mut tally = Tally::default();
    for case in chosen(scope).filter_map(stored_case) {
        match run(program, &case) {
            Ok(seen) => tally.add(&seen),
            Err(_) => return Err(Failure::new(TEST, None, program, &case)),
        }
    }
    Ok(tally)
}

/// The group on two lines, the first stretched, with the places that document 01's rule gave it, if request 06 gives it
/// others. An edit at place 0 without a change does not count the second line as redone; its places change too.
fn stored_case(group: Group) -> Option<Case> {
    let (measure, text) = (group.wide_measure(), group.twice());
    let slot = second::slot_words(CLINIC, measure, 0, &text).expect("two lines that fit");
    let mut old = slot.clone();
    set_base_rows(&mut old, |row: Row, k| row.moved_by_document_01(k));
    if old == slot {
        return None;
    }
    let moved = (0..SLOT).filter(|&at| old[at] != slot[at]);
    let mut calls = Call::one_slot(CLINIC, measure, 0).to_vec();
    calls.push(Call::replace(CLINIC, 0, &text));
    calls.extend(moved.map(|at| Call::Damage { at, word: old[at] }));
    calls.extend([Call::Read { caller: CLINIC, slot: 0 }, Call::replace(CLINIC, 0, &[])]);
    Some(Case { length: SLOT, junk: None, calls })
}

/// A group of records with ruby characters.
#[derive(Debug, Clone, Copy)]
struct Group {
    count: usize,
    ruby_count: u32,
    size: u32,
}

/// Every record count, with ruby counts and sizes.
fn chosen(scope: Scope) -> impl Iterator<Item = Group> {
    let sizes = scope.choose(&GROUP_SIZES[..], &[8, 88]);
    let step = scope.choose(1, 9);
    let of_size = move |size| {
        let counts = (1..=16).flat_map(move |count| (1..=64).step_by(step).map(move |ruby| (count, ruby)));
        counts.map(move |(count, ruby_count)| Group { count, ruby_count, size })
    };
    sizes.iter().flat_map(move |&size| of_size(size))
}

impl Group {
    /// The longer row's width.
    fn advance(&self) -> u32 {
        (self.count as u32 * self.size).max(self.ruby_count * (self.size / 2))
    }

    /// The width of the group between two ungrouped records.
    fn line(&self) -> u32 {
        self.advance() + 2 * self.size
    }

    /// The largest measure in which that line has no room for one more.
    fn wide_measure(&self) -> u32 {
        self.line() + self.size - 1
    }

    /// Its records, of all classes that groups have.
    fn records(&self) -> Vec<Words> {
        let classes = [15, 16, 19].into_iter().cycle().take(self.count);
        classes.map(|class| [usual(class), class, self.size, self.size, 1, self.ruby_count]).collect()
    }

    /// The group between two ungrouped records.
    fn between(&self) -> Vec<Words> {
        let k = plain(19, self.size);
        [&[k], &self.records()[..], &[k]].concat()
    }

    /// The words of two such lines.
    fn twice(&self) -> Vec<u32> {
        self.between().concat().repeat(2)
    }
}
