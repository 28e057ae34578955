//! Sequences of up to 200 calls on sheets of 1 to 5 and of 64 slots, and of a few on sheets of wrong lengths, refusals
//! of every number among them. All words are compared after each call, also with the book's, and at the end with those
//! that a single edit gives each slot.

use crate::caller::Caller;
use crate::calls::Case;
use crate::failure::Failure;
use crate::layout::SLOT;
use crate::program::Program;
use crate::random::{seeds, Random};
use crate::run::Run;
use crate::scope::Scope;
use crate::tally::Tally;

const TEST: &str = "sequences";

/// One seed in so many is of a sheet of 64 slots, which takes long to compare.
const ONE_FULL_SHEET_IN: u64 = 50;
/// One seed in so many is of a sheet with a word too many or too few.
const ONE_WRONG_LENGTH_IN: u64 = 37;

/// Compares sequences of calls.
pub fn compare(program: &dyn Program, scope: Scope) -> Result<Tally, Failure> {
    let mut tally = Tally::default();
    for seed in seeds(TEST, scope, 1_500, 60) {
        tally.add(&sequence(program, seed)?);
    }
    Ok(tally)
}

fn sequence(program: &dyn Program, seed: u64) -> Result<Tally, Failure> {
    let mut random = Random::new(seed);
    let slots = if seed.is_multiple_of(ONE_FULL_SHEET_IN) { 64 } else { random.between(1, 5) };
    let mut length = slots as usize * SLOT;
    if seed.is_multiple_of(ONE_WRONG_LENGTH_IN) {
        length = if random.once_in(2) { length - 1 } else { length + 1 };
    }
    // One sequence in four has damage in it; the book is silent from there to the next set-up.
    let damages = random.once_in(4);
    let junk = random.once_in(2).then(|| random.bits());
    let mut case = Case { length, junk, calls: Vec::new() };

    let mut caller = Caller::new(random.bits(), length, damages);
    let mut run = Run::new(program, case.sheet());
    for _ in 0..random.between(20, 200) {
        let call = caller.next(run.book());
        case.calls.push(call.clone());
        if run.apply(&call).is_err() {
            return Err(Failure::new(TEST, Some(seed), program, &case));
        }
    }
    match run.single_edits() {
        Ok(()) => Ok(run.tally),
        Err(_) => Err(Failure::new(TEST, Some(seed), program, &case)),
    }
}
