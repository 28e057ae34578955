//! Random paragraphs of up to 256 records, groups with ruby among them.

use crate::failure::Failure;
use crate::generate::{spoil, Style};
use crate::one_slot::OneSlot;
use crate::program::Program;
use crate::random::{seeds, Random};
use crate::scope::Scope;
use crate::tally::Tally;

const TEST: &str = "paragraphs";

/// Compares random paragraphs.
pub fn compare(program: &dyn Program, scope: Scope) -> Result<Tally, Failure> {
    let mut tally = Tally::default();
    for seed in seeds(TEST, scope, 100_000, 800) {
        tally.add(&paragraphs(program, seed)?);
    }
    Ok(tally)
}

/// Two settings with texts in each. The slot is the seed's own, so that the seed alone shows what it
/// shows among others.
fn paragraphs(program: &dyn Program, seed: u64) -> Result<Tally, Failure> {
    let mut slot = OneSlot::new(TEST, Some(seed), program);
    let mut random = Random::new(seed);
    let style = Style::random(&mut random);
    for _ in 0..2 {
        let measure = style.measure(&mut random);
        let indent = style.indent(&mut random, measure);
        slot.set_up(measure, indent)?;
        for _ in 0..2 {
            let longest = random.one_of(&[2, 12, 60, 256]);
            let count = random.below(longest + 1);
            let mut text = style.paragraph(&mut random, count);
            if random.once_in(20) {
                spoil(&mut random, &mut text);
            }
            slot.replace(&text)?;
        }
    }
    Ok(slot.tally)
}
