//! Sheets of junk: random words, and sound slots with a few words spoiled.

use crate::calls::{Call, Case};
use crate::failure::Failure;
use crate::generate::{spoil, spoil_some, Style, EDGES};
use crate::layout::{IN_USE, SLOT};
use crate::program::Program;
use crate::random::{seeds, Random};
use crate::run::run;
use crate::scope::Scope;
use crate::tally::Tally;
use crate::texts;

const TEST: &str = "junk";

/// Compares calls on junk.
pub fn compare(program: &dyn Program, scope: Scope) -> Result<Tally, Failure> {
    let mut tally = Tally::default();
    for seed in seeds(TEST, scope, 60_000, 1_500) {
        let case = junk_case(seed);
        match run(program, &case) {
            Ok(seen) => tally.add(&seen),
            Err(_) => return Err(Failure::new(TEST, Some(seed), program, &case)),
        }
    }
    Ok(tally)
}

/// A slot with a text, some words spoiled, and then a few calls by the clinic that it names.
fn junk_case(seed: u64) -> Case {
    let mut random = Random::new(seed);
    let slots = random.between(1, 3);
    let slot = random.below(slots);
    let style = Style::random(&mut random);
    let mut caller = random.one_of(&[1, 7, 65_535]);
    let measure = style.measure(&mut random);
    let indent = style.indent(&mut random, measure);
    let count = random.one_of(&[0, 1, 3, 20]);
    let text = style.paragraph(&mut random, count);
    let junk = random.once_in(3).then(|| random.bits());

    let mut calls = Vec::new();
    if junk.is_none() {
        let of_all = |word| vec![word; slots as usize];
        calls.push(Call::SetUp {
            clinics: of_all(caller),
            measures: of_all(measure),
            indents: of_all(indent),
        });
        // The slots after it stay free.
        calls.extend((0..=slot).map(|_| Call::Take { caller }));
        calls.push(Call::Edit { caller, slot, place: 0, deleted: 0, inserted: text.clone() });
    }
    let start = slot as usize * SLOT;
    for _ in 0..random.between(1, 4) {
        let (at, word) = damage(&mut random, &text);
        if at == 0 && random.once_in(2) {
            caller = word;
        }
        calls.push(Call::Damage { at: start + at, word });
    }
    if junk.is_some() {
        // Junk has some clinic and some in-use word: they are set so that the slots themselves are looked at.
        for start in (0..slots as usize).map(|slot| slot * SLOT) {
            calls.push(Call::Damage { at: start, word: caller });
            calls.push(Call::Damage { at: start + IN_USE, word: in_use(&mut random) });
        }
        if random.once_in(2) {
            // No records in a sound measure, so that all other words of the slot are junk that no call judges.
            let sound = [(1, measure), (2, indent), (3, 0)];
            calls.extend(sound.map(|(at, word)| Call::Damage { at: start + at, word }));
        }
    }
    calls.push(Call::Read { caller, slot });
    for _ in 0..4 {
        calls.push(last_call(&mut random, caller, slot, &style));
    }
    calls.push(Call::Read { caller, slot });
    Case { length: slots as usize * SLOT, junk, calls }
}

/// A word of a slot and what it becomes: in the head, in a used record, or anywhere.
fn damage(random: &mut Random, text: &[u32]) -> (usize, u32) {
    match random.below(4) {
        3 => (IN_USE, in_use(random)),
        0 => (random.below(8) as usize, random.one_of(&EDGES)),
        1 if !text.is_empty() => {
            let mut words = text.to_vec();
            spoil(random, &mut words);
            let at = words.iter().zip(text).position(|(a, b)| a != b).unwrap_or(0);
            (8 + at, words[at])
        }
        _ => (random.below(SLOT as u32) as usize, random.word()),
    }
}

/// An in-use word, of which some say that a slot is free or in use and others nothing.
fn in_use(random: &mut Random) -> u32 {
    random.one_of(&[0, 0, 1, 1, 1, 2, 3, 65_536, u32::MAX])
}

fn last_call(random: &mut Random, caller: u32, slot: u32, style: &Style) -> Call {
    let caller = if random.once_in(8) { random.one_of(&EDGES) } else { caller };
    let slot = if random.once_in(8) { random.one_of(&EDGES) } else { slot };
    match random.below(12) {
        0 | 1 => return Call::Take { caller },
        2 => return Call::GiveBack { caller, slot },
        3 => return Call::Read { caller, slot },
        _ => {}
    }
    if random.once_in(3) {
        let size = style.import_size(random);
        return Call::Import { caller, slot, size, text: texts::any(random) };
    }
    let count = random.below(4);
    let mut inserted = style.paragraph(random, count);
    if random.once_in(4) {
        spoil_some(random, &mut inserted);
    }
    let (place, deleted) = match random.below(4) {
        0 => (random.one_of(&EDGES), random.one_of(&EDGES)),
        1 => (random.below(4), random.below(4)),
        _ => (0, 0),
    };
    Call::Edit { caller, slot, place, deleted, inserted }
}
