//! Any words, any arguments: no call panics, and a refusal changes nothing.

mod common;

use common::{flat, random_records, Random};
use second::sheet::SLOT_WORDS;
use second::{Edit, RubyPlace};

const SEEDS: std::ops::Range<u64> = 1..3_001;

/// Numbers at the limits of document 01 and of 32 bits.
const EDGES: [u32; 16] =
    [0, 1, 7, 8, 15, 19, 64, 80, 255, 256, 257, 2_824, 65_535, 1_000_000, 0x8000_0000, u32::MAX];

#[test]
fn junk_sheets() {
    println!("seeds {SEEDS:?}");
    // Accepted edits, reads, takings, givings back, set-ups, slot words and ruby places.
    let mut accepted = [0; 7];
    for seed in SEEDS {
        let mut random = Random::new(seed);
        let mut sheet = junk_sheet(&mut random);
        let (caller, slot) = (sheet[0], u32::from(random.once_in(9)));
        let outcomes = [
            edits(&mut random, &mut sheet, caller, slot),
            reads(&sheet, caller, slot),
            takes(&mut random, &mut sheet, caller),
            gives_back(&mut sheet, caller, slot),
            sets_up(&mut random, &mut sheet),
            gives_slot_words(&mut random),
            places_ruby(&mut random),
        ];
        accepted.iter_mut().zip(outcomes).for_each(|(sum, outcome)| *sum += u32::from(outcome));
    }
    println!("{accepted:?} accepted");
    assert!(accepted[..6].iter().all(|&count| count > 300) && accepted[6] > 20);
}

/// A sound sheet of one slot with a few words spoiled.
fn junk_sheet(random: &mut Random) -> Vec<u32> {
    let count = random.below(9);
    let records = flat(&random_records(random, count));
    let slot = second::slot_words(1 + random.below(3), 1_000, 0, &records);
    let mut sheet = slot.unwrap_or_else(|_| vec![1; SLOT_WORDS]);
    for _ in 0..random.below(4) {
        let near_head = random.once_in(2);
        let at = random.below(if near_head { 40 } else { SLOT_WORDS as u32 });
        sheet[at as usize] = random.one_of(&EDGES);
    }
    sheet
}

/// Up to six edges.
fn words(random: &mut Random) -> Vec<u32> {
    (0..random.below(7)).map(|_| random.one_of(&EDGES)).collect()
}

/// Whether an edit is accepted. It then leaves what its records alone give, whatever stood past the
/// counts.
fn edits(random: &mut Random, sheet: &mut [u32], caller: u32, slot: u32) -> bool {
    let before = sheet.to_vec();
    let (place, deleted, inserted) = if random.once_in(2) {
        (0, 0, Vec::new())
    } else {
        (random.one_of(&EDGES), random.one_of(&EDGES), words(random))
    };
    let answer = second::edit(sheet, Edit { caller, slot, place, deleted, inserted: &inserted });
    if answer.number != 0 {
        assert_eq!(sheet, before);
        return false;
    }
    let records = &sheet[8..][..6 * sheet[3] as usize];
    let expected = second::slot_words(before[0], before[1], before[2], records);
    assert_eq!(expected.as_deref(), Ok(&*sheet));
    true
}

/// Whether a read is accepted. Refused, it hands back 0..0.
fn reads(sheet: &[u32], caller: u32, slot: u32) -> bool {
    let part = second::read(sheet, caller, slot);
    assert!(part.end <= sheet.len());
    let number = second::read_number(sheet, caller, slot);
    assert!(matches!(number, 0..=4 | 14) && (number == 0 || part == (0..0)));
    number == 0
}

/// Whether a taking is accepted, for which the slot is often made free. It then changes the in-use word alone.
fn takes(random: &mut Random, sheet: &mut [u32], caller: u32) -> bool {
    if random.once_in(2) {
        sheet[5] = 0;
    }
    let mut expected = sheet.to_vec();
    let answer = second::take(sheet, caller);
    let number = match (caller, expected[5]) {
        (0, _) => 3,
        (_, 0) => 0,
        _ => 13,
    };
    if number == 0 {
        expected[5] = 1;
    }
    assert_eq!((answer.number, answer.place), (number, 0));
    assert_eq!(sheet, expected);
    number == 0
}

/// Whether a giving back is accepted. An edit is then accepted too, and not otherwise.
fn gives_back(sheet: &mut [u32], caller: u32, slot: u32) -> bool {
    let mut expected = sheet.to_vec();
    let edit = Edit { caller, slot, place: 0, deleted: 0, inserted: &[] };
    let edited = second::edit(&mut sheet.to_vec(), edit);
    let answer = second::give_back(sheet, caller, slot);
    assert_eq!((answer.number, answer.place), (edited.number, 0));
    if answer.number == 0 {
        expected[3..].fill(0);
    }
    assert_eq!(sheet, expected);
    answer.number == 0
}

/// Whether a set-up is accepted. Its lists are mostly one long and mostly within limits.
fn sets_up(random: &mut Random, sheet: &mut [u32]) -> bool {
    let before = sheet.to_vec();
    let [clinics, measures, indents] = [7, 80, 0].map(|sound| match random.below(6) {
        0 => words(random),
        1 => vec![random.one_of(&EDGES)],
        _ => vec![sound],
    });
    let answer = second::set_up(sheet, &clinics, &measures, &indents);
    if answer.number != 0 {
        assert_eq!(sheet, before);
        return false;
    }
    assert_eq!(sheet[..3], [clinics[0], measures[0], indents[0]]);
    assert!(sheet[3..].iter().all(|&word| word == 0));
    true
}

/// Whether records have slot words. Settings and records are edges, or sound.
fn gives_slot_words(random: &mut Random) -> bool {
    let [clinic, measure, indent] =
        [7, 1_000, 0].map(|sound| if random.once_in(3) { random.one_of(&EDGES) } else { sound });
    let count = random.below(9);
    let records = if random.once_in(2) { words(random) } else { flat(&random_records(random, count)) };
    match second::slot_words(clinic, measure, indent, &records) {
        Ok(slot) => {
            assert_eq!(slot.len(), SLOT_WORDS);
            true
        }
        Err(answer) => {
            assert!(matches!(answer.number, 4 | 6..=10 | 12));
            false
        }
    }
}

/// Whether a ruby place is accepted. Refused, it is 8 and 0.
fn places_ruby(random: &mut Random) -> bool {
    let [base_advance, ruby_count, size, k] = [(); 4].map(|()| random.one_of(&EDGES));
    let place = second::ruby_place(base_advance, ruby_count, size, k);
    assert!(place.number == 0 || place == RubyPlace { number: 8, offset: 0 });
    place.number == 0
}
