//! How many lines an edit composes anew, and that the others stay as they were (document 02, request 03).

mod common;

use std::ops::Range;

use common::{flat, grouped, k, one_slot, own, plain, random_records, Random, Words};
use second::book::Book;
use second::breaking::Setting;
use second::by_hand::{EditCase, EDITS};
use second::compose::break_into_lines;
use second::records::decode_all;
use second::redone::{redone_lines, Lines};
use second::sheet::SLOT_WORDS;
use second::{kept, Edit};

const SEEDS: Range<u64> = 1..3_001;

/// The lines that the rules give the records of a slot.
fn lines(slot: &[u32]) -> Lines {
    let (records, _) = slot[8..][..6 * slot[3] as usize].as_chunks();
    let setting = Setting { measure: slot[1], indent: slot[2] };
    break_into_lines(&decode_all(records).unwrap(), setting).unwrap()
}

/// The lines that an edit composes anew, if it is accepted, of a slot that holds what the rules give its
/// records. Every promise is tested on the words that it leaves.
fn redone(slot: &mut [u32], edit: Edit) -> Option<Range<usize>> {
    let old = slot.to_vec();
    let answer = second::edit(slot, edit);
    if answer.number != 0 {
        assert_eq!(answer.redone, 0);
        return None;
    }
    let range = kept::redone_lines(&old, slot, &edit, answer.redone);
    let range =
        range.unwrap_or_else(|broken| panic!("{broken}: {edit:?} of {:?}", &old[..8 + 6 * old[3] as usize]));
    assert_eq!(range, redone_lines(&lines(&old), &lines(slot), &edit), "{edit:?}");
    assert!(answer.redone <= answer.place && range.len() == answer.redone as usize);
    Some(range)
}

/// A slot with the case's text.
fn composed(case: &EditCase) -> Vec<u32> {
    let mut slot = one_slot(case.setting.0, case.setting.1);
    assert_eq!(common::edit(&mut slot, own(0, 0, &case.old())).0, 0);
    slot
}

#[test]
fn every_case_by_hand() {
    for case in EDITS {
        let mut slot = composed(&case);
        let inserted = case.inserted();
        let edit = own(case.place, case.deleted, &inserted);

        let mut book = Book::new();
        book.set_up(SLOT_WORDS, &slot[..1], &slot[1..2], &slot[2..3]);
        book.take(SLOT_WORDS, slot[0]);
        book.edit(SLOT_WORDS, own(0, 0, &case.old()));
        assert_eq!(book.edit(SLOT_WORDS, edit), case.expected(), "{}", case.name);
        assert_eq!(second::edit(&mut slot.clone(), edit), case.expected(), "{}", case.name);

        let (f, r) = case.redone;
        assert_eq!(redone(&mut slot, edit), Some(f as usize..r as usize), "{}", case.name);
    }
}

#[test]
fn old_lines_come_from_the_records_and_not_from_stored_lines() {
    for case in EDITS {
        let sound = composed(&case);
        for seed in 1..20 {
            let mut random = Random::new(seed);
            let mut slot = sound.clone();
            slot[4] = random.one_of(&[0, 1, 2, 7, 256, 257, u32::MAX]);
            for word in &mut slot[1_544..] {
                if random.once_in(2) {
                    *word = random.below(40);
                }
            }
            let answer = second::edit(&mut slot, own(case.place, case.deleted, &case.inserted()));
            assert_eq!(answer, case.expected(), "{}", case.name);
        }
    }
}

/// A text set in another measure than the slot has by now: five lines of six are stored, six of five
/// are old.
#[test]
fn old_lines_come_from_the_measure_as_it_is() {
    let mut slot = one_slot(480, 0);
    assert_eq!(common::edit(&mut slot, own(0, 0, &flat(&[k(); 30]))), (0, 5));
    slot[1] = 440;
    let answer = second::edit(&mut slot, own(27, 1, &k()));
    assert_eq!((answer.number, answer.place, answer.redone), (0, 6, 2));
}

/// All texts over an alphabet, up to this many records.
fn texts(alphabet: &[Words], longest: usize) -> Vec<Vec<u32>> {
    let mut all = vec![vec![]];
    let mut last = 0;
    for _ in 0..longest {
        let longer = all[last..]
            .iter()
            .flat_map(|text| alphabet.iter().map(move |record| [text, &record[..]].concat()));
        let longer: Vec<Vec<u32>> = longer.collect();
        last = all.len();
        all.extend(longer);
    }
    all
}

#[test]
fn all_small_edits_of_all_small_texts() {
    let mut seen = Seen::default();
    for (alphabet, indent) in
        [([plain(19, 8), plain(6, 8), plain(19, 16)], 0), ([plain(19, 8), plain(1, 8), grouped(8, 1, 1)], 5)]
    {
        let inserted = texts(&alphabet, 2);
        for text in texts(&alphabet, 4) {
            let count = text.len() as u32 / 6;
            for measure in (8..40).step_by(4) {
                let mut slot = one_slot(measure, indent);
                if second::edit(&mut slot, own(0, 0, &text)).number != 0 {
                    continue;
                }
                for place in 0..=count {
                    for deleted in 0..=count - place {
                        for inserted in &inserted {
                            seen.count(&mut slot.clone(), own(place, deleted, inserted));
                        }
                    }
                }
            }
        }
    }
    seen.assert_each(1_000);
}

#[test]
fn random_edits() {
    println!("seeds {SEEDS:?}");
    let mut seen = Seen::default();
    for seed in SEEDS {
        let mut random = Random::new(seed);
        let measure = 200 + random.below(800);
        let mut slot = one_slot(measure, random.one_of(&[0, 0, 100]));
        for _ in 0..20 {
            let count = slot[3];
            let within = random.below(count + 1);
            let place = random.one_of(&[0, count, within, within]);
            let most = random.one_of(&[0, 1, 6, 256]).min(count - place);
            let deleted = random.below(most + 1);
            let from = 8 + 6 * place as usize;
            let inserted = match random.below(3) {
                // The same once more: only the lines near the place are done anew.
                0 => slot[from..][..6 * deleted as usize].to_vec(),
                1 => plain(19, 8).to_vec(),
                _ => {
                    let inserting = random.one_of(&[1, 3, 60]);
                    flat(&random_records(&mut random, inserting))
                }
            };
            seen.count(&mut slot, own(place, deleted, &inserted));
        }
    }
    seen.assert_each(300);
}

/// How often edits were refused, left no lines, and composed lines anew: all, the first, some in the
/// middle, the last.
#[derive(Debug, Default)]
struct Seen([u32; 6]);

impl Seen {
    /// Makes an edit and counts it in.
    fn count(&mut self, slot: &mut [u32], edit: Edit) {
        let lines = redone(slot, edit).map(|range| (range.start, slot[4] as usize - range.end, slot[4]));
        let kind = match lines {
            None => 0,
            Some((.., 0)) => 1,
            Some((0, 0, _)) => 2,
            Some((0, ..)) => 3,
            Some((_, 1.., _)) => 4,
            Some(_) => 5,
        };
        self.0[kind] += 1;
    }

    fn assert_each(&self, least: u32) {
        println!("{self:?}");
        assert!(self.0.iter().all(|&count| count >= least), "{self:?}");
    }
}

/// Six lines of which 1 and 2 are composed anew: every word of the others is looked at.
#[test]
fn a_line_that_is_not_kept_is_told() {
    let mut new = one_slot(440, 0);
    second::edit(&mut new, own(0, 0, &flat(&[k(); 30])));
    let old = new.clone();
    let small = plain(19, 8);
    let edit = own(12, 0, &small);
    second::edit(&mut new, edit);

    let told = |new: &[u32], redone| kept::redone_lines(&old, new, &edit, redone).is_err();
    assert_eq!(
        [0, 1, 2, 3, 5, 6, u32::MAX].map(|redone| told(&new, redone)),
        [true, true, false, false, false, true, true]
    );
    let places = 1_544..1_544 + 2 * 31;
    let lines = 2_056..2_056 + 3 * 6;
    for at in places.chain(lines) {
        let mut other = new.clone();
        other[at] += 1;
        let on_line_1_or_2 = match at {
            ..2_056 => (5..16).contains(&((at - 1_544) / 2)),
            // Where line 1 starts is where line 0 ends.
            _ => (1..3).contains(&((at - 2_056) / 3)) && at != 2_059,
        };
        assert_eq!(told(&other, 2), !on_line_1_or_2, "word {at}");
    }
    assert!(kept::redone_lines(&old[1..], &new, &edit, 2).is_err());
}
