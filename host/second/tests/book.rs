//! The book against the calls (document 01, "The book of demand 3"), on random sequences.

mod common;

use common::{flat, random_records, Random};
use second::book::Book;
use second::sheet::SLOT_WORDS;
use second::{read, read_number, set_up, Answer, Edit};

const SEEDS: std::ops::Range<u64> = 1..201;
const CALLS: u32 = 100;

struct Run {
    random: Random,
    sheet: Vec<u32>,
    book: Book,
    /// Those of set-up and edit.
    numbers: Numbers,
    reads: Numbers,
    takes: Numbers,
    given_back: Numbers,
}

/// How often each number was answered.
type Numbers = [u32; 15];

impl Run {
    fn new(seed: u64) -> Run {
        let mut random = Random::new(seed);
        let slots = 1 + random.below(5) as usize;
        let sheet = (0..slots * SLOT_WORDS).map(|_| random.next() as u32).collect();
        let [numbers, reads, takes, given_back] = [[0; 15]; 4];
        Run { random, sheet, book: Book::new(), numbers, reads, takes, given_back }
    }

    fn slots(&self) -> usize {
        self.sheet.len() / SLOT_WORDS
    }

    fn set_up(&mut self) {
        let random = &mut self.random;
        let mut slots = self.sheet.len() / SLOT_WORDS;
        if random.once_in(8) {
            slots += 1;
        }
        let clinics: Vec<u32> = (0..slots).map(|_| random.below(4)).collect();
        let mut measures: Vec<u32> = (0..slots).map(|_| 200 + random.below(800)).collect();
        let indents: Vec<u32> = (0..slots).map(|_| random.below(40)).collect();
        if random.once_in(8) {
            measures[random.below(slots as u32) as usize] = 7;
        }
        let answer = set_up(&mut self.sheet, &clinics, &measures, &indents);
        assert_eq!(answer, self.book.set_up(self.sheet.len(), &clinics, &measures, &indents));
        self.numbers[answer.number as usize] += 1;
    }

    /// Mostly a slot of the sheet and its own clinic.
    fn caller_and_slot(&mut self) -> (u32, u32) {
        let slots = self.slots() as u32 + u32::from(self.random.once_in(10));
        let slot = self.random.below(slots);
        let clinic = self.sheet.get(slot as usize * SLOT_WORDS).copied();
        let own = clinic.filter(|_| !self.random.once_in(10));
        (own.unwrap_or_else(|| self.random.below(4)), slot)
    }

    fn edit(&mut self) {
        let (caller, slot) = self.caller_and_slot();
        let random = &mut self.random;
        let count = self.book.record_count(slot).unwrap_or(0) as u32;
        let place = random.below(count + 1);
        let deleted = random.below((count - place).min(20) + 1) + u32::from(random.once_in(20)) * 50;
        let inserting = random.below(60);
        let mut inserted = flat(&random_records(random, inserting));
        if random.once_in(30) {
            inserted.push(0);
        }
        if random.once_in(20) && !inserted.is_empty() {
            let at = random.below(inserted.len() as u32) as usize;
            inserted[at] = random.one_of(&[0, 1, 80, 65_536, u32::MAX]);
        }
        let edit = Edit { caller, slot, place, deleted, inserted: &inserted };
        let answer = second::edit(&mut self.sheet, edit);
        assert_eq!(answer, self.book.edit(self.sheet.len(), edit));
        self.numbers[answer.number as usize] += 1;
    }

    fn read(&mut self) {
        let (caller, slot) = self.caller_and_slot();
        let reading = self.book.read(self.sheet.len(), caller, slot);
        assert_eq!(read_number(&self.sheet, caller, slot), reading.number);
        assert_eq!(self.sheet[read(&self.sheet, caller, slot)], reading.words);
        self.reads[reading.number as usize] += 1;
    }

    /// A clinic, now and then none, and now and then one without a slot.
    fn take(&mut self) {
        let caller = self.random.below(5);
        let free: Vec<bool> =
            self.sheet.chunks(SLOT_WORDS).map(|slot| slot[0] == caller && slot[5] == 0).collect();
        let answer = second::take(&mut self.sheet, caller);
        assert_eq!(answer, self.book.take(self.sheet.len(), caller));
        let expected = match free.iter().position(|&free| free) {
            _ if caller == 0 => Answer { number: 3, place: 0 },
            Some(lowest) => Answer { number: 0, place: lowest as u32 },
            None => Answer { number: 13, place: 0 },
        };
        assert_eq!(answer, expected);
        self.takes[answer.number as usize] += 1;
    }

    fn give_back(&mut self) {
        let (caller, slot) = self.caller_and_slot();
        let answer = second::give_back(&mut self.sheet, caller, slot);
        assert_eq!(answer, self.book.give_back(self.sheet.len(), caller, slot));
        assert_eq!(answer.place, 0);
        self.given_back[answer.number as usize] += 1;
    }

    /// One slot's edits since it was last taken or given back give what the single edit of all its records gives.
    fn check_single_edits(&self) {
        let fresh: Vec<u32> = self.sheet.chunks(SLOT_WORDS).flat_map(fresh_of).collect();
        for (i, slot) in self.sheet.chunks(SLOT_WORDS).enumerate() {
            let mut single = fresh.clone();
            let records = &slot[8..][..6 * slot[3] as usize];
            if records.is_empty() {
                assert_eq!(&single[i * SLOT_WORDS..][..SLOT_WORDS], slot);
                continue;
            }
            let edit = Edit { caller: slot[0], slot: i as u32, place: 0, deleted: 0, inserted: records };
            let answer = second::edit(&mut single, edit);
            assert_eq!((answer.number, answer.place), (0, slot[4]));
            assert_eq!(&single[i * SLOT_WORDS..][..SLOT_WORDS], slot);
        }
    }
}

fn fresh_of(slot: &[u32]) -> Vec<u32> {
    let mut fresh = vec![0; SLOT_WORDS];
    fresh[..3].copy_from_slice(&slot[..3]);
    fresh[5] = slot[5];
    fresh
}

#[test]
fn the_book_answers_as_the_calls_and_knows_every_word() {
    println!("seeds {SEEDS:?}, {CALLS} calls each");
    let mut sums = [[0; 15]; 4];
    for seed in SEEDS {
        let mut run = Run::new(seed);
        while !run.book.is_set_up() {
            run.set_up();
        }
        for _ in 0..CALLS {
            match run.random.below(40) {
                0 => run.set_up(),
                1..=4 => run.take(),
                5 | 6 => run.give_back(),
                7..=32 => run.edit(),
                _ => run.read(),
            }
            assert_eq!(run.book.encode(), run.sheet);
        }
        assert!(run.slots() <= 5);
        run.check_single_edits();
        let seen = [run.numbers, run.reads, run.takes, run.given_back];
        sums.iter_mut().flatten().zip(seen.iter().flatten()).for_each(|(sum, n)| *sum += n);
    }
    println!("answers by number, of set-up and edit, read, take and give back: {sums:?}");
    // Every sheet here has a length that only a set-up's lists make wrong, and 4 cannot come up.
    let due: [&[usize]; 4] =
        [&[0, 1, 2, 3, 5, 6, 7, 8, 9, 10, 11, 12, 14], &[0, 2, 3, 14], &[0, 3, 13], &[0, 2, 3, 14]];
    for (sums, due) in sums.iter().zip(due) {
        let seen: Vec<usize> = (0..sums.len()).filter(|&number| sums[number] > 0).collect();
        assert_eq!(seen, due);
    }
}

#[test]
fn before_set_up_the_book_has_no_slots() {
    let mut book = Book::new();
    assert!(!book.is_set_up());
    assert_eq!(book.encode(), []);
    assert_eq!(book.set_up(SLOT_WORDS, &[1], &[7], &[0]).number, 11);
    let edit = Edit { caller: 1, slot: 0, place: 0, deleted: 0, inserted: &[] };
    assert_eq!(book.edit(SLOT_WORDS + 1, edit).number, 1);
    assert_eq!(book.edit(SLOT_WORDS, Edit { slot: 1, ..edit }).number, 2);
    assert_eq!(book.edit(SLOT_WORDS, edit).number, 3);
    assert_eq!(book.read(SLOT_WORDS, 1, 0).number, 3);
    assert_eq!([SLOT_WORDS + 1, SLOT_WORDS].map(|length| book.take(length, 0).number), [1, 3]);
    assert_eq!([0, 1].map(|slot| book.give_back(SLOT_WORDS, 1, slot).number), [3, 2]);
}
