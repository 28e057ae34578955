//! Random calls, in sequences.

use second::book::Book;

use crate::calls::Call;
use crate::generate::{exchange_character, of_any_class, spoil, spoil_some, Style, EDGES};
use crate::layout::{IN_USE, SLOT};
use crate::random::Random;
use crate::texts;

/// Makes the calls of a sequence, most of them accepted, refusals of every number among them.
pub struct Caller {
    random: Random,
    length: usize,
    style: Style,
    /// Whether words are damaged between calls.
    damages: bool,
    /// The slot that was damaged last, until a call has looked at it.
    damaged: Option<u32>,
}

impl Caller {
    /// Calls on a sheet of this length.
    pub fn new(seed: u64, length: usize, damages: bool) -> Caller {
        let mut random = Random::new(seed);
        let style = Style::random(&mut random);
        Caller { random, length, style, damages, damaged: None }
    }

    fn slots(&self) -> u32 {
        (self.length / SLOT) as u32
    }

    /// The next call, where the book stands so.
    pub fn next(&mut self, book: &Book) -> Call {
        if !book.is_set_up() {
            return self.before_set_up(book);
        }
        match self.random.below(100) {
            0 | 1 => self.set_up(),
            2..=7 => self.take(book),
            8..=11 => self.give_back(book),
            // Little is accepted before a slot is in use.
            12..=69 if self.slots_in_use(book).is_empty() => self.take(book),
            12..=20 => self.read(book),
            21..=24 if self.damages => self.damage(),
            25..=39 if self.damaged.is_some() => self.read(book),
            40..=49 if self.damaged.is_some() => self.give_back(book),
            50..=64 => self.import(book),
            _ => self.edit(book),
        }
    }

    /// Before the first accepted set-up, on zeros or junk, few other calls are made.
    fn before_set_up(&mut self, book: &Book) -> Call {
        match self.random.below(50) {
            0..=34 => self.set_up(),
            35..=37 => self.take(book),
            38..=40 => self.give_back(book),
            41..=43 => self.read(book),
            44..=46 => self.import(book),
            _ => self.edit(book),
        }
    }

    /// The slots of the sheet that are in use by the book.
    fn slots_in_use(&self, book: &Book) -> Vec<u32> {
        (0..self.slots()).filter(|&slot| book.is_in_use(slot) == Some(true)).collect()
    }

    fn set_up(&mut self) -> Call {
        let random = &mut self.random;
        let slots = (self.length / SLOT) as u32;
        let few = random.once_in(2);
        let clinics: Vec<u32> = (0..slots)
            .map(|slot| if few { random.one_of(&[0, 1, 1, 1, 2, 2, 2]) } else { 1 + slot })
            .collect();
        let measures: Vec<u32> = (0..slots).map(|_| self.style.measure(random)).collect();
        let indents = measures.iter().map(|&measure| self.style.indent(random, measure)).collect();
        let mut lists = [clinics, measures, indents];
        let spoiled = &mut lists[random.below(3) as usize];
        match random.below(12) {
            0 => spoiled.push(1),
            1 => drop(spoiled.pop()),
            2 | 3 => spoil(random, spoiled),
            _ => {}
        }
        let [clinics, measures, indents] = lists;
        Call::SetUp { clinics, measures, indents }
    }

    /// Mostly a clinic with a slot of the sheet.
    fn take(&mut self, book: &Book) -> Call {
        let slots = self.slots();
        let own = book.clinic(self.random.below(slots.max(1))).unwrap_or(1);
        Call::Take { caller: self.mostly(own) }
    }

    /// Mostly this clinic.
    fn mostly(&mut self, own: u32) -> u32 {
        match self.random.below(30) {
            0 => self.random.one_of(&[0, own.wrapping_add(1), own.wrapping_add(65_536), u32::MAX]),
            _ => own,
        }
    }

    fn give_back(&mut self, book: &Book) -> Call {
        let (caller, slot) = self.caller_and_slot(book);
        Call::GiveBack { caller, slot }
    }

    /// Mostly a slot in use and its own clinic.
    fn caller_and_slot(&mut self, book: &Book) -> (u32, u32) {
        let slots = self.slots();
        let in_use = self.slots_in_use(book);
        let slot = match (self.damaged.take(), self.random.below(30)) {
            (Some(slot), _) => slot,
            (None, 0) => self.random.one_of(&[slots, slots + 1, 63, 64, u32::MAX]),
            (None, 1 | 2) => self.random.below(slots.max(1)),
            (None, _) if in_use.is_empty() => self.random.below(slots.max(1)),
            (None, _) => self.random.one_of(&in_use),
        };
        let own = book.clinic(slot).unwrap_or(1);
        (self.mostly(own), slot)
    }

    fn read(&mut self, book: &Book) -> Call {
        let (caller, slot) = self.caller_and_slot(book);
        Call::Read { caller, slot }
    }

    fn edit(&mut self, book: &Book) -> Call {
        let (caller, slot) = self.caller_and_slot(book);
        let count = book.record_count(slot).unwrap_or(0) as u32;
        let random = &mut self.random;
        let mut place = random.below(count + 1);
        let mut deleted = random.below(count - place + 1);
        if !random.once_in(4) {
            deleted = deleted.min(random.below(8));
        }
        match random.below(60) {
            0 => place = random.one_of(&[count + 1, 256, 257, u32::MAX]),
            1 => deleted = random.one_of(&[count - place + 1, 257, u32::MAX, place.wrapping_neg()]),
            _ => {}
        }
        let inserted = self.inserted(256 - (count - deleted.min(count)));
        Call::Edit { caller, slot, place, deleted, inserted }
    }

    fn import(&mut self, book: &Book) -> Call {
        let (caller, slot) = self.caller_and_slot(book);
        let size = self.style.import_size(&mut self.random);
        Call::Import { caller, slot, size, text: texts::any(&mut self.random) }
    }

    /// Words to insert where there is room for this many records.
    fn inserted(&mut self, room: u32) -> Vec<u32> {
        let random = &mut self.random;
        let count = match random.below(20) {
            0 => room,
            1 => room + 1,
            2 => random.between(0, 300),
            3..=5 => random.below(room + 1),
            _ => random.below(room.min(12) + 1),
        };
        let mut words = self.style.paragraph(random, count);
        match random.below(30) {
            0 => words.push(random.word()),
            1 => drop(words.pop()),
            2 | 3 => spoil_some(random, &mut words),
            4 => exchange_character(random, &mut words),
            _ => {}
        }
        words
    }

    fn damage(&mut self) -> Call {
        let slots = self.slots().max(1);
        let random = &mut self.random;
        let slot = random.below(slots);
        // Mostly in the head or the first records, where it matters.
        let among = random.one_of(&[8, 8, 60, SLOT as u32]);
        let at = if random.once_in(6) { IN_USE } else { random.below(among) as usize };
        self.damaged = Some(slot);
        let word = match random.below(3) {
            0 => of_any_class(random),
            1 if at == IN_USE => random.below(4),
            _ => random.one_of(&EDGES),
        };
        Call::Damage { at: slot as usize * SLOT + at, word }
    }
}
