//! The calls on a sheet (document 01, "The sheet", and document 02).

use std::ops::RangeBounds;

use super::Sheet;
use crate::edited::Edited;
use crate::leaflet::LeafletFault;
use crate::lines::{self, Line};
use crate::raw::{self, Clinic, SlotNumber};
use crate::record::Record;
use crate::refusal::{Refusal, LEAFLET};
use crate::slot::SlotSettings;
use crate::stretch::place_and_deleted;

impl Sheet {
    /// Gives each slot its clinic, measure and indent and empties it. There is one setting for each slot. No slot is
    /// in use after it: call [`take`](Sheet::take) next.
    ///
    /// ```
    /// use gelumbrio::{Clinic, Refusal, Sheet, SlotSettings};
    ///
    /// let settings = SlotSettings { clinic: Clinic(7), measure: 440, indent: 0 };
    /// let mut sheet = Sheet::new(2)?;
    /// sheet.set_up(&[settings, SlotSettings { clinic: Clinic(9), ..settings }])?;
    /// assert_eq!(sheet.set_up(&[settings]), Err(Refusal::Length));
    /// # Ok::<(), Refusal>(())
    /// ```
    pub fn set_up(&mut self, settings: &[SlotSettings]) -> Result<(), Refusal> {
        let list = |of: fn(&SlotSettings) -> u32| settings.iter().map(of).collect::<Vec<u32>>();
        self.set_up_words(
            &list(|setting| setting.clinic.0),
            &list(|setting| setting.measure),
            &list(|setting| setting.indent),
        )
    }

    /// [`set_up`](Sheet::set_up) by the lists that the call takes, which may be any: of clinics, of measures and of
    /// indents.
    ///
    /// ```
    /// use gelumbrio::{Refusal, Sheet};
    ///
    /// let mut sheet = Sheet::new(2)?;
    /// sheet.set_up_words(&[7, 9], &[440, 800], &[0, 0])?;
    /// assert_eq!(sheet.set_up_words(&[7, 9], &[440], &[0, 0]), Err(Refusal::Length));
    /// assert_eq!(sheet.set_up_words(&[7, 65_536], &[440; 2], &[0; 2]), Err(Refusal::Limits { slot: 1 }));
    /// # Ok::<(), Refusal>(())
    /// ```
    pub fn set_up_words(
        &mut self,
        clinics: &[u32],
        measures: &[u32],
        indents: &[u32],
    ) -> Result<(), Refusal> {
        let answer = raw::set_up(&mut self.words, clinics, measures, indents);
        accepted(answer.number, answer.place).map(|_slots| ())
    }

    /// Takes the caller's lowest-numbered slot that is not in use, and says which it is. Its in-use word alone changes,
    /// and nothing else of it is judged: a slot that holds a text from before there was this call keeps it. Which slot
    /// is granted does not depend on other clinics' slots or calls.
    ///
    /// ```
    /// use gelumbrio::{Clinic, Refusal, Sheet, SlotNumber, SlotSettings};
    ///
    /// let of = |clinic| SlotSettings { clinic, measure: 440, indent: 0 };
    /// let mut sheet = Sheet::new(3)?;
    /// sheet.set_up(&[Clinic(9), Clinic(7), Clinic(7)].map(of))?;
    /// assert_eq!(sheet.take(Clinic(7)), Ok(SlotNumber(1)));
    /// assert_eq!(sheet.take(Clinic(7)), Ok(SlotNumber(2)));
    /// // A slot of another clinic's is free, which is no help.
    /// assert_eq!(sheet.take(Clinic(7)), Err(Refusal::NoneFree));
    /// # Ok::<(), Refusal>(())
    /// ```
    pub fn take(&mut self, caller: Clinic) -> Result<SlotNumber, Refusal> {
        let answer = raw::take(&mut self.words, caller);
        accepted(answer.number, answer.place).map(SlotNumber)
    }

    /// Gives a slot back: it is emptied, keeps its clinic, measure and indent, and can be taken again.
    ///
    /// ```
    /// use gelumbrio::{Clinic, Refusal, Sheet, SlotSettings};
    ///
    /// let mut sheet = Sheet::new(1)?;
    /// sheet.set_up(&[SlotSettings { clinic: Clinic(7), measure: 440, indent: 0 }])?;
    /// let slot = sheet.take(Clinic(7))?;
    /// sheet.import(Clinic(7), slot, 80, "食後に")?;
    /// sheet.give_back(Clinic(7), slot)?;
    /// assert_eq!(sheet.read(Clinic(7), slot), Err(Refusal::NotInUse));
    ///
    /// assert_eq!(sheet.take(Clinic(7)), Ok(slot));
    /// assert_eq!(sheet.read(Clinic(7), slot), Ok(&[][..]));
    /// # Ok::<(), Refusal>(())
    /// ```
    pub fn give_back(&mut self, caller: Clinic, slot: SlotNumber) -> Result<(), Refusal> {
        let answer = raw::give_back(&mut self.words, caller, slot);
        accepted(answer.number, answer.place).map(|_zero| ())
    }

    /// Puts these records in place of a range of the slot's, and composes the slot. Says how many lines the slot has,
    /// and how many were redone.
    ///
    /// An empty range only inserts, and no records only delete. An open end is the slot's record count, as it is
    /// stored. A range that ends before it starts is refused as one that passes the end, with
    /// [`Refusal::PastEnd`]; refusals by the sheet, the caller and the slot come before that, as always.
    ///
    /// ```
    /// use gelumbrio::{Clinic, NoClass, Record, Refusal, Sheet, SlotSettings};
    ///
    /// let mut sheet = Sheet::new(1)?;
    /// sheet.set_up(&[SlotSettings { clinic: Clinic(7), measure: 440, indent: 0 }])?;
    /// let slot = sheet.take(Clinic(7))?;
    /// let records = |text: &str| -> Result<Vec<Record>, NoClass> {
    ///     text.chars().map(|character| Record::new(character, 80)).collect()
    /// };
    ///
    /// sheet.edit(Clinic(7), slot, .., &records("1回2錠")?)?;
    /// sheet.edit(Clinic(7), slot, 2..3, &records("3")?)?;
    /// sheet.edit(Clinic(7), slot, 4.., &records("。")?)?;
    /// sheet.edit(Clinic(7), slot, 0..0, &records("食後に")?)?;
    /// sheet.edit(Clinic(7), slot, ..2, &[])?;
    /// let stored = sheet.slot(slot).expect("a slot of the sheet").records();
    /// assert_eq!(stored.filter_map(Record::character).collect::<String>(), "に1回3錠。");
    ///
    /// assert_eq!(sheet.edit(Clinic(7), slot, 3..9, &[]), Err(Refusal::PastEnd { count: 6 }));
    /// let (start, end) = (3, 1);
    /// assert_eq!(sheet.edit(Clinic(7), slot, start..end, &[]), Err(Refusal::PastEnd { count: 6 }));
    /// # Ok::<(), Box<dyn std::error::Error>>(())
    /// ```
    pub fn edit(
        &mut self,
        caller: Clinic,
        slot: SlotNumber,
        replaced: impl RangeBounds<u32>,
        inserted: &[Record],
    ) -> Result<Edited, Refusal> {
        // Of no slot, or of another's, the count does not matter: the call is refused before it looks at it.
        let count = self.slot(slot).map_or(0, |slot| slot.record_count());
        let (place, deleted) = place_and_deleted(replaced, count);
        let inserted: Vec<_> = inserted.iter().map(|record| record.words()).collect();
        self.edit_words(caller, slot, place, deleted, inserted.as_flattened())
    }

    /// [`edit`](Sheet::edit) by the numbers and words that the call takes, which may be any: the place, how many
    /// records to delete there, and the words to insert.
    ///
    /// ```
    /// use gelumbrio::{Clinic, Refusal, Sheet};
    ///
    /// let mut sheet = Sheet::new(1)?;
    /// sheet.set_up_words(&[7], &[440], &[0])?;
    /// let slot = sheet.take(Clinic(7))?;
    /// sheet.edit_words(Clinic(7), slot, 0, 0, &[0x6F22, 19, 80, 80, 0, 0])?;
    /// assert_eq!(sheet.edit_words(Clinic(7), slot, 0, 0, &[0x6F22, 19]), Err(Refusal::PartialRecord));
    /// # Ok::<(), Refusal>(())
    /// ```
    pub fn edit_words(
        &mut self,
        caller: Clinic,
        slot: SlotNumber,
        place: u32,
        deleted: u32,
        inserted: &[u32],
    ) -> Result<Edited, Refusal> {
        let answer = raw::edit(&mut self.words, caller, slot, place, deleted, inserted);
        let lines = accepted(answer.number, answer.place)?;
        Ok(Edited { lines, redone: answer.redone })
    }

    /// Reads a leaflet, puts its records in place of all that the slot holds and composes the slot. Says how many
    /// lines the slot has, and how many were redone.
    ///
    /// A leaflet is UTF-8 text with ruby elements: a base, then `<rt>` with the ruby over it, which may have an `<rp>`
    /// on each side. Every character outside `<rt>` and `<rp>` must have a class ([`class_of`](crate::class_of)). All
    /// records have this size; those of brackets, points, hyphens and Western characters are half as wide.
    ///
    /// ```
    /// use gelumbrio::{Clinic, Sheet, SlotSettings};
    ///
    /// let mut sheet = Sheet::new(1)?;
    /// sheet.set_up(&[SlotSettings { clinic: Clinic(7), measure: 440, indent: 0 }])?;
    /// let slot = sheet.take(Clinic(7))?;
    /// let text = "<ruby>頓服<rp>(</rp><rt>とんぷく</rt><rp>)</rp></ruby>を1錠。";
    /// let imported = sheet.import(Clinic(7), slot, 80, text)?;
    /// assert_eq!((imported.lines, imported.redone), (1, 1));
    ///
    /// let line = &sheet.lines(Clinic(7), slot)?[0];
    /// assert_eq!((line.xs.as_slice(), line.end_x), (&[0, 80, 160, 260, 320, 400][..], 440));
    /// # Ok::<(), gelumbrio::Refusal>(())
    /// ```
    ///
    /// A text that is no leaflet is refused, and the refusal says where and why:
    ///
    /// ```
    /// use gelumbrio::{Clinic, Refusal, Sheet, SlotSettings};
    ///
    /// let mut sheet = Sheet::new(1)?;
    /// sheet.set_up(&[SlotSettings { clinic: Clinic(7), measure: 400, indent: 0 }])?;
    /// let slot = sheet.take(Clinic(7))?;
    /// let refusal = sheet.import(Clinic(7), slot, 80, "1日3回（毎食後）").unwrap_err();
    /// assert_eq!(refusal.number(), 17);
    /// assert_eq!(
    ///     refusal.to_string(),
    ///     "line 1, column 5 of the leaflet (byte 8): '（' (U+FF08) may not stand here, as it is in no published list"
    /// );
    /// # Ok::<(), Refusal>(())
    /// ```
    ///
    /// All other refusals are those of [`edit`](Sheet::edit). Records are counted in the characters outside `<rt>` and
    /// `<rp>`.
    pub fn import(
        &mut self,
        caller: Clinic,
        slot: SlotNumber,
        size: u32,
        text: impl AsRef<[u8]>,
    ) -> Result<Edited, Refusal> {
        let text = text.as_ref();
        let answer = raw::import(&mut self.words, caller, slot, size, text);
        if answer.number == LEAFLET {
            return Err(Refusal::Leaflet(LeafletFault::at(text, answer.place)));
        }
        // All other places are an edit's, which are words.
        let lines = accepted(answer.number, answer.place as u32)?;
        Ok(Edited { lines, redone: answer.redone })
    }

    /// The slot's used line words, [`LINE_WORDS`](crate::layout::LINE_WORDS) for each line: first record, end x and
    /// kind.
    ///
    /// ```
    /// use gelumbrio::{Clinic, Refusal, Sheet, SlotSettings};
    ///
    /// let mut sheet = Sheet::new(1)?;
    /// sheet.set_up(&[SlotSettings { clinic: Clinic(7), measure: 440, indent: 0 }])?;
    /// let slot = sheet.take(Clinic(7))?;
    /// sheet.import(Clinic(7), slot, 80, "食後に飲む。")?;
    /// assert_eq!(sheet.read(Clinic(7), slot)?, [0, 440, 3]);
    /// assert_eq!(sheet.read(Clinic(9), slot), Err(Refusal::Caller));
    /// # Ok::<(), Refusal>(())
    /// ```
    pub fn read(&self, caller: Clinic, slot: SlotNumber) -> Result<&[u32], Refusal> {
        match Refusal::new(raw::read_number(&self.words, caller, slot), 0) {
            Some(refusal) => Err(refusal),
            // The part lies in the sheet: that much is proved of every accepted read.
            None => Ok(&self.words[raw::read(&self.words, caller, slot)]),
        }
    }

    /// The slot's lines with the x of every record.
    ///
    /// ```
    /// use gelumbrio::{Clinic, Kind, Sheet, SlotSettings};
    ///
    /// let mut sheet = Sheet::new(1)?;
    /// sheet.set_up(&[SlotSettings { clinic: Clinic(7), measure: 440, indent: 80 }])?;
    /// let slot = sheet.take(Clinic(7))?;
    /// sheet.import(Clinic(7), slot, 80, "水で飲む。")?;
    /// let lines = sheet.lines(Clinic(7), slot)?;
    /// assert_eq!((lines[0].kind, lines[0].xs.as_slice()), (Kind::Final, &[80, 160, 240, 320, 400][..]));
    /// # Ok::<(), gelumbrio::Refusal>(())
    /// ```
    ///
    /// Kept words may be no composition. [`Refusal::Damaged`] is given where the record count is over
    /// [`MAX_RECORDS`](crate::limits::MAX_RECORDS), where some record is not in exactly one line (there are records
    /// but no lines, the first line does not start at record 0, a line starts no later than the one before it, or one
    /// starts at or past the record count), and where the last line's kind is not 3 or another's not 1 or 2. Nothing
    /// else is judged: every x and end x is handed back as it is stored.
    pub fn lines(&self, caller: Clinic, slot: SlotNumber) -> Result<Vec<Line>, Refusal> {
        let lines = self.read(caller, slot)?;
        self.slot(slot).and_then(|slot| lines::typed(slot, lines)).ok_or(Refusal::Damaged)
    }
}

/// The place of a call with this answer, where it is accepted.
fn accepted(number: u32, place: u32) -> Result<u32, Refusal> {
    match Refusal::new(number, place) {
        Some(refusal) => Err(refusal),
        None => Ok(place),
    }
}
