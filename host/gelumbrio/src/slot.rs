//! What the words of a slot say, as they are stored (document 01, "The sheet").

use crate::layout::{
    CLINIC_AT, INDENT_AT, IN_USE_AT, LINE_COUNT_AT, MEASURE_AT, PLACES_AT, RECORDS_AT, RECORD_COUNT_AT,
    RECORD_WORDS, SLOT_WORDS,
};
use crate::raw::Clinic;
use crate::record::Record;

/// What a set-up gives a slot.
///
/// ```
/// use gelumbrio::{Clinic, Refusal, Sheet, SlotNumber, SlotSettings};
///
/// let settings = SlotSettings { clinic: Clinic(7), measure: 1_760, indent: 80 };
/// let mut sheet = Sheet::new(2)?;
/// sheet.set_up(&[settings; 2])?;
/// assert_eq!(sheet.slot(SlotNumber(1)).map(|slot| slot.settings()), Some(settings));
///
/// let too_narrow = SlotSettings { measure: 7, ..settings };
/// assert_eq!(sheet.set_up(&[settings, too_narrow]), Err(Refusal::Limits { slot: 1 }));
/// # Ok::<(), Refusal>(())
/// ```
#[derive(Debug, Clone, Copy, PartialEq, Eq, Hash)]
pub struct SlotSettings {
    /// Whose slot it is: 1 to [`MAX_CLINIC`](crate::limits::MAX_CLINIC), or 0 for a slot that is nobody's.
    pub clinic: Clinic,
    /// How long its lines are: one of [`MEASURES`](crate::limits::MEASURES).
    pub measure: u32,
    /// Where its first line starts, which is before the measure.
    pub indent: u32,
}

/// The words of one slot. Nothing in them is judged: on a sheet of other hands they may be any.
///
/// ```
/// use gelumbrio::{Clinic, Sheet, SlotNumber, SlotSettings};
///
/// let mut sheet = Sheet::new(1)?;
/// sheet.set_up(&[SlotSettings { clinic: Clinic(7), measure: 440, indent: 80 }])?;
/// let number = sheet.take(Clinic(7))?;
/// sheet.import(Clinic(7), number, 80, "1錠")?;
///
/// let slot = sheet.slot(number).expect("a slot of the sheet");
/// assert_eq!((slot.clinic(), slot.measure(), slot.indent(), slot.in_use()), (Clinic(7), 440, 80, 1));
/// assert_eq!((slot.record_count(), slot.line_count()), (2, 1));
/// assert_eq!(slot.records().filter_map(|record| record.character()).collect::<String>(), "1錠");
/// # Ok::<(), gelumbrio::Refusal>(())
/// ```
#[derive(Debug, Clone, Copy, PartialEq, Eq)]
pub struct Slot<'a> {
    words: &'a [u32; SLOT_WORDS],
}

impl<'a> Slot<'a> {
    pub(crate) fn new(words: &'a [u32; SLOT_WORDS]) -> Slot<'a> {
        Slot { words }
    }

    /// All its words. [`layout`](crate::layout) says where each is.
    ///
    /// ```
    /// use gelumbrio::layout::{IN_USE_AT, SLOT_WORDS};
    /// use gelumbrio::{Sheet, SlotNumber};
    ///
    /// let sheet = Sheet::new(1)?;
    /// let slot = sheet.slot(SlotNumber(0)).expect("a slot of the sheet");
    /// assert_eq!((slot.words().len(), slot.words()[IN_USE_AT]), (SLOT_WORDS, slot.in_use()));
    /// # Ok::<(), gelumbrio::Refusal>(())
    /// ```
    pub fn words(&self) -> &'a [u32; SLOT_WORDS] {
        self.words
    }

    /// What its set-up gave it, where it is not damaged.
    ///
    /// ```
    /// use gelumbrio::{Clinic, Sheet, SlotNumber, SlotSettings};
    ///
    /// let sheet = Sheet::new(1)?;
    /// let slot = sheet.slot(SlotNumber(0)).expect("a slot of the sheet");
    /// // No set-up was made yet.
    /// assert_eq!(slot.settings(), SlotSettings { clinic: Clinic(0), measure: 0, indent: 0 });
    /// # Ok::<(), gelumbrio::Refusal>(())
    /// ```
    pub fn settings(&self) -> SlotSettings {
        SlotSettings { clinic: self.clinic(), measure: self.measure(), indent: self.indent() }
    }

    /// Whose slot it is.
    ///
    /// ```
    /// use gelumbrio::{Clinic, Sheet, SlotNumber, SlotSettings};
    ///
    /// let settings = SlotSettings { clinic: Clinic(7), measure: 440, indent: 80 };
    /// let mut sheet = Sheet::new(1)?;
    /// sheet.set_up(&[settings])?;
    /// let slot = sheet.slot(SlotNumber(0)).expect("a slot of the sheet");
    /// assert_eq!(slot.clinic(), settings.clinic);
    /// # Ok::<(), gelumbrio::Refusal>(())
    /// ```
    pub fn clinic(&self) -> Clinic {
        Clinic(self.words[CLINIC_AT])
    }

    /// How long its lines are.
    ///
    /// ```
    /// use gelumbrio::{Clinic, Sheet, SlotNumber, SlotSettings};
    ///
    /// let settings = SlotSettings { clinic: Clinic(7), measure: 440, indent: 80 };
    /// let mut sheet = Sheet::new(1)?;
    /// sheet.set_up(&[settings])?;
    /// let slot = sheet.slot(SlotNumber(0)).expect("a slot of the sheet");
    /// assert_eq!(slot.measure(), settings.measure);
    /// # Ok::<(), gelumbrio::Refusal>(())
    /// ```
    pub fn measure(&self) -> u32 {
        self.words[MEASURE_AT]
    }

    /// Where its first line starts.
    ///
    /// ```
    /// use gelumbrio::{Clinic, Sheet, SlotNumber, SlotSettings};
    ///
    /// let settings = SlotSettings { clinic: Clinic(7), measure: 440, indent: 80 };
    /// let mut sheet = Sheet::new(1)?;
    /// sheet.set_up(&[settings])?;
    /// let slot = sheet.slot(SlotNumber(0)).expect("a slot of the sheet");
    /// assert_eq!(slot.indent(), settings.indent);
    /// # Ok::<(), gelumbrio::Refusal>(())
    /// ```
    pub fn indent(&self) -> u32 {
        self.words[INDENT_AT]
    }

    /// How many records it has: [`MAX_RECORDS`](crate::limits::MAX_RECORDS) at most, where it is not damaged.
    ///
    /// ```
    /// use gelumbrio::{Clinic, Record, Sheet, SlotSettings};
    ///
    /// let mut sheet = Sheet::new(1)?;
    /// sheet.set_up(&[SlotSettings { clinic: Clinic(7), measure: 440, indent: 0 }])?;
    /// let number = sheet.take(Clinic(7))?;
    /// sheet.edit(Clinic(7), number, .., &[Record::new('薬', 80)?; 6])?;
    /// assert_eq!(sheet.slot(number).expect("a slot of the sheet").record_count(), 6);
    /// # Ok::<(), Box<dyn std::error::Error>>(())
    /// ```
    pub fn record_count(&self) -> u32 {
        self.words[RECORD_COUNT_AT]
    }

    /// How many lines it has: [`MAX_LINES`](crate::limits::MAX_LINES) at most, where it is not damaged.
    ///
    /// ```
    /// use gelumbrio::{Clinic, Record, Sheet, SlotSettings};
    ///
    /// let mut sheet = Sheet::new(1)?;
    /// sheet.set_up(&[SlotSettings { clinic: Clinic(7), measure: 440, indent: 0 }])?;
    /// let number = sheet.take(Clinic(7))?;
    /// sheet.edit(Clinic(7), number, .., &[Record::new('薬', 80)?; 6])?;
    /// assert_eq!(sheet.slot(number).expect("a slot of the sheet").line_count(), 2);
    /// # Ok::<(), Box<dyn std::error::Error>>(())
    /// ```
    pub fn line_count(&self) -> u32 {
        self.words[LINE_COUNT_AT]
    }

    /// The in-use word: 0, or 1 once its clinic has taken it, where it is not damaged.
    ///
    /// ```
    /// use gelumbrio::{Clinic, Sheet, SlotNumber, SlotSettings};
    ///
    /// let mut sheet = Sheet::new(2)?;
    /// sheet.set_up(&[SlotSettings { clinic: Clinic(7), measure: 440, indent: 0 }; 2])?;
    /// sheet.take(Clinic(7))?;
    /// let in_use = |slot| sheet.slot(SlotNumber(slot)).expect("a slot of the sheet").in_use();
    /// assert_eq!([0, 1].map(in_use), [1, 0]);
    /// # Ok::<(), gelumbrio::Refusal>(())
    /// ```
    pub fn in_use(&self) -> u32 {
        self.words[IN_USE_AT]
    }

    /// The words of its records: of all that there is room for, where the record count says that there are more.
    ///
    /// ```
    /// use gelumbrio::layout::{RECORD_COUNT_AT, RECORD_WORDS, SLOT_WORDS};
    /// use gelumbrio::limits::MAX_RECORDS;
    /// use gelumbrio::{Sheet, SlotNumber};
    ///
    /// let mut words = vec![0; SLOT_WORDS];
    /// words[RECORD_COUNT_AT] = 1_000;
    /// let sheet = Sheet::from_words(words)?;
    /// let slot = sheet.slot(SlotNumber(0)).expect("a slot of the sheet");
    /// assert_eq!(slot.record_words().len(), MAX_RECORDS * RECORD_WORDS);
    /// # Ok::<(), gelumbrio::Refusal>(())
    /// ```
    pub fn record_words(&self) -> &'a [u32] {
        let records = &self.words[RECORDS_AT..PLACES_AT];
        let used = self.record_count() as usize;
        &records[..records.len().min(used.saturating_mul(RECORD_WORDS))]
    }

    /// Its records.
    ///
    /// ```
    /// use gelumbrio::{Clinic, Record, Sheet, SlotSettings};
    ///
    /// let mut sheet = Sheet::new(1)?;
    /// sheet.set_up(&[SlotSettings { clinic: Clinic(7), measure: 440, indent: 0 }])?;
    /// let number = sheet.take(Clinic(7))?;
    /// sheet.import(Clinic(7), number, 80, "1錠")?;
    ///
    /// let slot = sheet.slot(number).expect("a slot of the sheet");
    /// let records: Vec<Record> = slot.records().collect();
    /// assert_eq!(records, [Record::new('1', 80)?, Record::new('錠', 80)?]);
    /// # Ok::<(), Box<dyn std::error::Error>>(())
    /// ```
    pub fn records(&self) -> impl ExactSizeIterator<Item = Record> + use<'a> {
        let (records, _) = self.record_words().as_chunks::<RECORD_WORDS>();
        records.iter().map(|&words| Record::from(words))
    }
}
